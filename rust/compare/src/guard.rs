//! Lent buffers between guards. Each buffer that is lent to a call stands between two strips of odd numbers, and a copy
//! of all of it is kept, so that a number written where none may be shows.

/// How many guard numbers stand on each side.
const STRIP: usize = 16;

pub trait Number: Copy {
    /// An odd number to fill guards and outputs with, by its place.
    fn odd(n: usize) -> Self;
    /// Whether the bits of all numbers are the same.
    fn same(a: &[Self], b: &[Self]) -> bool;
}

impl Number for u8 {
    fn odd(n: usize) -> u8 {
        (n * 37 + 101) as u8
    }
    fn same(a: &[u8], b: &[u8]) -> bool {
        a == b
    }
}

impl Number for u32 {
    fn odd(n: usize) -> u32 {
        (n as u32).wrapping_mul(2654435769) ^ 0xa5a5_5a5a
    }
    fn same(a: &[u32], b: &[u32]) -> bool {
        a == b
    }
}

/// Numbers, infinities and NaNs of both kinds and signs.
impl Number for f32 {
    fn odd(n: usize) -> f32 {
        let special = [0x7fa1_2345, 0xffc0_0001, 0x7f80_0000, 0x8000_0000, 0xff81_1111, 0x7fff_ffff];
        f32::from_bits(if n % 2 == 0 { special[n / 2 % 6] } else { u32::odd(n) })
    }
    fn same(a: &[f32], b: &[f32]) -> bool {
        a.len() == b.len() && a.iter().zip(b).all(|(x, y)| x.to_bits() == y.to_bits())
    }
}

pub struct Lent<T> {
    all: Vec<T>,
    before: Vec<T>,
}

impl<T: Number> Lent<T> {
    pub fn of(values: &[T]) -> Lent<T> {
        let strip = |from: usize| (from..from + STRIP).map(T::odd);
        let all: Vec<T> = strip(3).chain(values.iter().copied()).chain(strip(values.len())).collect();
        Lent { before: all.clone(), all }
    }

    /// An output of this length, filled with odd numbers.
    pub fn output(length: usize) -> Lent<T> {
        Lent::of(&(0..length).map(|n| T::odd(n + 5)).collect::<Vec<T>>())
    }

    pub fn read(&self) -> &[T] {
        &self.all[STRIP..self.all.len() - STRIP]
    }

    pub fn lend(&mut self) -> &mut [T] {
        let end = self.all.len() - STRIP;
        &mut self.all[STRIP..end]
    }

    /// Whether every number, the guards too, is as it was.
    pub fn untouched(&self) -> bool {
        T::same(&self.all, &self.before)
    }

    /// Whether the guards, and every number past an answer of this length, are as they were.
    pub fn untouched_past(&self, answer: usize) -> bool {
        let end = STRIP + answer.min(self.read().len());
        T::same(&self.all[..STRIP], &self.before[..STRIP]) && T::same(&self.all[end..], &self.before[end..])
    }

    /// Whether the guards are as they were, of a buffer that the answer may fill.
    pub fn guards_untouched(&self) -> bool {
        self.untouched_past(self.read().len())
    }

    /// Whether the buffer has this answer at its start and is otherwise as it was.
    pub fn holds(&self, answer: &[T]) -> bool {
        let written = self.read().get(..answer.len());
        written.is_some_and(|w| T::same(w, answer)) && self.untouched_past(answer.len())
    }
}

#[cfg(test)]
mod tests {
    use super::*;

    /// A number changed anywhere, in a guard or in the buffer, is noticed.
    #[test]
    fn every_place_is_watched() {
        for n in 0..STRIP + 5 + STRIP {
            let mut lent: Lent<f32> = Lent::output(5);
            assert!(lent.untouched() && lent.untouched_past(2) && lent.guards_untouched());
            lent.all[n] = f32::from_bits(lent.all[n].to_bits() ^ 1);
            assert!(!lent.untouched());
            assert_eq!(lent.untouched_past(2), (STRIP..STRIP + 2).contains(&n));
            assert_eq!(lent.guards_untouched(), (STRIP..STRIP + 5).contains(&n));
        }
    }

    /// An answer that is wrong, too short, too long for the buffer or written too far is noticed.
    #[test]
    fn answers_are_compared() {
        let mut lent: Lent<u32> = Lent::output(3);
        lent.lend()[..2].copy_from_slice(&[1, 2]);
        assert!(lent.holds(&[1, 2]));
        assert!(!lent.holds(&[1, 3]) && !lent.holds(&[1]) && !lent.holds(&[1, 2, 3, 4]));
        lent.lend()[2] = 7;
        assert!(!lent.holds(&[1, 2]));
    }
}
