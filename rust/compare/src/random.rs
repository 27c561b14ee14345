//! Random numbers: xorshift, from the run's seed, the family and the number of the case, so that a case can be made again.

use lifted::marks::{down, up};
use lifted::shapes;

pub struct Random(shapes::Random);

impl Random {
    pub fn of(seed: u64, family: usize, case: u64) -> Random {
        let mixed = [seed, family as u64, case].iter().fold(0x9e37_79b9_7f4a_7c15, |s: u64, &n| spread(s ^ spread(n)));
        Random(shapes::Random(mixed | 1))
    }

    /// A number below n.
    pub fn below(&mut self, n: usize) -> usize {
        self.0.below(n as u64) as usize
    }

    /// A number from low to high, both included.
    pub fn within(&mut self, low: usize, high: usize) -> usize {
        low + self.below(high - low + 1)
    }

    pub fn one_in(&mut self, n: usize) -> bool {
        self.below(n) == 0
    }

    pub fn pick<T: Copy>(&mut self, all: &[T]) -> T {
        all[self.below(all.len())]
    }

    pub fn bits(&mut self) -> u32 {
        self.0.below(1 << 32)
    }

    /// A share of 1.
    pub fn share(&mut self) -> f32 {
        self.below(1 << 24) as f32 / (1 << 24) as f32
    }

    /// A number of either sign, with an exponent from low to high.
    pub fn float(&mut self, low: i32, high: i32) -> f32 {
        let e = low + self.below((high - low + 1) as usize) as i32;
        let size = (1.0 + self.share()) * (e as f32).exp2();
        if self.one_in(2) {
            -size
        } else {
            size
        }
    }

    /// x, or a number of up to two steps beside it.
    pub fn near(&mut self, x: f32) -> f32 {
        match self.below(5) {
            0 => x,
            n if x == 0.0 => [0.0, -0.0, f32::from_bits(1), -f32::from_bits(1)][n - 1],
            1 => up(x),
            2 => down(x),
            3 => up(up(x)),
            _ => down(down(x)),
        }
    }
}

/// Spreads the bits of a number over all 64.
fn spread(n: u64) -> u64 {
    let x = (n ^ (n >> 30)).wrapping_mul(0xbf58_476d_1ce4_e5b9);
    let y = (x ^ (x >> 27)).wrapping_mul(0x94d0_49bb_1331_11eb);
    y ^ (y >> 31)
}
