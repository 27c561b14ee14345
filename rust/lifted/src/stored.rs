//! How the stored cases of lists, parts and boxes are written; nothing of the crate.
//!
//! The sum of a row of numbers x is s from 0 on, each x making it (s * 31 + x + 1) % 4294967291. A lent output is
//! filled before the call: number n is 4000000000 + n % 97, and f32 number n has the bits 1100000000 + n % 97.

use std::collections::BTreeMap;

/// How many bytes a program reads.
pub const LIMIT: usize = 262144;

/// The most numbers of a list or an output, and of a label buffer.
pub const MOST: usize = 196620;
pub const CELLS: usize = 65536;

/// As many numbers of an answer as are written out.
const SHOWN: usize = 36;

/// A list as a case describes it, in four words: its length, how many numbers are stored, a place and a value. Its
/// numbers repeat the stored ones (without any they are 0), but the one at the place is the value.
#[derive(Clone)]
pub struct Row {
    pub length: usize,
    pub stored: Vec<u32>,
    pub odd: (u32, u32),
}

impl Row {
    pub fn repeated(stored: &[u32], length: usize) -> Row {
        Row { length, stored: stored.to_vec(), odd: (u32::MAX, 0) }
    }

    /// The numbers as they stand, or, if there are many, the least part that they repeat; or one number and a place.
    pub fn of(numbers: &[u32]) -> Row {
        let odd: Vec<usize> = (0..numbers.len()).filter(|&n| numbers[n] != numbers[0]).take(2).collect();
        if let (true, [place]) = (numbers.len() > 32, &odd[..]) {
            return Row::repeated(&numbers[..1], numbers.len()).with(*place, numbers[*place]);
        }
        let repeats = |m: &usize| numbers[*m..].iter().zip(numbers).all(|(a, b)| a == b);
        let least = if numbers.len() > 32 { 1 } else { numbers.len() };
        let stored = (least..=numbers.len()).find(repeats).unwrap();
        Row::repeated(&numbers[..stored], numbers.len())
    }

    pub fn of_floats(numbers: &[f32]) -> Row {
        Row::of(&bits(numbers))
    }

    pub fn with(self, place: usize, value: u32) -> Row {
        Row { odd: (place as u32, value), ..self }
    }

    pub fn numbers(&self) -> Vec<u32> {
        let at = |n: usize| match self.stored[..] {
            _ if n == self.odd.0 as usize => self.odd.1,
            [] => 0,
            _ => self.stored[n % self.stored.len()],
        };
        (0..self.length).map(at).collect()
    }

    pub fn floats(&self) -> Vec<f32> {
        self.numbers().into_iter().map(f32::from_bits).collect()
    }

    pub fn head(&self) -> [u32; 4] {
        assert!(self.length <= MOST);
        [self.length as u32, self.stored.len() as u32, self.odd.0, self.odd.1]
    }
}

pub fn bits(numbers: &[f32]) -> Vec<u32> {
    numbers.iter().map(|x| x.to_bits()).collect()
}

/// The words of a number of 64 bits, the lower first.
pub fn halves(n: u64) -> [u32; 2] {
    [n as u32, (n >> 32) as u32]
}

pub fn bytes(words: &[u32]) -> Vec<u8> {
    words.iter().flat_map(|w| w.to_le_bytes()).collect()
}

pub fn sum(numbers: &[u32]) -> u64 {
    numbers.iter().fold(0, |s, &x| (s * 31 + x as u64 + 1) % 4294967291)
}

/// An output of this length before the call, of numbers and of the bits of f32.
pub fn blank(length: usize) -> Vec<u32> {
    (0..length).map(|n| 4000000000 + n as u32 % 97).collect()
}

pub fn blank_floats(length: usize) -> Vec<u32> {
    (0..length).map(|n| 1100000000 + n as u32 % 97).collect()
}

/// An output after a call: the answer, and what stood there before.
pub fn written(answer: &[u32], before: Vec<u32>) -> Vec<u32> {
    [answer, &before[answer.len()..]].concat()
}

/// The numbers of an answer in words, if they are few.
pub fn shown(answer: &[u32]) -> String {
    let few = if answer.len() <= SHOWN { answer } else { &[] };
    few.iter().map(|n| format!("{n} ")).collect()
}

pub fn shown_floats(answer: &[u32]) -> String {
    let few = if answer.len() <= SHOWN { answer } else { &[] };
    few.iter().map(|n| format!("{n:08x} ")).collect()
}

/// A case and its answer as they are stored.
pub struct Stored {
    pub input: Vec<u8>,
    pub answer: String,
}

/// Cases by the name of their family.
pub type Families = Vec<(&'static str, Vec<Stored>)>;

/// The cases of each group that was chosen by hand, stored.
pub fn by_hand<C>(groups: &[(&'static str, fn(&mut Vec<C>))], stored: impl Fn(&C) -> Stored) -> Families {
    let cases = |group: &fn(&mut Vec<C>)| {
        let mut cases = vec![];
        group(&mut cases);
        cases
    };
    groups.iter().map(|(name, group)| (*name, cases(group).iter().map(&stored).collect())).collect()
}

/// Writes the cases of all families, and prints how many there are of each family, and of each answer.
pub fn write(families: &Families) {
    let folder = std::env::args().nth(1).expect("the folder to write stdin and stdout to");
    let all = || families.iter().flat_map(|(_, cases)| cases);
    let input = all().flat_map(|c| c.input.clone()).collect::<Vec<u8>>();
    let answers = all().map(|c| c.answer.clone()).collect::<String>();
    assert!(input.len() <= LIMIT, "the program reads {LIMIT} bytes, and these are {}", input.len());
    let mut counts = BTreeMap::new();
    for line in answers.lines() {
        let words: Vec<&str> = line.split(' ').collect();
        let number = if words[0] == "refused" { words[1].parse().unwrap() } else { 0 };
        *counts.entry((number, words[0])).or_insert(0) += 1;
    }
    let named: Vec<String> = families.iter().map(|(name, cases)| format!("{name} {}", cases.len())).collect();
    let told = |(&(number, word), n): (&(usize, &str), &usize)| match number {
        0 => format!("{word} {n}"),
        _ => format!("{word} {number}: {n}"),
    };
    eprintln!("{} cases in {} bytes: {}", all().count(), input.len(), named.join(", "));
    eprintln!("answers: {}", counts.iter().map(told).collect::<Vec<_>>().join(", "));
    std::fs::write(format!("{folder}/stdin"), input).unwrap();
    std::fs::write(format!("{folder}/stdout"), answers).unwrap();
}
