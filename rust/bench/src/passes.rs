//! Plain passes over bytes: what this machine takes at least to read, write or sweep so many of them. They are a
//! side of every row, over the bytes that the row must move.
use crate::timing::{in_turns, spread, timed, Side};
use std::hint::black_box;

/// How many bytes a row must move at least.
#[derive(Clone, Copy, Default)]
pub struct Bytes {
    /// That are only read.
    pub read: usize,
    /// That are only written.
    pub written: usize,
    /// That are read and written in place.
    pub swept: usize,
}

/// Buffers of these sizes, to pass over.
pub struct Passes {
    read: Vec<u8>,
    written: Vec<u8>,
    swept: Vec<u8>,
}

#[inline(never)]
fn read(bytes: &[u8]) -> u8 {
    bytes.iter().fold(0, |all, b| all | b)
}

#[inline(never)]
fn sweep(bytes: &mut [u8]) {
    for b in bytes {
        *b = if *b == 0 { 7 } else { *b };
    }
}

impl Passes {
    pub fn of(bytes: Bytes) -> Passes {
        Passes { read: vec![6; bytes.read], written: vec![6; bytes.written], swept: vec![6; bytes.swept] }
    }

    pub fn go(&mut self) -> f64 {
        timed(|| {
            black_box(read(&self.read));
            self.written.fill(6);
            sweep(&mut self.swept);
            black_box((&self.written, &self.swept));
        })
    }
}

/// A pass over so many bytes and how many it moved in a second, in 10^9.
pub struct Bandwidth {
    pub name: &'static str,
    pub bytes: usize,
    pub rate: f64,
}

pub fn bandwidths(bytes: usize, rounds: usize) -> Vec<Bandwidth> {
    let names = ["read", "written", "read and written in place", "copied"];
    let one = |read, written, swept| Passes::of(Bytes { read, written, swept });
    let (mut reading, mut writing, mut sweeping) = (one(bytes, 0, 0), one(0, bytes, 0), one(0, 0, bytes));
    let (from, mut to) = (vec![6u8; bytes], vec![0u8; bytes]);
    let mut sides: Vec<Side> = vec![
        Box::new(|| reading.go()),
        Box::new(|| writing.go()),
        Box::new(|| sweeping.go()),
        Box::new(|| {
            timed(|| {
                to.copy_from_slice(&from);
                black_box(&to);
            })
        }),
    ];
    let times = in_turns(rounds, &mut sides);
    let rate = |taken: &Vec<f64>| bytes as f64 / spread(taken).middle / 1e6;
    names.into_iter().zip(&times).map(|(name, taken)| Bandwidth { name, bytes, rate: rate(taken) }).collect()
}
