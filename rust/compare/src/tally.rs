//! What a family counts: calls, numbers compared, refusals and differences, of which the smallest is kept.

use crate::random::Random;
use lifted::models::Fault;

/// One case of a family: its number, its random numbers, the size of the run, and what it is counted in.
pub struct Case<'a> {
    pub number: u64,
    pub rng: Random,
    pub size: usize,
    pub tally: &'a mut Tally,
}

#[derive(Default)]
pub struct Tally {
    pub calls: u64,
    pub numbers: u64,
    pub differ: u64,
    /// Calls that are to be refused, by number; at 0 those that are to be answered.
    pub refused: [u64; 18],
    pub smallest: Option<Difference>,
    pub stands: Vec<Stand>,
    pub case: u64,
}

pub struct Difference {
    pub case: u64,
    pub weight: usize,
    pub input: String,
}

/// A kind of mesh.
pub type Kind = &'static str;

/// How the marks of a kind of mesh compare with those of the f32 stand-in.
#[derive(Default)]
pub struct Stand {
    pub kind: Kind,
    pub meshes: u64,
    pub cells: u64,
    /// Cells that only the library marks, and that only the stand-in does.
    pub only: [u64; 2],
    /// Of these, those that differ because 01 rounds vertices; the others because f32 operations round.
    pub by_vertex: u64,
    /// The smallest input of either.
    pub smallest: [Option<Difference>; 2],
    case: u64,
}

impl Tally {
    /// Counts a call that was compared, and notes it if it differs. The weight is the size of its input.
    pub fn judge(
        &mut self,
        same: bool,
        to_be: Option<Fault>,
        numbers: usize,
        weight: usize,
        input: impl Fn() -> String,
    ) {
        self.calls += 1;
        self.numbers += numbers as u64;
        self.refused[to_be.map_or(0, |(number, _)| number)] += 1;
        if !same {
            self.differ += 1;
            note(&mut self.smallest, self.case, weight, input);
        }
    }

    /// The counts of a kind of mesh.
    pub fn stand(&mut self, kind: Kind) -> &mut Stand {
        let at = self.stands.iter().position(|s| s.kind == kind).unwrap_or(self.stands.len());
        if at == self.stands.len() {
            self.stands.push(Stand { kind, ..Stand::default() });
        }
        self.stands[at].case = self.case;
        &mut self.stands[at]
    }
}

impl Stand {
    pub fn differ(&self) -> u64 {
        self.only[0] + self.only[1]
    }

    /// Keeps the input if it is the smallest of its sort, 0 marked only by the library, 1 only by the stand-in.
    pub fn note(&mut self, sort: usize, weight: usize, input: impl Fn() -> String) {
        note(&mut self.smallest[sort], self.case, weight, input);
    }
}

/// Keeps the smallest of several inputs.
fn note(smallest: &mut Option<Difference>, case: u64, weight: usize, input: impl Fn() -> String) {
    if smallest.as_ref().is_none_or(|d| weight < d.weight) {
        *smallest = Some(Difference { case, weight, input: input() });
    }
}

/// A list in words if it is short, otherwise its length.
pub fn shown<T: std::fmt::Debug>(list: &[T]) -> String {
    if list.len() <= 64 {
        format!("{list:?}")
    } else {
        format!("[{} of them]", list.len())
    }
}
