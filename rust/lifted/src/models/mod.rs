//! What each call is to answer, for the programs in `bin` and for the comparison: document 01's table of refusals, number
//! and place, and where there is none, the lifted crate's answer or, where the crate has no such call, a plain model's.

pub mod boxes;
pub mod edits;
pub mod fill;
pub mod list;
pub mod parts;
pub mod program;
pub mod sizing;

/// A refusal's number and place.
pub type Fault = (usize, usize);

fn whole(number: usize, fault: bool) -> Option<Fault> {
    fault.then_some((number, 0))
}

/// Refusal 8.
pub fn axis_fault(axes: [u32; 3]) -> Option<Fault> {
    axes.iter().position(|&r| r == 0 || r > 256).map(|axis| (8, axis))
}

/// Refusals 8, 9 and 11, of a grid's labels.
pub fn map_fault(axes: [u32; 3], labels: &[u8], takes: impl Fn(u8) -> bool) -> Option<Fault> {
    let length = || whole(9, labels.len() as u32 != axes.iter().product());
    let label = || labels.iter().position(|&v| !takes(v)).map(|n| (11, n));
    axis_fault(axes).or_else(length).or_else(label)
}
