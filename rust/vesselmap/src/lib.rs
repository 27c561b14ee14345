//! The map of a vessel: points and triangles in, cells labelled wall, inside or outside out, edited while a batch runs.
//!
//! Every call of this crate is a call of a proved library, `libcapi.a`: what it answers, which numbered [`Refusal`] it
//! gives and with which place, and what becomes of each lent slice is settled for every input by definitions that a
//! prover has held the code to (`docs/CALLS.md` of the repository). This crate adds types and no behaviour. It allocates
//! nothing: slices are lent, and answers are counts.
//!
//! # The library
//!
//! One step: `rt lib` in the repository's folder `crates/capi` proves the library and writes `crates/capi/out/libcapi.a`,
//! where this crate looks for it. Where it lies in another folder, the environment variable `VESSELMAP_LIB` names that folder.
//!
//! # The whole way
//!
//! A closed box in a room, with cells of side 1: its grid, its walls, its inside, and a hatch.
//!
//! ```
//! use vesselmap::{label, Cell, Mode, Records};
//!
//! // Eight corners of a box from 1 to 5, and two points that make the grid larger than it.
//! let points = [
//!     1.0, 1.0, 1.0, 5.0, 1.0, 1.0, 5.0, 5.0, 1.0, 1.0, 5.0, 1.0, 1.0, 1.0, 5.0, 5.0, 1.0, 5.0, 5.0, 5.0, 5.0, 1.0,
//!     5.0, 5.0, 0.0, 0.0, 0.0, 6.0, 6.0, 6.0,
//! ];
//! let triangles = [
//!     0, 1, 2, 0, 2, 3, 4, 5, 6, 4, 6, 7, 0, 1, 5, 0, 5, 4, 3, 2, 6, 3, 6, 7, 0, 3, 7, 0, 7, 4, 1, 2, 6, 1, 6, 5,
//! ];
//!
//! // The grid: 7 by 7 by 7 cells.
//! let grid = vesselmap::size_by_cell(&points, 1.0)?;
//! assert_eq!((grid.axes.r0, grid.axes.r1, grid.axes.r2), (7, 7, 7));
//!
//! // The walls, then what they enclose. The caller lends the labels, one byte a cell.
//! let mut labels = [0u8; 343];
//! vesselmap::mark(&points, &triangles, grid.axes, grid.placement, &mut labels)?;
//! let filled = vesselmap::fill(&mut labels, grid.axes, Mode::Flood)?;
//! assert_eq!(filled.left, 0);
//! assert_eq!(labels.iter().filter(|&&l| l == label::INSIDE).count(), 27);
//!
//! // A hatch in a wall: the cell and the 27 behind it become Outside; closing it brings the map back.
//! let hatch = Cell { i: 1, j: 3, k: 3 };
//! assert_eq!(vesselmap::open(&mut labels, grid.axes, hatch)?, 28);
//! assert_eq!(labels[grid.axes.number(hatch).unwrap()], label::OUTSIDE);
//! assert_eq!(vesselmap::close(&mut labels, grid.axes, hatch)?, 28);
//!
//! // The cells, each with the triangles that touch it.
//! let mut records = [0u32; 6 * 125];
//! let mut list = [0u32; 1000];
//! let listed = vesselmap::list_pairs(
//!     &points, &triangles, grid.axes, grid.placement, &labels, &mut records, &mut list,
//! )?;
//! let first = Records::new(&records).get(0).unwrap();
//! assert_eq!((listed.cells, first.cell, first.surface), (125, Cell { i: 1, j: 1, k: 1 }, true));
//! assert_eq!(vesselmap::list_slice(&list, first.start, first.end).len(), 6);
//!
//! // What cannot be done is refused with a number and a place, and nothing lent is written.
//! let refusal = vesselmap::close(&mut labels, grid.axes, hatch).unwrap_err();
//! assert_eq!((refusal.number, refusal.place), (13, 0));
//! # Ok::<(), vesselmap::Refusal>(())
//! ```
#![no_std]
#![deny(missing_docs, unsafe_code)]

mod refusal;
#[allow(unsafe_code)]
mod sys;
mod types;

pub use refusal::Refusal;
pub use types::{label, Axes, Cell, Filled, Grid, Listed, Mode, Placement, Planes, Record, Records, Sides, Summary};

/// The class of a triangle that no part names.
pub const NO_CLASS: u32 = 4_294_967_294;

/// The class of a triangle that several parts name.
pub const SEVERAL: u32 = 4_294_967_295;

/// The grid over the points, three numbers to a point, with cells of the given side.
///
/// Refused with 1, 2, 3 (place: the index of the number), 5 or 8 (place: the axis).
pub fn size_by_cell(points: &[f32], size: f32) -> Result<Grid, Refusal> {
    let s = sys::size_by_cell(points, size);
    s.verdict.give(Grid { axes: s.axes, placement: s.placement })
}

/// The grid over the points whose main axis has `resolution` cells.
///
/// Refused with 1, 2, 3 (place: the index of the number), 6 or 7.
pub fn size_by_resolution(points: &[f32], resolution: u32) -> Result<Grid, Refusal> {
    let s = sys::size_by_resolution(points, resolution);
    s.verdict.give(Grid { axes: s.axes, placement: s.placement })
}

/// Writes [`label::SURFACE`] into the label of every cell that a triangle touches, and [`label::UNDEFINED`] into every
/// other. A triangle is three numbers of points.
///
/// Refused with 1, 2, 3 (place: 0 to 2 the origin, then the points' numbers), 4 (place: the triangle), 5, 8 (place: the
/// axis), 9 or 10 (place: the triangle).
pub fn mark(
    points: &[f32],
    triangles: &[u32],
    axes: Axes,
    placement: Placement,
    labels: &mut [u8],
) -> Result<(), Refusal> {
    sys::mark(points, triangles, axes, placement, labels).give(())
}

/// From marks, labels 0 and 8, makes every other cell Outside or Inside. With [`Mode::Cavities`] cells may be left undecided.
///
/// Refused with 8 (place: the axis), 9 or 11 (place: the label's cell number).
pub fn fill(labels: &mut [u8], axes: Axes, mode: Mode) -> Result<Filled, Refusal> {
    let f = match mode {
        Mode::SurfaceOnly => sys::fill_surface(labels, axes),
        Mode::Flood => sys::fill_flood(labels, axes),
        Mode::Cavities => sys::fill_cavities(labels, axes),
    };
    f.verdict.give(Filled { scans: f.scans, left: f.left })
}

/// Opens a surface cell of a map of labels 6, 7 and 8: on the border or beside Outside, it and every Inside cell reached
/// from it become Outside; elsewhere it becomes Inside. Answers how many labels changed.
///
/// Refused with 8 (place: the axis), 9, 11 (place: the label's cell number), 12 or 13.
pub fn open(labels: &mut [u8], axes: Axes, cell: Cell) -> Result<usize, Refusal> {
    let n = sys::open(labels, axes, cell);
    n.verdict.give(n.count)
}

/// Closes a cell that is no surface: it becomes one, and Outside cells that were joined to it and now have no way to the
/// border become Inside. Answers how many labels changed.
///
/// Refused as [`open`] is.
pub fn close(labels: &mut [u8], axes: Axes, cell: Cell) -> Result<usize, Refusal> {
    let n = sys::close(labels, axes, cell);
    n.verdict.give(n.count)
}

/// Writes a record of six numbers ([`Records`]) for each Inside and surface cell, i outermost and k innermost, with the
/// range 0..0. Numbers past the answer stay as they were.
///
/// Refused with 8 (place: the axis), 9, 11 (place: the label's cell number) or 14.
pub fn list_cells(labels: &[u8], axes: Axes, records: &mut [u32]) -> Result<Listed, Refusal> {
    let n = sys::list_cells(labels, axes, records);
    n.verdict.give(Listed { cells: n.cells, pairs: n.pairs })
}

/// The same, with the ascending numbers of the triangles that touch each surface cell in `list`, one cell after the
/// other, and each record's range in it.
///
/// Refused as [`mark`] is, and with 11 (place: the label's cell number) or 14.
pub fn list_pairs(
    points: &[f32],
    triangles: &[u32],
    axes: Axes,
    placement: Placement,
    labels: &[u8],
    records: &mut [u32],
    list: &mut [u32],
) -> Result<Listed, Refusal> {
    let n = sys::list_pairs(points, triangles, axes, placement, labels, records, list);
    n.verdict.give(Listed { cells: n.cells, pairs: n.pairs })
}

/// The slice of a list from `start` up to, not including, `end`; an empty one where [`check_range`] refuses the range.
pub fn list_slice(list: &[u32], start: u32, end: u32) -> &[u32] {
    let p = sys::list_slice(list, start, end);
    &list[p.start..p.start + p.length]
}

/// Whether a range lies within a list.
///
/// Refused with 15 where it falls back or passes the list.
pub fn check_range(list: &[u32], start: u32, end: u32) -> Result<(), Refusal> {
    sys::check_range(list, start, end).give(())
}

/// Writes the class of each of `count` triangles, from the entries of all parts, one part after the other, and where each
/// part ends: the part's number, [`NO_CLASS`] or [`SEVERAL`].
///
/// Refused with 1, 4 (place: the entry), 14 or 15 (place: the part end).
pub fn classify(entries: &[u32], ends: &[u32], count: usize, classes: &mut [u32]) -> Result<(), Refusal> {
    sys::classify(entries, ends, count, classes).give(())
}

/// The planes of an axis (0, 1 or 2) from max(`low`, `best` - `step`, 0) to min(`high`, `best` + `step`), both included:
/// writes the d of each. Numbers past the answer stay as they were.
///
/// Refused with 3 (place: the origin's number), 5, 12 or 14.
pub fn planes(
    placement: Placement,
    axis: usize,
    low: usize,
    high: usize,
    best: usize,
    step: usize,
    ds: &mut [f32],
) -> Result<Planes, Refusal> {
    let p = sys::planes(placement, axis, low, high, best, step, ds);
    p.verdict.give(Planes { first: p.first, count: p.count })
}

/// Splits points by a plane of an axis, in their order: p + d above 0 to `above`, below 0 to `below`, 0 to both.
///
/// Refused with 1, 3 (place: 0 is d, then the points' numbers), 12 or 14.
pub fn split(points: &[f32], axis: usize, d: f32, above: &mut [f32], below: &mut [f32]) -> Result<Sides, Refusal> {
    let s = sys::split(points, axis, d, above, below);
    s.verdict.give(Sides { first: s.first, second: s.second })
}

/// Eight corners and twelve triangles for each cell that has the asked label, 24 and 36 numbers a cell; answers how many
/// cells there are.
///
/// Refused with 3 (place: the origin's number), 5, 8 (place: the axis), 9, 11 (place: 0 for the asked label, else the
/// label's cell number) or 14.
pub fn boxes(
    labels: &[u8],
    axes: Axes,
    placement: Placement,
    label: u8,
    points: &mut [f32],
    triangles: &mut [u32],
) -> Result<usize, Refusal> {
    let n = sys::boxes(labels, axes, placement, label, points, triangles);
    n.verdict.give(n.count)
}

/// Maps the vessel of a program's input, a stream of records, and answers what the program says of it.
///
/// Refused with 16 or 17 (place: the byte offset of the record at fault) or 1 while the records are read, then with 2,
/// 3 (place: the index of the number), 4 (place: the triangle), 5, 6, 7 or 8 (place: the axis; 0 for more than 32,768
/// cells).
pub fn summarize(input: &[u8]) -> Result<Summary, Refusal> {
    let s = sys::summarize(input);
    s.verdict.give(Summary {
        axes: s.axes,
        outside: s.outside,
        inside: s.inside,
        surface: s.surface,
        left: s.left,
        scans: s.scans,
    })
}

/// The program itself: writes six lines, or the one line of a refusal of the input, and answers how many bytes they
/// have. 256 bytes hold every text.
///
/// Refused with 14 where the output is shorter than the text.
pub fn run(input: &[u8], output: &mut [u8]) -> Result<usize, Refusal> {
    let n = sys::run(input, output);
    n.verdict.give(n.count)
}
