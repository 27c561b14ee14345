//! Openings and closings of a cell, each beside a fresh flood of the edited marks, ours and the crate's.
use crate::passes::Bytes;
use crate::rows::{fill_side, their_fill_side};
use crate::shapes::{closed_vessel, map_of, marks_of, open_vessel, Marks};
use crate::timing::{timed, Side};
use lifted::fill::FillMode;
use vesselmap::{label, Axes, Cell, Mode};

/// A map, a cell of it that is opened or closed, and what is told of that.
pub struct Edit {
    pub name: &'static str,
    pub size: u32,
    pub axes: Axes,
    pub map: Vec<u8>,
    pub cell: Cell,
    pub changed: usize,
    /// The marks after the edit.
    marks: Vec<u8>,
}

impl Edit {
    fn of(name: &'static str, size: u32, axes: Axes, map: Vec<u8>, cell: Cell) -> Edit {
        let mut labels = map.clone();
        let changed = apply(&mut labels, axes, cell);
        let marks = labels.iter().map(|&l| if l == label::SURFACE { l } else { label::UNDEFINED }).collect();
        Edit { name, size, axes, map, cell, changed, marks }
    }

    /// The map after the edit, as an edit of its own: the other way.
    fn back(&self, name: &'static str) -> Edit {
        let mut map = self.map.clone();
        apply(&mut map, self.axes, self.cell);
        Edit::of(name, self.size, self.axes, map, self.cell)
    }

    /// All labels are read for those that an edit does not take, and the changed ones written.
    pub fn bytes(&self) -> Bytes {
        Bytes { read: self.map.len(), written: self.changed, swept: 0 }
    }

    /// The edit, our flood and the crate's.
    pub fn sides(&self) -> [Side<'_>; 3] {
        let mut labels = self.map.clone();
        let edit = move || {
            labels.copy_from_slice(&self.map);
            timed(|| apply(&mut labels, self.axes, self.cell))
        };
        let flood = FillMode::FloodFill { detect_cavities: false };
        let ours = fill_side(&self.marks, self.axes, Mode::Flood);
        [Box::new(edit), ours, their_fill_side(&self.marks, self.axes, flood)]
    }
}

/// Opens the cell where it is a wall, and closes it elsewhere.
fn apply(labels: &mut [u8], axes: Axes, cell: Cell) -> usize {
    let wall = labels[axes.number(cell).expect("a cell of the grid")] == label::SURFACE;
    let edit = if wall { vesselmap::open } else { vesselmap::close };
    edit(labels, axes, cell).expect("a cell that can be opened or closed")
}

/// The labels beside a cell that is not on the border.
fn beside(map: &[u8], axes: Axes, n: usize) -> [u8; 6] {
    let layer = axes.r0 * axes.r1;
    [n - 1, n + 1, n - axes.r0, n + axes.r0, n - layer, n + layer].map(|m| map[m])
}

/// Of the cells off the border that fit, the one in their middle.
fn middle_of(map: &[u8], axes: Axes, fits: impl Fn(u8, [u8; 6]) -> bool) -> Cell {
    let off = |x: usize, r: usize| 0 < x && x + 1 < r;
    let cell = |n: usize| Cell { i: n % axes.r0, j: n / axes.r0 % axes.r1, k: n / (axes.r0 * axes.r1) };
    let inner = |c: Cell| off(c.i, axes.r0) && off(c.j, axes.r1) && off(c.k, axes.r2);
    let all: Vec<usize> = (0..map.len()).filter(|&n| inner(cell(n)) && fits(map[n], beside(map, axes, n))).collect();
    cell(all[all.len() / 2])
}

fn has(labels: [u8; 6], label: u8) -> bool {
    labels.contains(&label)
}

/// Of a closed vessel: a wall cell that is no way in, one that is, and a cell in the open air.
fn of_closed(m: &Marks) -> Vec<Edit> {
    let (map, axes) = (map_of(m), m.axes);
    let edit = |name, cell| Edit::of(name, m.size, axes, map.clone(), cell);
    let wall = |l: u8| l == label::SURFACE;
    let dent = middle_of(&map, axes, |l, b| wall(l) && has(b, label::OUTSIDE) && !has(b, label::INSIDE));
    let manway = middle_of(&map, axes, |l, b| wall(l) && has(b, label::OUTSIDE) && has(b, label::INSIDE));
    let air = middle_of(&map, axes, |l, b| l == label::OUTSIDE && b == [label::OUTSIDE; 6]);
    let open_dent = edit("open a wall cell that is no way in", dent);
    let open_manway = edit("open a manway cell", manway);
    let close_dent = open_dent.back("close it");
    let close_manway = open_manway.back("close the manway cell");
    vec![open_dent, close_dent, open_manway, close_manway, edit("close a cell in open air", air)]
}

/// Every edit at a size.
pub fn edits(size: u32) -> Vec<Edit> {
    let mut all = of_closed(&marks_of(&closed_vessel(size)));
    let open = marks_of(&open_vessel(size));
    let Axes { r0, r1, r2 } = open.axes;
    let within = Cell { i: r0 / 2, j: r1 / 2, k: r2 / 2 };
    all.push(Edit::of("close a cell within an open vessel", size, open.axes, map_of(&open), within));
    all
}
