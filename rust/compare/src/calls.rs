//! How the library's types are made of the lifted crate's, for all families.
//!
//! Each family makes its calls with guarded buffers and compares with what the call is to answer: the lifted crate's
//! answer or a model's, or a refusal's number and place. After a refusal every lent number must be as it was; after an
//! answer every number past it, and all that was lent to be read.

use lifted::models::Fault;
use vesselmap::{Axes, Cell, Placement, Refusal};

pub fn fault(r: Refusal) -> Fault {
    (r.number as usize, r.place)
}

pub fn axes_of(axes: [u32; 3]) -> Axes {
    let [r0, r1, r2] = axes.map(|r| r as usize);
    Axes { r0, r1, r2 }
}

pub fn cell_of(cell: [u32; 3]) -> Cell {
    let [i, j, k] = cell.map(|x| x as usize);
    Cell { i, j, k }
}

pub fn placement_of(origin: [f32; 3], scale: f32, reciprocal: f32) -> Placement {
    Placement { x: origin[0], y: origin[1], z: origin[2], scale, reciprocal }
}
