//! The list of cells: document 01's refusals, and the lifted crate's conversion where there is none. The pairs that the
//! conversion is given come from the model of marking, since the crate's triangle test is not in the supplied text.

use super::{map_fault, Fault};
use crate::fill::VoxelizedVolume;
use crate::list::{Voxel, VoxelSet};
use crate::marks;

/// What a list is lent: a mesh on a grid, labels, and the lengths of the outputs.
#[derive(Clone)]
pub struct Lent {
    pub mesh: marks::Case,
    pub labels: Vec<u8>,
    pub records: usize,
    pub list: usize,
}

/// The records and the triangle numbers of a list.
#[derive(PartialEq, Debug)]
pub struct Listed {
    pub records: Vec<[u32; 6]>,
    pub list: Vec<u32>,
}

impl Listed {
    /// The list, unless an output is shorter: refusal 14.
    pub fn in_room(self, c: &Lent) -> Result<Listed, Fault> {
        let short = 6 * self.records.len() > c.records || self.list.len() > c.list;
        if short {
            Err((14, 0))
        } else {
            Ok(self)
        }
    }
}

/// The pairs of a cell 8 and a triangle, in the crate's order: triangle by triangle.
pub fn pairs(c: &Lent) -> Vec<(u32, u32)> {
    let of = |(t, cells): (usize, Vec<usize>)| {
        let surface = cells.into_iter().filter(|&n| c.labels[n] == 8);
        surface.map(|n| (n as u32, t as u32)).collect::<Vec<_>>()
    };
    marks::touched(&c.mesh).into_iter().enumerate().flat_map(of).collect()
}

/// The crate's conversion.
pub fn converted(axes: [u32; 3], labels: &[u8], pairs: &[(u32, u32)]) -> Listed {
    listed_set(VoxelSet::from(VoxelizedVolume::from_labels(axes, labels, pairs)))
}

/// The crate's list as records.
pub fn listed_set(set: VoxelSet) -> Listed {
    let record = |v: &Voxel| {
        let (start, end) = v.intersections_range;
        let [i, j, k] = [0, 1, 2].map(|a| v.coords[a] as u32);
        [i, j, k, v.is_on_surface as u32, start as u32, end as u32]
    };
    Listed { records: set.voxels.iter().map(record).collect(), list: set.intersections.to_vec() }
}

/// The lowest number that applies, short outputs apart, with its place.
pub fn refusal(c: &Lent, with_pairs: bool) -> Option<Fault> {
    let of_mesh = if with_pairs { marks::refusal(&c.mesh) } else { None };
    of_mesh.or_else(|| map_fault(c.mesh.axes, &c.labels, |v| v <= 8))
}

/// The list if nothing but a short output stands against it.
pub fn listed(c: &Lent, with_pairs: bool) -> Result<Listed, Fault> {
    if let Some(fault) = refusal(c, with_pairs) {
        return Err(fault);
    }
    let pairs = if with_pairs { pairs(c) } else { vec![] };
    Ok(converted(c.mesh.axes, &c.labels, &pairs))
}

/// The part of a list in a range, or none for a bad range, which a check refuses with 15 at 0.
pub fn part(list: &[u32], start: u32, end: u32) -> Option<&[u32]> {
    list.get(start as usize..end as usize)
}
