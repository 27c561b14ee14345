//! A fill: document 01's refusals, and what the lifted crate answers where there is none.

use super::{map_fault, Fault};
use crate::fill::{FillMode, VoxelizedVolume};

pub const FLOOD: FillMode = FillMode::FloodFill { detect_cavities: false };
pub const CAVITIES: FillMode = FillMode::FloodFill { detect_cavities: true };
pub const MODES: [FillMode; 3] = [FillMode::SurfaceOnly, FLOOD, CAVITIES];

#[derive(PartialEq, Debug)]
pub struct Filled {
    pub labels: Vec<u8>,
    pub scans: u32,
    pub left: usize,
}

pub fn count(labels: &[u8], value: u8) -> usize {
    labels.iter().filter(|&&v| v == value).count()
}

/// The crate's fill of the cells that are 8.
pub fn lifted(axes: [u32; 3], labels: &[u8], mode: FillMode) -> Filled {
    let mut volume = VoxelizedVolume::from_marks(axes, |n| labels[n as usize] == 8);
    volume.fill(mode);
    let labels: Vec<u8> = volume.values.iter().map(|v| v.number()).collect();
    Filled { scans: volume.scans, left: count(&labels, 0), labels }
}

/// The lowest number that applies, with its place.
pub fn refusal(axes: [u32; 3], labels: &[u8]) -> Option<Fault> {
    map_fault(axes, labels, |v| v == 0 || v == 8)
}
