//! Sizing as document 01 has it: its refusals, and what the lifted crate answers where there is none.

use super::{axis_fault, Fault};
use crate::marks::FAR;
use crate::sizing::{local_point_cloud_aabb_ref, Vector, VoxelizedVolume};

/// The smallest cell size, and the smallest extent that a resolution divides. The greatest size is `FAR`.
pub const SMALLEST: f32 = 1.0 / 1024.0;

pub fn vectors(points: &[f32]) -> Vec<Vector> {
    points.chunks(3).map(|p| Vector::new(p[0], p[1], p[2])).collect()
}

fn points_fault(points: &[f32]) -> Option<Fault> {
    if points.len() % 3 != 0 || points.len() > 3 * 65536 {
        return Some((1, 0));
    }
    if points.is_empty() {
        return Some((2, 0));
    }
    // a NaN is not at most anything
    points.iter().position(|x| !(x.abs() <= FAR)).map(|place| (3, place))
}

fn laid(volume: VoxelizedVolume) -> Result<VoxelizedVolume, Fault> {
    axis_fault(volume.resolution).map_or(Ok(volume), Err)
}

pub fn by_size(points: &[f32], size: f32) -> Result<VoxelizedVolume, Fault> {
    if let Some(fault) = points_fault(points) {
        return Err(fault);
    }
    if !(SMALLEST..=FAR).contains(&size) {
        return Err((5, 0));
    }
    laid(VoxelizedVolume::with_voxel_size(&vectors(points), size))
}

pub fn by_resolution(points: &[f32], resolution: u32) -> Result<VoxelizedVolume, Fault> {
    if let Some(fault) = points_fault(points) {
        return Err(fault);
    }
    if !(2..=254).contains(&resolution) {
        return Err((6, 0));
    }
    let vectors = vectors(points);
    let d = local_point_cloud_aabb_ref(&vectors).extents();
    if d.x.max(d.y).max(d.z) < SMALLEST {
        return Err((7, 0));
    }
    laid(VoxelizedVolume::voxelize(&vectors, resolution))
}
