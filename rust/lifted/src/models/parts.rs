//! Classes, planes and split: document 01's refusals, and what the lifted crate answers where there is none.

use super::{whole, Fault};
use crate::list::{IVector, Voxel, VoxelSet};
use crate::marks::{FAR, LEAST, MOST};
use crate::parts::{clip_mesh, CutPlane, VHACD};
use crate::sizing::Vector;
use crate::stored::bits;
use std::sync::Arc;

/// The greatest d.
pub const DEEP: f32 = 1073741824.0;

// ---- classes

/// Refusal 15: the first end that falls back, is the 65,536th, or is the last and not the list's length.
fn bad_end(ends: &[u32], length: usize) -> Option<Fault> {
    let begin = |p: usize| if p == 0 { 0 } else { ends[p - 1] };
    let last = |p: usize| p + 1 == ends.len() && ends[p] as usize != length;
    let bad = |&p: &usize| ends[p] < begin(p) || p == 65535 || last(p);
    (0..ends.len()).find(bad).map(|p| (15, p)).or(whole(15, ends.is_empty() && length > 0))
}

/// The crate's classes. Each part is a list of its own, of one cell or two, over the entries of all.
pub fn classified(entries: &[u32], ends: &[u32], count: usize) -> Vec<u32> {
    let all = Arc::new(entries.to_vec());
    let part = |p: usize| {
        let (from, to) = (if p == 0 { 0 } else { ends[p - 1] as usize }, ends[p] as usize);
        let middle = (from + to) / 2;
        let ranges = if p % 2 == 0 { vec![(from, to)] } else { vec![(from, middle), (middle, to)] };
        let cell = |range| Voxel { coords: IVector::new(0, 0, 0), is_on_surface: true, intersections_range: range };
        VoxelSet { voxels: ranges.into_iter().map(cell).collect(), intersections: all.clone(), ..VoxelSet::new() }
    };
    VHACD { voxel_parts: (0..ends.len()).map(part).collect() }.classify_primitives(count)
}

/// The lowest number that applies, with its place, of a call with so many triangles and an output of this length.
pub fn faulty_classes(entries: &[u32], ends: &[u32], count: u64, length: usize) -> Option<Fault> {
    let missing = entries.iter().position(|&t| t as u64 >= count).map(|place| (4, place));
    let short = whole(14, (length as u64) < count);
    whole(1, count > 65536).or(missing).or(short).or_else(|| bad_end(ends, entries.len()))
}

// ---- planes

#[derive(Clone)]
pub struct Planes {
    pub origin: [f32; 3],
    pub scale: f32,
    pub reciprocal: f32,
    pub axis: u64,
    pub low: u64,
    pub high: u64,
    pub best: u64,
    pub step: u64,
    pub length: usize,
}

/// The crate's planes.
pub fn refined(c: &Planes) -> Vec<CutPlane> {
    let all = |n: u64| IVector::new(n as i32, n as i32, n as i32);
    let [x, y, z] = c.origin;
    let set = VoxelSet {
        origin: Vector::new(x, y, z),
        scale: c.scale,
        min_bb: all(c.low),
        max_bb: all(c.high),
        ..VoxelSet::new()
    };
    let best = CutPlane { abc: Vector::ZERO, d: 0.0, axis: c.axis as u8, index: c.best as u32 };
    let mut planes = vec![];
    VHACD::refine_axes_aligned_clipping_planes(&set, &best, c.step as u32, &mut planes);
    planes
}

/// The index of the first plane, which is answered even where there is none.
pub fn first_plane(c: &Planes) -> u64 {
    c.low.max(c.best.saturating_sub(c.step))
}

/// The lowest number that applies, with its place.
pub fn faulty_planes(c: &Planes) -> Option<Fault> {
    let origin = c.origin.iter().position(|x| !(x.abs() <= FAR)).map(|place| (3, place));
    let lent = !(LEAST <= c.scale && c.scale <= MOST) || c.reciprocal != 1.0 / c.scale;
    let indices = c.low > c.high || [c.low, c.high, c.best].iter().any(|&n| n >= 256);
    let range = origin.or(whole(5, lent)).or(whole(12, c.axis > 2 || indices || c.step > 256));
    range.or_else(|| whole(14, refined(c).len() > c.length))
}

// ---- split

/// The crate's split by a plane whose direction is the axis.
fn clipped(points: &[f32], axis: usize, d: f32) -> [Vec<u32>; 2] {
    let all: Vec<Vector> = points.chunks(3).map(|p| Vector::new(p[0], p[1], p[2])).collect();
    let plane = CutPlane { abc: Vector::ith(axis, 1.0), d, axis: axis as u8, index: 0 };
    let (mut above, mut below) = (vec![], vec![]);
    clip_mesh(&all, &plane, &mut above, &mut below);
    [above, below].map(|side| side.iter().flat_map(|p| bits(&[p.x, p.y, p.z])).collect())
}

fn faulty_split(points: &[f32], axis: u64, d: f32) -> Option<Fault> {
    let deep = whole(3, !(d.abs() <= DEEP));
    let far = points.iter().position(|x| !(x.abs() <= FAR)).map(|place| (3, place + 1));
    let length = points.len() % 3 != 0 || points.len() / 3 > 65536;
    whole(1, length).or(deep).or(far).or(whole(12, axis > 2))
}

/// The points above and below, as bits, or the lowest number that applies, with its place; outputs of these lengths.
pub fn split_by(points: &[f32], axis: u64, d: f32, lengths: [usize; 2]) -> Result<[Vec<u32>; 2], Fault> {
    if let Some(fault) = faulty_split(points, axis, d) {
        return Err(fault);
    }
    let sides = clipped(points, axis as usize, d);
    let short = (0..2).any(|n| sides[n].len() > lengths[n]);
    if short {
        Err((14, 0))
    } else {
        Ok(sides)
    }
}
