//! Boxes: document 01's refusals, and where there is none the lifted crate's boxes, each number of a triangle made less
//! by 8, which is the one difference that 01 means.

use super::Fault;
use crate::fill::VoxelizedVolume;
use crate::list::label_value;
use crate::marks::{FAR, LEAST, MOST};
use crate::sizing::Vector;
use crate::stored::bits;

/// What boxes are lent; of the outputs only their lengths.
#[derive(Clone)]
pub struct Case {
    pub axes: [u32; 3],
    pub origin: [f32; 3],
    pub scale: f32,
    pub reciprocal: f32,
    pub asked: u8,
    pub labels: Vec<u8>,
    pub points: usize,
    pub triangles: usize,
}

/// The crate's boxes, their triangles 8 points back.
fn boxes(c: &Case) -> (Vec<u32>, Vec<u32>) {
    let [x, y, z] = c.origin;
    let labels = VoxelizedVolume::from_labels(c.axes, &c.labels, &[]);
    let volume = VoxelizedVolume { origin: Vector::new(x, y, z), scale: c.scale, ..labels };
    let (points, triangles) = volume.to_trimesh(label_value(c.asked));
    let back = |t: &[u32; 3]| t.map(|n| n - 8);
    (points.iter().flat_map(|p| bits(&[p.x, p.y, p.z])).collect(), triangles.iter().flat_map(back).collect())
}

/// The lowest number that applies, short outputs apart, with its place.
pub fn refusal(c: &Case) -> Option<Fault> {
    let whole = |fault: bool| fault.then_some(0);
    let place = |number| match number {
        3 => c.origin.iter().position(|x| !(x.abs() <= FAR)),
        5 => whole(!(LEAST <= c.scale && c.scale <= MOST) || c.reciprocal != 1.0 / c.scale),
        8 => c.axes.iter().position(|&r| r == 0 || r > 256),
        9 => whole(c.labels.len() as u32 != c.axes.iter().product()),
        11 => whole(c.asked > 8).or(c.labels.iter().position(|&v| v > 8)),
        _ => None,
    };
    (3..=11).find_map(|number| Some((number, place(number)?)))
}

/// The points, as bits, and the triangles, or the lowest number that applies.
pub fn boxed(c: &Case) -> Result<(Vec<u32>, Vec<u32>), Fault> {
    if let Some(fault) = refusal(c) {
        return Err(fault);
    }
    let (points, triangles) = boxes(c);
    if points.len() > c.points || triangles.len() > c.triangles {
        return Err((14, 0));
    }
    Ok((points, triangles))
}
