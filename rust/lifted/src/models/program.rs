//! The program over its records: a reader of the model's own, from document 01, its refusals, the lifted crate's sizing
//! and fill, and the model of marking.

use super::sizing::{by_resolution, by_size};
use super::Fault;
use crate::fill::{self, FillMode};
use crate::marks::{self, Case, FAR};
use crate::sizing::VoxelizedVolume;
use crate::stored;

#[derive(Clone, Copy)]
enum Way {
    Size(f32),
    Resolution(u32),
}

#[derive(Default)]
struct Mesh {
    points: Vec<f32>,
    triangles: Vec<u32>,
}

struct Complete {
    way: Way,
    mode: u8,
    mesh: Mesh,
}

#[derive(Debug, PartialEq)]
pub struct Summary {
    pub axes: [u32; 3],
    pub outside: usize,
    pub inside: usize,
    pub surface: usize,
    pub left: usize,
    pub scans: usize,
}

/// The six lines' numbers, or a refusal.
pub type Said = Result<Summary, Fault>;

/// The axes, the origin and the scale; the program has its own limit of cells.
fn sized(way: Way, points: &[f32]) -> Result<VoxelizedVolume, Fault> {
    let volume = match way {
        Way::Size(size) => by_size(points, size)?,
        Way::Resolution(r) => by_resolution(points, r)?,
    };
    if volume.resolution.iter().product::<u32>() > 32768 {
        return Err((8, 0));
    }
    Ok(volume)
}

fn word(bytes: &[u8]) -> u32 {
    u32::from_le_bytes(bytes.try_into().unwrap())
}

fn words(bytes: &[u8]) -> Vec<u32> {
    bytes.chunks(4).map(word).collect()
}

fn read(input: &[u8]) -> Result<Complete, Fault> {
    let (way, mode) = match input {
        [] | [_] => return Err((17, 0)),
        [b'V', b'h', rest @ ..] if rest.len() < 6 => return Err((17, 0)),
        [b'V', b'h', way @ 0..=1, mode @ 0..=2, rest @ ..] => {
            let bits = word(&rest[..4]);
            (if *way == 0 { Way::Size(f32::from_bits(bits)) } else { Way::Resolution(bits) }, *mode)
        }
        _ => return Err((16, 0)),
    };
    let mut mesh = Mesh::default();
    let mut at = 8;
    loop {
        let (points, triangles) = (mesh.points.len() / 3, mesh.triangles.len() / 3);
        let fields = match &input[at..] {
            [] | [_] => return Err((17, at)),
            [b'V', b'p', ..] if points == 256 => return Err((1, 0)),
            [b'V', b't', ..] if triangles == 256 => return Err((1, 0)),
            [b'V', b'p', ..] if triangles > 0 => return Err((16, at)),
            [b'V', b'p' | b't', rest @ ..] => rest.get(..12),
            [b'V', b'z'] => return Ok(Complete { way, mode, mesh }),
            [b'V', b'z', ..] => return Err((16, at + 2)),
            _ => return Err((16, at)),
        };
        let Some(fields) = fields else { return Err((17, at)) };
        if input[at + 1] == b'p' {
            mesh.points.extend(words(fields).into_iter().map(f32::from_bits));
        } else {
            mesh.triangles.extend(words(fields));
        }
        at += 14;
    }
}

/// What the program says of an input.
pub fn summarize(input: &[u8]) -> Said {
    let Complete { way, mode, mesh } = read(input)?;
    if mesh.points.is_empty() {
        return Err((2, 0));
    }
    // a NaN is not at most anything
    if let Some(place) = mesh.points.iter().position(|x| !(x.abs() <= FAR)) {
        return Err((3, place));
    }
    let missing = |t: &[u32]| t.iter().any(|&v| v as usize >= mesh.points.len() / 3);
    if let Some(place) = mesh.triangles.chunks(3).position(missing) {
        return Err((4, place));
    }
    let volume = sized(way, &mesh.points)?;
    let (axes, scale) = (volume.resolution, volume.scale);
    let length = axes.iter().product::<u32>() as usize;
    let origin = [volume.origin.x, volume.origin.y, volume.origin.z];
    let Mesh { points, triangles } = mesh;
    let case = Case { points, triangles, axes, origin, scale, reciprocal: 1.0 / scale, length };
    assert_eq!(marks::refusal(&case), None, "what was sized is marked");
    let mut surface = vec![false; length];
    marks::touched(&case).concat().into_iter().for_each(|n| surface[n] = true);
    let mut map = fill::VoxelizedVolume::from_marks(axes, |n| surface[n as usize]);
    map.fill(match mode {
        0 => FillMode::SurfaceOnly,
        1 => FillMode::FloodFill { detect_cavities: false },
        _ => FillMode::FloodFill { detect_cavities: true },
    });
    let count = |label| map.values.iter().filter(|v| v.number() == label).count();
    let [left, outside, inside, surface] = [0, 6, 7, 8].map(count);
    assert!(mode == 2 || left + outside + inside + surface == length, "only a look for cavities leaves other labels");
    Ok(Summary { axes, outside, inside, surface, left, scans: map.scans as usize })
}

/// What the program prints.
pub fn text(said: &Said) -> String {
    match said {
        Err((number, _)) => format!("refused {number}\n"),
        Ok(Summary { axes: [r0, r1, r2], outside, inside, surface, left, scans }) => format!(
            "cells {r0} {r1} {r2}\noutside {outside}\ninside {inside}\nsurface {surface}\nleft {left}\nscans {scans}\n"
        ),
    }
}

// ---- streams

pub fn head(way: u8, mode: u8, bits: u32) -> Vec<u8> {
    [&[b'V', b'h', way, mode], &bits.to_le_bytes()[..]].concat()
}

pub fn point(p: [f32; 3]) -> Vec<u8> {
    [b"Vp".to_vec(), stored::bytes(&p.map(f32::to_bits))].concat()
}

pub fn triangle(t: [u32; 3]) -> Vec<u8> {
    [b"Vt".to_vec(), stored::bytes(&t)].concat()
}

pub fn stream(head: Vec<u8>, points: &[[f32; 3]], triangles: &[[u32; 3]]) -> Vec<u8> {
    let points = points.iter().flat_map(|p| point(*p));
    let triangles = triangles.iter().flat_map(|t| triangle(*t));
    head.into_iter().chain(points).chain(triangles).chain(*b"Vz").collect()
}
