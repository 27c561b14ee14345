//! Meshes on grids: small ones of random triangles about the places where marks turn, and vessels, turned and moved.

use crate::random::Random;
use crate::tally::Kind;
use lifted::marks::{self, FAR, LEAST, MOST};
use lifted::vessels::{Mesh, VESSELS};

/// Kinds of small meshes, as the comparison with the f32 stand-in tells them.
const LATTICE: Kind = "triangles on 256ths of a cell";
const HALVES: Kind = "triangles about halves of a 256th";
const ANYWHERE: Kind = "triangles anywhere";
const SLIVERS: Kind = "slivers";
const SCALED: Kind = "triangles on a scaled grid";

/// A vertex of a grid with cells of side 1, each number a multiple of this share, from -1/2 on.
fn vertex(rng: &mut Random, axes: [u32; 3], steps: usize) -> [f32; 3] {
    axes.map(|r| rng.below(steps * r as usize) as f32 / steps as f32 - 0.5)
}

/// One to four triangles on a small grid with its origin at 0 and cells of side 1.
fn lattice(rng: &mut Random, axes: [u32; 3], steps: &[usize]) -> marks::Case {
    let points: Vec<_> = (0..rng.within(3, 6))
        .map(|_| {
            let steps = rng.pick(steps);
            vertex(rng, axes, steps)
        })
        .collect();
    let triangles: Vec<_> = (0..rng.within(1, 4)).map(|_| [0; 3].map(|_| rng.below(points.len()) as u32)).collect();
    marks::case(&points, &triangles, axes)
}

/// A triangle with one vertex about a point of the edge between the two others.
fn sliver(rng: &mut Random, axes: [u32; 3]) -> marks::Case {
    let steps = rng.pick(&[2, 256, 1 << 16]);
    let (a, b) = (vertex(rng, axes, steps), vertex(rng, axes, steps));
    let (way, off) = (rng.share(), rng.pick(&[0.0, 1.0e-6, 0.002, 0.01]));
    let c = [0, 1, 2].map(|n| a[n] + way * (b[n] - a[n]) + if n == 0 { off } else { 0.0 });
    let inside = |v: [f32; 3]| [0, 1, 2].map(|n| v[n].clamp(-0.5, axes[n] as f32 - 0.51));
    marks::single([a, b, c].map(inside), axes)
}

/// The mesh moved to another origin and scale.
fn scaled(rng: &mut Random, c: marks::Case) -> marks::Case {
    let scale = match rng.below(6) {
        0 => LEAST,
        1 => MOST,
        2 => rng.pick(&[0.1, 0.3, 3.0, 1.0 / 1024.0]),
        _ => rng.float(-18, 12).abs().clamp(LEAST, MOST),
    };
    let far = FAR.min(scale * 1000.0);
    let origin = [0; 3].map(|_| if rng.one_in(3) { 0.0 } else { (2.0 * rng.share() - 1.0) * far });
    let place = |(n, x): (usize, &f32)| (origin[n % 3] + x * scale).clamp(-FAR, FAR);
    let points = c.points.iter().enumerate().map(place).collect();
    marks::Case { points, origin, scale, reciprocal: 1.0 / scale, ..c }
}

/// A small mesh on a grid, of some kind.
pub fn small(rng: &mut Random) -> (Kind, marks::Case) {
    let most = rng.pick(&[1, 2, 3, 6, 12]);
    let axes = [0; 3].map(|_| rng.within(1, most) as u32);
    match rng.below(5) {
        0 => (LATTICE, lattice(rng, axes, &[2, 4, 256, 256])),
        1 => {
            let mut c = lattice(rng, axes, &[512]);
            c.points.iter_mut().for_each(|x| *x = rng.near(*x));
            (HALVES, c)
        }
        2 => (ANYWHERE, lattice(rng, axes, &[1 << 20])),
        3 => (SLIVERS, sliver(rng, axes)),
        _ => {
            let c = lattice(rng, axes, &[2, 256, 1 << 20]);
            (SCALED, scaled(rng, c))
        }
    }
}

/// Turns a vessel by chance about its own axis or any, makes it larger or smaller, and moves it.
fn moved(rng: &mut Random, (points, triangles): Mesh) -> Mesh {
    let turns = match rng.below(3) {
        0 => [0.0; 3],
        1 => [rng.share(), 0.0, 0.0],
        _ => [rng.share(), rng.share(), rng.share()],
    };
    let factor = if rng.one_in(2) { 1.0 } else { rng.float(-6, 10).abs() };
    let off = [0; 3].map(|_| if rng.one_in(2) { 0.0 } else { factor * rng.float(-3, 6) });
    let mut points = points;
    for p in points.chunks_mut(3) {
        for (n, turn) in turns.iter().enumerate() {
            let (sin, cos) = (turn * std::f32::consts::TAU).sin_cos();
            let (a, b) = (n % 3, (n + 1) % 3);
            (p[a], p[b]) = (cos * p[a] - sin * p[b], sin * p[a] + cos * p[b]);
        }
        (0..3).for_each(|a| p[a] = factor * p[a] + off[a]);
    }
    (points, triangles)
}

/// A vessel, turned and moved, with circles of up to so many corners.
pub fn vessel(rng: &mut Random, most: usize) -> (Kind, Mesh) {
    let (kind, vessel) = rng.pick(&VESSELS);
    let mesh = vessel(rng.within(8, most.clamp(8, 128)) as u32);
    (kind, moved(rng, mesh))
}
