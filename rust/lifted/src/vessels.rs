//! Meshes of vessels, to compare and to time the ways from points to lists with; nothing of the crate.
//!
//! A vessel is a tun: a wall of radius 1 from 0.6 to 2.6 above a bottom that ends at 0, under a lid that ends at 3. Its
//! fineness is how many corners its circles have, 8 to 128; the finest has some 30,000 triangles.

use std::f64::consts::TAU;

/// Points, three numbers to a point, and triangles, three numbers of points to a triangle.
pub type Mesh = (Vec<f32>, Vec<u32>);

/// Each vessel's name, and the vessel by its fineness.
pub const VESSELS: [(&str, fn(u32) -> Mesh); 8] = [
    ("closed tun", closed),
    ("domed tun", domed),
    ("open manway", open_manway),
    ("open mouth", open_mouth),
    ("baffles", baffles),
    ("coil", coil),
    ("thin sheets", sheets),
    ("pocket", pocket),
];

/// A tun with cones for its bottom and its lid, closed all round.
pub fn closed(fineness: u32) -> Mesh {
    tun(fineness, cone, |_, _| true).mesh()
}

/// The same with domes.
pub fn domed(fineness: u32) -> Mesh {
    tun(fineness, dome, |_, _| true).mesh()
}

/// A tun with a manway in its lid that stands open.
pub fn open_manway(fineness: u32) -> Mesh {
    let row = 4 * part(fineness) + part(fineness) / 2;
    tun(fineness, cone, |u, v| u != row || v >= fineness.div_ceil(6)).mesh()
}

/// A tun without a lid.
pub fn open_mouth(fineness: u32) -> Mesh {
    tun(fineness, dome, |u, _| u < 4 * part(fineness)).mesh()
}

/// A closed tun with four upright baffles along its wall, of no thickness.
pub fn baffles(fineness: u32) -> Mesh {
    let mut steel = tun(fineness, cone, |_, _| true);
    let rows = part(fineness);
    for quarter in 0..4 {
        let at = |u, v| round(1.0 - 0.2 * share(v, 2), share(quarter, 4) + 0.03, 0.7 + 1.8 * share(u, rows));
        steel.sheet(rows, 2, at, |_, _| true);
    }
    steel.mesh()
}

/// A closed tun with a coil of four turns, a tube with closed ends.
pub fn coil(fineness: u32) -> Mesh {
    let mut steel = tun(fineness, dome, |_, _| true);
    let (along, about) = (2 * fineness, part(fineness).max(3));
    let tube = |u: u32, v: u32, thick: f64| {
        let (way, turn) = (share(u, along), TAU * share(v % about, about));
        round(0.7 + thick * turn.cos(), 4.0 * way, 0.8 + 1.4 * way + thick * turn.sin())
    };
    steel.sheet(along, about, |u, v| tube(u, v, 0.06), |_, _| true);
    for end in [0, along] {
        steel.sheet(1, about, |u, v| tube(end, v, 0.06 * u as f64), |_, _| true);
    }
    steel.mesh()
}

/// A closed tun with two sieve plates and an upright plate across it, each a closed slab thinner than any cell.
pub fn sheets(fineness: u32) -> Mesh {
    let mut steel = tun(fineness, cone, |_, _| true);
    let rows = part(fineness);
    for (height, thick) in [(0.9, 0.001), (1.7, 0.0001)] {
        for z in [height, height + thick] {
            let at = |u, v| round(share(u, rows), share(v % fineness, fineness), z);
            steel.sheet(rows, fineness, at, |_, _| true);
        }
    }
    for side in [0.2, 0.2005] {
        steel.sheet(rows, rows, |u, v| [1.8 * share(u, rows) - 0.9, side, 1.8 + 0.7 * share(v, rows)], |_, _| true);
    }
    steel.mesh()
}

/// A closed tun with a small closed box inside, which touches the wall.
pub fn pocket(fineness: u32) -> Mesh {
    let mut steel = tun(fineness, cone, |_, _| true);
    steel.cuboid([0.6, -0.15, 1.4], [1.0, 0.15, 1.7]);
    steel.mesh()
}

struct Steel {
    points: Vec<f32>,
    triangles: Vec<u32>,
}

impl Steel {
    fn mesh(self) -> Mesh {
        (self.points, self.triangles)
    }

    /// Rows and columns of points, and between each four that are neighbours, where wanted, two triangles.
    fn sheet(&mut self, rows: u32, columns: u32, at: impl Fn(u32, u32) -> [f64; 3], wanted: impl Fn(u32, u32) -> bool) {
        let first = self.points.len() as u32 / 3;
        for n in 0..(rows + 1) * (columns + 1) {
            self.points.extend(at(n / (columns + 1), n % (columns + 1)).map(|x| x as f32));
        }
        for (u, v) in (0..rows * columns).map(|n| (n / columns, n % columns)).filter(|&(u, v)| wanted(u, v)) {
            let a = first + u * (columns + 1) + v;
            let b = a + columns + 1;
            self.triangles.extend([a, a + 1, b, b, a + 1, b + 1]);
        }
    }

    /// A box between two corners: six sheets of one piece.
    fn cuboid(&mut self, low: [f64; 3], high: [f64; 3]) {
        for face in 0..6 {
            let (axis, end) = (face / 2, face % 2);
            let at = |u: u32, v: u32| {
                let mut ends = [u, v, v];
                ends.swap(0, (axis + 1) % 3);
                ends[axis] = end as u32;
                [0, 1, 2].map(|a| if ends[a] == 0 { low[a] } else { high[a] })
            };
            self.sheet(1, 1, at, |_, _| true);
        }
    }
}

/// A bottom's radius and height above its end, at a share of the way from its end to the wall.
type Bottom = fn(f64) -> [f64; 2];

fn cone(way: f64) -> [f64; 2] {
    [way, way]
}

fn dome(way: f64) -> [f64; 2] {
    let turn = way * TAU / 4.0;
    [turn.sin(), 1.0 - turn.cos()]
}

/// How many rows of triangles a fifth of a tun's outline has.
fn part(fineness: u32) -> u32 {
    (fineness / 8).max(2)
}

/// A tun: five times `part` rows, one for its bottom, three for its wall, one for its lid.
fn tun(fineness: u32, bottom: Bottom, wanted: impl Fn(u32, u32) -> bool) -> Steel {
    assert!((8..=128).contains(&fineness), "a fineness is 8 to 128");
    let rows = part(fineness);
    let outline = |u: u32| {
        let ([low, rise], [high, fall]) = (bottom(share(u, rows)), bottom(share((5 * rows).saturating_sub(u), rows)));
        match u / rows {
            0 => [low, 0.6 * rise],
            1..=3 => [1.0, 0.6 + 2.0 * share(u - rows, 3 * rows)],
            _ => [high, 3.0 - 0.4 * fall],
        }
    };
    let at = |u: u32, v: u32| {
        let [radius, height] = outline(u);
        round(radius, share(v % fineness, fineness), height)
    };
    let mut steel = Steel { points: vec![], triangles: vec![] };
    steel.sheet(5 * rows, fineness, at, wanted);
    steel
}

fn share(n: u32, all: u32) -> f64 {
    n as f64 / all as f64
}

/// The point at this radius, share of a turn and height.
fn round(radius: f64, turn: f64, height: f64) -> [f64; 3] {
    [radius * (TAU * turn).cos(), radius * (TAU * turn).sin(), height]
}

#[cfg(test)]
mod tests {
    use super::*;
    use crate::fill::{FillMode, VoxelValue, VoxelizedVolume};
    use crate::sizing::Vector;

    fn inside((points, triangles): Mesh) -> usize {
        let points: Vec<_> = points.chunks(3).map(|p| Vector::new(p[0], p[1], p[2])).collect();
        let triangles: Vec<_> = triangles.chunks(3).map(|t| [t[0], t[1], t[2]]).collect();
        let flood = FillMode::FloodFill { detect_cavities: false };
        let volume = VoxelizedVolume::voxelize(&points, &triangles, 48, flood, false);
        volume.values.iter().filter(|&&v| v == VoxelValue::PrimitiveInsideSurface).count()
    }

    /// Within document 01's limits at both ends of the fineness, with every triangle over points that are there.
    #[test]
    fn limits() {
        for (name, vessel) in VESSELS {
            for (points, triangles) in [vessel(8), vessel(13), vessel(128)] {
                assert!(points.len() / 3 <= 65536 && triangles.len() / 3 <= 65536, "{name}");
                assert!(points.iter().all(|x| x.abs() < 4.0), "{name}");
                assert!(triangles.iter().all(|&v| (v as usize) < points.len() / 3), "{name}");
            }
        }
    }

    /// A closed vessel has an inside, and an open one has none.
    #[test]
    fn insides() {
        for (name, vessel) in VESSELS {
            assert_eq!(inside(vessel(32)) == 0, name.starts_with("open"), "{name}");
        }
    }
}
