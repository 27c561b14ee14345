//! Sizing, bit for bit: by cell size and by resolution, around every boundary of the answer and of the refusals.

use crate::calls::fault;
use crate::guard::Lent;
use crate::random::Random;
use crate::tally::{shown, Case, Tally};
use lifted::marks::FAR;
use lifted::models::sizing::{self, SMALLEST};
use lifted::models::Fault;
use lifted::stored::bits;

#[derive(Clone, Copy, Debug)]
pub enum Way {
    Size(f32),
    Resolution(u32),
}

/// Axes, and the bits of origin, scale and reciprocal.
type Laid = ([u32; 3], Vec<u32>);

pub fn size(tally: &mut Tally, points: &[f32], way: Way) {
    let lent = Lent::of(points);
    let ours = match way {
        Way::Size(size) => vesselmap::size_by_cell(lent.read(), size),
        Way::Resolution(r) => vesselmap::size_by_resolution(lent.read(), r),
    };
    let ours: Result<Laid, Fault> = ours.map_err(fault).map(|g| {
        let (a, p) = (g.axes, g.placement);
        ([a.r0, a.r1, a.r2].map(|r| r as u32), bits(&[p.x, p.y, p.z, p.scale, p.reciprocal]))
    });
    let theirs = match way {
        Way::Size(size) => sizing::by_size(points, size),
        Way::Resolution(r) => sizing::by_resolution(points, r),
    };
    let theirs: Result<Laid, Fault> = theirs.map(|v| {
        let o = v.origin;
        (v.resolution, bits(&[o.x, o.y, o.z, v.scale, 1.0 / v.scale]))
    });
    let same = ours == theirs && lent.untouched();
    let input = || format!("{way:?} of the points {}: {ours:?}, to be {theirs:?}", shown(points));
    tally.judge(same, theirs.as_ref().err().copied(), 8, points.len(), input);
}

/// A number of a point: any, a whole one, about the limits, about 0.
fn coordinate(rng: &mut Random) -> f32 {
    match rng.below(7) {
        0 => rng.float(-30, 19),
        1 => rng.below(600) as f32 - 300.0,
        2 => rng.near(FAR).min(FAR),
        3 => -rng.near(FAR).min(FAR),
        4 => rng.near(0.0),
        5 => rng.float(-149, 19),
        _ => rng.below(1 << 16) as f32 / 256.0,
    }
}

/// One to eight points; flat along some axes, and close together in one case of four.
pub fn points(rng: &mut Random) -> Vec<f32> {
    let (flat, close) = (rng.below(8), rng.one_in(4));
    let first = [0; 3].map(|_| coordinate(rng));
    let extent = rng.float(-12, 12);
    let mut points = first.to_vec();
    for _ in 0..rng.below(8) {
        for (a, base) in first.into_iter().enumerate() {
            let x = if close { base + extent * rng.share() } else { coordinate(rng) };
            points.push(if flat >> a & 1 == 1 { base } else { x.clamp(-FAR, FAR) });
        }
    }
    points
}

/// The extent of points along each axis.
fn extents(points: &[f32]) -> [f32; 3] {
    let d = lifted::sizing::local_point_cloud_aabb_ref(&sizing::vectors(points)).extents();
    [d.x, d.y, d.z]
}

/// A way of sizing: a size about an extent's share, about the limits, or any; a resolution about its limits, or any.
pub fn way(rng: &mut Random, points: &[f32]) -> Way {
    let extent = extents(points)[rng.below(3)];
    let cells = rng.pick(&[1, 2, 3, 4, 15, 64, 100, 254, 255, 256, 257]) as f32;
    match rng.below(6) {
        0 | 1 => Way::Size(rng.near(extent / cells)),
        2 => {
            let limit = rng.pick(&[SMALLEST, FAR]);
            Way::Size(rng.near(limit))
        }
        3 => Way::Size(rng.float(-12, 21)),
        4 => Way::Resolution(rng.pick(&[0, 1, 2, 3, 128, 253, 254, 255, u32::MAX])),
        _ => Way::Resolution(2 + rng.below(253) as u32),
    }
}

/// Two points whose extent is about a limit: where an axis gains a cell, and where 7 begins.
fn at_a_limit(rng: &mut Random) -> (Vec<f32>, Way) {
    let (a, low) = (rng.below(3), coordinate(rng).clamp(-1000.0, 1000.0));
    let (cells, size) = (rng.pick(&[2, 3, 10, 100, 254, 255, 256]) as f32, rng.float(-10, 11).abs());
    let (extent, way) = match rng.below(3) {
        0 => (rng.near(cells * size), Way::Size(size)),
        1 => (rng.near(SMALLEST), Way::Resolution(2 + rng.below(253) as u32)),
        _ => (rng.near(cells), Way::Size(1.0)),
    };
    let mut points = vec![low; 6];
    points[3 + a] = (low + extent).clamp(-FAR, FAR);
    (points, way)
}

/// Equal or nearly equal extents by resolution, where the truncated quotient may fall below R.
fn alike(rng: &mut Random) -> (Vec<f32>, Way) {
    let d = rng.float(-9, 18).abs();
    let far = [0; 3].map(|_| rng.near(d));
    ([&[0.0; 3], &far[..]].concat(), Way::Resolution(2 + rng.below(253) as u32))
}

pub fn case(c: &mut Case) {
    for _ in 0..64 {
        let (points, way) = match c.rng.below(3) {
            0 => at_a_limit(&mut c.rng),
            1 => alike(&mut c.rng),
            _ => {
                let points = points(&mut c.rng);
                let way = way(&mut c.rng, &points);
                (points, way)
            }
        };
        size(c.tally, &points, way);
    }
}
