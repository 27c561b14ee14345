//! Marks beside those of the lifted marking, whose triangle test is a plain f32 stand-in: the crate's own is not in the
//! supplied text. The two may differ where rounding decides: document 01 rounds a vertex to 1/256 of a cell, and the
//! stand-in rounds each f32 operation. Each pair of a cell and a triangle that only one of them has must be explained:
//! the exact test over whole numbers agrees with ours, and the cell lies within what rounding moves.

use crate::list::our_pairs;
use crate::tally::{Kind, Tally};
use lifted::fill::{VoxelValue, VoxelizedVolume};
use lifted::marks::{self, candidates, gaps_about, Triangle, Triple};
use lifted::models::sizing::vectors;
use lifted::sizing::Vector;
use std::collections::BTreeMap;

pub type Pairs = Vec<(u32, u32)>;

/// The lifted marking's labels, 8 and 0, and its pairs, on the grid of a mesh.
pub fn lifted_marks(c: &marks::Case) -> (Vec<u8>, Pairs) {
    let [x, y, z] = c.origin;
    let mut volume = VoxelizedVolume::from_marks([0; 3], |_| false);
    (volume.origin, volume.scale, volume.resolution) = (Vector::new(x, y, z), c.scale, c.axes);
    let triangles: Vec<[u32; 3]> = c.triangles.chunks(3).map(|t| [t[0], t[1], t[2]]).collect();
    volume.do_mark(&vectors(&c.points), &triangles, true);
    let label = |v: &VoxelValue| if *v == VoxelValue::PrimitiveOnSurface { 8 } else { 0 };
    (volume.values.iter().map(label).collect(), volume.primitive_intersections)
}

/// Whether a triangle touches a cube about a cell's centre, with so many units to a cell's side.
fn touches(t: &Triangle, at: Triple, side: i128, reach: i128) -> bool {
    gaps_about(t, at, side, reach).iter().all(|&g| g <= 0)
}

/// Whether a triangle has a cell as a candidate and touches it, by the exact test over whole numbers.
fn hits(t: &Triangle, at: Triple, axes: [u32; 3]) -> bool {
    candidates(t, axes).contains(&at) && touches(t, at, 256, 128)
}

/// Whether rounding can decide about a cell: the triangle, its vertices rounded to whole units, 256 to a cell, touches
/// the cell made larger by a unit on every side, and not the cell made smaller by one. Rounding a vertex moves the
/// triangle by half a unit at most; the other half is for the f32 operations.
fn within_rounding(t: &Triangle, at: Triple) -> bool {
    touches(t, at, 256, 129) && !touches(t, at, 256, 127)
}

/// So many units to a cell's side that the vertices, before 01 rounds them, are whole, save next to 0.
const FINE: i128 = 1 << 24;

fn fine(t: f32) -> i128 {
    (t as f64 * FINE as f64).round() as i128
}

/// What the comparison of a mesh found.
pub struct Compared {
    /// The pairs as they are to be: those that both have, and of the others those of the exact test, by triangle.
    pub pairs: Pairs,
    /// Whether ours are those.
    pub right: bool,
    /// Whether each pair that the stand-in has otherwise is within rounding.
    pub explained: bool,
    /// For each cell of such a pair, whether the stand-in answers as the exact test does of vertices that are not
    /// rounded, so that 01's rounding of vertices makes the difference.
    by_vertex: BTreeMap<usize, bool>,
}

impl Compared {
    /// The marks of a grid of so many cells as they are to be.
    pub fn marks(&self, length: usize) -> Vec<u8> {
        let mut labels = vec![0; length];
        self.pairs.iter().for_each(|&(n, _)| labels[n as usize] = 8);
        labels
    }
}

/// The coordinates of a cell by its number.
fn cell(n: usize, axes: [u32; 3]) -> Triple {
    let [r0, r1, _] = axes.map(|r| r as usize);
    [n % r0, n / r0 % r1, n / r0 / r1].map(|x| x as i128)
}

/// The pairs as numbers in the order of triangles.
fn sorted(pairs: &[(u32, u32)]) -> Vec<u64> {
    let mut all: Vec<u64> = pairs.iter().map(|&(n, t)| (t as u64) << 32 | n as u64).collect();
    all.sort();
    all
}

/// Compares pairs of a cell and a triangle.
pub fn compare_pairs(c: &marks::Case, ours: &[(u32, u32)], theirs: &[(u32, u32)]) -> Compared {
    let (ours, theirs) = (sorted(ours), sorted(theirs));
    let (triangles, unrounded) = (marks::triangles(c), marks::vertices(c, fine));
    let mut all = [&ours[..], &theirs[..]].concat();
    all.sort();
    all.dedup();
    let mut found = Compared { pairs: vec![], right: true, explained: true, by_vertex: BTreeMap::new() };
    for pair in all {
        let (t, n) = ((pair >> 32) as usize, pair as u32 as usize);
        let [in_ours, in_theirs] = [&ours, &theirs].map(|list| list.binary_search(&pair).is_ok());
        let at = cell(n, c.axes);
        let hit = if in_ours == in_theirs { in_ours } else { hits(&triangles[t], at, c.axes) };
        found.right &= hit == in_ours;
        if hit {
            found.pairs.push((n as u32, t as u32));
        }
        if in_ours != in_theirs {
            found.explained &= within_rounding(&triangles[t], at);
            let by_vertex = touches(&unrounded[t], at, FINE, FINE / 2) == in_theirs;
            let cell = found.by_vertex.entry(n).or_insert(by_vertex);
            *cell = if in_ours { *cell && by_vertex } else { *cell || by_vertex };
        }
    }
    found
}

/// Marks and pairs of a mesh compared with the stand-in's; answers the pairs as they are to be.
pub fn compare(tally: &mut Tally, kind: Kind, c: &marks::Case, labels: &[u8], input: impl Fn() -> String) -> Pairs {
    let (theirs, their_pairs) = lifted_marks(c);
    let pairs = our_pairs(c, labels, 2 * their_pairs.len() + labels.len() + 1000);
    let found = compare_pairs(c, &pairs, &their_pairs);
    let same = found.right && found.explained && found.marks(labels.len()) == labels;
    let weight = c.points.len() + c.triangles.len() + c.length;
    let counts = || format!("{}: {} pairs here, {} by f32", input(), pairs.len(), their_pairs.len());
    tally.judge(same, None, their_pairs.len(), weight, counts);
    let stand = tally.stand(kind);
    stand.meshes += 1;
    stand.cells += labels.len() as u64;
    for n in (0..labels.len()).filter(|&n| labels[n] != theirs[n]) {
        let only_f32 = (theirs[n] == 8) as usize;
        stand.only[only_f32] += 1;
        stand.by_vertex += found.by_vertex.get(&n).is_some_and(|&by_vertex| by_vertex) as u64;
        stand.note(only_f32, weight, || format!("cell {:?} of {}", cell(n, c.axes), input()));
    }
    found.pairs
}

#[cfg(test)]
mod tests {
    use super::*;
    use crate::marking::mark;

    /// One triangle that is a point, in the middle of a row of three cells: cells 0 and 2 are off by more than rounding.
    #[test]
    fn far_cells_are_not_explained() {
        let c = marks::dot([1.0, 0.0, 0.0], [3, 1, 1]);
        let found = |ours: &[(u32, u32)], theirs: &[(u32, u32)]| {
            let found = compare_pairs(&c, ours, theirs);
            (found.right, found.explained)
        };
        assert_eq!(found(&[(1, 0)], &[(1, 0)]), (true, true));
        assert_eq!(found(&[(1, 0)], &[(1, 0), (2, 0)]), (true, false));
        assert_eq!(found(&[(1, 0)], &[]), (true, false));
        assert_eq!(found(&[(0, 0), (1, 0)], &[(1, 0)]), (false, false));
    }

    /// The first number that 01 rounds into the next cell: the stand-in misses that cell, and may.
    #[test]
    fn a_rounded_vertex_is_explained() {
        let c = marks::dot([0.498046875, 0.0, 0.0], [2, 1, 1]);
        let found = compare_pairs(&c, &[(0, 0), (1, 0)], &lifted_marks(&c).1);
        assert!(found.right && found.explained && found.by_vertex[&1]);
        assert_eq!(found.marks(2), [8, 8]);
        assert!(!compare_pairs(&c, &[(0, 0)], &[(0, 0), (1, 0)]).right);
    }

    /// A vertex that 01 rounds away from a corner of a cell: the stand-in finds contact there, and may.
    #[test]
    fn a_lost_contact_is_explained() {
        let c = marks::single([[0.001953125, 0.998046875, 0.0], [1.0, 0.0, 0.0], [1.0, 1.0, 0.0]], [3, 3, 3]);
        let surface = |labels: &[u8]| (0..27).filter(|&n| labels[n] == 8).collect::<Vec<_>>();
        let (theirs, their_pairs) = lifted_marks(&c);
        let ours = mark(&mut Tally::default(), &c, true).unwrap();
        assert_eq!((surface(&ours), surface(&theirs)), (vec![1, 3, 4], vec![0, 1, 3, 4]));
        let found = compare_pairs(&c, &our_pairs(&c, &ours, 4), &their_pairs);
        assert!(found.right && found.explained && found.by_vertex[&0]);
    }
}
