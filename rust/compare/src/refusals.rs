//! Damaged copies of good inputs, for each call and each number that it can give: which number and place it gives, and
//! that every lent number is then as it was. A damaged input that is still taken must be answered as any other.

use crate::maps;
use crate::parts::{about, classes, cut, parted, planes, split};
use crate::random::Random;
use crate::sizing::{points, size, way, Way};
use crate::tally::Case;
use crate::{boxes, edits, fill, list, marking, meshes, program};
use lifted::marks::{self, up, FAR, LEAST, MOST};
use lifted::models::edits::{Edit, CLOSE, OPEN};
use lifted::models::list as lists;
use lifted::models::parts::DEEP;

/// A number that is refused, or one with some bits changed.
fn damaged(rng: &mut Random, x: f32) -> f32 {
    let bad = [f32::NAN, f32::from_bits(0xff80_0001), f32::INFINITY, f32::NEG_INFINITY, up(FAR), -up(FAR), f32::MAX];
    match rng.below(3) {
        0 => f32::from_bits(x.to_bits() ^ 1 << rng.below(32)),
        _ => rng.pick(&bad),
    }
}

/// One of the numbers damaged, if there are any.
fn damage_one(rng: &mut Random, numbers: &mut [f32]) {
    if !numbers.is_empty() {
        let n = rng.below(numbers.len());
        numbers[n] = damaged(rng, numbers[n]);
    }
}

/// A length that is no multiple of 3, none, the most, or one more than the most.
fn damage_length<T: Copy>(rng: &mut Random, list: &mut Vec<T>, filling: T) {
    match rng.below(16) {
        0..=6 => drop(list.pop()),
        7..=12 => list.push(filling),
        13 | 14 => list.clear(),
        _ => list.resize(rng.pick(&[196_607, 196_608, 196_611]), filling),
    }
}

fn damage_axes(rng: &mut Random, axes: &mut [u32; 3]) {
    let a = rng.below(3);
    axes[a] = rng.pick(&[0, 257, axes[a] + 1, axes[a] - 1, u32::MAX, 256, 1 << 16]);
}

fn damage_placement(rng: &mut Random, origin: &mut [f32; 3], scale: &mut f32, reciprocal: &mut f32) {
    match rng.below(4) {
        0 => damage_one(rng, origin),
        1 => *reciprocal = rng.near(*reciprocal),
        2 => {
            let limit = rng.pick(&[LEAST, MOST, 0.0]);
            (*scale, *reciprocal) = (rng.near(limit), 1.0 / limit);
        }
        _ => {
            *scale = damaged(rng, *scale);
            *reciprocal = 1.0 / *scale;
        }
    }
}

/// A number of a vertex set about the lower or the upper end of the grid.
fn off_the_grid(rng: &mut Random, c: &mut marks::Case) {
    let (v, a) = (c.triangles[rng.below(c.triangles.len())] as usize, rng.below(3));
    let end = rng.pick(&[-0.5, -0.501953125, -1.0, c.axes[a] as f32 - 0.5, c.axes[a] as f32 - 0.501953125]);
    if let Some(x) = c.points.get_mut(3 * v + a) {
        *x = rng.near(c.origin[a] + end * c.scale);
    }
}

fn damage_mesh(rng: &mut Random, c: &mut marks::Case) {
    match rng.below(9) {
        0 => damage_length(rng, &mut c.points, 1.0),
        1 => damage_length(rng, &mut c.triangles, 0),
        2 | 3 => damage_one(rng, &mut c.points),
        4 => {
            let (n, missing) = (rng.below(c.triangles.len()), c.points.len() as u32 / 3);
            c.triangles[n] = rng.pick(&[missing, missing + 1, u32::MAX, 0]);
        }
        5 => damage_placement(rng, &mut c.origin, &mut c.scale, &mut c.reciprocal),
        6 => damage_axes(rng, &mut c.axes),
        7 => off_the_grid(rng, c),
        _ => c.length = rng.pick(&[c.length + 1, c.length - 1, 0, 2 * c.length]),
    }
}

/// A length off by one, or a label that the call does not take.
fn damage_labels(rng: &mut Random, labels: &mut Vec<u8>) {
    match rng.below(4) {
        0 => drop(labels.pop()),
        1 => labels.push(0),
        _ => {
            let n = rng.below(labels.len());
            labels[n] = rng.pick(&[0, 1, 5, 6, 7, 8, 9, 255]);
        }
    }
}

fn sizes(c: &mut Case) {
    let mut points = points(&mut c.rng);
    let mut way = way(&mut c.rng, &points);
    match c.rng.below(3) {
        0 => damage_length(&mut c.rng, &mut points, 1.0),
        1 => damage_one(&mut c.rng, &mut points),
        _ => {
            way = match way {
                Way::Size(x) => Way::Size(damaged(&mut c.rng, x)),
                Way::Resolution(_) => Way::Resolution(c.rng.pick(&[0, 1, 255, 256, u32::MAX])),
            }
        }
    }
    size(c.tally, &points, way);
}

fn marks_of(c: &mut Case) {
    let (_, mut mesh) = meshes::small(&mut c.rng);
    for _ in 0..c.rng.within(1, 2) {
        if !mesh.triangles.is_empty() && mesh.length > 0 {
            damage_mesh(&mut c.rng, &mut mesh);
        }
    }
    marking::mark(c.tally, &mesh, true);
}

fn fills(c: &mut Case) {
    let mut marks = maps::marks(&mut c.rng, c.size.min(10));
    match c.rng.below(3) {
        0 => damage_axes(&mut c.rng, &mut marks.axes),
        _ => damage_labels(&mut c.rng, &mut marks.labels),
    }
    fill::compare(c.tally, marks.axes, &marks.labels);
}

fn edits_of(c: &mut Case) {
    let marks = maps::marks(&mut c.rng, c.size.min(10));
    let (mut axes, mut labels) = (marks.axes, fill::lifted(marks.axes, &marks.labels, 1));
    let mut cell = axes.map(|r| c.rng.below(r as usize) as u32);
    match c.rng.below(4) {
        0 => damage_axes(&mut c.rng, &mut axes),
        1 => damage_labels(&mut c.rng, &mut labels),
        2 => {
            let a = c.rng.below(3);
            cell[a] = c.rng.pick(&[axes[a], 256, u32::MAX]);
        }
        _ => {}
    }
    for way in [OPEN, CLOSE] {
        edits::compare(c.tally, axes, &mut labels, Edit { way, cell });
    }
}

fn lists_of(c: &mut Case) {
    let mut lent = list::small(&mut c.rng);
    match c.rng.below(5) {
        0 => damage_mesh(&mut c.rng, &mut lent.mesh),
        1 => damage_labels(&mut c.rng, &mut lent.labels),
        2 => damage_axes(&mut c.rng, &mut lent.mesh.axes),
        3 => lent.records = c.rng.below(lent.records + 1),
        _ => lent.list = c.rng.below(lent.list + 1),
    }
    lent.mesh.length = lent.labels.len();
    let to_be = lists::listed(&lent, true).and_then(|l| l.in_room(&lent));
    list::list_pairs(c.tally, &lent, to_be);
    list::list_cells(c.tally, &lent);
}

fn classes_of(c: &mut Case) {
    let (mut entries, mut ends, mut count) = parted(&mut c.rng);
    let mut length = count as usize;
    match c.rng.below(6) {
        0 => count = c.rng.pick(&[65_536, 65_537, 1 << 32, u64::MAX]),
        1 => entries.push(c.rng.pick(&[count as u32, u32::MAX, 0])),
        2 => length = c.rng.below(length),
        3 => drop(ends.pop()),
        4 => {
            let end = entries.len() as u32;
            ends.push(c.rng.pick(&[0, end + 1, end, u32::MAX]));
        }
        _ => ends.iter_mut().take(1).for_each(|end| *end += 3),
    }
    if c.rng.one_in(50) {
        ends = vec![entries.len() as u32; c.rng.pick(&[65_535, 65_536])];
    }
    classes(c.tally, &entries, &ends, count, length);
}

fn planes_of(c: &mut Case) {
    let mut about = about(&mut c.rng);
    match c.rng.below(8) {
        0 => about.axis = c.rng.pick(&[3, 4, u64::MAX]),
        1 => about.low = c.rng.pick(&[255, 256, about.high + 1, u64::MAX]),
        2 => about.high = c.rng.pick(&[0, 256, u64::MAX]),
        3 => about.best = c.rng.pick(&[256, 1 << 32, u64::MAX]),
        4 => about.step = c.rng.pick(&[257, u64::MAX]),
        5 => about.length = about.length.saturating_sub(c.rng.within(1, 10)),
        _ => damage_placement(&mut c.rng, &mut about.origin, &mut about.scale, &mut about.reciprocal),
    }
    planes(c.tally, &about);
}

fn splits(c: &mut Case) {
    let (mut points, mut axis, mut d) = cut(&mut c.rng);
    let mut lengths = [points.len(); 2];
    match c.rng.below(5) {
        0 => damage_length(&mut c.rng, &mut points, 1.0),
        1 => damage_one(&mut c.rng, &mut points),
        2 => axis = c.rng.pick(&[3, 4, u64::MAX]),
        3 => d = c.rng.pick(&[up(DEEP), -up(DEEP), f32::NAN, f32::INFINITY]),
        _ => lengths = [0; 2].map(|_| c.rng.below(points.len() + 1)),
    }
    split(c.tally, &points, axis, d, lengths);
}

fn boxes_of(c: &mut Case) {
    let mut boxed = boxes::small(&mut c.rng);
    match c.rng.below(6) {
        0 => damage_axes(&mut c.rng, &mut boxed.axes),
        1 => damage_labels(&mut c.rng, &mut boxed.labels),
        2 => boxed.asked = c.rng.pick(&[9, 10, 255]),
        3 => boxed.points = c.rng.below(boxed.points + 1),
        4 => boxed.triangles = c.rng.below(boxed.triangles + 1),
        _ => damage_placement(&mut c.rng, &mut boxed.origin, &mut boxed.scale, &mut boxed.reciprocal),
    }
    boxes::compare(c.tally, &boxed);
}

fn programs(c: &mut Case) {
    let mut stream = program::whole(&mut c.rng);
    program::damage(&mut c.rng, &mut stream);
    let length = c.rng.pick(&[0, 9, 10, 11, 60, 256]);
    program::compare(c.tally, &stream, length);
}

pub fn case(c: &mut Case) {
    let calls = [sizes, marks_of, fills, edits_of, lists_of, classes_of, planes_of, splits, boxes_of, programs];
    calls[c.number as usize % calls.len()](c);
}
