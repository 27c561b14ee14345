//! Openings and closings. Every map of the tiny grids is compared with a model of 01's section Edits, and long random
//! sequences, refused edits among them, with a fresh fill by the lifted crate after each edit.

use crate::calls::{axes_of, cell_of, fault};
use crate::guard::Lent;
use crate::maps::{self, cells, row, tiny};
use crate::random::Random;
use crate::tally::{shown, Case, Tally};
use lifted::models::edits::{self, Edit, Map, CLOSE, INSIDE, OPEN, OUTSIDE, SURFACE};
use lifted::models::{fill, Fault};

/// One edit: a refusal must be the model's and leave every byte; an answer must count the labels that differ, leave the
/// guards, and be `right` of the labels before and after. The labels become those after it.
fn judge(tally: &mut Tally, axes: [u32; 3], labels: &mut Vec<u8>, e: Edit, right: impl Fn(&[u8], &[u8]) -> bool) {
    let mut lent = Lent::of(labels);
    let ours = edited(&mut lent, axes, e);
    let to_be = edits::refusal(axes, labels, e);
    let same = match to_be {
        Some(f) => ours == Err(f) && lent.untouched(),
        None => {
            let after = lent.read();
            ours == Ok(differing(after, labels)) && right(labels, after) && lent.guards_untouched()
        }
    };
    let input = || format!("way {} of cell {:?}, axes {axes:?}, labels {}: {ours:?}", e.way, e.cell, shown(labels));
    tally.judge(same, to_be, labels.len() + 1, labels.len(), input);
    labels.copy_from_slice(lent.read());
}

/// An edit of any map, compared with the model of 01's section Edits; the labels become those after it.
pub fn compare(tally: &mut Tally, axes: [u32; 3], labels: &mut Vec<u8>, e: Edit) {
    judge(tally, axes, labels, e, |before, after| {
        let mut map = Map { axes: axes.map(|r| r as usize), labels: before.to_vec() };
        let c = map.number(e.cell.map(|x| x as usize));
        if e.way == edits::OPEN {
            map.open(c);
        } else {
            map.close(c);
        }
        map.labels == after
    });
}

/// Opens or closes; answers how many labels are said to have changed.
fn edited(lent: &mut Lent<u8>, axes: [u32; 3], e: Edit) -> Result<usize, Fault> {
    let answer = match e.way {
        edits::OPEN => vesselmap::open(lent.lend(), axes_of(axes), cell_of(e.cell)),
        _ => vesselmap::close(lent.lend(), axes_of(axes), cell_of(e.cell)),
    };
    answer.map_err(fault)
}

fn differing(a: &[u8], b: &[u8]) -> usize {
    a.iter().zip(b).filter(|(v, w)| v != w).count()
}

/// Every map of a tiny grid, each cell of it opened and closed.
fn every(tally: &mut Tally, axes: [u32; 3]) {
    let length = axes.iter().product::<u32>() as usize;
    for n in 0..3usize.pow(length as u32) {
        let map = row(&[OUTSIDE, INSIDE, SURFACE], length, n);
        for (cell, way) in cells(axes).flat_map(|cell| [(cell, OPEN), (cell, CLOSE)]) {
            compare(tally, axes, &mut map.clone(), Edit { way, cell });
        }
    }
}

/// A random edit: mostly one that is not refused, at a surface cell as often as at another.
fn random_edit(rng: &mut Random, axes: [u32; 3], labels: &[u8]) -> Edit {
    let near = rng.one_in(2);
    let mut n = rng.below(labels.len());
    for _ in 0..20 {
        if near == (labels[n] == SURFACE) {
            break;
        }
        n = rng.below(labels.len());
    }
    let [r0, r1, _] = axes.map(|r| r as usize);
    let mut cell = [n % r0, n / r0 % r1, n / r0 / r1].map(|x| x as u32);
    let kind = if labels[n] == SURFACE { OPEN } else { CLOSE };
    match rng.below(20) {
        0 => Edit { way: 1 - kind, cell },
        1 => {
            let a = rng.below(3);
            cell[a] = rng.pick(&[axes[a], axes[a] + 1, 256, u32::MAX]).max(axes[a]);
            Edit { way: kind, cell }
        }
        _ => Edit { way: kind, cell },
    }
}

/// Whether an opening changed only its cell and Inside cells joined to it, to Outside or, alone, to Inside; a closing
/// only its cell, and Outside cells that were joined to it, to Inside. Joined: through cells that changed too.
fn only_joined(axes: [u32; 3], before: &[u8], after: &[u8], e: Edit) -> bool {
    let changed: Vec<u8> = before.iter().zip(after).map(|(v, w)| (v != w) as u8).collect();
    let map = Map { axes: axes.map(|r| r as usize), labels: changed };
    let c = map.number(e.cell.map(|x| x as usize));
    let (from, to) = if e.way == OPEN { (INSIDE, OUTSIDE) } else { (OUTSIDE, INSIDE) };
    let others = (0..before.len()).filter(|&n| n != c && map.labels[n] == 1);
    if !others.clone().all(|n| before[n] == from && after[n] == to) {
        return false;
    }
    if e.way == OPEN {
        let reached = map.reached(vec![c], |v| v == 1);
        return (after[c] == to || after[c] == from) && others.clone().all(|n| reached[n]);
    }
    let was = Map { labels: before.to_vec(), ..map };
    let reached = was.reached(vec![c], |v| v == OUTSIDE);
    after[c] == SURFACE && others.clone().all(|n| reached[n])
}

/// One edit of a map that is a fill, compared with a fresh fill by the lifted crate if asked.
fn step(tally: &mut Tally, axes: [u32; 3], labels: &mut Vec<u8>, e: Edit, fresh: bool) {
    judge(tally, axes, labels, e, |before, after| {
        let filled = !fresh || fill::lifted(axes, after, fill::FLOOD).labels == after;
        filled && only_joined(axes, before, after, e)
    });
}

/// A long sequence of edits of a fill, shorter on a large grid, where only every eighth map, and the last, is filled
/// afresh.
fn sequence(c: &mut Case) {
    let marks = maps::marks(&mut c.rng, c.size);
    let (axes, mut labels) = (marks.axes, fill::lifted(marks.axes, &marks.labels, fill::FLOOD).labels);
    let (most, seldom) = (4 + 10_000_000 / labels.len(), if labels.len() > 4000 { 8 } else { 1 });
    let edits = c.rng.pick(&[20, 100, 400]).min(most);
    for n in 1..=edits {
        let e = random_edit(&mut c.rng, axes, &labels);
        step(c.tally, axes, &mut labels, e, n % seldom == 0 || n == edits);
    }
}

/// Edits of a map that is no fill.
fn unfilled(c: &mut Case) {
    let marks = maps::marks(&mut c.rng, c.size.min(12));
    let inside = c.rng.within(1, 9);
    let axes = marks.axes;
    let mut labels = marks.labels;
    for label in labels.iter_mut().filter(|v| **v == 0) {
        *label = if c.rng.below(10) < inside { INSIDE } else { OUTSIDE };
    }
    for _ in 0..20 {
        let e = random_edit(&mut c.rng, axes, &labels);
        compare(c.tally, axes, &mut labels, e);
    }
}

/// Every other case is every map of the next tiny grid, as long as there is one.
pub fn case(c: &mut Case) {
    match (c.number % 2, tiny(8).get(c.number as usize / 2)) {
        (0, Some(&axes)) => every(c.tally, axes),
        _ if c.rng.one_in(4) => unfilled(c),
        _ => sequence(c),
    }
}
