//! Writes the stored cases of crates/test_list: its `stdin`, and in `stdout` what is to be answered. Run it in
//! rust/lifted: `cargo run --offline --release --bin test_list -- ../../crates/test_list`.
//!
//! A case is 23 little-endian words: a kind, three axes, the bits of the origin, the scale and the reciprocal, the
//! descriptions of labels, points and triangles (four words each, see `lifted::stored::Row`), the lengths of the
//! outputs for the records and for the triangle numbers; then the stored labels, four to a word, points and triangles.
//! - kind 0: the list with pairs. `listed`: cells, pairs, the records and the triangle numbers if they are few, the
//!   sums of both outputs. `refused`: number, place, the sums of both outputs.
//! - kind 1: the list without pairs, likewise; its one output is that for the records.
//! - kind 2: the part of a list, which is the triangles, from the first to the second axis. A line `fine` or
//!   `refused`, number, place; a line `part`, its length, its numbers if they are few, their sum.
//!
//! Where a list is not refused, cells, flags, ranges and triangle numbers come from the lifted crate's conversion,
//! and a model of document 01's words on lists is asserted to agree. The conversion is given the labels of the case
//! and the pairs of a triangle and a cell 8 that it touches; which those are comes from the model of marking that
//! test_marking uses, since the crate's triangle test is not in the supplied text. Refusals, and what stands in the
//! outputs past an answer, come from models of 01's table; the crate has neither. Ranges come from a model too. The
//! cases chosen by hand come first, then random ones from a fixed seed. How many there are of each family and of
//! each answer is printed.

use lifted::marks::{self, case, changed, dot, down, scaled, single, up, FAR, LEAST, MOST};
use lifted::models::list::{self, part, pairs, Lent, Listed};
use lifted::models::Fault;
use lifted::shapes::Random;
use lifted::stored::{self, bits, blank, bytes, shown, sum, written, Row, Stored};

#[derive(Clone)]
enum Case {
    Pairs(Lent),
    Cells(Lent),
    Range(Row, u32, u32),
}

// ---- what is to be answered

/// Document 01's list: every cell 7 and 8, i outermost and k innermost, each with its triangles, ascending.
fn model(c: &Lent, pairs: &[(u32, u32)]) -> Listed {
    let [r0, r1, r2] = c.mesh.axes;
    let mut of_cell = vec![vec![]; c.labels.len()];
    pairs.iter().for_each(|&(n, t)| of_cell[n as usize].push(t));
    of_cell.iter_mut().for_each(|ts| ts.sort());
    let (mut records, mut list) = (vec![], vec![]);
    for (i, jk) in (0..r0).flat_map(|i| (0..r1 * r2).map(move |jk| (i, jk))) {
        let (j, k) = (jk / r2, jk % r2);
        let n = (i + j * r0 + k * r0 * r1) as usize;
        if c.labels[n] == 7 || c.labels[n] == 8 {
            let start = list.len() as u32;
            list.extend(&of_cell[n]);
            records.push([i, j, k, (c.labels[n] == 8) as u32, start, list.len() as u32]);
        }
    }
    Listed { records, list }
}

/// The list, which document 01's words are asserted to give too.
fn listed(c: &Lent, with_pairs: bool) -> Result<Listed, Fault> {
    let answer = list::listed(c, with_pairs)?;
    let pairs = if with_pairs { pairs(c) } else { vec![] };
    assert_eq!(answer, model(c, &pairs));
    Ok(answer)
}

fn answer_list(c: &Lent, with_pairs: bool) -> String {
    assert_eq!(c.mesh.length, c.labels.len());
    let answer = listed(c, with_pairs).and_then(|a| a.in_room(c));
    let sums = |records: &[u32], list: &[u32]| {
        let of_list = if with_pairs { format!("{} ", sum(list)) } else { String::new() };
        format!("{} {of_list}\n", sum(records))
    };
    match answer {
        Err((number, place)) => {
            format!("refused {number} {place} {}", sums(&blank(c.records), &blank(c.list)))
        }
        Ok(a) => {
            let records = a.records.concat();
            let texts = format!("{}{}", shown(&records), if with_pairs { shown(&a.list) } else { String::new() });
            let after = sums(&written(&records, blank(c.records)), &written(&a.list, blank(c.list)));
            format!("listed {} {} {texts}{after}", a.records.len(), a.list.len())
        }
    }
}

fn answer_range(list: &Row, start: u32, end: u32) -> String {
    let numbers = list.numbers();
    let part = part(&numbers, start, end);
    let check = if part.is_some() { "fine" } else { "refused 15 0 " };
    let part = part.unwrap_or(&[]);
    format!("{check}\npart {} {}{} \n", part.len(), shown(part), sum(part))
}

fn answer(c: &Case) -> String {
    match c {
        Case::Pairs(lent) => answer_list(lent, true),
        Case::Cells(lent) => answer_list(lent, false),
        Case::Range(list, start, end) => answer_range(list, *start, *end),
    }
}

// ---- how a case is stored

fn words(kind: u32, axes: [u32; 3], mesh: &marks::Case, rows: [&Row; 3], outputs: [usize; 2]) -> Vec<u8> {
    let [labels, points, triangles] = rows;
    assert!(labels.length <= stored::CELLS && outputs.iter().all(|&n| n <= stored::MOST));
    let mut out = vec![kind];
    out.extend(axes);
    out.extend(bits(&mesh.origin));
    out.extend(bits(&[mesh.scale, mesh.reciprocal]));
    rows.iter().for_each(|row| out.extend(row.head()));
    out.extend(outputs.map(|n| n as u32));
    let mut out = bytes(&out);
    out.extend(labels.stored.iter().map(|&v| v as u8));
    out.resize(out.len().next_multiple_of(4), 0);
    out.extend(bytes(&points.stored));
    out.extend(bytes(&triangles.stored));
    out
}

fn input(c: &Case) -> Vec<u8> {
    let none = Row::of(&[]);
    match c {
        Case::Range(list, start, end) => {
            words(2, [*start, *end, 0], &case(&[], &[], [0, 0, 0]), [&none, &none, list], [0, 0])
        }
        Case::Pairs(l) | Case::Cells(l) => {
            let labels = Row::of(&l.labels.iter().map(|&v| v as u32).collect::<Vec<_>>());
            let (points, triangles) = (Row::of_floats(&l.mesh.points), Row::of(&l.mesh.triangles));
            let kind = matches!(c, Case::Cells(_)) as u32;
            words(kind, l.mesh.axes, &l.mesh, [&labels, &points, &triangles], [l.records, l.list])
        }
    }
}

// ---- what the families are made of

/// With outputs that have so many numbers more than the answer, or so many if there is none.
fn roomy(mesh: marks::Case, labels: Vec<u8>, records: isize, list: isize) -> Lent {
    let mesh = marks::Case { length: labels.len(), ..mesh };
    let c = Lent { mesh, labels, records: 0, list: 0 };
    let needs = listed(&c, true).map_or((0, 0), |a| (6 * a.records.len(), a.list.len()));
    let length = |need: usize, more: isize| (need as isize + more).max(0) as usize;
    Lent { records: length(needs.0, records), list: length(needs.1, list), ..c }
}

/// With outputs that are just long enough.
fn exact(mesh: marks::Case, labels: Vec<u8>) -> Lent {
    roomy(mesh, labels, 0, 0)
}

/// A grid's labels, each cell in turn the next of some labels.
fn repeated(labels: &[u8], axes: [u32; 3]) -> Vec<u8> {
    let n = axes.iter().product::<u32>() as usize;
    (0..n).map(|c| labels[c % labels.len()]).collect()
}

/// 8 in the cells that a triangle touches, and another label elsewhere.
fn marked(mesh: &marks::Case, other: u8) -> Vec<u8> {
    let mut labels = vec![other; mesh.length];
    marks::touched(mesh).concat().into_iter().for_each(|n| labels[n] = 8);
    labels
}

fn both(out: &mut Vec<Case>, lent: Lent) {
    out.extend([Case::Pairs(lent.clone()), Case::Cells(lent)]);
}

// ---- the families

/// Document 01's sample, and outputs of every kind of length for it.
fn samples(out: &mut Vec<Case>) {
    let mesh = case(&[[0.0; 3], [2.0; 3], [0.5, 0.0, 0.0]], &[[2, 2, 2], [0, 0, 0]], [3, 3, 3]);
    let labels = marked(&mesh, 6);
    let sample = exact(mesh.clone(), labels.clone());
    let records = vec![[0, 0, 0, 1, 0, 2], [1, 0, 0, 1, 2, 3]];
    assert_eq!(listed(&sample, true), Ok(Listed { records, list: vec![0, 1, 0] }));
    both(out, sample);
    for (records, list) in [(-1, 0), (0, -1), (-1, -1), (1, 0), (0, 1), (50, 50), (-12, 0), (0, -3), (-12, -3)] {
        both(out, roomy(mesh.clone(), labels.clone(), records, list));
    }
}

/// Each label alone in a grid and in one cell of it, all labels beside each other, and grids with nothing to list.
fn labels(out: &mut Vec<Case>) {
    let mesh = single([[0.0; 3], [1.0, 0.0, 1.0], [1.0, 1.0, 0.0]], [2, 2, 2]);
    for label in 0..=8 {
        both(out, exact(mesh.clone(), vec![label; 8]));
        both(out, exact(mesh.clone(), changed(vec![6; 8], |l| l[label as usize % 8] = label)));
        both(out, exact(mesh.clone(), changed(vec![8; 8], |l| l[7 - label as usize % 8] = label)));
    }
    let all: Vec<u8> = (0..=8).collect();
    for axes in [[9, 1, 1], [1, 9, 1], [1, 1, 9], [3, 3, 1], [1, 3, 3], [3, 1, 3], [3, 3, 3], [4, 5, 6]] {
        let high = axes.map(|r| r as f32 - 0.75);
        let mesh = single([[0.0; 3], high, [high[0], 0.0, high[2]]], axes);
        both(out, exact(mesh.clone(), repeated(&all, axes)));
        both(out, exact(mesh.clone(), repeated(&[8, 7, 8, 6], axes)));
        both(out, exact(mesh, repeated(&[7, 7, 0, 8, 5], axes)));
    }
}

/// Axes of 1, 2 and up to 256 cells, with triangles from end to end.
fn long_axes(out: &mut Vec<Case>) {
    let grids = [[1, 1, 1], [2, 1, 1], [1, 2, 1], [1, 1, 2], [2, 2, 1], [2, 1, 2], [1, 2, 2], [256, 1, 1]];
    let long = [[1, 256, 1], [1, 1, 256], [255, 2, 1], [256, 2, 2], [2, 256, 2], [2, 2, 256], [16, 16, 16]];
    for axes in grids.into_iter().chain(long) {
        let high = axes.map(|r| r as f32 - 0.75);
        let points = [[-0.25; 3], high, [high[0], -0.25, high[2]], [-0.25, high[1], 0.0]];
        let mesh = case(&points, &[[0, 1, 2], [3, 1, 1], [0, 3, 2]], axes);
        both(out, exact(mesh.clone(), repeated(&[8], axes)));
        both(out, exact(mesh.clone(), repeated(&[7], axes)));
        out.push(Case::Pairs(exact(mesh.clone(), marked(&mesh, 7))));
        out.push(Case::Pairs(exact(mesh, repeated(&[8, 6, 7, 8, 0, 8, 8], axes))));
    }
    for axes in [[256, 256, 1], [256, 1, 256], [1, 256, 256], [40, 40, 40]] {
        let high = axes.map(|r| r as f32 - 0.75);
        let mesh = single([[-0.25; 3], high, [high[0], -0.25, high[2]]], axes);
        both(out, exact(mesh, repeated(&[6, 6, 8, 6, 7, 6, 6], axes)));
    }
}

/// Points and segments for triangles, at centres, faces, edges and corners of cells; triangles in cell faces.
fn degenerate(out: &mut Vec<Case>) {
    let at = [0.5, 1.0, 1.5];
    let all = |mesh: marks::Case| exact(mesh, vec![8; 27]);
    out.extend((0..27).map(|n| Case::Pairs(all(dot([at[n % 3], at[n / 3 % 3], at[n / 9]], [3, 3, 3])))));
    for (p, q) in [([0.5; 3], [1.5; 3]), ([0.5, 0.5, 0.0], [0.5, 0.5, 2.0]), ([2.0, 0.0, 0.0], [0.0, 2.0, 2.0])] {
        out.push(Case::Pairs(all(case(&[p, q], &[[0, 1, 1], [1, 1, 0], [0, 0, 0]], [3, 3, 3]))));
    }
    for turn in 0..3 {
        let mut t = [[0.5, 0.0, 0.0], [0.5, 2.0, 0.5], [0.5, 0.25, 2.0]];
        t.iter_mut().for_each(|v| v.rotate_right(turn));
        out.push(Case::Pairs(all(single(t, [3, 3, 3]))));
        let mut edge = [[0.5, 0.5, 0.0], [0.5, 0.5, 2.0], [0.5, 0.5, 1.0]];
        edge.iter_mut().for_each(|v| v.rotate_right(turn));
        out.push(Case::Pairs(all(single(edge, [3, 3, 3]))));
    }
}

/// Labels that are not the mesh's: cells 8 that nothing touches, and touched cells of every other label.
fn strange(out: &mut Vec<Case>) {
    let points = [[0.0; 3], [3.0, 0.0, 0.0], [0.0, 2.0, 3.0], [3.0, 2.0, 1.0]];
    let mesh = case(&points, &[[0, 1, 2], [1, 2, 3], [3, 3, 0]], [4, 3, 4]);
    let marks = marked(&mesh, 6);
    let turned = |from: u8, to: u8| marks.iter().map(|&v| if v == from { to } else { v }).collect::<Vec<u8>>();
    for label in 0..=8 {
        both(out, exact(mesh.clone(), turned(8, label)));
        both(out, exact(mesh.clone(), turned(6, label)));
        // every second touched cell
        let some = |n: usize, v: u8| if v == 8 && n % 2 == 0 { label } else { 8 };
        both(out, exact(mesh.clone(), marks.iter().enumerate().map(|(n, &v)| some(n, v)).collect()));
    }
    // no triangle at all
    let bare = case(&points, &[], [4, 3, 4]);
    for labels in [&[8][..], &[7], &[8, 7], &[0], &[7, 8, 8, 6, 1]] {
        both(out, exact(bare.clone(), repeated(labels, bare.axes)));
    }
}

/// Many triangles a cell: the same one up to 65,536 times, different ones in one cell, and named in turn.
fn many(out: &mut Vec<Case>) {
    let named = |ts: &[[u32; 3]], n: usize| {
        let points = [[0.0; 3], [1.0, 1.0, 0.0], [0.25, 0.0, 0.25], [0.0, 1.25, 1.0]];
        let triangles: Vec<_> = (0..n).map(|t| ts[t % ts.len()]).collect();
        case(&points, &triangles, [2, 2, 2])
    };
    for (ts, n) in [
        (&[[0, 0, 0]][..], 2), (&[[0, 0, 0], [1, 1, 1]], 7), (&[[0, 1, 2], [0, 1, 2], [2, 3, 0]], 30),
        (&[[0, 1, 3]], 300), (&[[1, 0, 0], [2, 2, 2], [3, 2, 1]], 1000), (&[[0, 1, 2], [3, 3, 3]], 4096),
    ] {
        let mesh = named(ts, n);
        for labels in [[8; 8], [8, 7, 8, 7, 8, 7, 8, 7], [7, 7, 7, 6, 6, 6, 8, 8]] {
            out.push(Case::Pairs(exact(mesh.clone(), labels.to_vec())));
        }
        out.push(Case::Pairs(roomy(mesh.clone(), vec![8; 8], 0, -1)));
    }
    // the greatest number of triangles, and one more
    out.push(Case::Pairs(exact(named(&[[2, 2, 2]], 65536), vec![8; 8])));
    out.push(Case::Pairs(roomy(named(&[[3, 3, 3], [2, 2, 2]], 65536), vec![8; 8], 0, -1)));
    out.push(Case::Pairs(exact(named(&[[2, 2, 2]], 65537), vec![8; 8])));
}

/// Outputs just long enough, longer, one short, far too short and empty, in every pairing.
fn outputs(out: &mut Vec<Case>) {
    let far = case(&[[0.0; 3], [2.0, 1.0, 0.0], [0.0, 1.0, 2.0]], &[[0, 1, 2], [2, 2, 2]], [3, 2, 3]);
    let (mixed, inside) = (repeated(&[8, 7, 6, 8], far.axes), repeated(&[7], far.axes));
    let bare = case(&[[0.0; 3]], &[], [3, 2, 3]);
    for (mesh, labels) in [(&far, mixed.clone()), (&far, inside), (&bare, mixed), (&far, repeated(&[6], far.axes))] {
        for records in [-6, -1, 0, 1, 7] {
            for list in [-2, -1, 0, 1, 7] {
                out.push(Case::Pairs(roomy(mesh.clone(), labels.clone(), records, list)));
            }
            out.push(Case::Cells(roomy(mesh.clone(), labels.clone(), records, 0)));
        }
        for (records, list) in [(-9999, 0), (0, -9999), (-9999, -9999)] {
            both(out, roomy(mesh.clone(), labels.clone(), records, list));
        }
    }
}

/// Refusals 1 to 5 and 10: lengths, numbers, missing points, placements, vertices off the grid.
fn mesh_refusals(out: &mut Vec<Case>) {
    let mesh = case(&[[0.0; 3], [1.0, 0.0, 1.0]], &[[0, 1, 1], [1, 0, 0]], [2, 1, 2]);
    let mut push = |change: &dyn Fn(&mut marks::Case)| {
        out.push(Case::Pairs(roomy(changed(mesh.clone(), change), vec![8; 4], 9, 9)));
    };
    for n in [0, 1, 2, 4, 5] {
        push(&|c| c.points.truncate(n));
        push(&|c| c.triangles.truncate(n));
    }
    for n in [196608, 196609, 196611] {
        push(&|c| (c.points, c.triangles) = (vec![0.0; n], vec![0; 3]));
        push(&|c| (c.points, c.triangles) = (vec![0.0; 3], vec![0; n]));
    }
    for x in [f32::NAN, f32::INFINITY, f32::NEG_INFINITY, up(FAR), -up(FAR), FAR] {
        push(&|c| c.origin[1] = x);
        push(&|c| c.points[4] = x);
        push(&|c| (c.points[1], c.points[5], c.origin[2]) = (x, x, x));
    }
    for (n, name) in [(0, 2), (2, u32::MAX), (3, 2), (5, 9), (5, 1)] {
        push(&|c| c.triangles[n] = name);
    }
    push(&|c| c.triangles = vec![0, 0, 0, 0, 2, 3, 4, 4, 4]);
    for s in [LEAST, down(LEAST), MOST, up(MOST), 0.0, -1.0, f32::NAN, f32::INFINITY] {
        push(&|c| *c = scaled(c.clone(), s));
    }
    for r in [up(1.0), down(1.0), f32::NAN, 0.0, -1.0] {
        push(&|c| c.reciprocal = r);
    }
    for (n, x) in [(0, -0.5), (0, -0.51), (3, 1.49), (3, 1.5), (4, 0.5), (5, 2.0), (2, -FAR), (1, 1.0)] {
        push(&|c| c.points[n] = x);
    }
}

/// Refusals 8, 9 and 11, of both calls: axes, lengths, labels over 8 and which of them is the first.
fn map_refusals(out: &mut Vec<Case>) {
    let mesh = dot([0.0; 3], [2, 2, 2]);
    for (a, r) in (0..3).flat_map(|a| [0, 257, u32::MAX, 65536].map(|r| (a, r))) {
        both(out, roomy(changed(mesh.clone(), |c| c.axes[a] = r), vec![8; 8], 20, 9));
        both(out, roomy(changed(mesh.clone(), |c| (c.axes[a], c.axes[2]) = (r, 300)), vec![9; 8], 20, 9));
    }
    for length in [0, 1, 7, 9, 16] {
        both(out, roomy(mesh.clone(), vec![7; length], 20, 9));
        both(out, roomy(mesh.clone(), vec![10; length], 20, 9));
    }
    for n in 0..8 {
        for (label, other) in [(9, 8), (255, 6), (10, 7)] {
            both(out, roomy(mesh.clone(), changed(vec![other; 8], |l| l[n] = label), 48, 9));
        }
    }
    // the first by cell number: cell (1, 0, 0) is number 1, cell (0, 0, 1) is number 4 and comes first in the list
    for (first, second) in [(1, 4), (2, 4), (1, 2), (3, 4), (0, 7)] {
        both(out, roomy(mesh.clone(), changed(vec![8; 8], |l| (l[first], l[second]) = (200, 9)), 48, 9));
    }
    let large = dot([0.0; 3], [256, 16, 16]);
    both(out, roomy(large, changed(vec![6; 65536], |l| l[65535] = 9), 48, 9));
}

/// Each fault alone, with each other one, and with all after it: the lowest number wins, wherever its place is.
fn priorities(out: &mut Vec<Case>) {
    let faults: [fn(&mut Lent); 12] = [
        |c| c.mesh.points.truncate(5),
        |c| c.mesh.triangles.truncate(5),
        |c| c.mesh.points.clear(),
        |c| c.mesh.origin[2] = f32::NAN,
        |c| c.mesh.points.iter_mut().skip(5).for_each(|x| *x = f32::INFINITY),
        |c| c.mesh.triangles.iter_mut().skip(5).for_each(|n| *n = 2),
        |c| c.mesh.reciprocal = 2.0,
        |c| c.mesh.axes[2] = 257,
        |c| c.labels.push(6),
        |c| c.mesh.points.iter_mut().take(1).for_each(|x| *x = -1.0),
        |c| c.labels[2] = 9,
        |c| (c.records, c.list) = (11, 0),
    ];
    let mesh = case(&[[0.0; 3], [1.0, 1.0, 0.0]], &[[0, 0, 1], [1, 1, 0]], [2, 2, 1]);
    let whole = exact(mesh.clone(), marked(&mesh, 7));
    let faulty = |chosen: &[fn(&mut Lent)]| {
        let c = changed(whole.clone(), |c| chosen.iter().rev().for_each(|fault| fault(c)));
        changed(c, |c| c.mesh.length = c.labels.len())
    };
    for n in 0..faults.len() {
        for other in n..faults.len() {
            out.push(Case::Pairs(faulty(&[faults[n], faults[other]])));
            if n >= 7 {
                out.push(Case::Cells(faulty(&[faults[n], faults[other]])));
            }
        }
        both(out, faulty(&faults[n..]));
        // what stands against a mesh stands not against a map
        out.push(Case::Cells(faulty(&[faults[n]])));
    }
}

/// Ranges that are good, empty, fall back, pass the list, and have the greatest numbers.
fn ranges(out: &mut Vec<Case>) {
    for n in [0, 1, 2, 5, 40] {
        let list: Vec<u32> = (0..n).map(|x| x * x * 1000003 % 65536).collect();
        let ends = [0, 1, n / 2, n.max(1) - 1, n, n + 1, u32::MAX];
        for (a, &start) in ends.iter().enumerate() {
            for (b, &end) in ends.iter().enumerate() {
                if !ends[..a].contains(&start) && !ends[..b].contains(&end) {
                    out.push(Case::Range(Row::of(&list), start, end));
                }
            }
        }
    }
    for (start, end) in [(0, 196620), (196619, 196620), (196620, 196620), (196620, 196621), (7, 196619), (196621, 0)] {
        out.push(Case::Range(Row::repeated(&[5, 65535, u32::MAX], 196620).with(196619, 77), start, end));
    }
}

// ---- random cases

fn damage(c: &mut Lent, rng: &mut Random) {
    let flip = (1 + rng.below(255)) << (8 * rng.below(4));
    let mut pick = |n: usize| rng.below(n.max(1) as u64) as usize;
    let (a, p, t, l) = (pick(3), pick(c.mesh.points.len()), pick(c.mesh.triangles.len()), pick(c.labels.len()));
    let damaged = |x: f32| f32::from_bits(x.to_bits() ^ flip);
    match pick(10) {
        0 => c.mesh.points.truncate(p),
        1 => c.mesh.triangles.truncate(t),
        2 => c.mesh.axes[a] ^= flip,
        3 => c.labels.truncate(l),
        4 => c.mesh.origin[a] = damaged(c.mesh.origin[a]),
        5 => c.mesh = scaled(c.mesh.clone(), damaged(c.mesh.scale)),
        6 => c.mesh.reciprocal = damaged(c.mesh.reciprocal),
        7 => c.mesh.triangles[t] ^= flip,
        8 => c.labels[l] = flip.to_le_bytes().into_iter().max().unwrap(),
        _ => c.mesh.points[p] = damaged(c.mesh.points[p]),
    }
    c.mesh.length = c.labels.len();
}

/// A coordinate on an axis of r cells, a multiple of 1/2, 1/4 or 1/256, or any.
fn coordinate(rng: &mut Random, r: u32) -> f32 {
    let steps = [2, 4, 256, 1 << 20][rng.below(4) as usize];
    rng.below(steps * r as u64) as f32 / steps as f32 - 0.5
}

/// The marks of a mesh, with some labels changed at random, or labels at random.
fn random_labels(rng: &mut Random, mesh: &marks::Case) -> Vec<u8> {
    let mut labels = if marks::refusal(mesh).is_none() { marked(mesh, 6) } else { vec![6; mesh.length] };
    let odds = [0, 4, 20, 256][rng.below(4) as usize];
    for label in labels.iter_mut() {
        if rng.below(256) < odds {
            *label = [8, 7, 6, 8, 7, rng.below(9) as u8][rng.below(6) as usize];
        }
    }
    labels
}

/// Up to six triangles over up to seven points, at several scales; some cases are damaged or get short outputs.
fn random(rng: &mut Random) -> Case {
    let most = [3, 5, 8][rng.below(3) as usize];
    let axes = [0; 3].map(|_| 1 + rng.below(most));
    let (scale, origin) = [(1.0, 0.0), (1.0, 0.0), (0.1, -7.3), (3.0, -100.25)][rng.below(4) as usize];
    let placed = |x: f32| origin + x * scale;
    let points: Vec<_> = (0..2 + rng.below(6)).map(|_| axes.map(|r| placed(coordinate(rng, r)))).collect();
    let mut name = || rng.below(points.len() as u64);
    let triangles: Vec<_> = (0..name()).map(|_| [0; 3].map(|_| name())).collect();
    let mesh = marks::Case { origin: [origin; 3], ..case(&points, &triangles, axes) };
    let mesh = scaled(mesh, scale);
    let labels = random_labels(rng, &mesh);
    let more = [(0, 0), (0, 0), (0, 0), (5, 0), (0, 5), (-1, 0), (0, -1), (3, 3)][rng.below(8) as usize];
    let lent = roomy(mesh, labels, more.0, more.1);
    let hurt = rng.below(5) == 0 && !lent.mesh.triangles.is_empty();
    let lent = if hurt { changed(lent, |c| damage(c, rng)) } else { lent };
    if rng.below(6) == 0 { Case::Cells(lent) } else { Case::Pairs(lent) }
}

fn main() {
    let groups: [(&str, fn(&mut Vec<Case>)); 11] = [
        ("samples", samples), ("labels", labels), ("long axes", long_axes), ("degenerate", degenerate),
        ("strange labels", strange), ("many triangles", many), ("outputs", outputs), ("mesh refused", mesh_refusals),
        ("map refused", map_refusals), ("priorities", priorities), ("ranges", ranges),
    ];
    let stored = |c: &Case| Stored { input: input(c), answer: answer(c) };
    let mut families = stored::by_hand(&groups, stored);
    let mut rng = Random(0x5eed_0011_2026);
    families.push(("random", (0..300).map(|_| stored(&random(&mut rng))).collect()));
    stored::write(&families);
}
