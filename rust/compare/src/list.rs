//! Lists, with and without pairs, from the same labels and pairs as the lifted crate's conversion, and ranges of lists.

use crate::calls::{axes_of, fault, placement_of};
use crate::fill;
use crate::guard::Lent;
use crate::maps::{row, tiny};
use crate::marking::mesh_shown;
use crate::meshes;
use crate::random::Random;
use crate::tally::{shown, Case, Tally};
use lifted::marks;
use lifted::models::{list, Fault};
use vesselmap::Records;

pub fn list_cells(tally: &mut Tally, c: &list::Lent) {
    let (labels, mut records) = (Lent::of(&c.labels), Lent::output(c.records));
    let ours = vesselmap::list_cells(labels.read(), axes_of(c.mesh.axes), records.lend());
    let ours = ours.map_err(fault).map(|n| (n.cells, n.pairs));
    let theirs = list::listed(c, false).and_then(|l| l.in_room(c));
    let same = match &theirs {
        Err(f) => ours == Err(*f) && records.untouched(),
        Ok(l) => ours == Ok((l.records.len(), 0)) && records.holds(&l.records.concat()),
    };
    let input = || {
        let room = format!("{} numbers of room", c.records);
        format!("list of axes {:?}, labels {}, {room}: {ours:?}", c.mesh.axes, shown(&c.labels))
    };
    let numbers = theirs.as_ref().map_or(1, |l| 6 * l.records.len());
    tally.judge(same && labels.untouched(), theirs.err(), numbers, c.labels.len(), input);
}

/// The list with pairs; what it is to be is told, since the pairs may come from more than one place.
pub fn list_pairs(tally: &mut Tally, c: &list::Lent, theirs: Result<list::Listed, Fault>) {
    let m = &c.mesh;
    let (points, triangles, labels) = (Lent::of(&m.points), Lent::of(&m.triangles), Lent::of(&c.labels));
    let (mut records, mut list): (Lent<u32>, Lent<u32>) = (Lent::output(c.records), Lent::output(c.list));
    let placement = placement_of(m.origin, m.scale, m.reciprocal);
    let (ps, ts, rs, ls) = (points.read(), triangles.read(), records.lend(), list.lend());
    let ours = vesselmap::list_pairs(ps, ts, axes_of(m.axes), placement, labels.read(), rs, ls);
    let ours = ours.map_err(fault).map(|n| (n.cells, n.pairs));
    let same = match &theirs {
        Err(f) => ours == Err(*f) && records.untouched() && list.untouched(),
        Ok(l) => {
            let counts = ours == Ok((l.records.len(), l.list.len()));
            counts && records.holds(&l.records.concat()) && list.holds(&l.list)
        }
    };
    let read_only = points.untouched() && triangles.untouched() && labels.untouched();
    let input = || {
        let room = format!("{} and {} numbers of room", c.records, c.list);
        format!("list with pairs of {}, labels {}, {room}: {ours:?}", mesh_shown(m), shown(&c.labels))
    };
    let numbers = theirs.as_ref().map_or(1, |l| 6 * l.records.len() + l.list.len());
    let weight = m.points.len() + m.triangles.len() + c.labels.len();
    tally.judge(same && read_only, theirs.err(), numbers, weight, input);
}

/// A range of a list: its check and its part.
pub fn range(tally: &mut Tally, numbers: &[u32], start: u32, end: u32) {
    let lent = Lent::of(numbers);
    let part = list::part(numbers, start, end);
    let check = vesselmap::check_range(lent.read(), start, end).map_err(fault);
    let to_be = if part.is_some() { Ok(()) } else { Err((15, 0)) };
    let handed = vesselmap::list_slice(lent.read(), start, end) == part.unwrap_or(&[]);
    let same = check == to_be && handed && lent.untouched();
    let input = || format!("range {start} to {end} of {}: {check:?}", shown(numbers));
    tally.judge(same, to_be.err(), part.map_or(1, |p| p.len()), numbers.len(), input);
}

/// Our pairs of a cell 8 and a triangle, by cell, with this much room.
pub fn our_pairs(c: &marks::Case, labels: &[u8], room: usize) -> Vec<(u32, u32)> {
    let (mut records, mut list) = (vec![0; 6 * labels.len()], vec![0; room]);
    let placement = placement_of(c.origin, c.scale, c.reciprocal);
    let (axes, rs, ls) = (axes_of(c.axes), &mut records, &mut list);
    let listed = vesselmap::list_pairs(&c.points, &c.triangles, axes, placement, labels, rs, ls);
    let Ok(listed) = listed else { return vec![] };
    let of = |r: vesselmap::Record| {
        let n = axes.number(r.cell).unwrap_or(usize::MAX) as u32;
        vesselmap::list_slice(&list, r.start, r.end).iter().map(move |&t| (n, t)).collect::<Vec<_>>()
    };
    Records::new(&records).iter().take(listed.cells).flat_map(of).collect()
}

/// Labels for the grid of a mesh: its marks, filled in some mode or not, or any, or both mixed.
fn labels(rng: &mut Random, mesh: &marks::Case) -> Vec<u8> {
    let mut marked = vec![0; mesh.length];
    marks::touched(mesh).concat().into_iter().for_each(|n| marked[n] = 8);
    match rng.below(4) {
        0 => marked,
        1 => fill::lifted(mesh.axes, &marked, rng.below(3)),
        2 => marked.iter().map(|_| rng.below(9) as u8).collect(),
        _ => marked.iter().map(|&v| if v == 8 && !rng.one_in(8) { 8 } else { rng.below(9) as u8 }).collect(),
    }
}

/// With outputs as long as the answer, or some numbers longer.
fn roomy(rng: &mut Random, mesh: marks::Case, labels: Vec<u8>) -> list::Lent {
    let c = list::Lent { mesh, labels, records: 0, list: 0 };
    let (cells, pairs) = list::listed(&c, true).map_or((0, 0), |l| (l.records.len(), l.list.len()));
    let more = [0, 0, 1, 5, 6, 40];
    list::Lent { records: 6 * cells + rng.pick(&more), list: pairs + rng.pick(&more), ..c }
}

/// A small mesh with labels and room for its list.
pub fn small(rng: &mut Random) -> list::Lent {
    let (_, mesh) = meshes::small(rng);
    if marks::refusal(&mesh).is_some() {
        return small(rng);
    }
    let labels = labels(rng, &mesh);
    roomy(rng, mesh, labels)
}

/// Every row of labels on a tiny grid.
fn every(tally: &mut Tally, axes: [u32; 3]) {
    let length = axes.iter().product::<u32>() as usize;
    for n in 0..9usize.pow(length as u32) {
        let labels = row(&[0, 1, 2, 3, 4, 5, 6, 7, 8], length, n);
        let mesh = marks::case(&[[0.0; 3]], &[[0, 0, 0]], axes);
        list_cells(tally, &list::Lent { mesh, labels, records: 6 * length, list: 0 });
    }
}

pub fn case(c: &mut Case) {
    if let (0, Some(&axes)) = (c.number % 2, tiny(4).get(c.number as usize / 2)) {
        return every(c.tally, axes);
    }
    let lent = small(&mut c.rng);
    list_cells(c.tally, &lent);
    list_pairs(c.tally, &lent, list::listed(&lent, true).and_then(|l| l.in_room(&lent)));
    let numbers: Vec<u32> = (0..c.rng.below(12)).map(|_| c.rng.bits()).collect();
    for _ in 0..8 {
        let [start, end] = [0; 2].map(|_| c.rng.below(numbers.len() + 2) as u32);
        let far = c.rng.pick(&[end, end, end, u32::MAX, 1 << 31]);
        range(c.tally, &numbers, start, far);
    }
}
