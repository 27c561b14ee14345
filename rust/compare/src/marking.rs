//! Marks of small meshes, compared with the plain model of 01's marking over exact whole numbers, and counted beside the
//! f32 stand-in. Every triangle over four places an axis on a grid of eight cells, and random ones.

use crate::calls::{axes_of, fault, placement_of};
use crate::guard::Lent;
use crate::meshes;
use crate::stand;
use crate::tally::{shown, Case, Kind, Tally};
use lifted::marks;

const PLACES: Kind = "every triangle over four places an axis";

/// Marks, compared with the plain model of 01's marking where that is asked for; answers the labels.
pub fn mark(tally: &mut Tally, c: &marks::Case, with_model: bool) -> Option<Vec<u8>> {
    let (points, triangles) = (Lent::of(&c.points), Lent::of(&c.triangles));
    let mut labels: Lent<u8> = Lent::output(c.length);
    let placement = placement_of(c.origin, c.scale, c.reciprocal);
    let ours = vesselmap::mark(points.read(), triangles.read(), axes_of(c.axes), placement, labels.lend());
    let ours = ours.map_err(fault);
    let to_be = marks::refusal(c);
    let read_only = points.untouched() && triangles.untouched();
    let same = match to_be {
        Some(f) => ours == Err(f) && labels.untouched(),
        None if with_model => ours == Ok(()) && labels.holds(&marked(c)),
        None => ours == Ok(()) && labels.guards_untouched(),
    };
    let input = || format!("marking {}: {ours:?}, to be {to_be:?}", mesh_shown(c));
    let weight = c.points.len() + c.triangles.len() + c.length.min(1 << 24);
    tally.judge(same && read_only, to_be, if with_model { c.length } else { 0 }, weight, input);
    ours.is_ok().then(|| labels.read().to_vec())
}

fn marked(c: &marks::Case) -> Vec<u8> {
    let mut labels = vec![0; c.length];
    marks::touched(c).concat().into_iter().for_each(|n| labels[n] = 8);
    labels
}

pub fn mesh_shown(c: &marks::Case) -> String {
    let (points, triangles) = (shown(&c.points), shown(&c.triangles));
    let placed = format!("origin {:?}, scale {:?}, reciprocal {:?}", c.origin, c.scale, c.reciprocal);
    format!("points {points}, triangles {triangles}, axes {:?}, {placed}, {} labels", c.axes, c.length)
}

/// Marks compared with the model, and where they are not refused, marks and pairs with the stand-in's.
fn compare(tally: &mut Tally, kind: Kind, c: &marks::Case) {
    if let Some(labels) = mark(tally, c, true) {
        stand::compare(tally, kind, c, &labels, || mesh_shown(c));
    }
}

/// The triangles whose coordinates are the border, the first number that is rounded into the next cell, the face
/// between two cells, and a centre: those whose first vertex is the n-th of all 64, and no other vertex before it.
fn numbered(n: usize) -> impl Iterator<Item = marks::Case> {
    let places = [-0.5, 0.498046875, 0.5, 1.0];
    let vertex = move |n: usize| [places[n % 4], places[n / 4 % 4], places[n / 16]];
    (n..64).flat_map(move |m| (m..64).map(move |l| marks::single([n, m, l].map(vertex), [2, 2, 2])))
}

/// Every other case is some of the triangles over the places, as long as there are any.
pub fn case(c: &mut Case) {
    if c.number % 2 == 0 && c.number < 128 {
        numbered(c.number as usize / 2).for_each(|mesh| compare(c.tally, PLACES, &mesh));
        return;
    }
    for _ in 0..64 {
        let (kind, mesh) = meshes::small(&mut c.rng);
        compare(c.tally, kind, &mesh);
    }
}
