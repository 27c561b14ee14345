//! Classes, planes and splits, against the lifted `classify_primitives`, `refine_axes_aligned_clipping_planes` and
//! `clip_mesh`.

use crate::calls::{fault, placement_of};
use crate::guard::Lent;
use crate::random::Random;
use crate::sizing;
use crate::tally::{shown, Case, Tally};
use lifted::marks::{FAR, LEAST, MOST};
use lifted::models::parts::{self, Planes, DEEP};

pub fn classes(tally: &mut Tally, entries: &[u32], ends: &[u32], count: u64, length: usize) {
    let (lent, lent_ends, mut out) = (Lent::of(entries), Lent::of(ends), Lent::output(length));
    let ours = vesselmap::classify(lent.read(), lent_ends.read(), count as usize, out.lend()).map_err(fault);
    let to_be = parts::faulty_classes(entries, ends, count, length);
    let same = match to_be {
        Some(f) => ours == Err(f) && out.untouched(),
        None => ours == Ok(()) && out.holds(&parts::classified(entries, ends, count as usize)),
    };
    let input = || {
        let room = format!("{count} triangles, {length} numbers of room");
        format!("classes of entries {}, ends {}, {room}: {ours:?}", shown(entries), shown(ends))
    };
    let same = same && lent.untouched() && lent_ends.untouched();
    tally.judge(same, to_be, if to_be.is_none() { count as usize } else { 1 }, entries.len() + ends.len(), input);
}

pub fn planes(tally: &mut Tally, c: &parts::Planes) {
    let mut ds: Lent<f32> = Lent::output(c.length);
    let [axis, low, high, best, step] = [c.axis, c.low, c.high, c.best, c.step].map(|n| n as usize);
    let placement = placement_of(c.origin, c.scale, c.reciprocal);
    let ours = vesselmap::planes(placement, axis, low, high, best, step, ds.lend());
    let ours = ours.map_err(fault).map(|p| (p.first as u64, p.count));
    let to_be = parts::faulty_planes(c);
    let answer: Vec<f32> = if to_be.is_none() { parts::refined(c).iter().map(|p| p.d).collect() } else { vec![] };
    let same = match to_be {
        Some(f) => ours == Err(f) && ds.untouched(),
        None => ours == Ok((parts::first_plane(c), answer.len())) && ds.holds(&answer),
    };
    let input = || {
        let placed = format!("origin {:?}, scale {:?}, reciprocal {:?}", c.origin, c.scale, c.reciprocal);
        let range = format!("axis {axis}, low {low}, high {high}, best {best}, step {step}");
        format!("planes of {placed}, {range}, {} numbers of room: {ours:?}", c.length)
    };
    tally.judge(same, to_be, answer.len() + 2, answer.len(), input);
}

pub fn split(tally: &mut Tally, points: &[f32], axis: u64, d: f32, lengths: [usize; 2]) {
    let lent = Lent::of(points);
    let (mut above, mut below): (Lent<f32>, Lent<f32>) = (Lent::output(lengths[0]), Lent::output(lengths[1]));
    let ours = vesselmap::split(lent.read(), axis as usize, d, above.lend(), below.lend());
    let ours = ours.map_err(fault).map(|s| (s.first, s.second));
    let theirs = parts::split_by(points, axis, d, lengths);
    let floats = |side: &[u32]| side.iter().map(|&b| f32::from_bits(b)).collect::<Vec<f32>>();
    let same = match &theirs {
        Err(f) => ours == Err(*f) && above.untouched() && below.untouched(),
        Ok([a, b]) => {
            let counts = ours == Ok((a.len() / 3, b.len() / 3));
            counts && above.holds(&floats(a)) && below.holds(&floats(b))
        }
    };
    let input = || format!("split of {}, axis {axis}, d {d:?}, room {lengths:?}: {ours:?}", shown(points));
    let numbers = theirs.as_ref().map_or(1, |sides| sides.concat().len());
    tally.judge(same && lent.untouched(), theirs.err(), numbers, points.len(), input);
}

/// Entries and ends that are not refused: each part names some triangles of so many.
pub fn parted(rng: &mut Random) -> (Vec<u32>, Vec<u32>, u64) {
    let count = rng.pick(&[1, 2, 5, 40, 300]);
    let (mut entries, mut ends) = (vec![], vec![]);
    for _ in 0..rng.below(8) {
        entries.extend((0..rng.below(12)).map(|_| rng.below(count) as u32));
        ends.push(entries.len() as u32);
    }
    (entries, ends, count as u64)
}

/// A placement that is not refused: origin, scale and reciprocal.
pub fn placed(rng: &mut Random) -> ([f32; 3], f32, f32) {
    let origin = [0; 3].map(|_| if rng.one_in(4) { rng.near(FAR).min(FAR) } else { rng.float(-20, 19) });
    let scale = match rng.below(4) {
        0 => rng.near(LEAST).max(LEAST),
        1 => rng.near(MOST).min(MOST),
        _ => rng.float(-18, 20).abs(),
    };
    (origin, scale, 1.0 / scale)
}

/// Planes that are not refused, with a d each and some room more.
pub fn about(rng: &mut Random) -> Planes {
    let (origin, scale, reciprocal) = placed(rng);
    let low = rng.below(256);
    let (high, best) = (rng.within(low, 255), rng.below(256));
    let step = rng.pick(&[0, 1, 2, 10, 255, 256]);
    let [axis, low, high, best, step] = [rng.below(3), low, high, best, step].map(|n| n as u64);
    let c = Planes { origin, scale, reciprocal, axis, low, high, best, step, length: 0 };
    Planes { length: parts::refined(&c).len() + rng.pick(&[0, 0, 1, 9]), ..c }
}

/// Points, an axis and a d: that of a point, or about it, or any.
pub fn cut(rng: &mut Random) -> (Vec<f32>, u64, f32) {
    let points = sizing::points(rng);
    let axis = rng.below(3);
    let d = match rng.below(4) {
        0 => rng.float(-149, 29).clamp(-DEEP, DEEP),
        1 => rng.pick(&[0.0, -0.0, DEEP, -DEEP, f32::from_bits(1), -f32::from_bits(1)]),
        _ => {
            let at = -points[3 * rng.below(points.len() / 3) + axis];
            rng.near(at)
        }
    };
    (points, axis as u64, d)
}

pub fn case(c: &mut Case) {
    for _ in 0..16 {
        let (entries, ends, count) = parted(&mut c.rng);
        let length = count as usize + c.rng.pick(&[0, 1, 7]);
        classes(c.tally, &entries, &ends, count, length);
        planes(c.tally, &about(&mut c.rng));
        let (points, axis, d) = cut(&mut c.rng);
        let sides = parts::split_by(&points, axis, d, [usize::MAX; 2]).unwrap_or_default();
        let lengths = sides.map(|side| side.len() + c.rng.pick(&[0, 0, 1, 4]));
        split(c.tally, &points, axis, d, lengths);
    }
}
