//! Boxes of cells, bit for bit against the lifted `to_trimesh`, each number of its triangles made less by 8.

use crate::calls::{axes_of, fault, placement_of};
use crate::guard::Lent;
use crate::maps::{row, tiny};
use crate::parts::placed;
use crate::random::Random;
use crate::tally::{shown, Case, Tally};
use lifted::models::boxes;

pub fn compare(tally: &mut Tally, c: &boxes::Case) {
    let labels = Lent::of(&c.labels);
    let (mut points, mut triangles): (Lent<f32>, Lent<u32>) = (Lent::output(c.points), Lent::output(c.triangles));
    let (placement, ps, ts) = (placement_of(c.origin, c.scale, c.reciprocal), points.lend(), triangles.lend());
    let ours = vesselmap::boxes(labels.read(), axes_of(c.axes), placement, c.asked, ps, ts).map_err(fault);
    let theirs = boxes::boxed(c);
    let same = match &theirs {
        Err(f) => ours == Err(*f) && points.untouched() && triangles.untouched(),
        Ok((p, t)) => {
            let floats: Vec<f32> = p.iter().map(|&b| f32::from_bits(b)).collect();
            ours == Ok(p.len() / 24) && points.holds(&floats) && triangles.holds(t)
        }
    };
    let input = || {
        let placed = format!("origin {:?}, scale {:?}, reciprocal {:?}", c.origin, c.scale, c.reciprocal);
        let room = format!("{} and {} numbers of room", c.points, c.triangles);
        let asked = format!("label {} of axes {:?}, labels {}", c.asked, c.axes, shown(&c.labels));
        format!("boxes of {asked}, {placed}, {room}: {ours:?}")
    };
    let numbers = theirs.as_ref().map_or(1, |(p, t)| p.len() + t.len());
    tally.judge(same && labels.untouched(), theirs.err(), numbers, c.labels.len(), input);
}

/// With outputs as long as the answer, or some numbers longer.
fn roomy(rng: &mut Random, axes: [u32; 3], labels: Vec<u8>, asked: u8) -> boxes::Case {
    let (origin, scale, reciprocal) = placed(rng);
    let cells = labels.iter().filter(|&&v| v == asked).count();
    let (points, triangles) = (24 * cells + rng.pick(&[0, 0, 1, 30]), 36 * cells + rng.pick(&[0, 0, 1, 30]));
    boxes::Case { axes, origin, scale, reciprocal, asked, labels, points, triangles }
}

/// A small map of any labels, and one that is asked for.
pub fn small(rng: &mut Random) -> boxes::Case {
    let most = rng.pick(&[1, 2, 4, 9]);
    let mut axes = [0; 3].map(|_| rng.within(1, most) as u32);
    if rng.one_in(6) {
        axes[rng.below(3)] = 256;
    }
    let labels = (0..axes.iter().product::<u32>()).map(|_| rng.below(9) as u8).collect();
    let asked = rng.below(9) as u8;
    roomy(rng, axes, labels, asked)
}

pub fn case(c: &mut Case) {
    if let (0, Some(&axes)) = (c.number % 2, tiny(3).get(c.number as usize / 2)) {
        let length = axes.iter().product::<u32>() as usize;
        for n in 0..9usize.pow(length as u32) {
            let labels = row(&[0, 1, 2, 3, 4, 5, 6, 7, 8], length, n);
            let asked = c.rng.below(9) as u8;
            let boxed = roomy(&mut c.rng, axes, labels, asked);
            compare(c.tally, &boxed);
        }
        return;
    }
    for _ in 0..8 {
        let boxed = small(&mut c.rng);
        compare(c.tally, &boxed);
    }
}
