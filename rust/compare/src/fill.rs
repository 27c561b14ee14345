//! Fills in all modes: labels, scans and cells left. Every marking of the tiny grids, and random maps.

use crate::calls::{axes_of, fault};
use crate::guard::Lent;
use crate::maps::{self, row, tiny};
use crate::tally::{shown, Case, Tally};
use lifted::models::fill;
use vesselmap::Mode;

const MODES: [Mode; 3] = [Mode::SurfaceOnly, Mode::Flood, Mode::Cavities];

pub fn compare(tally: &mut Tally, axes: [u32; 3], labels: &[u8]) {
    for (mode, lifted_mode) in MODES.into_iter().zip(fill::MODES) {
        let mut lent = Lent::of(labels);
        let ours = vesselmap::fill(lent.lend(), axes_of(axes), mode).map_err(fault);
        let to_be = fill::refusal(axes, labels);
        let same = match to_be {
            Some(f) => ours == Err(f) && lent.untouched(),
            None => {
                let theirs = fill::lifted(axes, labels, lifted_mode);
                let counts = ours.map(|f| (f.scans as u32, f.left)) == Ok((theirs.scans, theirs.left));
                counts && lent.read() == theirs.labels && lent.guards_untouched()
            }
        };
        let input = || format!("{mode:?} of axes {axes:?} and labels {}: {ours:?}, refusal {to_be:?}", shown(labels));
        tally.judge(same, to_be, labels.len() + 2, labels.len(), input);
    }
}

/// The lifted crate's labels of the cells that are 8, in a mode by its number.
pub fn lifted(axes: [u32; 3], labels: &[u8], mode: usize) -> Vec<u8> {
    fill::lifted(axes, labels, fill::MODES[mode]).labels
}

/// Every other case is every marking of the next tiny grid, as long as there is one.
pub fn case(c: &mut Case) {
    let grids = tiny(16);
    if let (0, Some(&axes)) = (c.number % 2, grids.get(c.number as usize / 2)) {
        let length = axes.iter().product::<u32>() as usize;
        (0..1 << length).for_each(|n| compare(c.tally, axes, &row(&[0, 8], length, n)));
        return;
    }
    for _ in 0..4 {
        let marks = maps::marks(&mut c.rng, c.size);
        compare(c.tally, marks.axes, &marks.labels);
    }
}
