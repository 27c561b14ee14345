//! The program over streams of records: what is said of an input, with number and place, and the text that is written.

use crate::calls::fault;
use crate::guard::Lent;
use crate::random::Random;
use crate::tally::{shown, Case, Tally};
use lifted::models::program::{self, head, stream};
use lifted::vessels::VESSELS;

/// What is said of an input, and the text, in an output of this length.
pub fn compare(tally: &mut Tally, stream: &[u8], length: usize) {
    let lent = Lent::of(stream);
    let theirs = program::summarize(stream);
    let text = program::text(&theirs);
    let ours = vesselmap::summarize(lent.read()).map_err(fault).map(|s| program::Summary {
        axes: [s.axes.r0, s.axes.r1, s.axes.r2].map(|r| r as u32),
        outside: s.outside,
        inside: s.inside,
        surface: s.surface,
        left: s.left,
        scans: s.scans,
    });
    let input = || format!("program's input {}: {ours:?}", shown(stream));
    tally.judge(ours == theirs && lent.untouched(), theirs.as_ref().err().copied(), 8, stream.len(), input);
    let mut output: Lent<u8> = Lent::output(length);
    let ran = vesselmap::run(lent.read(), output.lend()).map_err(fault);
    let to_be = (length < text.len()).then_some((14, 0));
    let same = match to_be {
        Some(f) => ran == Err(f) && output.untouched(),
        None => ran == Ok(text.len()) && output.holds(text.as_bytes()),
    };
    let input = || format!("program's run of {} with {length} bytes of room: {ran:?}", shown(stream));
    tally.judge(same && lent.untouched(), to_be, text.len(), stream.len(), input);
}
fn triples<T: Copy>(list: &[T]) -> Vec<[T; 3]> {
    list.chunks(3).map(|c| [c[0], c[1], c[2]]).collect()
}

/// A stream that is read to its end: a coarse vessel, of which some have too many points, or a few triangles.
pub fn whole(rng: &mut Random) -> Vec<u8> {
    let mode = rng.below(3) as u8;
    let resolution = if rng.one_in(16) { rng.within(2, 24) } else { rng.within(2, 8) } as u32;
    let steps = rng.pick(&[1, 4, 256, 100_000]);
    if rng.one_in(8) {
        let (points, triangles) = rng.pick(&VESSELS).1(8);
        return stream(head(1, mode, resolution), &triples(&points), &triples(&triangles));
    }
    let points: Vec<[f32; 3]> =
        (0..rng.within(2, 8)).map(|_| [0; 3].map(|_| rng.below(6 * steps) as f32 / steps as f32 - 1.5)).collect();
    let triangles: Vec<[u32; 3]> =
        (0..rng.within(0, 12)).map(|_| [0; 3].map(|_| rng.below(points.len()) as u32)).collect();
    let size = rng.within(60, 400) as f32 / 100.0;
    let head = if rng.one_in(2) { head(0, mode, size.to_bits()) } else { head(1, mode, resolution) };
    stream(head, &points, &triangles)
}

/// A byte changed, lost or too many, or the end cut off.
pub fn damage(rng: &mut Random, stream: &mut Vec<u8>) {
    let place = rng.below(stream.len());
    match rng.below(5) {
        0 => stream.truncate(place),
        1 => drop(stream.remove(place)),
        2 => stream.insert(place, rng.bits() as u8),
        3 => stream[place % 8] ^= 1 << rng.below(8),
        _ => stream[place] ^= rng.within(1, 255) as u8,
    }
}

pub fn case(c: &mut Case) {
    let stream = whole(&mut c.rng);
    let text = program::text(&program::summarize(&stream)).len();
    let length = c.rng.pick(&[text, text, text - 1, 256, 300]);
    compare(c.tally, &stream, length);
}
