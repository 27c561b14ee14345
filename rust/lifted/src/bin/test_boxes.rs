//! Writes the stored cases of crates/test_boxes: its `stdin`, and in `stdout` what is to be answered. Run it in
//! rust/lifted: `cargo run --offline --release --bin test_boxes -- ../../crates/test_boxes`.
//!
//! A case is 15 little-endian words: three axes, the bits of the origin, the scale and the reciprocal, the asked label,
//! the description of the labels (four words, see `lifted::stored::Row`), the lengths of the outputs for points and
//! triangles; then the stored labels, four to a word.
//! - `boxed`: how many cells, the bits of the points and the triangles if they are few, the sums of both outputs.
//! - `refused`: number, place, the sums of both outputs.
//!
//! Where a call is not refused, points and triangles come from the lifted crate's `to_trimesh`, each number of a
//! triangle made less by 8, which is the one difference that document 01 means; a model of 01's words is asserted
//! to agree. Refusals, and what stands in the outputs past an answer, come from a model of 01's table; the crate has
//! neither. The cases chosen by hand come first, then random ones from a fixed seed. How many there are of each family
//! and of each answer is printed.

use lifted::marks::{changed, down, up, FAR, LEAST, MOST};
use lifted::models::boxes::{boxed, refusal, Case};
use lifted::shapes::Random;
use lifted::stored::{self, bits, blank, blank_floats, bytes, shown, shown_floats, sum, written, Row, Stored};

// ---- what is to be answered

/// Document 01's boxes: along x corners 1, 2, 5 and 6 lie high, along y 2, 3, 6 and 7, along z 4 to 7.
fn model(c: &Case) -> (Vec<u32>, Vec<u32>) {
    let faces = "021 032 456 467 762 723 415 401 651 612 704 730";
    let face: Vec<u32> = faces.chars().filter_map(|digit| digit.to_digit(10)).collect();
    let [r0, r1, r2] = c.axes;
    let all = (0..r0).flat_map(|i| (0..r1).flat_map(move |j| (0..r2).map(move |k| [i, j, k])));
    let cells: Vec<_> = all.filter(|[i, j, k]| c.labels[(i + r0 * (j + r1 * k)) as usize] == c.asked).collect();
    let corner = |cell: [u32; 3], v: u32| {
        let high = [(v + 1) / 2 % 2 == 1, v / 2 % 2 == 1, v / 4 == 1];
        [0, 1, 2].map(|a| c.origin[a] + (cell[a] as f32 + if high[a] { 0.5 } else { -0.5 }) * c.scale)
    };
    let points = cells.iter().flat_map(|&cell| (0..8).flat_map(move |v| corner(cell, v))).collect::<Vec<f32>>();
    let triangles = (0..cells.len() as u32).flat_map(|n| face.iter().map(move |corner| 8 * n + corner));
    (bits(&points), triangles.collect())
}

fn answer(c: &Case) -> String {
    let sums = |points: &[u32], triangles: &[u32]| {
        let after = written(points, blank_floats(c.points));
        format!("{} {} \n", sum(&after), sum(&written(triangles, blank(c.triangles))))
    };
    match boxed(c) {
        Err((number, place)) => format!("refused {number} {place} {}", sums(&[], &[])),
        Ok(boxed) => {
            assert_eq!(boxed, model(c));
            let (points, triangles) = boxed;
            let texts = format!("{}{}", shown_floats(&points), shown(&triangles));
            format!("boxed {} {texts}{}", points.len() / 24, sums(&points, &triangles))
        }
    }
}

fn input(c: &Case) -> Vec<u8> {
    let labels = Row::of(&c.labels.iter().map(|&v| v as u32).collect::<Vec<_>>());
    assert!(c.labels.len() <= stored::CELLS && c.points <= stored::MOST && c.triangles <= stored::MOST);
    let mut out = c.axes.to_vec();
    out.extend(bits(&c.origin));
    out.extend(bits(&[c.scale, c.reciprocal]));
    out.push(c.asked as u32);
    out.extend(labels.head());
    out.extend([c.points as u32, c.triangles as u32]);
    let mut out = bytes(&out);
    out.extend(labels.stored.iter().map(|&v| v as u8));
    out.resize(out.len().next_multiple_of(4), 0);
    out
}

// ---- what the families are made of

/// With outputs that have so many numbers more than the answer, or so many if there is none.
fn roomy(c: Case, points: isize, triangles: isize) -> Case {
    let cells = if refusal(&c).is_none() { c.labels.iter().filter(|&&v| v == c.asked).count() } else { 0 };
    let length = |need: usize, more: isize| (need as isize + more).max(0) as usize;
    Case { points: length(24 * cells, points), triangles: length(36 * cells, triangles), ..c }
}

/// A grid whose cells have these labels in turn, its origin off 0; outputs that are just long enough.
fn grid(axes: [u32; 3], labels: &[u8], asked: u8) -> Case {
    let n = axes.iter().product::<u32>() as usize;
    let labels = (0..n).map(|c| labels[c % labels.len()]).collect();
    let (origin, scale) = ([0.5, -3.0, 100.1], 0.3);
    let c = Case { axes, origin, scale, reciprocal: 1.0 / scale, asked, labels, points: 0, triangles: 0 };
    roomy(c, 0, 0)
}

const ALL: [u8; 9] = [0, 1, 2, 3, 4, 5, 6, 7, 8];

// ---- the families

/// Each label asked of a grid that has all, of one that has only it, of one that lacks it; and labels over 8.
fn labels(out: &mut Vec<Case>) {
    for asked in 0..=8 {
        out.extend([[9, 1, 1], [1, 9, 1], [1, 1, 9], [3, 3, 3], [4, 5, 3]].map(|axes| grid(axes, &ALL, asked)));
        out.push(grid([2, 1, 2], &[asked], asked));
        out.push(grid([2, 2, 2], &[(asked + 1) % 9, (asked + 5) % 9], asked));
        out.push(grid([2, 3, 2], &[8 - asked, asked, 6], asked));
    }
    for asked in [9, 10, 128, 255] {
        out.push(roomy(grid([3, 3, 1], &ALL, asked), 24, 36));
        out.push(roomy(grid([3, 3, 1], &[asked], asked), 24, 36));
    }
}

/// Axes of 1, 2 and up to 256 cells.
fn long_axes(out: &mut Vec<Case>) {
    for axes in [[1, 1, 1], [2, 1, 1], [1, 2, 1], [1, 1, 2], [2, 2, 1], [2, 1, 2], [1, 2, 2], [2, 2, 2], [3, 4, 5]] {
        out.push(grid(axes, &[8], 8));
        out.push(grid(axes, &[7, 8, 6], 8));
        out.push(grid(axes, &[6, 7], 7));
    }
    let long = [[256, 1, 1], [1, 256, 1], [1, 1, 256], [256, 2, 2], [2, 256, 2], [2, 2, 256], [255, 3, 1], [16; 3]];
    for axes in long {
        out.push(grid(axes, &[8], 8));
        out.push(grid(axes, &[7, 8, 6, 6, 8], 8));
    }
    for axes in [[256, 256, 1], [256, 1, 256], [1, 256, 256], [40, 40, 40]] {
        let few: Vec<u8> = (0..31).map(|n| if n % 30 == 7 { 8 } else { 6 }).collect();
        out.push(grid(axes, &few, 8));
        out.push(grid(axes, &few, 7));
        out.push(changed(grid(axes, &[6], 8), |c| *c.labels.last_mut().unwrap() = 8));
        out.push(roomy(out[out.len() - 1].clone(), 0, 0));
    }
}

/// Origins and scales at their ends, where sums are rounded and where they are 0.
fn placements(out: &mut Vec<Case>) {
    let origins = [[0.0; 3], [-0.0; 3], [FAR, -FAR, FAR], [0.1, -0.7, 1e-9], [-0.5, 0.5, -1.5], [1e6, 3.3, -12345.678]];
    for origin in origins {
        for scale in [1.0, LEAST, MOST, 0.1, 1.0 / 3.0, 1234.5] {
            out.push(Case { origin, scale, reciprocal: 1.0 / scale, ..grid([3, 2, 2], &[8, 7, 7, 8, 6], 8) });
            out.push(Case { origin, scale, reciprocal: 1.0 / scale, ..grid([1, 1, 2], &[7, 8], 8) });
        }
    }
}

/// Outputs just long enough, longer, one short, far too short and empty, in every pairing.
fn outputs(out: &mut Vec<Case>) {
    for c in [grid([2, 2, 2], &[8, 7, 6], 8), grid([1, 2, 1], &[7], 7), grid([2, 2, 1], &[6], 8)] {
        for points in [-24, -1, 0, 1, 50] {
            out.extend([-36, -1, 0, 1, 50].map(|triangles| roomy(c.clone(), points, triangles)));
        }
        out.extend([(-9999, 0), (0, -9999), (-9999, -9999)].map(|(p, t)| roomy(c.clone(), p, t)));
    }
}

/// Refusals 3, 5, 8, 9 and 11.
fn refusals(out: &mut Vec<Case>) {
    let whole = || roomy(grid([2, 2, 2], &[8, 7], 8), 0, 0);
    for x in [f32::NAN, f32::INFINITY, f32::NEG_INFINITY, up(FAR), -up(FAR)] {
        out.extend((0..3).map(|a| changed(whole(), |c| c.origin[a] = x)));
    }
    out.push(changed(whole(), |c| c.origin = [0.0, f32::INFINITY, f32::NAN]));
    for scale in [down(LEAST), up(MOST), 0.0, -0.0, -1.0, f32::NAN, f32::INFINITY, f32::from_bits(1), f32::MAX] {
        out.push(Case { scale, reciprocal: 1.0 / scale, ..whole() });
    }
    for reciprocal in [up(1.0 / 0.3), down(1.0 / 0.3), f32::NAN, f32::INFINITY, 0.0, -1.0 / 0.3] {
        out.push(Case { reciprocal, ..whole() });
    }
    for (a, r) in (0..3).flat_map(|a| [0, 257, u32::MAX, 65536].map(|r| (a, r))) {
        out.push(changed(whole(), |c| c.axes[a] = r));
        out.push(changed(whole(), |c| (c.axes[a], c.axes[2]) = (r, 300)));
    }
    for length in [0, 1, 7, 9, 64] {
        out.push(Case { labels: vec![8; length], ..whole() });
        out.push(Case { labels: vec![9; length], ..whole() });
    }
    for n in 0..8 {
        out.extend([9, 255].map(|label| changed(whole(), |c| c.labels[n] = label)));
    }
    // the first by cell number, and the asked label before it
    for (first, second) in [(1, 4), (2, 4), (1, 2), (3, 4), (0, 7)] {
        let c = changed(whole(), |c| (c.labels[first], c.labels[second]) = (200, 9));
        out.extend([c.clone(), Case { asked: 9, ..c.clone() }, Case { asked: 200, ..c }]);
    }
    out.push(changed(grid([256, 16, 16], &[6], 8), |c| c.labels[65535] = 9));
}

/// Each fault alone, with each other one, and with all after it: the lowest number wins, wherever its place is.
fn priorities(out: &mut Vec<Case>) {
    let faults: [fn(&mut Case); 8] = [
        |c| c.origin[2] = f32::NAN,
        |c| c.reciprocal = 2.0,
        |c| c.axes[2] = 257,
        |c| c.labels.push(6),
        |c| c.asked = 11,
        |c| c.labels[2] = 9,
        |c| c.points = 23,
        |c| c.triangles = 35,
    ];
    let whole = grid([2, 2, 1], &[8, 6, 6, 8], 8);
    for n in 0..faults.len() {
        out.extend(faults[n..].iter().map(|other| changed(changed(whole.clone(), other), faults[n])));
        out.push(changed(whole.clone(), |c| faults[n..].iter().for_each(|f| f(c))));
    }
}

fn random(rng: &mut Random) -> Case {
    let most = [2, 4, 7][rng.below(3) as usize];
    let axes = [0; 3].map(|_| 1 + rng.below(most));
    let n = axes.iter().product::<u32>() as usize;
    let kinds = [2, 3, 9][rng.below(3) as usize];
    let labels: Vec<u8> = (0..n).map(|_| 8 - rng.below(kinds) as u8).collect();
    let mut number = || rng.below(1 << 21) as f32 / 1000.0 - 1000.0;
    let (origin, scale) = ([number(), number(), number()], number().abs() / 100.0 + 0.01);
    let c = Case { origin, scale, reciprocal: 1.0 / scale, ..grid(axes, &labels, 8 - rng.below(kinds) as u8) };
    let c = changed(c, |c| match rng.below(12) {
        0 => c.labels[0] = 9 + rng.below(200) as u8,
        1 => c.axes[rng.below(3) as usize] += 1,
        2 => c.reciprocal = up(c.reciprocal),
        3 => c.origin[rng.below(3) as usize] *= 1e7,
        _ => {}
    });
    let (points, triangles) = [(0, 0), (0, 0), (0, 0), (7, 9), (-1, 0), (0, -1)][rng.below(6) as usize];
    roomy(c, points, triangles)
}

fn main() {
    let groups: [(&str, fn(&mut Vec<Case>)); 6] = [
        ("labels", labels), ("long axes", long_axes), ("placements", placements), ("outputs", outputs),
        ("refusals", refusals), ("priorities", priorities),
    ];
    let stored = |c: &Case| Stored { input: input(c), answer: answer(c) };
    let mut families = stored::by_hand(&groups, stored);
    let mut rng = Random(0x5eed_0013_2026);
    families.push(("random", (0..250).map(|_| stored(&random(&mut rng))).collect()));
    stored::write(&families);
}
