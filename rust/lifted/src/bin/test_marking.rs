//! Writes the stored cases of crates/test_marking: its `stdin`, and in `stdout` what a plain model of document
//! 01's marking answers. Run it in rust/lifted:
//! `cargo run --offline --release --bin test_marking -- ../../crates/test_marking`.
//!
//! A case is a row of little-endian words: the lengths of the point and the triangle list, three axes, the
//! bits of the origin, the scale and the reciprocal, the length of the label buffer, then both lists. If a
//! list is longer than 192 both are left out: the points are then all 1.0 and the triangles all 0. Before
//! the call label n is n % 5 + 1. The model, `lifted::marks`, shares nothing with the library. The cases chosen
//! by hand come first; random ones, from a fixed seed, fill the file up. How many there are of each kind is printed.

use lifted::marks::{self, candidates, case, cell, changed, directions, dot, down, gaps, parts, refusal, scaled, single};
use lifted::marks::{triangles, up, Case, Triple, FAR, LEAST, MOST};

const LIMIT: usize = 65536;
/// One unit of a vertex coordinate, in cells, and the half of it that rounding turns on.
const UNIT: f32 = 1.0 / 256.0;
const HALF: f32 = 1.0 / 512.0;

/// The labels after a call that is not refused. Counts how many candidates each direction dismisses alone.
fn surface(c: &Case, alone: &mut [usize; 13]) -> Vec<u8> {
    let number = |at: Triple| marks::number(at, c.axes);
    let mut labels = vec![0; c.length];
    for t in triangles(c) {
        for at in candidates(&t, c.axes) {
            let g = gaps(&t, at);
            let apart: Vec<usize> = (0..13).filter(|&d| g[d] > 0).collect();
            match apart[..] {
                [] => labels[number(at)] = 8,
                [d] => alone[d] += 1,
                _ => {}
            }
        }
        assert!(t.iter().all(|v| labels[number(v.map(cell))] == 8), "a vertex lies in its own cell");
    }
    labels
}

fn answer(c: &Case, alone: &mut [usize; 13]) -> String {
    let sum = |labels: Vec<u8>| labels.iter().fold(0, |s, &v| (s * 31 + v as u64 + 1) % 4294967291);
    if let Some((number, place)) = refusal(c) {
        return format!("refused {number} {place} {} \n", sum((0..c.length).map(|n| (n % 5) as u8 + 1).collect()));
    }
    let labels = surface(c, alone);
    format!("marked {} {} \n", labels.iter().filter(|&&v| v == 8).count(), sum(labels))
}

fn words(c: &Case) -> Vec<u8> {
    assert!(c.length <= 65536 && c.points.len() <= 196620 && c.triangles.len() <= 196620);
    let mut out = vec![c.points.len() as u32, c.triangles.len() as u32];
    out.extend(c.axes);
    out.extend(c.origin.iter().chain([&c.scale, &c.reciprocal]).map(|x| x.to_bits()));
    out.push(c.length as u32);
    if c.points.len() <= 192 && c.triangles.len() <= 192 {
        out.extend(c.points.iter().map(|x| x.to_bits()));
        out.extend(&c.triangles);
    } else {
        assert!(c.points.iter().all(|&x| x == 1.0) && c.triangles.iter().all(|&n| n == 0));
    }
    out.iter().flat_map(|w| w.to_le_bytes()).collect()
}

/// Refusals 1 and 2: every short length, the greatest numbers of points and triangles, and one more.
fn lengths(out: &mut Vec<Case>) {
    let base = case(&[], &[], [1, 1, 1]);
    let counted = |p, t| Case { points: vec![1.0; p], triangles: vec![0; t], origin: [1.0; 3], ..base.clone() };
    out.extend((0..=7).flat_map(|n| [counted(n, 3), counted(3, n)]));
    for n in [195, 196607, 196608, 196609, 196610, 196611, 196620] {
        out.extend([counted(n, 3), counted(3, n), counted(n, n), counted(n, 0)]);
    }
    // 1 before 2, 2 before 4, and 10 at the first of many triangles
    out.extend([counted(0, 196611), counted(0, 196608), counted(0, 4), counted(196608, 1)]);
    out.push(Case { origin: [0.0; 3], ..counted(3, 196608) });
}

/// Refusals 3 and 4: each bad number and its good neighbour, in the origin, in a named and in an unnamed point;
/// missing points and the last one, in each corner of the first, the middle and the last triangle.
fn numbers(out: &mut Vec<Case>) {
    let two = case(&[[0.0; 3], [0.0; 3]], &[[0, 0, 0]], [1, 1, 1]);
    let signalling = f32::from_bits(0x7f800001);
    for x in [f32::NAN, -signalling, f32::INFINITY, f32::NEG_INFINITY, up(FAR), -up(FAR), FAR, -FAR] {
        let put = |c: &mut Case, n| *c.origin.iter_mut().chain(&mut c.points).nth(n).unwrap() = x;
        out.extend([0, 1, 2, 3, 5, 7, 8].map(|n| changed(two.clone(), |c| put(c, n))));
    }
    // the first of several, and the greatest numbers on the grid
    out.push(Case { points: vec![0.0, 0.0, 0.0, 0.0, f32::NAN, 2.0 * FAR], ..two.clone() });
    out.push(Case { points: vec![f32::NAN; 6], origin: [0.0, -FAR, f32::INFINITY], ..two });
    out.push(Case { origin: [FAR, -FAR, FAR], ..dot([FAR, -FAR, FAR], [1, 1, 1]) });
    let three = case(&[[0.0; 3], [1.0, 0.0, 0.0]], &[[0, 0, 0]; 3], [2, 1, 1]);
    for n in 0..9 {
        let named = |name| changed(three.clone(), |c| c.triangles[n] = name);
        out.extend([1, 2, 3, u32::MAX].map(named));
    }
    out.push(case(&[[0.0; 3]], &[[0, 0, 0], [0, 0, 9], [1, 0, 0]], [1, 1, 1]));
}

/// Refusal 5: scales at and about the ends and far from them, and reciprocals about the right one.
fn placements(out: &mut Vec<Case>) {
    let point = dot([0.0; 3], [1, 1, 1]);
    let about = [LEAST, down(LEAST), up(LEAST), MOST, down(MOST), up(MOST)];
    let bad = [0.0, -0.0, -1.0, -LEAST, f32::NAN, f32::INFINITY, f32::NEG_INFINITY, f32::from_bits(1), f32::MAX];
    out.extend(about.into_iter().chain(bad).map(|s| scaled(point.clone(), s)));
    for s in [1.0, 0.1, 3.0, LEAST, MOST] {
        let r = 1.0 / s;
        let wrong = [up(r), down(r), -r, f32::NAN, f32::INFINITY, 0.0];
        out.extend(wrong.map(|reciprocal| Case { reciprocal, ..scaled(point.clone(), s) }));
    }
}

/// Refusals 8 and 9: each bad axis in each place, several, products that wrap, and buffers about the right length.
fn grids(out: &mut Vec<Case>) {
    let point = dot([0.0; 3], [2, 2, 2]);
    for n in 0..9 {
        let one = changed(point.clone(), |c| c.axes[n % 3] = [0, 257, u32::MAX][n / 3]);
        let axes = [one.axes[0], one.axes[1], 300];
        out.extend([one, Case { axes, length: 0, ..point.clone() }]);
    }
    for axes in [[65536, 65536, 1], [0, 0, 0], [1, 65536, 65536], [1 << 31, 2, 1], [257, 0, 1]] {
        out.push(Case { axes, length: 0, ..point.clone() });
    }
    for axes in [[1, 1, 1], [3, 5, 7], [256, 1, 1], [1, 256, 1], [1, 1, 256]] {
        let c = dot([0.0; 3], axes);
        out.extend([c.length - 1, c.length, c.length + 1, 0].map(|length| Case { length, ..c.clone() }));
    }
    out.extend([0, 65536].map(|length| Case { axes: [256; 3], length, ..point.clone() }));
}

/// Refusal 10: vertices on, just inside and just outside each face of the grid, in each of three triangles.
fn outside(out: &mut Vec<Case>) {
    for a in 0..3 {
        let r = [3, 4, 5][a] as f32;
        let (low, high) = (-0.5 - HALF, r - 0.5 - HALF);
        let others = [-0.5, low, down(high), 1.0 - r, high + HALF];
        for (n, x) in others.into_iter().chain([up(low); 3]).chain([high; 3]).enumerate() {
            let three = case(&[[1.0; 3]; 2], &[[0, 0, 0]; 3], [3, 4, 5]);
            out.push(changed(three, |c| (c.points[3 + a], c.triangles[3 * (n % 3) + (a + n) % 3]) = (x, 1)));
        }
        // the greatest t there are, and numbers near 0
        for (x, tiny) in [(FAR, f32::from_bits(1)), (-FAR, f32::from_bits(0x807fffff))] {
            let far = scaled(dot([0.0; 3], [1, 1, 1]), LEAST);
            out.push(changed(far, |c| (c.points[a], c.origin[a]) = (x, -x)));
            let near = Case { origin: [0.0, -tiny, tiny], ..dot([tiny; 3], [1, 1, 1]) };
            out.push(scaled(near, [LEAST, 1.0, MOST][a]));
        }
    }
    // a far point that no triangle names, and the first of two triangles
    out.push(case(&[[0.0; 3], [FAR; 3]], &[[0, 0, 0]], [1, 1, 1]));
    out.push(case(&[[0.0; 3], [2.0; 3]], &[[0, 0, 0], [0, 0, 1], [1, 0, 0]], [2, 2, 2]));
}

/// Each fault alone, with each other one, and with all after it: the lowest number wins, wherever its place is.
fn priorities(out: &mut Vec<Case>) {
    let faults: [fn(&mut Case); 10] = [
        |c| c.points.truncate(5),
        |c| c.triangles.truncate(5),
        |c| c.points.clear(),
        |c| c.origin[2] = f32::NAN,
        |c| c.points.iter_mut().skip(5).for_each(|x| *x = f32::INFINITY),
        |c| c.triangles.iter_mut().skip(5).for_each(|n| *n = 2),
        |c| c.reciprocal = 2.0,
        |c| c.axes[2] = 257,
        |c| c.length += 1,
        |c| c.points.iter_mut().take(1).for_each(|x| *x = -1.0),
    ];
    let whole = case(&[[0.0; 3], [1.0, 1.0, 0.0]], &[[0, 0, 1], [1, 1, 0]], [2, 2, 1]);
    for (n, fault) in faults.iter().enumerate() {
        out.extend(faults[n..].iter().map(|other| changed(changed(whole.clone(), other), fault)));
        out.push(changed(whole.clone(), |c| faults[n..].iter().for_each(|f| f(c))));
    }
}

/// Triangles that are a point or a segment, at centres, faces, edges and corners of cells, and a unit beside them.
fn degenerate(out: &mut Vec<Case>) {
    let at = [0.5, 0.5 + UNIT, 1.0];
    out.extend((0..27).map(|n| dot([at[n % 3], at[n / 3 % 3], at[n / 9]], [2, 2, 2])));
    out.extend([0.5 - UNIT, 1.5 - UNIT, -0.5].map(|x| dot([x; 3], [2, 2, 2])));
    let ends = [
        [[0.5; 3], [1.5; 3]], [[0.5, 0.5, 1.0], [1.5, 0.5, 1.0]], [[1.0, 0.0, 0.5], [1.0, 2.0, 0.5]],
        [[0.5, 0.5, 0.0], [0.5, 0.5, 2.0]], [[0.0, 1.0, 1.0], [1.0, 0.0, 1.0]], [[1.0, 0.0, 1.0], [1.0, 1.0, 2.0]],
        [[2.0, 0.0, 0.0], [0.0, 2.0, 2.0]], [[0.0, 1.5, 1.5], [1.5, 1.5, 0.0]], [[0.0, 0.5, 2.0], [2.0, 1.5, 0.25]],
    ];
    for (n, [p, q]) in ends.into_iter().enumerate() {
        let named = [[0, 1, 1], [0, 0, 1], [0, 1, 0]][n % 3];
        out.extend([-UNIT, 0.0, UNIT].map(|shift| case(&[[p[0], p[1] + shift, p[2]], q], &[named], [3, 3, 3])));
    }
}

/// Contact, and a unit to either side of it: an edge of the triangle with an edge of a cell, for each
/// product; its plane with a corner of a cell; and a contact that turns on how a coordinate is rounded.
fn contacts(out: &mut Vec<Case>) {
    let turned = |mut t: [[f32; 3]; 3], turn: usize, first: usize| {
        t.iter_mut().for_each(|v| v.rotate_right(turn));
        t.rotate_left(first);
        single(t, [2, 2, 2])
    };
    for n in 0..27 {
        let (x, z) = ((n / 9) as f32 * UNIT - UNIT, (n / 3 % 3) as f32 * 0.5);
        out.push(turned([[x, 1.0, z], [1.0, x, z], [1.0, 1.0, z]], n % 3, n / 3 % 3));
        let k = [-1.0, 0.0, 2.0][n / 9];
        let edge = (k + 0.5) * UNIT;
        let x = [down(edge), edge, up(edge)][n / 3 % 3];
        out.push(turned([[x, 1.0 - k * UNIT, 0.0], [1.0, 0.0, 0.0], [1.0, 1.0, 0.0]], n % 3, 0));
    }
    for n in 0..12 {
        let far = 1.5 + (n / 4) as f32 * UNIT - UNIT;
        let mirror = |v: [f32; 3]| [0, 1, 2].map(|a| if n % 4 >> a & 1 == 0 { v[a] } else { 2.0 - v[a] });
        out.push(single([[far, 0.0, 0.0], [0.0, far, 0.0], [0.0, 0.0, far]].map(mirror), [3, 3, 3]));
    }
}

/// Triangles from end to end of the grid: askew, through three corners, a sliver, and in a plane of an axis.
fn across(out: &mut Vec<Case>) {
    let large = [[256, 256, 1], [1, 256, 256], [256, 1, 256], [256, 16, 16], [16, 256, 16], [40, 40, 40]];
    for axes in large.into_iter().chain([[1, 1, 1], [2, 2, 2]]) {
        let (l, h) = (-0.5, axes.map(|r| r as f32 - 0.5 - UNIT));
        out.push(single([[l; 3], h, [h[0], l, h[2]]], axes));
        out.push(single([[h[0], l, l], [l, h[1], l], [l, l, h[2]]], axes));
        out.push(single([[l; 3], [h[0] / 2.0, h[1] / 2.0, h[2] / 2.0 - UNIT], h], axes));
        out.push(single([[l, l, 0.0], [h[0], h[1], 0.0], [l, h[1], 0.0]], axes));
    }
}

/// Random numbers: xorshift from a fixed seed.
struct Random(u64);

impl Random {
    fn below(&mut self, n: u64) -> u64 {
        self.0 ^= self.0 << 13;
        self.0 ^= self.0 >> 7;
        self.0 ^= self.0 << 17;
        (self.0 >> 11) % n
    }
    /// A point of the grid, each coordinate a multiple of 1/2, 1/4 or 1/256, or any.
    fn point(&mut self, axes: [u32; 3]) -> [f32; 3] {
        axes.map(|r| {
            let steps = [2, 4, 256, 1 << 20][self.below(4) as usize];
            self.below(steps * r as u64) as f32 / steps as f32 - 0.5
        })
    }
    fn axes(&mut self, most: u64) -> [u32; 3] {
        [0; 3].map(|_| 1 + self.below(most) as u32)
    }
}

/// For each direction, triangles with a cell that it alone keeps apart, and with one it alone has contact with.
fn each_direction(out: &mut Vec<Case>, rng: &mut Random) {
    for (d, sign) in (0..26).map(|n| (n / 2, n as i128 % 2)) {
        let wanted = |g: [i128; 13]| (0..13).all(|n| if n == d { g[n].signum() == sign } else { g[n] < sign });
        let draw = || {
            let c = single([0; 3].map(|_| rng.point([3, 3, 4])), [3, 3, 4]);
            let t = triangles(&c)[0];
            let fine = refusal(&c).is_none() && directions(&t).iter().all(|v| *v != [0; 3]);
            (fine && candidates(&t, c.axes).iter().any(|&at| wanted(gaps(&t, at)))).then_some(c)
        };
        out.extend(std::iter::repeat_with(draw).flatten().take(3));
    }
}

/// Points whose cell would differ if t were rounded only once, or were a quotient, rounded twice or once.
fn roundings(out: &mut Vec<Case>, rng: &mut Random) {
    for n in 0..21 {
        let draw = || {
            let scale = (1 + rng.below(1 << 16)) as f32 / 1000.0;
            let origin = rng.below(1 << 12) as f32 / 100.0 - 30.0;
            let p = origin + (rng.below(5) as f32 + 0.5 - HALF) * scale;
            let (d, r) = (p as f64 - origin as f64, 1.0 / scale);
            let other = [(d * r as f64) as f32, (p - origin) / scale, (d / scale as f64) as f32][n / 7];
            let c = scaled(dot([0.0; 3], [6, 6, 6]), scale);
            let c = changed(c, |c| (c.points[n % 3], c.origin[n % 3]) = (p, origin));
            (cell(triangles(&c)[0][0][n % 3]) != cell(parts(other))).then_some(c)
        };
        out.extend(std::iter::repeat_with(draw).flatten().take(1));
    }
}

/// Other scales and origins, up to the ends of both; and the longest lists that are written out, 64 segments.
fn scales(out: &mut Vec<Case>, rng: &mut Random) {
    for (scale, origin) in [(0.1, -7.3), (3.0, -1000.25), (LEAST, 1.0), (LEAST, -0.01), (MOST, -FAR), (0.3, 12.0)] {
        for most in 2..=6 {
            let axes = if scale == MOST { [2, 2, 2] } else { rng.axes(most) };
            let t = [0; 3].map(|_| rng.point(axes).map(|x| (origin + x.max(-0.4375) * scale).clamp(-FAR, FAR)));
            out.push(scaled(Case { origin: [origin; 3], ..single(t, axes) }, scale));
        }
    }
    let points: Vec<_> = (0..64).map(|_| rng.point([40; 3])).collect();
    let triangles: Vec<_> = (0..64).map(|n| [n, (n + 1) % 64, n]).collect();
    out.push(case(&points, &triangles, [40, 40, 40]));
}

/// A byte of a case changed, or its last number left out.
fn damage(c: &mut Case, rng: &mut Random) {
    let flip = (1 + rng.below(255) as u32) << (8 * rng.below(4));
    let damaged = |x: f32| f32::from_bits(x.to_bits() ^ flip);
    let (a, p, t) = (rng.below(3) as usize, rng.below(9) as usize, rng.below(3) as usize);
    match rng.below(9) {
        0 => c.points.truncate(8),
        1 => c.triangles.truncate(2),
        2 => c.axes[a] ^= flip,
        3 => c.length ^= 1 << rng.below(9),
        4 => c.origin[a] = damaged(c.origin[a]),
        5 => *c = scaled(c.clone(), damaged(c.scale)),
        6 => c.reciprocal = damaged(c.reciprocal),
        7 => c.triangles[t] ^= flip,
        _ => c.points[p] = damaged(c.points[p]),
    }
}

/// One to four triangles over three to six points in a small grid; one case in five is damaged.
fn random(rng: &mut Random) -> Case {
    let axes = rng.axes(8);
    let points: Vec<_> = (0..3 + rng.below(4)).map(|_| rng.point(axes)).collect();
    let mut name = || rng.below(points.len() as u64) as u32;
    let triangles: Vec<_> = (0..1 + name() % 4).map(|_| [0; 3].map(|_| name())).collect();
    let c = case(&points, &triangles, axes);
    if rng.below(5) == 0 { changed(c, |c| damage(c, rng)) } else { c }
}

fn main() {
    let folder = std::env::args().nth(1).expect("the folder to write stdin and stdout to");
    // document 01's sample: exactly the cells (0, 0, 0) and (1, 0, 0)
    let sample = case(&[[0.0; 3], [2.0; 3], [0.5, 0.0, 0.0]], &[[2, 2, 2], [0, 0, 0]], [3, 3, 3]);
    assert_eq!((refusal(&sample), surface(&sample, &mut [0; 13])), (None, [&[8; 2][..], &[0; 25]].concat()));
    let mut cases = vec![sample];
    for group in [lengths, numbers, placements, grids, outside, priorities, degenerate, contacts, across] {
        group(&mut cases);
    }
    let mut rng = Random(0x5eed_0004_2026);
    for group in [each_direction, roundings, scales] {
        group(&mut cases, &mut rng);
    }
    let mut input: Vec<u8> = cases.iter().flat_map(words).collect();
    while input.len() < LIMIT - 200 {
        cases.push(random(&mut rng));
        input.extend(words(&cases[cases.len() - 1]));
    }
    assert!(input.len() <= LIMIT, "the program reads 65,536 bytes, and these are {}", input.len());
    let mut alone = [0; 13];
    let lines: Vec<String> = cases.iter().map(|c| answer(c, &mut alone)).collect();
    let count = |start: &str| lines.iter().filter(|l| l.starts_with(start)).count();
    let refused = [1, 2, 3, 4, 5, 8, 9, 10].map(|n| format!("{n}: {}", count(&format!("refused {n} ")))).join(", ");
    eprintln!("{} cases in {} bytes, {} marked, refused {refused}", cases.len(), input.len(), count("marked "));
    eprintln!("candidates dismissed by one direction alone: axes, normal, products {alone:?}");
    assert!(alone.iter().all(|&n| n > 20), "each direction must decide");
    std::fs::write(format!("{folder}/stdin"), input).unwrap();
    std::fs::write(format!("{folder}/stdout"), lines.concat()).unwrap();
}
