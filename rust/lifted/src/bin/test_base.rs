//! Writes the stored cases of crates/test_base: its `stdin`, and in `stdout` what the lifted crate's
//! sizing, with document 01's refusals before it, and plain models of the rounding and of the checks 8,
//! 9 and 11 answer. Run it in rust/lifted: `cargo run --offline --bin test_base -- ../../crates/test_base`.
//! The random cases come from a fixed seed.

use lifted::marks::{down, up, FAR as MOST};
use lifted::models::sizing::{by_resolution, by_size, SMALLEST as LEAST};
use lifted::models::Fault;
use lifted::sizing::VoxelizedVolume;
use std::fmt::Write as _;

/// Two spans of labels: low, high, low, high.
type Set = [u8; 4];

#[derive(Clone)]
enum Case {
    Size(Vec<f32>, f32),
    Resolution(Vec<f32>, u32),
    Rounding(f32),
    Many(u32),
    Grid([u32; 3], u32),
    Labels(Vec<u8>, Set),
}

fn refused(number: usize, place: usize) -> String {
    format!("refused {number} {place} \n")
}

fn grid(sized: Result<VoxelizedVolume, Fault>) -> String {
    let v = match sized {
        Err((number, place)) => return refused(number, place),
        Ok(v) => v,
    };
    let [a, b, c] = v.resolution;
    let o = v.origin;
    let mut line = format!("grid {a} {b} {c} ");
    for x in [o.x, o.y, o.z, v.scale, 1.0 / v.scale] {
        write!(line, "{:08x} ", x.to_bits()).unwrap();
    }
    line + "\n"
}

/// The three roundings. In f64 the products and the sum are exact where they decide: a product with 256 is,
/// and a sum that is not lies between 0 and 1.
fn rounding(x: f32) -> String {
    if x.is_nan() {
        return "nan nan nan \n".into();
    }
    let d = x as f64;
    if d.abs() >= (1u64 << 40) as f64 {
        return "large large large \n".into();
    }
    let parts = (256.0 * d + 0.5).floor() as i64;
    format!("{} {} {} \n", d.ceil() as i64, d.trunc() as i64, parts)
}

fn grid_fault(r: [u32; 3], len: u32) -> String {
    if let Some(a) = r.iter().position(|&n| n == 0 || n > 256) {
        return refused(8, a);
    }
    if len != r[0] * r[1] * r[2] {
        return refused(9, 0);
    }
    "fine\n".into()
}

fn has(set: Set, v: u8) -> bool {
    (set[0]..=set[1]).contains(&v) || (set[2]..=set[3]).contains(&v)
}

fn labels_fault(labels: &[u8], set: Set) -> String {
    match labels.iter().position(|&v| !has(set, v)) {
        Some(i) => refused(11, i),
        None => "fine\n".into(),
    }
}

fn answer(c: &Case) -> String {
    match c {
        Case::Size(ps, size) => grid(by_size(ps, *size)),
        Case::Resolution(ps, r) => grid(by_resolution(ps, *r)),
        Case::Rounding(x) => rounding(*x),
        Case::Many(n) => grid(by_size(&vec![1.0; *n as usize], 1.0)),
        Case::Grid(r, len) => grid_fault(*r, *len),
        Case::Labels(l, set) => labels_fault(l, *set),
    }
}

fn words(c: &Case) -> Vec<u8> {
    let (kind, value, count, data): (u32, u32, usize, Vec<u8>) = match c {
        Case::Size(ps, size) => (0, size.to_bits(), ps.len(), bytes(ps)),
        Case::Resolution(ps, r) => (1, *r, ps.len(), bytes(ps)),
        Case::Rounding(x) => (2, x.to_bits(), 0, vec![]),
        Case::Many(n) => (3, *n, 0, vec![]),
        Case::Grid(r, len) => (4, *len, 3, r.iter().flat_map(|w| w.to_le_bytes()).collect()),
        Case::Labels(l, set) => (5, u32::from_le_bytes(*set), l.len(), l.clone()),
    };
    let mut out: Vec<u8> = [kind, value, count as u32].iter().flat_map(|w| w.to_le_bytes()).collect();
    out.extend(data);
    out.resize(60, 0);
    out
}

fn bytes(ps: &[f32]) -> Vec<u8> {
    ps.iter().flat_map(|p| p.to_bits().to_le_bytes()).collect()
}

/// Random numbers: xorshift from a fixed seed.
struct Random(u64);

impl Random {
    fn next(&mut self) -> u64 {
        self.0 ^= self.0 << 13;
        self.0 ^= self.0 >> 7;
        self.0 ^= self.0 << 17;
        self.0
    }
    fn below(&mut self, n: u64) -> u64 {
        (self.next() >> 11) % n
    }
    /// A float of either sign with a magnitude from 2^low to 2^high.
    fn float(&mut self, low: i32, high: i32) -> f32 {
        let e = (127 + low + self.below((high - low) as u64) as i32) as u32;
        f32::from_bits((self.below(2) as u32) << 31 | e << 23 | self.below(1 << 23) as u32)
    }
}

fn edges(out: &mut Vec<Case>) {
    let box_of = |x: f32, y: f32, z: f32| vec![0.0, 0.0, 0.0, x, y, z];
    // refusal 1 and 2: every length up to four points, and the number of points
    for n in 0..=12 {
        out.push(Case::Size(vec![1.0; n], 1.0));
        out.push(Case::Resolution((0..n).map(|i| i as f32).collect(), 5));
    }
    for n in [196607, 196608, 196609, 196611] {
        out.push(Case::Many(n));
    }
    // refusal 3: each bad number at each place, its good neighbour, and 3 before 5, 6, 7 and 8
    let bad = [f32::NAN, -f32::NAN, f32::INFINITY, f32::NEG_INFINITY, up(MOST), -up(MOST), f32::MAX];
    for x in bad.into_iter().chain([MOST, -MOST, 0.0, f32::MIN_POSITIVE, f32::from_bits(1)]) {
        for at in 0..6 {
            let mut ps = box_of(1.0, 2.0, 3.0);
            ps[at] = x;
            out.push(Case::Size(ps.clone(), if at % 2 == 0 { 1048576.0 } else { 0.0 }));
            out.push(Case::Resolution(ps, if at % 2 == 0 { 9 } else { 1 }));
        }
    }
    out.push(Case::Size(vec![f32::NAN; 4], f32::NAN));
    out.push(Case::Size(vec![0.0, f32::NAN, 0.0, f32::INFINITY, 0.0, 0.0], 1.0));
    // refusal 5
    let sizes = [
        LEAST, down(LEAST), up(LEAST), MOST, up(MOST), down(MOST), 0.0, -0.0, -1.0, 1.5, 15.0,
        f32::NAN, f32::INFINITY, f32::NEG_INFINITY, f32::from_bits(1), f32::MAX,
    ];
    for s in sizes {
        out.push(Case::Size(box_of(0.125, 0.1, 0.0), s));
        out.push(Case::Size(box_of(-MOST, MOST, 30.0), s));
    }
    // refusal 8: an axis of 256 and of 257 cells, at each place
    for at in 0..3 {
        for d in [255.0, up(255.0), 255.5, down(255.0), 256.0] {
            let mut ps = box_of(1.0, 1.0, 1.0);
            ps[3 + at] = d;
            out.push(Case::Size(ps, 1.0));
        }
    }
    out.push(Case::Size(box_of(300.0, 1.0, 300.0), 1.0));
    // refusal 6 and 7
    for r in [0, 1, 2, 3, 4, 10, 253, 254, 255, 256, u32::MAX] {
        out.push(Case::Resolution(box_of(4.0, 2.0, 1.0), r));
        out.push(Case::Resolution(box_of(2.0, 2.0, 2.0), r));
        out.push(Case::Resolution(box_of(0.0, 0.0, 0.0), r));
    }
    for d in [LEAST, down(LEAST), up(LEAST), 0.0, f32::from_bits(1)] {
        out.push(Case::Resolution(box_of(d, 0.0, 0.0), 2));
        out.push(Case::Resolution(box_of(0.0, 0.0, d), 254));
        out.push(Case::Resolution(box_of(d, d, d), 254));
    }
    // the main axis, and ties
    for d in [[1.0, 2.0, 3.0], [3.0, 1.0, 2.0], [2.0, 3.0, 1.0], [2.0, 2.0, 1.0], [1.0, 2.0, 2.0], [2.0, 1.0, 2.0]] {
        out.push(Case::Resolution(box_of(d[0], d[1], d[2]), 20));
    }
    // (R d) / d can fall just below R
    out.push(Case::Resolution(box_of(1.6000009, 1.6000009, 1.0), 10));
    // -0.0 against 0.0 in both orders, on each axis
    for at in 0..3 {
        for first in [0.0, -0.0f32] {
            let mut ps = vec![1.0; 9];
            ps[at] = first;
            ps[3 + at] = -first;
            ps[6 + at] = 0.0;
            out.push(Case::Size(ps.clone(), 0.5));
            out.push(Case::Resolution(ps, 7));
        }
    }
}

fn rounding_edges(out: &mut Vec<Case>) {
    let mut xs = vec![0.0, 0.5, 1.0, 1.5, 2.0, 0.25, 0.75, 1.0 / 512.0, 3.0 / 512.0, 8388607.5, 8388608.0, 16777216.0];
    xs.extend([549755813888.0, 1099511627776.0, f32::MIN_POSITIVE, f32::from_bits(1), f32::from_bits(0x007fffff), f32::MAX]);
    for x in xs {
        for y in [x, up(x), if x > 0.0 { down(x) } else { x }] {
            out.push(Case::Rounding(y));
            out.push(Case::Rounding(-y));
        }
    }
    for x in [f32::NAN, f32::from_bits(0x7f800001), f32::from_bits(0xffffffff), f32::INFINITY, f32::NEG_INFINITY] {
        out.push(Case::Rounding(x));
    }
}

fn check_edges(out: &mut Vec<Case>) {
    for r in [[1, 1, 1], [256, 256, 256], [256, 1, 256], [3, 5, 7], [255, 256, 2]] {
        let n = r.iter().product::<u32>();
        for len in [n - 1, n, n + 1, 0, u32::MAX] {
            out.push(Case::Grid(r, len));
        }
    }
    for at in 0..3 {
        for bad in [0, 257, 65536, u32::MAX] {
            let mut r = [2, 2, 2];
            r[at] = bad;
            out.push(Case::Grid(r, 8));
            r[2] = 0;
            out.push(Case::Grid(r, 8));
        }
    }
    let sets = [[0, 0, 8, 8], [6, 8, 6, 8], [0, 8, 0, 8], [1, 0, 9, 2], [1, 1, 1, 1], [0, 2, 6, 8]];
    for set in sets {
        for v in 0..=9u8 {
            out.push(Case::Labels(vec![8, 8, v, 8, v], [set[0], set[1], 8, 8]));
            out.push(Case::Labels(vec![v; 48], set));
        }
        out.push(Case::Labels(vec![255], set));
        out.push(Case::Labels(vec![], set));
    }
}

fn random(out: &mut Vec<Case>, rng: &mut Random) {
    for _ in 0..110 {
        let high = rng.below(26) as i32 - 5;
        let n = 3 * (1 + rng.below(4)) as usize;
        let ps: Vec<f32> = (0..n).map(|_| rng.float(high - 8, high)).collect();
        let size = rng.float(high - 7, high).abs();
        out.push(Case::Size(ps.clone(), size));
        out.push(Case::Resolution(ps, 2 + rng.below(253) as u32));
    }
    for _ in 0..120 {
        out.push(Case::Rounding(rng.float(-12, 42)));
    }
    for _ in 0..40 {
        let n = rng.below(49) as usize;
        let set = [0; 4].map(|_: u8| rng.below(10) as u8);
        let some = (0..=9).find(|v| has(set, *v));
        let mut labels: Vec<u8> = (0..n).map(|_| rng.below(9) as u8).collect();
        labels.iter_mut().for_each(|v| if rng.below(30) > 0 && !has(set, *v) { *v = some.unwrap_or(*v) });
        out.push(Case::Labels(labels, set));
    }
}

fn main() {
    let folder = std::env::args().nth(1).expect("the folder to write stdin and stdout to");
    let mut cases = vec![];
    edges(&mut cases);
    rounding_edges(&mut cases);
    check_edges(&mut cases);
    random(&mut cases, &mut Random(0x5eed_0001_2026));
    let input: Vec<u8> = cases.iter().flat_map(words).collect();
    assert!(input.len() <= 65536, "the program reads 65,536 bytes, and these are {}", input.len());
    let output: String = cases.iter().map(answer).collect();
    std::fs::write(format!("{folder}/stdin"), input).unwrap();
    std::fs::write(format!("{folder}/stdout"), output).unwrap();
    println!("{} cases", cases.len());
}
