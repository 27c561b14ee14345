//! Writes the stored cases of crates/test_program: its `stdin`, and in `stdout` what a plain model of document 01's
//! program answers. Run it in rust/lifted:
//! `cargo run --offline --release --bin test_program -- ../../crates/test_program ../../vessels`.
//!
//! A case is two little-endian words, which are a kind and a length, and so many bytes of input. Kind 0 is the input as
//! it stands. Kind 1 is each of its prefixes, the empty one first, and then each of its bytes changed to each other
//! value. The model reads records by itself, from the paper; sizing and filling are the crate's, lifted, and marking is
//! `lifted::marks`.
//!
//! An answer is what is said of the input, and then what stands in an output of 300 bytes, in one of exactly the text's
//! length and in one that is a byte shorter: what the call answers, and the sum of the whole output. The line of a
//! changed byte has its place, how many of the 255 inputs are mapped, and a sum over all that is said and written.
//! Byte n of an output is n % 97 + 100 before the call.

use lifted::marks::{changed, down, up, FAR};
use lifted::models::program::{head, point, stream, summarize, text, triangle, Said};
use lifted::models::sizing::SMALLEST;
use lifted::shapes::Random;
use lifted::stored::{self, Families, Stored};

const ROOM: usize = 300;

// ---- what the program writes of it

fn folded(s: u64, x: u64) -> u64 {
    (s * 31 + x + 1) % 4294967291
}

/// An output of this length after the text was written to it, where it fits.
fn output(text: &str, length: usize) -> Vec<u8> {
    let before: Vec<u8> = (0..length).map(|n| (n % 97) as u8 + 100).collect();
    if length < text.len() {
        return before;
    }
    [text.as_bytes(), &before[text.len()..]].concat()
}

fn sum(s: u64, bytes: &[u8]) -> u64 {
    bytes.iter().fold(s, |s, &b| folded(s, b as u64))
}

fn numbers(said: &Said) -> Vec<usize> {
    match said {
        Err((number, place)) => vec![*number, *place],
        Ok(s) => {
            let axes = s.axes.map(|r| r as usize);
            [&axes[..], &[s.outside, s.inside, s.surface, s.left, s.scans]].concat()
        }
    }
}

fn line(input: &[u8]) -> String {
    let said = summarize(input);
    let text = text(&said);
    let word = if said.is_ok() { "summed" } else { "refused" };
    let listed: String = numbers(&said).iter().map(|n| format!("{n} ")).collect();
    let wrote = |length| format!("wrote {} {} ", text.len(), sum(0, &output(&text, length)));
    let short = sum(0, &output(&text, text.len() - 1));
    format!("{word} {listed}{}{}refused 14 0 {short} \n", wrote(ROOM), wrote(text.len()))
}

/// The line of a byte that is changed to each other value.
fn changes(input: &[u8], at: usize) -> String {
    let (mut mapped, mut s) = (0, 0);
    for d in 1..=255 {
        let said = summarize(&changed(input.to_vec(), |c| c[at] = c[at].wrapping_add(d)));
        let text = text(&said);
        mapped += said.is_ok() as usize;
        s = numbers(&said).iter().fold(s, |s, &n| folded(s, n as u64));
        s = sum(folded(s, text.len() as u64), &output(&text, ROOM));
    }
    format!("changed {at} {mapped} {s} \n")
}

fn case(kind: u32, input: &[u8], answer: String) -> Stored {
    Stored { input: [&stored::bytes(&[kind, input.len() as u32]), input].concat(), answer }
}

/// The input as it stands.
fn once(input: &Vec<u8>) -> Stored {
    case(0, input, line(input))
}

/// Every prefix of the input, and each of its bytes changed.
fn damaged(input: &Vec<u8>) -> Stored {
    assert!(input.len() <= 256 && summarize(input).is_ok());
    let prefixes = (0..=input.len()).map(|n| line(&input[..n]));
    case(1, input, prefixes.chain((0..input.len()).map(|at| changes(input, at))).collect())
}

// ---- streams

fn by_size(mode: u8, size: f32) -> Vec<u8> {
    head(0, mode, size.to_bits())
}

fn by_resolution(mode: u8, r: u32) -> Vec<u8> {
    head(1, mode, r)
}

/// Points and triangles.
type Steel = (Vec<[f32; 3]>, Vec<[u32; 3]>);

/// The points and the triangles of a box, face by face, of which the last are left out.
fn shell(low: [f32; 3], high: [f32; 3], left_out: usize) -> Steel {
    let corner = |n: usize| [0, 1, 2].map(|a| if n >> a & 1 == 0 { low[a] } else { high[a] });
    let faces = [[0, 1, 3, 2], [4, 5, 7, 6], [0, 1, 5, 4], [2, 3, 7, 6], [0, 2, 6, 4], [1, 3, 7, 5]];
    let halves = faces[..6 - left_out].iter().flat_map(|&[a, b, c, d]| [[a, b, c], [a, c, d]]);
    ((0..8).map(corner).collect(), halves.collect())
}

/// Boxes one in another.
fn nested(shells: &[Steel]) -> Steel {
    let (mut points, mut triangles) = (vec![], vec![]);
    for (p, t) in shells {
        let first = points.len() as u32;
        triangles.extend(t.iter().map(|t| t.map(|v| v + first)));
        points.extend(p);
    }
    (points, triangles)
}

/// The mesh in a grid that has room about it: two points more, which no triangle names.
fn roomy((mut points, triangles): Steel) -> Steel {
    points.extend([[-2.0; 3], [11.0; 3]]);
    (points, triangles)
}

// ---- the families

const TWO: [[f32; 3]; 2] = [[0.0; 3], [2.0; 3]];

/// Document 01's sample.
fn sample() -> Vec<u8> {
    stream(by_size(1, 1.0), &[[0.0; 3], [2.0; 3], [0.5, 0.0, 0.0]], &[[2, 2, 2], [0, 0, 0]])
}

/// Every way and mode, over meshes that shut something in and over others.
fn meshes(out: &mut Vec<Vec<u8>>) {
    let outer = shell([0.0; 3], [6.0, 5.0, 4.0], 0);
    let inner = shell([2.0, 2.0, 1.5], [4.0, 3.5, 2.5], 0);
    let inmost = shell([4.0; 3], [5.0; 3], 0);
    let sheet = (vec![[0.0, 0.0, 1.0], [3.0, 0.0, 1.5], [0.0, 3.0, 2.0], [3.0, 3.0, 0.0]], vec![[0, 1, 2], [1, 3, 2]]);
    let all = [
        outer.clone(),
        roomy(outer.clone()),
        roomy(shell([-1.0; 3], [1.5, 1.25, 3.0], 1)),
        roomy(shell([0.1, 0.2, 0.3], [4.4, 2.2, 1.1], 0)),
        shell([0.0; 3], [7.0; 3], 5),
        roomy(nested(&[outer, inner])),
        roomy(nested(&[shell([0.0; 3], [9.0; 3], 0), shell([2.0; 3], [7.0; 3], 0), inmost])),
        roomy(nested(&[shell([0.0; 3], [9.0; 3], 1), shell([2.0; 3], [7.0; 3], 0)])),
        sheet,
        (vec![[1.0, 2.0, 3.0]], vec![[0, 0, 0]]),
        (vec![[1.0, 2.0, 3.0]], vec![]),
        (vec![[0.0; 3], [4.0, 0.0, 0.0]], vec![[0, 1, 1]]),
        (vec![[0.0; 3], [0.0, 0.0, 3.0], [0.0, 3.0, 0.0]], vec![[0, 1, 2]]),
    ];
    for (points, triangles) in &all {
        for mode in 0..3 {
            for size in [0.5, 0.7] {
                out.push(stream(by_size(mode, size), points, triangles));
            }
            out.extend([5, 14, 20].map(|r| stream(by_resolution(mode, r), points, triangles)));
        }
    }
}

/// The limits of points and triangles: the most, one more, and what is found first there.
fn counts(out: &mut Vec<Vec<u8>>) {
    let head = by_size(1, 1.0);
    let (dot, flat) = (point([1.0; 3]), triangle([0; 3]));
    let most = [dot.repeat(256), flat.repeat(256)].concat();
    let bad = triangle([256; 3]);
    let bodies: [&[&[u8]]; 13] = [
        &[&dot.repeat(256), b"Vz"],
        &[&dot.repeat(257), b"Vz"],
        &[&dot, &flat.repeat(256), b"Vz"],
        &[&dot, &flat.repeat(257), b"Vz"],
        &[&most, b"Vz"],
        &[&most, b"Vp"],
        &[&most, b"Vt"],
        &[&most, b"V"],
        &[&dot.repeat(256), &flat, b"Vp"],
        &[&dot.repeat(255), &flat, b"Vp"],
        &[&dot.repeat(256), b"Vx"],
        &[&dot.repeat(256), &bad, b"Vz"],
        &[&dot.repeat(255), &point([f32::NAN; 3]), &dot, b"Vz"],
    ];
    out.extend(bodies.iter().map(|body| [&[&head[..]], *body].concat().concat()));
}

/// Exactly 32,768 cells and just over, axes of 256 and of 257 in each place, by size and by resolution.
fn grids(out: &mut Vec<Vec<u8>>) {
    let span = |head: Vec<u8>, d: [f32; 3]| stream(head, &[[0.0; 3], d], &[[0, 0, 1]]);
    let most = [[31.0; 3], [255.0, 31.0, 3.0], [3.0, 255.0, 31.0], [31.0, 3.0, 255.0]];
    let over = [[31.0, 31.0, 32.0], [9.0, 28.0, 112.0]];
    for d in most.into_iter().chain(over) {
        out.extend([0, 1, 2].map(|mode| span(by_size(mode, 1.0), d)));
    }
    for turn in 0..3 {
        for long in [254.5, 255.0, up(255.0), 255.5, 256.0, 1.0e6] {
            out.push(span(by_size(1, 1.0), changed([long, 1.0, 2.0], |d| d.rotate_right(turn))));
            out.push(span(by_size(1, 1.0), changed([long, long, 2.0], |d| d.rotate_right(turn))));
        }
        for d in [[16.0, 15.0, 15.0], [16.0, 15.0, 15.5], [16.0, 16.0, 16.0]] {
            let d = changed(d, |d: &mut [f32; 3]| d.rotate_right(turn));
            out.extend([30, 31, 32].map(|r| span(by_resolution(1, r), d)));
        }
        for d in [[254.0, 9.0, 9.0], [254.0, 10.0, 9.0], [1.0, 0.0, 0.0], [254.0, 254.0, 0.0]] {
            out.push(span(by_resolution(2, 254), changed(d, |d| d.rotate_right(turn))));
        }
    }
    // equal extents whose quotient falls just below the resolution
    out.push(span(by_resolution(1, 10), [1.6000009; 3]));
}

/// Every order of one and two records without a head, of up to three after a head; and every mark, whole and cut.
fn orders(out: &mut Vec<Vec<u8>>) {
    let kinds = [by_size(1, 1.0), point([0.0; 3]), triangle([0; 3]), b"Vz".to_vec(), b"Vx".to_vec()];
    let rows = |n: u32| (0..5usize.pow(n)).map(move |m| (0..n).map(|k| m / 5usize.pow(k) % 5).collect::<Vec<_>>());
    let joined = |row: Vec<usize>| row.into_iter().flat_map(|k| kinds[k].clone()).collect::<Vec<u8>>();
    out.extend((1..=2).flat_map(rows).map(joined));
    out.extend((0..=3).flat_map(rows).map(|row| [kinds[0].clone(), joined(row)].concat()));
    let start = [by_size(1, 1.0), point([0.0; 3])].concat();
    for mark in [*b"VH", *b"vp", *b"pV", *b"zV", *b"Vy", *b"V\0", *b"VV", [0, 0], [255, 255]] {
        let after = |rest: &[u8]| [&start[..], &mark, rest].concat();
        out.extend([mark.to_vec(), after(&[]), after(&[0; 14])]);
    }
    out.extend([b"V", b"W", b"z"].map(|lone| [&start[..], lone].concat()));
}

/// Ways and modes that there are not, and a cut head with each.
fn heads(out: &mut Vec<Vec<u8>>) {
    for (way, mode) in [(0, 3), (1, 3), (2, 0), (2, 3), (255, 1), (0, 255), (128, 128), (1, 2)] {
        let whole = stream(head(way, mode, 2), &TWO, &[]);
        out.extend([whole[..8].to_vec(), whole[..7].to_vec(), whole[..3].to_vec(), whole]);
    }
}

/// Refusal 3: each bad number and its good neighbour, in each place of two points.
fn points(out: &mut Vec<Vec<u8>>) {
    let nans = [0x7fc00000, 0xffc00000, 0x7f800001, 0xff800001, 0x7fffffff, 0x7fa55aa5];
    let near = [f32::INFINITY, f32::NEG_INFINITY, up(FAR), -up(FAR), FAR, -FAR, f32::MAX, f32::from_bits(1), -0.0];
    for x in nans.map(f32::from_bits).into_iter().chain(near) {
        for n in 0..6 {
            let put = |p: &mut [[f32; 3]; 2]| p[n / 3][n % 3] = x;
            out.push(stream(by_size(1, 1048576.0), &changed(TWO, put), &[[0, 1, 0]]));
        }
        out.push(stream(by_resolution(2, 3), &[[1.0; 3], [x, 1.0, x], [f32::NAN; 3]], &[]));
    }
}

/// Refusal 4: missing points and the last one, in each corner of the first and the last of three triangles.
fn corners(out: &mut Vec<Vec<u8>>) {
    for n in [0, 1, 2, 4, 6, 7, 8] {
        for name in [1, 2, 3, 256, u32::MAX] {
            let put = |t: &mut [[u32; 3]; 3]| t[n / 3][n % 3] = name;
            out.push(stream(by_size(2, 0.5), &TWO, &changed([[0, 1, 0]; 3], put)));
        }
    }
}

/// Refusals 5, 6 and 7: sizes, resolutions and extents at and about the ends.
fn sizes(out: &mut Vec<Vec<u8>>) {
    let about = [SMALLEST, up(SMALLEST), down(SMALLEST), FAR, up(FAR), down(FAR), 1.0, 0.0, -0.0, -1.0, -SMALLEST];
    let nans = [f32::NAN, -f32::NAN, f32::from_bits(0x7f800001)];
    let odd = [f32::INFINITY, f32::NEG_INFINITY, f32::from_bits(1), f32::MAX];
    for size in about.into_iter().chain(nans).chain(odd) {
        out.push(stream(by_size(1, size), &TWO, &[[0, 1, 1]]));
        out.push(stream(by_size(2, size), &[[0.5; 3]], &[[0, 0, 0]]));
        out.push(stream(by_size(0, size), &[[0.0; 3], [size, 3.0 * size, 0.0]], &[[0, 0, 1]]));
    }
    for r in [0, 1, 2, 3, 254, 255, 256, 1 << 31, u32::MAX, 0x3f800000] {
        out.push(stream(by_resolution(1, r), &TWO[..1], &[]));
        out.push(stream(by_resolution(1, r), &[[0.0; 3], [8.0, 0.25, 0.25]], &[[0, 0, 1]]));
        out.push(stream(by_resolution(2, r), &[[0.0; 3], [0.0, 1.0, 8.0], [0.0, 1.0, 0.0]], &[[0, 2, 1]]));
    }
    for d in [SMALLEST, up(SMALLEST), down(SMALLEST), 0.0, f32::from_bits(1)] {
        for turn in 0..3 {
            let far = changed([d, 0.0, d / 2.0], |p| p.rotate_right(turn));
            out.extend([2, 9, 255].map(|r| stream(by_resolution(1, r), &[[0.0; 3], far], &[[0, 1, 1]])));
        }
    }
}

/// Each fault alone, with each other one, and with all after it: a faulty record wins, and then the lowest number.
fn priorities(out: &mut Vec<Vec<u8>>) {
    type Parts = (Vec<u8>, Vec<[f32; 3]>, Vec<[u32; 3]>, Vec<u8>);
    let faults: [fn(&mut Parts); 9] = [
        |p| p.3 = b"Vz\0".to_vec(),
        |p| p.3 = vec![],
        |p| p.3 = b"VpVz".to_vec(),
        |p| p.1.clear(),
        |p| p.1.iter_mut().skip(1).for_each(|q| q[2] = f32::NAN),
        |p| p.2[1] = [0, 2, 0],
        |p| p.0[4..].copy_from_slice(&[255; 4]),
        |p| p.1.iter_mut().skip(1).for_each(|q| q[1] = 300.0),
        |p| p.1.iter_mut().for_each(|q| *q = [1.0; 3]),
    ];
    let whole = |p: Parts| {
        let s = stream(p.0, &p.1, &p.2);
        [&s[..s.len() - 2], &p.3].concat()
    };
    for head in [by_size(1, 1.0), by_resolution(1, 5)] {
        let start = (head, vec![[0.0; 3], [2.0; 3]], vec![[0, 1, 1], [1, 1, 0]], b"Vz".to_vec());
        for (n, fault) in faults.iter().enumerate() {
            out.extend(faults[n..].iter().map(|other| whole(changed(changed(start.clone(), fault), other))));
            out.push(whole(changed(start.clone(), |p| faults[n..].iter().for_each(|f| f(p)))));
        }
    }
}

/// A random stream; one in four has a byte changed, left out or put in, or is cut.
fn random(rng: &mut Random) -> Vec<u8> {
    let mode = rng.below(3) as u8;
    let head = if rng.below(2) == 0 {
        by_size(mode, (1 + rng.below(400)) as f32 / 100.0)
    } else {
        by_resolution(mode, 2 + rng.below(16))
    };
    let steps = [1, 4, 256, 100000][rng.below(4) as usize];
    let spread = 1 + rng.below(8) as u64;
    let mut at = || rng.below(spread * steps) as f32 / steps as f32 - 1.5;
    let points: Vec<[f32; 3]> = (0..6).map(|_| [0; 3].map(|_| at())).collect();
    let points = &points[..2 + rng.below(5) as usize];
    let mut name = || rng.below(points.len() as u64);
    let triangles: Vec<[u32; 3]> = (0..1 + name()).map(|_| [0; 3].map(|_| name())).collect();
    let mut s = stream(head, points, &triangles);
    let place = rng.below(s.len() as u64) as usize;
    match rng.below(16) {
        0 => s[place] ^= 1 + rng.below(255) as u8,
        1 => drop(s.remove(place)),
        2 => s.insert(place, rng.below(256) as u8),
        3 => s.truncate(place),
        _ => {}
    }
    s
}

/// The files of the folder of vessels, by name; the model must answer what is expected of each.
fn vessels(folder: &str) -> Vec<Vec<u8>> {
    let content = |name: &str| std::fs::read(format!("{folder}/{name}")).unwrap_or_else(|e| panic!("{name}: {e}"));
    let words = |name: &str| String::from_utf8(content(name)).unwrap();
    let said = |name: &str, expected: String| {
        let input = content(name);
        assert_eq!(text(&summarize(&input)), expected, "{name}");
        input
    };
    let vessel = |name| said(&format!("{name}.bin"), words(&format!("{name}.out")));
    let whole = ["tun", "tun-open", "tun-cavities"].map(vessel);
    let expected = words("refused/EXPECTED");
    let refused = expected.lines().map(|l| l.split_once(": ").unwrap());
    whole.into_iter().chain(refused.map(|(name, line)| said(&format!("refused/{name}"), format!("{line}\n")))).collect()
}

fn main() {
    let folder = std::env::args().nth(2).expect("the folder of the vessels");
    let six = "cells 3 3 3\noutside 25\ninside 0\nsurface 2\nleft 0\nscans 2\n";
    assert_eq!(text(&summarize(&sample())), six, "document 01's sample");
    let mut families: Families = vec![("sample", vec![once(&sample())])];
    families.push(("vessels", vessels(&folder).iter().map(once).collect()));
    let groups: [(&'static str, fn(&mut Vec<Vec<u8>>)); 9] = [
        ("meshes", meshes),
        ("counts", counts),
        ("grids", grids),
        ("orders", orders),
        ("heads", heads),
        ("points", points),
        ("corners", corners),
        ("sizes", sizes),
        ("priorities", priorities),
    ];
    families.extend(stored::by_hand(&groups, once));
    let mut rng = Random(0x5eed_0009_2026);
    families.push(("random", (0..200).map(|_| once(&random(&mut rng))).collect()));
    let wedge = [[0.0, 0.0, 0.0], [3.0, 0.0, 0.0], [0.0, 3.0, 0.0], [0.0, 0.0, 3.0]];
    let whole = [
        stream(by_size(1, 1.0), &wedge, &[[0, 1, 2], [0, 1, 3], [0, 2, 3], [1, 2, 3]]),
        stream(by_resolution(2, 6), &wedge, &[[0, 1, 2], [0, 1, 3], [0, 2, 3], [1, 2, 3]]),
    ];
    families.push(("damaged", whole.iter().map(damaged).collect()));
    stored::write(&families);
}
