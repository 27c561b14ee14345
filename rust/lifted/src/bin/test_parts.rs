//! Writes the stored cases of crates/test_parts: its `stdin`, and in `stdout` what is to be answered. Run it in
//! rust/lifted: `cargo run --offline --release --bin test_parts -- ../../crates/test_parts`.
//!
//! A case is 26 little-endian words: a kind, five numbers of two words each, the bits of the origin, the scale and the
//! reciprocal, the descriptions of two lists (four words each, see `lifted::stored::Row`), the lengths of two outputs;
//! then the stored numbers of the first list and of the second.
//! - kind 0: classes. The first number is how many triangles there are, the lists are the entries and the ends.
//!   `classed`: the classes if they are few, the sum of the output.
//! - kind 1: planes. The numbers are axis, low, high, best and step. `planned`: the first index, how many, the bits
//!   of each d if they are few, the sum of the output.
//! - kind 2: split. The first number is the axis, the origin's first number is d, the first list is the points.
//!   `split`: how many points went to each output, their bits if they are few, the sums of both outputs.
//! - `refused`: number, place, the sum of each output.
//!
//! Where a call is not refused, classes, each d and the split points come from the lifted crate, and models of
//! document 01's words are asserted to agree. The crate is given a part as one or two cells of a list that has
//! the entries of all parts, for planes the least and the greatest cell along every axis as low and high, and for a
//! split a plane whose direction is the axis. The first index of planes comes from a model where there is none.
//! Refusals, and what stands in the outputs past an answer, come from models of 01's table; the crate has neither. The
//! cases chosen by hand come first, then random ones from a fixed seed. How many there are of each family and of
//! each answer is printed.

use lifted::marks::{changed, down, up, FAR, LEAST, MOST};
use lifted::models::parts::{classified, faulty_classes, faulty_planes, first_plane, refined, split_by};
use lifted::models::parts::{Planes, DEEP};
use lifted::shapes::Random;
use lifted::stored::{self, bits, blank, blank_floats, bytes, halves, shown, shown_floats, sum, written, Row, Stored};

const NO_CLASS: u32 = 4294967294;
const SEVERAL: u32 = 4294967295;

#[derive(Clone)]
struct Classes {
    entries: Row,
    ends: Row,
    count: u64,
    length: usize,
}

#[derive(Clone)]
struct Split {
    points: Row,
    axis: u64,
    d: f32,
    lengths: [usize; 2],
}

enum Case {
    Classes(Classes),
    Planes(Planes),
    Split(Split),
}

// ---- classes

/// Document 01's classes: none, one part's number, or several.
fn classes(entries: &[u32], ends: &[u32], count: usize) -> Vec<u32> {
    let mut parts = vec![vec![]; count];
    for (e, &t) in entries.iter().enumerate() {
        let part = ends.iter().position(|&end| e < end as usize).unwrap() as u32;
        if !parts[t as usize].contains(&part) {
            parts[t as usize].push(part);
        }
    }
    let class = |parts: Vec<u32>| match parts[..] {
        [] => NO_CLASS,
        [part] => part,
        _ => SEVERAL,
    };
    parts.into_iter().map(class).collect()
}

fn answer_classes(c: &Classes) -> String {
    let (entries, ends) = (c.entries.numbers(), c.ends.numbers());
    if let Some((number, place)) = faulty_classes(&entries, &ends, c.count, c.length) {
        return format!("refused {number} {place} {} \n", sum(&blank(c.length)));
    }
    let answer = classified(&entries, &ends, c.count as usize);
    assert_eq!(answer, classes(&entries, &ends, c.count as usize));
    format!("classed {}{} \n", shown(&answer), sum(&written(&answer, blank(c.length))))
}

// ---- planes

/// The indices of document 01's planes: those from low to high that are at most a step off the best one.
fn indices(c: &Planes) -> Vec<u32> {
    let near = |i: &u32| (*i as i64 - c.best as i64).abs() <= c.step as i64;
    (0..256).filter(|&i| c.low <= i as u64 && i as u64 <= c.high).filter(near).collect()
}

fn answer_planes(c: &Planes) -> String {
    if let Some((number, place)) = faulty_planes(c) {
        return format!("refused {number} {place} {} \n", sum(&blank_floats(c.length)));
    }
    let answer = refined(c);
    let (model, axis) = (indices(c), c.axis as usize);
    assert_eq!(answer.iter().map(|p| p.index).collect::<Vec<_>>(), model);
    assert!(answer.iter().all(|p| p.axis as usize == axis && bits(&[p.abc[axis]]) == bits(&[1.0])));
    let ds: Vec<u32> = answer.iter().map(|p| p.d.to_bits()).collect();
    let d = |i: &u32| 0.0 - (c.origin[axis] + (0.5 + *i as f32) * c.scale);
    assert!(answer.iter().map(|p| p.d).eq(model.iter().map(d)));
    let first = first_plane(c);
    assert!(model.first().is_none_or(|&i| i as u64 == first));
    let after = sum(&written(&ds, blank_floats(c.length)));
    format!("planned {first} {} {}{after} \n", ds.len(), shown_floats(&ds))
}

// ---- split

/// Document 01's split, with p + d above 0 as p above -d, which no rounding touches.
fn sides(points: &[f32], axis: usize, d: f32) -> [Vec<u32>; 2] {
    let to = |keep: fn(f32, f32) -> bool| {
        points.chunks(3).filter(|p| keep(p[axis], -d)).flat_map(bits).collect::<Vec<u32>>()
    };
    [to(|p, plane| p >= plane), to(|p, plane| p <= plane)]
}

fn answer_split(c: &Split) -> String {
    let points = c.points.floats();
    let sums = |sides: &[Vec<u32>; 2]| {
        let of = |n: usize| sum(&written(&sides[n], blank_floats(c.lengths[n])));
        format!("{} {} \n", of(0), of(1))
    };
    match split_by(&points, c.axis, c.d, c.lengths) {
        Err((number, place)) => format!("refused {number} {place} {}", sums(&[vec![], vec![]])),
        Ok(a) => {
            assert_eq!(a, sides(&points, c.axis as usize, c.d));
            let texts = format!("{}{}", shown_floats(&a[0]), shown_floats(&a[1]));
            format!("split {} {} {texts}{}", a[0].len() / 3, a[1].len() / 3, sums(&a))
        }
    }
}

// ---- how a case is stored

fn words(kind: u32, numbers: [u64; 5], at: [f32; 5], rows: [&Row; 2], outputs: [usize; 2]) -> Vec<u8> {
    assert!(outputs.iter().all(|&n| n <= stored::MOST));
    let mut out = vec![kind];
    out.extend(numbers.iter().flat_map(|&n| halves(n)));
    out.extend(bits(&at));
    rows.iter().for_each(|row| out.extend(row.head()));
    out.extend(outputs.map(|n| n as u32));
    rows.iter().for_each(|row| out.extend(&row.stored));
    bytes(&out)
}

fn input(c: &Case) -> Vec<u8> {
    let none = Row::of(&[]);
    match c {
        Case::Classes(c) => words(0, [c.count, 0, 0, 0, 0], [0.0; 5], [&c.entries, &c.ends], [c.length, 0]),
        Case::Planes(c) => {
            let [x, y, z] = c.origin;
            let at = [x, y, z, c.scale, c.reciprocal];
            words(1, [c.axis, c.low, c.high, c.best, c.step], at, [&none, &none], [c.length, 0])
        }
        Case::Split(c) => words(2, [c.axis, 0, 0, 0, 0], [c.d, 0.0, 0.0, 0.0, 0.0], [&c.points, &none], c.lengths),
    }
}

fn answer(c: &Case) -> String {
    match c {
        Case::Classes(c) => answer_classes(c),
        Case::Planes(c) => answer_planes(c),
        Case::Split(c) => answer_split(c),
    }
}

// ---- families of classes

/// With an output that is just long enough.
fn parted(entries: &[u32], ends: &[u32], count: u64) -> Classes {
    let length = (count as usize).min(stored::MOST);
    Classes { entries: Row::of(entries), ends: Row::of(ends), count, length }
}

/// Triangles in no part, in one, two and many, twice in one part; empty parts; nothing at all; each output.
fn small_classes(out: &mut Vec<Case>) {
    let lists: [(&[u32], &[u32], u64); 16] = [
        (&[], &[], 0), (&[], &[], 3), (&[], &[0], 2), (&[], &[0, 0, 0], 1), (&[0], &[1], 1), (&[2], &[1], 4),
        (&[0, 1, 2], &[3], 3), (&[0, 1, 2], &[1, 2, 3], 4), (&[0, 0], &[2], 1), (&[0, 0], &[1, 2], 2),
        (&[0, 1, 0], &[1, 2, 3], 2), (&[1, 1, 0, 1, 0], &[2, 3, 3, 5], 3), (&[3, 3, 3, 3], &[1, 2, 3, 4], 5),
        (&[0, 1, 0, 1], &[0, 2, 2, 4, 4], 2), (&[0, 1, 2, 3, 0], &[0, 0, 4, 5], 4), (&[5, 4, 3, 2, 1, 0], &[3, 6], 6),
    ];
    for (entries, ends, count) in lists {
        let c = parted(entries, ends, count);
        for length in [c.length, c.length + 1, c.length + 9, c.length.max(1) - 1, 0] {
            out.push(Case::Classes(Classes { length, ..c.clone() }));
        }
    }
    // a triangle in every one of many parts, and each in its own
    let turns: Vec<u32> = (0..40).map(|n| n % 7).collect();
    let ends: Vec<u32> = (1..=40).collect();
    out.push(Case::Classes(parted(&turns, &ends, 7)));
    out.push(Case::Classes(parted(&(0..40).rev().collect::<Vec<_>>(), &ends, 41)));
}

/// Ends that fall back, stop short and run over, in each place; ends past the list in the middle.
fn small_ends(out: &mut Vec<Case>) {
    let entries = [0, 1, 2, 1, 0];
    for ends in [
        &[][..], &[0], &[4], &[5], &[6], &[u32::MAX], &[2, 1, 5], &[0, 3, 2], &[3, 5, 4], &[5, 5, 5], &[6, 5],
        &[9, 5, 5], &[1, 2, 9, 9], &[2, 9, 4, 5], &[1, 2, 3, 4], &[1, 2, 3, 4, 5], &[5, 0], &[0, 5, 0, 5], &[1, 0, 9],
        &[5, 4, 9], &[u32::MAX, 5], &[0, 0, 0], &[2, 2, 1, 1, 5], &[3, 3, 3, 2, 2],
    ] {
        out.push(Case::Classes(parted(&entries, ends, 3)));
        out.push(Case::Classes(parted(&[], ends, 3)));
    }
}

/// About 65,535 ends: empty parts, and one end that is too far or makes the next fall back.
fn many_ends(out: &mut Vec<Case>) {
    for n in [65534, 65535, 65536, 65537, 70000] {
        let c = |entries: &[u32], stored: &[u32]| {
            let ends = Row::repeated(stored, n);
            Classes { ends, ..parted(entries, &[], 3) }
        };
        out.push(Case::Classes(c(&[], &[0])));
        out.push(Case::Classes(c(&[2, 0, 2], &[3])));
        out.push(Case::Classes(c(&[2, 0, 2], &[0])));
        let odd = |c: Classes, place: usize, value: u32| Classes { ends: c.ends.clone().with(place, value), ..c };
        for place in [0, 1, 40000, 65532, 65533, 65534, 65535, n - 2, n - 1] {
            out.push(Case::Classes(odd(c(&[], &[0]), place, 1)));
        }
        out.push(Case::Classes(odd(c(&[1, 1], &[0]), n - 1, 2)));
        out.push(Case::Classes(odd(c(&[1, 1], &[2]), 0, 1)));
        out.push(Case::Classes(odd(c(&[1, 1], &[2]), n - 1, 3)));
        out.push(Case::Classes(Classes { length: 2, ..odd(c(&[1, 1], &[2]), 7, 1) }));
        out.push(Case::Classes(Classes { entries: Row::of(&[1, 3]), ..odd(c(&[1, 1], &[2]), 7, 1) }));
    }
}

/// Counts up to 65,536 and over, and entries about them.
fn counts(out: &mut Vec<Case>) {
    for count in [0, 1, 2, 65535, 65536, 65537, 1 << 32, (1 << 32) + 2, u64::MAX] {
        let last = (count as u32).wrapping_sub(1);
        for entries in [&[][..], &[0], &[last], &[0, count as u32], &[u32::MAX], &[0, last, 0, u32::MAX, 0]] {
            let c = parted(entries, &[entries.len() as u32], count);
            out.push(Case::Classes(c.clone()));
            out.push(Case::Classes(Classes { length: 9, ..c }));
        }
    }
    // many entries, and a bad one far behind
    let many = Row::repeated(&[0, 5, 65535, 7, 7], 196620);
    let c = Classes { entries: many.clone(), ..parted(&[], &[9, 100000, 196620], 65536) };
    out.push(Case::Classes(c.clone()));
    out.push(Case::Classes(Classes { length: 65535, ..c.clone() }));
    out.push(Case::Classes(Classes { length: 65540, ..c.clone() }));
    out.push(Case::Classes(Classes { entries: many.with(196619, 65536), ..c }));
}

/// Each fault alone, with each other one, and with all after it.
fn class_priorities(out: &mut Vec<Case>) {
    let faults: [fn(&mut Classes); 4] = [
        |c| c.count = 65537,
        |c| c.entries.stored[3] = 65600,
        |c| c.length = 2,
        |c| c.ends.stored[1] = 0,
    ];
    let whole = parted(&[0, 1, 2, 3], &[1, 2, 4], 4);
    for n in 0..4 {
        out.extend(faults[n..].iter().map(|other| Case::Classes(changed(changed(whole.clone(), other), faults[n]))));
        out.push(Case::Classes(changed(whole.clone(), |c| faults[n..].iter().for_each(|f| f(c)))));
    }
}

fn random_classes(rng: &mut Random) -> Case {
    let count = 1 + rng.below(12);
    let entries: Vec<u32> = (0..rng.below(25)).map(|_| rng.below(count as u64)).collect();
    let mut ends: Vec<u32> = (0..rng.below(7)).map(|_| rng.below(entries.len() as u64 + 1)).collect();
    ends.sort();
    ends.push(entries.len() as u32);
    let mut c = parted(&entries, &ends, count as u64);
    let (entry, end) = (rng.below(25) as usize, rng.below(ends.len() as u64) as usize);
    match rng.below(14) {
        0 => c.length = rng.below(count as u64 + 1) as usize,
        1 => c.length += 1 + rng.below(20) as usize,
        2 => c.ends.stored[end] = rng.below(30),
        3 if entry < entries.len() => c.entries.stored[entry] = rng.below(2 * count as u64),
        4 => c.count = rng.below(14) as u64,
        _ => {}
    }
    Case::Classes(c)
}

// ---- families of planes

fn about(origin: [f32; 3], scale: f32, axis: u64, range: [u64; 2], best: u64, step: u64) -> Planes {
    let [low, high] = range;
    let c = Planes { origin, scale, reciprocal: 1.0 / scale, axis, low, high, best, step, length: 9 };
    let roomy = Planes { length: usize::MAX, ..c.clone() };
    if faulty_planes(&roomy).is_none() { Planes { length: indices(&c).len(), ..c } } else { c }
}

fn plain(range: [u64; 2], best: u64, step: u64) -> Planes {
    about([0.5, -2.0, 7.25], 0.25, (best + step) % 3, range, best, step)
}

/// Steps, indices and axes at their ends and past them; empty answers; the greatest numbers.
fn plane_ranges(out: &mut Vec<Case>) {
    for step in [0, 1, 2, 5, 255, 256] {
        for (range, best) in [
            ([0, 255], 0), ([0, 255], 255), ([0, 255], 100), ([10, 20], 15), ([10, 20], 10), ([10, 20], 20),
            ([10, 20], 9), ([10, 20], 22), ([10, 20], 0), ([10, 20], 255), ([0, 0], 0), ([255, 255], 255),
            ([0, 0], 255), ([7, 7], 9),
        ] {
            out.push(Case::Planes(plain(range, best, step)));
        }
    }
    for huge in [257, 1 << 16, (1 << 32) - 1, 1 << 32, (1 << 32) + 3, 1 << 63, u64::MAX - 1, u64::MAX] {
        out.push(Case::Planes(plain([3, 9], 5, huge)));
        out.push(Case::Planes(plain([huge, 9], 5, 2)));
        out.push(Case::Planes(plain([3, huge], 5, 2)));
        out.push(Case::Planes(plain([3, 9], huge, 2)));
        out.push(Case::Planes(plain([huge, huge], huge, huge)));
        out.push(Case::Planes(Planes { axis: huge, ..plain([3, 9], 5, 2) }));
    }
    for (range, best) in [([256, 256], 5), ([3, 256], 5), ([3, 9], 256), ([9, 3], 5), ([4, 3], 4), ([255, 0], 0)] {
        out.push(Case::Planes(plain(range, best, 4)));
    }
    out.extend((0..5).map(|axis| Case::Planes(Planes { axis, ..plain([3, 9], 5, 2) })));
}

/// Origins and scales at their ends and past them, wrong reciprocals, on every axis.
fn plane_places(out: &mut Vec<Case>) {
    let base = |axis: u64| about([1.5, -3.0, 0.1], 0.3, axis, [0, 255], 250, 6);
    for axis in 0..3 {
        for x in [f32::NAN, f32::INFINITY, f32::NEG_INFINITY, up(FAR), -up(FAR), FAR, -FAR, -0.0, f32::from_bits(1)] {
            out.extend((0..3).map(|a| Case::Planes(changed(base(axis), |c| c.origin[a] = x))));
        }
        for scale in [LEAST, MOST, down(LEAST), up(MOST), 0.0, -0.3, f32::NAN, f32::INFINITY, 3.0, 1000.1] {
            out.push(Case::Planes(Planes { scale, reciprocal: 1.0 / scale, ..base(axis) }));
        }
        for wrong in [up(1.0 / 0.3), down(1.0 / 0.3), f32::NAN, f32::INFINITY, 0.0, -1.0 / 0.3] {
            out.push(Case::Planes(Planes { reciprocal: wrong, ..base(axis) }));
        }
        // sums that are rounded, and that are 0
        let ends = [([FAR, -FAR, FAR], LEAST), ([-FAR, FAR, -FAR], MOST), ([-5.5, -0.5, -2.5], 1.0)];
        out.extend(ends.map(|(origin, scale)| Case::Planes(about(origin, scale, axis, [0, 12], 3, 20))));
    }
    let all = changed(base(0), |c| c.origin = [0.0, f32::NAN, f32::INFINITY]);
    out.push(Case::Planes(all));
}

fn plane_outputs(out: &mut Vec<Case>) {
    for c in [plain([0, 255], 100, 256), plain([10, 20], 15, 2), plain([5, 5], 5, 0), plain([10, 20], 0, 3)] {
        for length in [c.length, c.length + 1, c.length + 40, c.length.max(1) - 1, c.length / 2, 0] {
            out.push(Case::Planes(Planes { length, ..c.clone() }));
        }
    }
}

fn plane_priorities(out: &mut Vec<Case>) {
    let faults: [fn(&mut Planes); 6] = [
        |c| c.origin[1] = f32::NAN,
        |c| c.reciprocal = 2.0,
        |c| c.axis = 3,
        |c| c.low = 30,
        |c| c.step = 257,
        |c| c.length = 1,
    ];
    let whole = plain([10, 20], 15, 2);
    for n in 0..faults.len() {
        out.extend(faults[n..].iter().map(|other| Case::Planes(changed(changed(whole.clone(), other), faults[n]))));
        out.push(Case::Planes(changed(whole.clone(), |c| faults[n..].iter().for_each(|f| f(c)))));
    }
}

fn random_planes(rng: &mut Random) -> Case {
    let mut number = || rng.below(1 << 21) as f32 / 2048.0 - 512.0;
    let (origin, scale) = ([number(), number(), number()], number().abs() / 100.0 + 0.01);
    let low = rng.below(256) as u64;
    let high = low + rng.below(256 - low) as u64;
    let (best, step) = (rng.below(256) as u64, [3, 20, 257][rng.below(3) as usize]);
    let c = about(origin, scale, rng.below(3) as u64, [low, high], best, rng.below(step) as u64);
    Case::Planes(changed(c, |c| match rng.below(10) {
        0 => c.length = rng.below(c.length as u64 + 1) as usize,
        1 => c.length += rng.below(9) as usize,
        2 => c.high = rng.below(256) as u64,
        _ => {}
    }))
}

// ---- families of splits

/// With outputs that have so many numbers more than the answer.
fn split_roomy(points: Row, axis: u64, d: f32, more: [isize; 2]) -> Split {
    let c = Split { points, axis, d, lengths: [0; 2] };
    let sides = split_by(&c.points.floats(), axis, d, [usize::MAX; 2]);
    let needs = sides.map_or([9, 9], |sides| sides.map(|side| side.len()));
    Split { lengths: [0, 1].map(|n| (needs[n] as isize + more[n]).max(0) as usize), ..c }
}

fn split(points: &[f32], axis: u64, d: f32) -> Split {
    split_roomy(Row::of_floats(points), axis, d, [0, 0])
}

/// Points on the plane, just above it and just below, also where p and d are 0, tiny, or far apart.
fn sums(out: &mut Vec<Case>) {
    let tiny = f32::from_bits(1);
    let places = [
        1.0, -1.0, 0.1, -0.3, 3.5, FAR, -FAR, tiny, -tiny, f32::MIN_POSITIVE, down(f32::MIN_POSITIVE), 1e-20, 1048575.9,
        16777.217, f32::EPSILON, -33554.43,
    ];
    for (n, p) in places.into_iter().enumerate() {
        for d in [-p, -down(p), -up(p), p, 0.0, -0.0, tiny, -tiny, 1e9, -DEEP] {
            let point = changed([5.0, -6.0, 7.0], |v| v[n % 3] = p);
            out.push(Case::Split(split(&point, n as u64 % 3, d)));
        }
    }
    for p in [0.0, -0.0] {
        for d in [0.0, -0.0, tiny, -tiny, f32::MIN_POSITIVE, 1.0, -1.0, DEEP, -DEEP] {
            out.push(Case::Split(split(&[p, p, p], 1, d)));
        }
    }
    // one plane and many points about it: the sums of some are rounded
    let near = [0.1, 0.2, 0.3, 1e-9, -1e-9, 1e6, -1e6, 0.25];
    let about: Vec<f32> = near.into_iter().flat_map(|x| [x, -x, up(x)]).collect();
    for d in [0.1, -0.1, -0.3, 1e-9, -1e-9, -0.25, 1e6, up(0.1), -up(0.1), -up(0.3)] {
        out.extend((0..3).map(|axis| Case::Split(split(&about, axis, d))));
    }
}

/// Lengths, axes, numbers and d at their ends and past them.
fn split_refusals(out: &mut Vec<Case>) {
    let six = [1.0, 2.0, 3.0, -1.0, -2.0, -3.0];
    for n in 0..=6 {
        out.extend([0, 2].map(|axis| Case::Split(split(&six[..n], axis, 1.0))));
    }
    for axis in [0, 1, 2, 3, 4, 256, 1 << 32, (1 << 32) + 1, u64::MAX] {
        out.push(Case::Split(split(&six, axis, 2.0)));
        out.push(Case::Split(split(&[], axis, 2.0)));
    }
    for d in [DEEP, -DEEP, up(DEEP), -up(DEEP), f32::NAN, f32::INFINITY, f32::NEG_INFINITY, f32::MAX] {
        out.push(Case::Split(split(&six, 1, d)));
        out.push(Case::Split(split(&[], 1, d)));
    }
    for x in [FAR, -FAR, up(FAR), -up(FAR), f32::NAN, f32::INFINITY, f32::NEG_INFINITY] {
        out.extend((0..6).map(|n| Case::Split(split(&changed(six, |p| p[n] = x), 1, -2.0))));
    }
    out.push(Case::Split(split(&[0.0, f32::NAN, up(FAR)], 0, 1.0)));
    let faults: [fn(&mut Split); 5] = [
        |c| c.points.length = 5,
        |c| c.d = f32::NAN,
        |c| c.points.stored[4] = f32::INFINITY.to_bits(),
        |c| c.axis = 3,
        |c| c.lengths[1] = 2,
    ];
    for n in 0..faults.len() {
        let whole = || split(&six, 0, 0.0);
        out.extend(faults[n..].iter().map(|other| Case::Split(changed(changed(whole(), other), faults[n]))));
        out.push(Case::Split(changed(whole(), |c| faults[n..].iter().for_each(|f| f(c)))));
    }
}

/// Up to 65,536 points and over, and each output: just long enough, longer, one short, empty.
fn split_outputs(out: &mut Vec<Case>) {
    let stored = bits(&[1.0, 0.0, -1.0, 2.0, 0.5, 0.0, -1.0, 0.5, 3.0, 0.0, 0.0, 0.0]);
    for points in [1, 2, 7, 300] {
        let row = Row::repeated(&stored, 3 * points);
        let empty = [[-9999, 0], [0, -9999], [-9999, -9999]];
        for more in [[0, 0], [1, 0], [0, 1], [30, 30], [-1, 0], [0, -1], [-1, -1]].into_iter().chain(empty) {
            out.extend((0..3).map(|axis| Case::Split(split_roomy(row.clone(), axis, -0.5, more))));
        }
    }
    for n in [196605, 196607, 196608, 196609, 196611, 196620] {
        let row = Row::repeated(&stored, n);
        out.push(Case::Split(split_roomy(row.clone(), 0, -1.0, [0, 0])));
        out.push(Case::Split(split_roomy(row.clone(), 2, 5.0, [0, 0])));
        out.push(Case::Split(split_roomy(row.clone(), 1, 0.0, [0, -1])));
        out.push(Case::Split(split_roomy(row.clone().with(n - 1, up(FAR).to_bits()), 1, 0.0, [0, 0])));
        out.push(Case::Split(split_roomy(row.with(n - 3, FAR.to_bits()), 0, -FAR, [0, 0])));
    }
}

/// Coarse coordinates, so that many points lie on the plane.
fn random_split(rng: &mut Random) -> Case {
    let coarse = [4, 16, 1 << 20][rng.below(3) as usize];
    let mut number = || rng.below(coarse) as f32 / 8.0 - coarse as f32 / 16.0;
    let (d, points): (f32, Vec<f32>) = (number(), (0..3 * 20).map(|_| number()).collect());
    let stored = &points[..3 * (1 + rng.below(20) as usize)];
    let length = if rng.below(4) == 0 { 3 * rng.below(300) as usize } else { stored.len() };
    let more = [[0, 0], [0, 0], [0, 0], [4, 7], [-1, 0], [0, -1]][rng.below(6) as usize];
    Case::Split(split_roomy(Row::repeated(&bits(stored), length), rng.below(3) as u64, d, more))
}

fn main() {
    let groups: [(&str, fn(&mut Vec<Case>)); 12] = [
        ("classes", small_classes), ("ends", small_ends), ("many ends", many_ends), ("counts", counts),
        ("priorities of classes", class_priorities), ("planes", plane_ranges), ("placements", plane_places),
        ("outputs of planes", plane_outputs), ("priorities of planes", plane_priorities), ("sums", sums),
        ("splits refused", split_refusals), ("outputs of splits", split_outputs),
    ];
    let stored = |c: &Case| Stored { input: input(c), answer: answer(c) };
    let mut families = stored::by_hand(&groups, stored);
    let mut rng = Random(0x5eed_0012_2026);
    let drawn: [(&str, fn(&mut Random) -> Case); 3] = [
        ("random classes", random_classes), ("random planes", random_planes), ("random splits", random_split),
    ];
    for (name, draw) in drawn {
        families.push((name, (0..100).map(|_| stored(&draw(&mut rng))).collect()));
    }
    stored::write(&families);
}
