//! Each refusal's number, place and sentence, with the lent slices left as they were, and what lies about them.
use vesselmap::*;

const AT: Placement = Placement { x: 0.0, y: 0.0, z: 0.0, scale: 1.0, reciprocal: 1.0 };
const THREE: Axes = Axes { r0: 3, r1: 3, r2: 3 };
const GUARD: usize = 16;

fn refused<A: std::fmt::Debug>(answer: Result<A, Refusal>) -> (u8, usize) {
    let r = answer.unwrap_err();
    (r.number, r.place)
}

/// Runs a call on the middle of a buffer of a pattern, and holds that nothing of the buffer changed.
fn kept<T: Copy + PartialEq + std::fmt::Debug, A>(mut buffer: Vec<T>, call: impl FnOnce(&mut [T]) -> A) -> A {
    let before = buffer.clone();
    let end = buffer.len() - GUARD;
    let answer = call(&mut buffer[GUARD..end]);
    assert_eq!(buffer, before);
    answer
}

/// Labels with a pattern before and after them.
fn labels(of: &[u8]) -> Vec<u8> {
    [&[0xA5; GUARD], of, &[0x5A; GUARD]].concat()
}

fn words(n: usize) -> Vec<u32> {
    vec![0xDEAD_BEEF; n + 2 * GUARD]
}

fn floats(n: usize) -> Vec<f32> {
    vec![-123.5; n + 2 * GUARD]
}

#[test]
fn sizing() {
    assert_eq!(refused(size_by_cell(&[0.0; 4], 1.0)), (1, 0));
    assert_eq!(refused(size_by_cell(&vec![0.0; 3 * 65_537], 1.0)), (1, 0));
    assert_eq!(refused(size_by_cell(&[], 1.0)), (2, 0));
    for bad in [f32::NAN, f32::INFINITY, f32::NEG_INFINITY, 1_048_577.0, -1_048_577.0] {
        assert_eq!(refused(size_by_cell(&[0.0, 0.0, 0.0, 0.0, bad, f32::NAN], -1.0)), (3, 4));
    }
    for bad in [0.0, -1.0, f32::NAN, f32::INFINITY, 0.0009, 1_048_577.0] {
        assert_eq!(refused(size_by_cell(&[0.0; 3], bad)), (5, 0));
    }
    for bad in [0, 1, 255, u32::MAX] {
        assert_eq!(refused(size_by_resolution(&[0.0, 0.0, 0.0, 1.0, 1.0, 1.0], bad)), (6, 0));
    }
    assert_eq!(refused(size_by_resolution(&[0.0; 3], 10)), (7, 0));
    assert_eq!(refused(size_by_cell(&[0.0, 0.0, 0.0, 1.0, 1.0, 300.0], 1.0)), (8, 2));
}

#[test]
fn marking() {
    let points = [0.0, 0.0, 0.0, 2.0, 2.0, 2.0];
    let old = labels(&[5; 27]);
    let run = |ps: &[f32], ts: &[u32], r: Axes, at: Placement| kept(old.clone(), |l| refused(mark(ps, ts, r, at, l)));
    assert_eq!(run(&points[..5], &[0, 1, 0], THREE, AT), (1, 0));
    assert_eq!(run(&points, &[0, 1], THREE, AT), (1, 0));
    assert_eq!(run(&[], &[], THREE, AT), (2, 0));
    assert_eq!(run(&points, &[], THREE, Placement { y: f32::NAN, ..AT }), (3, 1));
    assert_eq!(run(&[0.0, f32::NAN, 0.0], &[9, 9, 9], THREE, AT), (3, 4));
    assert_eq!(run(&points, &[0, 1, 0, 0, 0, 2], THREE, AT), (4, 1));
    assert_eq!(run(&points, &[], THREE, Placement { reciprocal: 1.0000001, ..AT }), (5, 0));
    assert_eq!(run(&points, &[], Axes { r0: 3, r1: 0, r2: 9 }, AT), (8, 1));
    assert_eq!(run(&points, &[], Axes { r0: 3, r1: 3, r2: 2 }, AT), (9, 0));
    assert_eq!(run(&points, &[0, 0, 0, 0, 1, 1], THREE, Placement { scale: 0.5, reciprocal: 2.0, ..AT }), (10, 1));
}

#[test]
fn filling() {
    for mode in [Mode::SurfaceOnly, Mode::Flood, Mode::Cavities] {
        let run = |of: &[u8], r: Axes| kept(labels(of), |l| refused(fill(l, r, mode)));
        assert_eq!(run(&[0; 27], Axes { r0: 3, r1: 3, r2: 257 }), (8, 2));
        assert_eq!(run(&[0; 26], THREE), (9, 0));
        let mut of = [0; 27];
        (of[3], of[20]) = (6, 255);
        assert_eq!(run(&of, THREE), (11, 3));
    }
}

#[test]
fn editing() {
    let mut of = [6; 27];
    (of[13], of[4]) = (7, 8);
    let centre = Cell { i: 1, j: 1, k: 1 };
    let wall = Cell { i: 1, j: 1, k: 0 };
    let opened = |of: &[u8], r: Axes, c: Cell| kept(labels(of), |l| refused(open(l, r, c)));
    let closed = |of: &[u8], r: Axes, c: Cell| kept(labels(of), |l| refused(close(l, r, c)));
    assert_eq!(opened(&of, Axes { r0: 0, ..THREE }, centre), (8, 0));
    assert_eq!(closed(&of[..26], THREE, centre), (9, 0));
    let mut bad = of;
    bad[25] = 0;
    assert_eq!(opened(&bad, THREE, Cell { i: 9, j: 9, k: 9 }), (11, 25));
    assert_eq!(opened(&of, THREE, Cell { i: 3, j: 0, k: 0 }), (12, 0));
    assert_eq!(closed(&of, THREE, Cell { i: 0, j: 0, k: usize::MAX }), (12, 0));
    assert_eq!(opened(&of, THREE, centre), (13, 0));
    assert_eq!(closed(&of, THREE, wall), (13, 0));
}

#[test]
fn listing() {
    let run = |of: &[u8], r: Axes, room: usize| kept(words(room), |o| refused(list_cells(of, r, o)));
    assert_eq!(run(&[8; 27], Axes { r1: 300, ..THREE }, 0), (8, 1));
    assert_eq!(run(&[8; 28], THREE, 0), (9, 0));
    assert_eq!(run(&[8, 7, 9], Axes { r0: 3, r1: 1, r2: 1 }, 0), (11, 2));
    assert_eq!(run(&[8; 27], THREE, 27 * 6 - 1), (14, 0));
    let points = [0.0; 3];
    let mut of = [6; 27];
    of[0] = 8;
    let paired = |of: &[u8], records: usize, list: usize| {
        kept(words(records), |o| kept(words(list), |q| refused(list_pairs(&points, &[0; 6], THREE, AT, of, o, q))))
    };
    assert_eq!(paired(&of, 5, 9), (14, 0));
    assert_eq!(paired(&of, 6, 1), (14, 0));
    let refusal = kept(words(99), |o| list_pairs(&points, &[0, 0, 1], THREE, AT, &[9; 27], o, &mut []).unwrap_err());
    assert_eq!(refusal, Refusal { number: 4, place: 0 });
    of[7] = 9;
    assert_eq!(paired(&of, 6, 9), (11, 7));
}

#[test]
fn classing() {
    let run = |entries: &[u32], ends: &[u32], count: usize, room: usize| {
        kept(words(room), |o| refused(classify(entries, ends, count, o)))
    };
    assert_eq!(run(&[], &[], 65_537, 0), (1, 0));
    assert_eq!(run(&[0, 1, 5, 6], &[9], 5, 0), (4, 2));
    assert_eq!(run(&[0, 1], &[2, 1], 2, 1), (14, 0));
    assert_eq!(run(&[0, 1], &[2, 1], 2, 2), (15, 1));
    assert_eq!(run(&[0, 1], &[1, 1], 2, 2), (15, 1));
    assert_eq!(run(&[0], &[], 1, 1), (15, 0));
    assert_eq!(run(&[], &vec![0; 65_536], 0, 0), (15, 65_535));
}

#[test]
fn planing_and_splitting() {
    let run = |at: Placement, axis: usize, n: [usize; 4], room: usize| {
        kept(floats(room), |o| refused(planes(at, axis, n[0], n[1], n[2], n[3], o)))
    };
    assert_eq!(run(Placement { z: f32::INFINITY, ..AT }, 9, [0; 4], 0), (3, 2));
    assert_eq!(run(Placement { scale: 0.0, ..AT }, 9, [0; 4], 0), (5, 0));
    assert_eq!(run(AT, 3, [0; 4], 9), (12, 0));
    for n in [[256, 256, 0, 0], [0, 256, 0, 0], [0, 9, 256, 0], [4, 3, 0, 0], [0, 9, 0, 257], [usize::MAX; 4]] {
        assert_eq!(run(AT, 0, n, 300), (12, 0));
    }
    assert_eq!(run(AT, 0, [0, 255, 0, 256], 255), (14, 0));
    let points = [1.0, 0.0, 0.0, -1.0, 0.0, 0.0];
    let parted = |ps: &[f32], axis: usize, d: f32, a: usize, b: usize| {
        kept(floats(a), |x| kept(floats(b), |y| refused(split(ps, axis, d, x, y))))
    };
    assert_eq!(parted(&points[..4], 9, f32::NAN, 0, 0), (1, 0));
    assert_eq!(parted(&points, 9, 1_073_741_952.0, 0, 0), (3, 0));
    assert_eq!(parted(&[0.0, 0.0, f32::NAN], 9, 0.0, 0, 0), (3, 3));
    assert_eq!(parted(&points, 3, 0.0, 6, 6), (12, 0));
    assert_eq!(parted(&points, 0, 0.0, 2, 3), (14, 0));
    assert_eq!(parted(&points, 0, 0.0, 3, 2), (14, 0));
}

#[test]
fn boxing() {
    let run = |of: &[u8], r: Axes, at: Placement, label: u8, p: usize, t: usize| {
        kept(floats(p), |x| kept(words(t), |y| refused(boxes(of, r, at, label, x, y))))
    };
    assert_eq!(run(&[8; 27], THREE, Placement { x: f32::NAN, ..AT }, 8, 0, 0), (3, 0));
    assert_eq!(run(&[8; 27], THREE, Placement { reciprocal: f32::NAN, ..AT }, 8, 0, 0), (5, 0));
    assert_eq!(run(&[8; 27], Axes { r2: 257, ..THREE }, AT, 9, 0, 0), (8, 2));
    assert_eq!(run(&[8; 26], THREE, AT, 9, 0, 0), (9, 0));
    assert_eq!(run(&[9; 27], THREE, AT, 9, 0, 0), (11, 0));
    assert_eq!(run(&[8, 8, 9], Axes { r0: 3, r1: 1, r2: 1 }, AT, 8, 0, 0), (11, 2));
    assert_eq!(run(&[8], Axes { r0: 1, r1: 1, r2: 1 }, AT, 8, 23, 36), (14, 0));
    assert_eq!(run(&[8], Axes { r0: 1, r1: 1, r2: 1 }, AT, 8, 24, 35), (14, 0));
}

#[test]
fn every_number_has_its_own_sentence() {
    let sentences: Vec<_> = (1..=17).map(|number| Refusal { number, place: 0 }.sentence()).collect();
    for (n, s) in sentences.iter().enumerate() {
        assert!(s.ends_with('.') && !s.contains("none of the table"), "{s}");
        assert!(!sentences[..n].contains(s));
    }
    assert!(Refusal { number: 18, place: 0 }.sentence().contains("none of the table"));
}

#[test]
fn a_refusal_is_an_error_that_reads_well() {
    let error: Box<dyn std::error::Error> = Box::new(size_by_cell(&[0.0, 0.0, f32::NAN], 1.0).unwrap_err());
    assert_eq!(error.to_string(), "refused with 3 at 2: A point or origin number is NaN, infinite, or over 2^20 in magnitude, or a plane's d is so, or over 2^30.");
}
