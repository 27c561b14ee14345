//! Of an f32 output the library's contract says of a NaN only that it stays a NaN. That its bits stay too, after a
//! refusal and past the answer, is tried here.
use vesselmap::*;

const AT: Placement = Placement { x: 0.0, y: 0.0, z: 0.0, scale: 1.0, reciprocal: 1.0 };

/// Quiet and signalling NaNs of both signs, with payloads.
const PATTERNS: [u32; 8] =
    [0x7fc0_0000, 0xffc0_0000, 0x7f80_0001, 0xff80_0001, 0x7fff_ffff, 0xffff_ffff, 0x7fa5_a5a5, 0xffc1_2345];

/// An output of n NaNs, its bits taken before the call.
fn output(n: usize) -> (Vec<f32>, Vec<u32>) {
    let bits: Vec<u32> = (0..n).map(|i| PATTERNS[i % PATTERNS.len()]).collect();
    (bits.iter().map(|&b| f32::from_bits(b)).collect(), bits)
}

fn bits(of: &[f32]) -> Vec<u32> {
    of.iter().map(|x| x.to_bits()).collect()
}

#[test]
fn an_output_starts_with_its_patterns() {
    let (floats, before) = output(16);
    assert_eq!(bits(&floats), before);
}

#[test]
fn planes_leave_them() {
    for (axis, low, room) in [(3, 0, 40), (0, 300, 40), (1, 0, 3)] {
        let (mut ds, before) = output(room);
        planes(AT, axis, low, 255, 10, 2, &mut ds).unwrap_err();
        assert_eq!(bits(&ds), before);
    }
    for room in 5..40 {
        let (mut ds, before) = output(room);
        let n = planes(AT, 2, 0, 255, 10, 2, &mut ds).unwrap().count;
        assert_eq!(n, 5);
        assert!(ds[..n].iter().all(|d| d.is_finite()));
        assert_eq!(bits(&ds[n..]), before[n..]);
    }
}

#[test]
fn split_leaves_them() {
    let points = [1.0, 0.0, 0.0, -1.0, 0.0, 0.0, 0.0, 0.0, 0.0, 2.0, 0.0, 0.0];
    for (axis, d, rooms) in [(3, 0.0, (20, 20)), (0, f32::NAN, (20, 20)), (0, 0.0, (8, 20)), (0, 0.0, (20, 5))] {
        let ((mut above, a), (mut below, b)) = (output(rooms.0), output(rooms.1));
        split(&points, axis, d, &mut above, &mut below).unwrap_err();
        assert_eq!((bits(&above), bits(&below)), (a, b));
    }
    for room in 9..30 {
        let ((mut above, a), (mut below, b)) = (output(room), output(room));
        let n = split(&points, 0, 0.0, &mut above, &mut below).unwrap();
        assert_eq!((n.first, n.second), (3, 2));
        assert_eq!((bits(&above[9..]), bits(&below[6..])), (a[9..].to_vec(), b[6..].to_vec()));
    }
}

#[test]
fn boxes_leave_them() {
    let r = Axes { r0: 3, r1: 1, r2: 1 };
    for (label, rooms) in [(9, (90, 90)), (8, (47, 72)), (8, (48, 71))] {
        let (mut points, p) = output(rooms.0);
        let mut triangles = vec![0xDEAD_BEEF; rooms.1];
        boxes(&[8, 6, 8], r, AT, label, &mut points, &mut triangles).unwrap_err();
        assert_eq!(bits(&points), p);
        assert!(triangles.iter().all(|&t| t == 0xDEAD_BEEF));
    }
    for room in 48..80 {
        let (mut points, p) = output(room);
        let mut triangles = vec![0xDEAD_BEEF; 80];
        assert_eq!(boxes(&[8, 6, 8], r, AT, 8, &mut points, &mut triangles), Ok(2));
        assert_eq!(bits(&points[48..]), p[48..]);
        assert!(triangles[72..].iter().all(|&t| t == 0xDEAD_BEEF));
    }
}
