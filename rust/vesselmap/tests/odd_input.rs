//! Whatever the types admit is answered or refused: every call, on empty, huge and misordered input. None faults.
use vesselmap::*;

const SIZES: [usize; 7] = [0, 1, 2, 256, 257, usize::MAX / 2 + 1, usize::MAX];
const FLOATS: [f32; 8] = [0.0, -0.0, 1.0, -1.0, f32::NAN, f32::INFINITY, f32::MIN_POSITIVE, f32::MAX];

fn some_axes() -> impl Iterator<Item = Axes> {
    SIZES
        .into_iter()
        .flat_map(|r0| SIZES.into_iter().flat_map(move |r1| SIZES.into_iter().map(move |r2| Axes { r0, r1, r2 })))
}

fn some_placements() -> impl Iterator<Item = Placement> {
    FLOATS.into_iter().flat_map(|x| {
        FLOATS.into_iter().flat_map(move |scale| {
            FLOATS.into_iter().map(move |reciprocal| Placement { x, y: 0.0, z: x, scale, reciprocal })
        })
    })
}

/// A refusal's number is one of the table, and a call's slices are as they were.
fn held<A>(answer: Result<A, Refusal>, same: bool) {
    if let Err(r) = answer {
        assert!((1..=15).contains(&r.number), "{r}");
        assert!(same, "{r}");
    }
}

#[test]
fn sizes() {
    for n in 0..8 {
        for x in FLOATS {
            let points = [x, 0.0, 1.0, -x, x, 2.0, 3.0, x];
            for y in FLOATS {
                held(size_by_cell(&points[..n], y), true);
            }
            for r in [0, 1, 2, 254, 255, u32::MAX] {
                held(size_by_resolution(&points[..n], r), true);
            }
        }
    }
}

#[test]
fn maps_of_any_axes() {
    let at = Placement { x: 0.0, y: 0.0, z: 0.0, scale: 1.0, reciprocal: 1.0 };
    let points = [0.0, 0.0, 0.0, 1.0, 1.0, 1.0];
    for r in some_axes() {
        for len in [0, 1, 4, 8, 256] {
            for old in [vec![0; len], vec![8; len], vec![6; len], vec![7; len], vec![255; len]] {
                let mut l = old.clone();
                held(mark(&points, &[0, 1, 0], r, at, &mut l), l == old);
                for mode in [Mode::SurfaceOnly, Mode::Flood, Mode::Cavities] {
                    let mut l = old.clone();
                    held(fill(&mut l, r, mode), l == old);
                }
                for c in [0, 1, usize::MAX].map(|i| Cell { i, j: 0, k: i }) {
                    let mut l = old.clone();
                    held(open(&mut l, r, c), l == old);
                    let mut l = old.clone();
                    held(close(&mut l, r, c), l == old);
                }
                let mut o = [7; 64];
                held(list_cells(&old, r, &mut o), o == [7; 64]);
                let (mut o, mut q) = ([7; 64], [7; 3]);
                held(list_pairs(&points, &[1, 0, 0], r, at, &old, &mut o, &mut q), (o, q) == ([7; 64], [7; 3]));
                let (mut p, mut t) = ([7.0; 30], [7; 40]);
                held(boxes(&old, r, at, 8, &mut p, &mut t), (p, t) == ([7.0; 30], [7; 40]));
            }
        }
    }
}

#[test]
fn any_placement() {
    let r = Axes { r0: 2, r1: 1, r2: 1 };
    for at in some_placements() {
        let mut l = [5; 2];
        held(mark(&[0.0, 1.0, 2.0], &[0, 0, 0], r, at, &mut l), l == [5; 2]);
        let mut ds = [7.0; 4];
        held(planes(at, 2, 0, 3, 1, 1, &mut ds), ds == [7.0; 4]);
        let (mut p, mut t) = ([7.0; 48], [7; 72]);
        held(boxes(&[8, 8], r, at, 8, &mut p, &mut t), (p, t) == ([7.0; 48], [7; 72]));
    }
}

#[test]
fn planes_of_any_numbers() {
    let at = Placement { x: 0.0, y: 0.0, z: 0.0, scale: 1.0, reciprocal: 1.0 };
    for axis in SIZES {
        for low in SIZES {
            for high in SIZES {
                for best in SIZES {
                    for step in SIZES {
                        let mut ds = [7.0; 3];
                        held(planes(at, axis, low, high, best, step, &mut ds), ds == [7.0; 3]);
                    }
                }
            }
        }
    }
}

#[test]
fn splits_of_any_numbers() {
    for axis in SIZES {
        for x in FLOATS {
            for d in FLOATS {
                for n in [0, 1, 3, 6] {
                    let (mut a, mut b) = ([7.0; 3], [7.0; 6]);
                    held(split(&[x, 1.0, x, -x, x, 0.0][..n], axis, d, &mut a, &mut b), (a, b) == ([7.0; 3], [7.0; 6]));
                }
            }
        }
    }
}

#[test]
fn ranges_and_classes_of_any_numbers() {
    const WORDS: [u32; 6] = [0, 1, 3, 4, u32::MAX - 1, u32::MAX];
    for list in [&[][..], &[5], &[1, 2, 3]] {
        for a in WORDS {
            for b in WORDS {
                held(check_range(list, a, b), true);
                assert!(list_slice(list, a, b).len() <= list.len());
                for count in SIZES {
                    let mut o = [7; 3];
                    held(classify(list, &[a, b], count, &mut o), o == [7; 3]);
                    held(classify(&[a, b], list, count, &mut o), true);
                }
            }
        }
    }
}

#[test]
fn records_of_any_slice() {
    let numbers: Vec<u32> = (0..20).collect();
    for n in 0..20 {
        let records = Records::new(&numbers[..n]);
        assert_eq!(records.len(), n / 6);
        assert_eq!(records.iter().count(), records.len());
        assert_eq!(records.is_empty(), n < 6);
        assert_eq!(records.get(records.len()), None);
        assert_eq!(records.get(usize::MAX), None);
    }
    assert_eq!(Axes { r0: usize::MAX, r1: usize::MAX, r2: 9 }.number(Cell { i: 0, j: 0, k: 8 }), None);
}
