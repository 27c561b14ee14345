//! The program by way of the Rust crate: its text, and its refusals with their places.
use vesselmap::*;

fn head(way: u8, mode: u8, four: [u8; 4]) -> Vec<u8> {
    [b"Vh".as_slice(), &[way, mode], &four].concat()
}

fn point(p: [f32; 3]) -> Vec<u8> {
    [b"Vp".as_slice(), &p.map(f32::to_le_bytes).concat()].concat()
}

fn triangle(t: [u32; 3]) -> Vec<u8> {
    [b"Vt".as_slice(), &t.map(u32::to_le_bytes).concat()].concat()
}

/// The sample of three points and two triangles, by size 1, flooded.
fn sample() -> Vec<u8> {
    [
        head(0, 1, 1f32.to_le_bytes()),
        point([0.0, 0.0, 0.0]),
        point([2.0, 2.0, 2.0]),
        point([0.5, 0.0, 0.0]),
        triangle([2, 2, 2]),
        triangle([0, 0, 0]),
        b"Vz".to_vec(),
    ]
    .concat()
}

/// The text of an input, written into a longer buffer whose other bytes must stay.
fn text(input: &[u8]) -> String {
    let mut output = [0xa5; 300];
    let n = run(input, &mut output).unwrap();
    assert!(output[n..].iter().all(|&b| b == 0xa5));
    String::from_utf8(output[..n].to_vec()).unwrap()
}

#[test]
fn the_sample_and_its_text() {
    let said = summarize(&sample()).unwrap();
    let axes = Axes { r0: 3, r1: 3, r2: 3 };
    assert_eq!(said, Summary { axes, outside: 25, inside: 0, surface: 2, left: 0, scans: 2 });
    assert_eq!(text(&sample()), "cells 3 3 3\noutside 25\ninside 0\nsurface 2\nleft 0\nscans 2\n");
}

#[test]
fn a_short_output_is_refused_and_left() {
    let long = text(&sample()).len();
    for n in 0..long {
        let mut output = vec![0xa5; n];
        assert_eq!(run(&sample(), &mut output), Err(Refusal { number: 14, place: 0 }));
        assert!(output.iter().all(|&b| b == 0xa5));
    }
    assert_eq!(run(&sample(), &mut vec![0; long]), Ok(long));
}

#[test]
fn every_prefix_is_cut() {
    // Each record of the sample starts at one of these offsets, and the prefix is refused at the one it stops in.
    let starts = [0, 8, 22, 36, 50, 64, 78];
    let whole = sample();
    for n in 0..whole.len() {
        let at = *starts.iter().rfind(|&&s| s <= n).unwrap();
        assert_eq!(summarize(&whole[..n]), Err(Refusal { number: 17, place: at }), "{n} bytes");
        assert_eq!(text(&whole[..n]), "refused 17\n");
    }
}

#[test]
fn what_is_refused_while_reading() {
    let end = b"Vz".to_vec();
    let p = point([0.0; 3]);
    let t = triangle([0; 3]);
    let h = head(1, 1, 8u32.to_le_bytes());
    let cases: [(Vec<Vec<u8>>, u8, usize); 9] = [
        (vec![p.clone(), end.clone()], 16, 0),
        (vec![h.clone(), h.clone(), end.clone()], 16, 8),
        (vec![h.clone(), p.clone(), t.clone(), p.clone(), end.clone()], 16, 36),
        (vec![h.clone(), b"Vq".to_vec()], 16, 8),
        (vec![head(2, 1, [0; 4]), end.clone()], 16, 0),
        (vec![head(0, 3, [0; 4]), end.clone()], 16, 0),
        (vec![h.clone(), end.clone(), vec![0]], 16, 10),
        (vec![h.clone(), p.repeat(256), t.clone(), b"Vp".to_vec()], 1, 0),
        (vec![h.clone(), t.repeat(256), b"Vt".to_vec()], 1, 0),
    ];
    for (records, number, place) in cases {
        assert_eq!(summarize(&records.concat()), Err(Refusal { number, place }));
    }
}

#[test]
fn what_a_complete_input_meets() {
    let end = b"Vz".to_vec();
    let size = |s: f32| head(0, 1, s.to_le_bytes());
    let resolution = |r: u32| head(1, 1, r.to_le_bytes());
    let wide = [point([0.0; 3]), point([40.0, 40.0, 40.0])].concat();
    let cases: [(Vec<Vec<u8>>, u8, usize); 9] = [
        (vec![size(1.0)], 2, 0),
        (vec![size(f32::NAN), point([0.0, f32::NAN, 0.0])], 3, 1),
        (vec![size(f32::NAN), point([0.0; 3]), triangle([0, 0, 0]), triangle([0, 1, 0])], 4, 1),
        (vec![size(f32::NAN), point([0.0; 3])], 5, 0),
        (vec![resolution(255), point([0.0; 3])], 6, 0),
        (vec![resolution(254), point([0.0; 3])], 7, 0),
        (vec![size(1.0), point([0.0; 3]), point([0.0, 256.0, 0.0])], 8, 1),
        (vec![size(1.0), wide.clone()], 8, 0),
        (vec![resolution(40), wide.clone()], 8, 0),
    ];
    for (mut records, number, place) in cases {
        records.push(end.clone());
        assert_eq!(summarize(&records.concat()), Err(Refusal { number, place }));
        assert_eq!(text(&records.concat()), format!("refused {number}\n"));
    }
    let fits = [size(1.0), point([0.0; 3]), point([31.0, 31.0, 31.0]), end].concat();
    assert_eq!(summarize(&fits).unwrap().axes, Axes { r0: 32, r1: 32, r2: 32 });
}
