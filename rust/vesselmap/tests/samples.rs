//! The sample maps of the library's scope, by way of the Rust crate.
use vesselmap::*;

/// Points of an extent d along x, y and z.
fn span(d: [f32; 3]) -> [f32; 6] {
    [0.0, 0.0, 0.0, d[0], d[1], d[2]]
}

fn axes(r: Axes) -> [usize; 3] {
    [r.r0, r.r1, r.r2]
}

fn count(labels: &[u8], l: u8) -> usize {
    labels.iter().filter(|&&v| v == l).count()
}

#[test]
fn sizes_by_cell() {
    for (extent, size, cells) in [(30.0, 1.5, 21), (30.0, 15.0, 3), (0.0, 1.0, 3), (255.0, 1.0, 256)] {
        assert_eq!(axes(size_by_cell(&span([extent; 3]), size).unwrap().axes), [cells; 3]);
    }
    let refusal = size_by_cell(&span([0.0, 255.5, 0.0]), 1.0).unwrap_err();
    assert_eq!(refusal, Refusal { number: 8, place: 1 });
}

#[test]
fn a_placement_is_the_least_point_the_scale_and_its_reciprocal() {
    let at = size_by_cell(&[3.0, -1.0, 2.0, 4.0, 5.0, -6.0], 1.5).unwrap().placement;
    assert_eq!((at.x, at.y, at.z, at.scale, at.reciprocal), (3.0, -1.0, -6.0, 1.5, 1.0 / 1.5));
}

#[test]
fn sizes_by_resolution() {
    let grid = size_by_resolution(&span([4.0, 2.0, 1.0]), 10).unwrap();
    assert_eq!(axes(grid.axes), [10, 7, 4]);
    assert_eq!(grid.placement.scale.to_bits(), 0x3ee3_8e39);
    assert_eq!(axes(size_by_resolution(&span([2.0, 2.0, 1.0]), 4).unwrap().axes), [4, 6, 4]);
    assert_eq!(size_by_resolution(&span([1.0; 3]), 1).unwrap_err().number, 6);
}

#[test]
fn cell_numbers() {
    let r = Axes { r0: 3, r1: 3, r2: 3 };
    assert_eq!(r.number(Cell { i: 1, j: 2, k: 0 }), Some(7));
    assert_eq!(r.number(Cell { i: 3, j: 0, k: 0 }), None);
}

#[test]
fn the_sample_list() {
    let points = [0.0, 0.0, 0.0, 2.0, 2.0, 2.0, 0.5, 0.0, 0.0];
    let triangles = [2, 2, 2, 0, 0, 0];
    let grid = size_by_cell(&points, 1.0).unwrap();
    assert_eq!(axes(grid.axes), [3; 3]);
    let mut labels = [9; 27];
    mark(&points, &triangles, grid.axes, grid.placement, &mut labels).unwrap();
    assert_eq!(fill(&mut labels, grid.axes, Mode::Flood), Ok(Filled { scans: 2, left: 0 }));
    assert_eq!([6, 7, 8].map(|l| count(&labels, l)), [25, 0, 2]);
    let (mut records, mut list) = ([77; 13], [77; 4]);
    let listed = list_pairs(&points, &triangles, grid.axes, grid.placement, &labels, &mut records, &mut list);
    assert_eq!(listed, Ok(Listed { cells: 2, pairs: 3 }));
    assert_eq!(records, [0, 0, 0, 1, 0, 2, 1, 0, 0, 1, 2, 3, 77]);
    assert_eq!(list, [0, 1, 0, 77]);
    let read: Vec<_> = Records::new(&records).iter().map(|r| list_slice(&list, r.start, r.end).to_vec()).collect();
    assert_eq!(read, [vec![0, 1], vec![0]]);
    assert_eq!(list_cells(&labels, grid.axes, &mut records), Ok(Listed { cells: 2, pairs: 0 }));
    assert_eq!(records, [0, 0, 0, 1, 0, 0, 1, 0, 0, 1, 0, 0, 77]);
}

#[test]
fn a_sealed_centre() {
    let r = Axes { r0: 3, r1: 3, r2: 3 };
    let mut marks = [8; 27];
    marks[13] = 0;
    let mut flood = marks;
    assert_eq!(fill(&mut flood, r, Mode::Flood), Ok(Filled { scans: 1, left: 0 }));
    assert_eq!(flood[13], label::INSIDE);
    let mut cavities = marks;
    assert_eq!(fill(&mut cavities, r, Mode::Cavities), Ok(Filled { scans: 2, left: 1 }));
    assert_eq!(cavities[13], label::UNDEFINED);
    let mut surface = marks;
    assert_eq!(fill(&mut surface, r, Mode::SurfaceOnly), Ok(Filled { scans: 0, left: 0 }));
    assert_eq!(surface[13], label::OUTSIDE);
}

/// 5 by 5 by 5, the 26 cells about the centre marked.
fn shell() -> (Axes, [u8; 125]) {
    let r = Axes { r0: 5, r1: 5, r2: 5 };
    let mut marks = [0; 125];
    for (i, j, k) in (1..4).flat_map(|i| (1..4).flat_map(move |j| (1..4).map(move |k| (i, j, k)))) {
        marks[r.number(Cell { i, j, k }).unwrap()] = if (i, j, k) == (2, 2, 2) { 0 } else { 8 };
    }
    (r, marks)
}

#[test]
fn a_shell_filled_opened_and_closed() {
    let (r, marks) = shell();
    let mut map = marks;
    assert_eq!(fill(&mut map, r, Mode::Flood), Ok(Filled { scans: 2, left: 0 }));
    assert_eq!([count(&map, 6), count(&map, 7)], [98, 1]);
    let mut cavities = marks;
    assert_eq!(fill(&mut cavities, r, Mode::Cavities), Ok(Filled { scans: 5, left: 0 }));
    assert_eq!(cavities, map);
    let (before, hatch) = (map, Cell { i: 1, j: 2, k: 2 });
    assert_eq!(open(&mut map, r, hatch), Ok(2));
    assert_eq!(count(&map, 7), 0);
    assert_eq!(close(&mut map, r, hatch), Ok(2));
    assert_eq!(map, before);
    assert_eq!(open(&mut map, r, Cell { i: 2, j: 2, k: 2 }), Err(Refusal { number: 13, place: 0 }));
    assert_eq!(map, before);
}

#[test]
fn classes_of_triangles() {
    let mut classes = [5; 6];
    classify(&[0, 1, 1, 3], &[2, 2, 4], 5, &mut classes).unwrap();
    assert_eq!(classes, [0, SEVERAL, NO_CLASS, 2, NO_CLASS, 5]);
}

#[test]
fn planes_and_a_split() {
    let at = Placement { x: 1.0, y: 2.0, z: 4.0, scale: 0.5, reciprocal: 2.0 };
    let mut ds = [9.0; 5];
    assert_eq!(planes(at, 1, 0, 9, 1, 2, &mut ds), Ok(Planes { first: 0, count: 4 }));
    assert_eq!(ds, [-2.25, -2.75, -3.25, -3.75, 9.0]);
    let points = [0.0, 1.0, 0.0, 0.0, 2.0, 0.0, 0.0, 3.0, 0.0];
    let (mut above, mut below) = ([7.0; 9], [7.0; 9]);
    assert_eq!(split(&points, 1, -2.0, &mut above, &mut below), Ok(Sides { first: 2, second: 2 }));
    assert_eq!(above, [0.0, 2.0, 0.0, 0.0, 3.0, 0.0, 7.0, 7.0, 7.0]);
    assert_eq!(below, [0.0, 1.0, 0.0, 0.0, 2.0, 0.0, 7.0, 7.0, 7.0]);
}

#[test]
fn a_box() {
    let r = Axes { r0: 2, r1: 1, r2: 1 };
    let at = Placement { x: 0.0, y: 0.0, z: 0.0, scale: 2.0, reciprocal: 0.5 };
    let (mut points, mut triangles) = ([9.0; 25], [99; 37]);
    assert_eq!(boxes(&[6, 8], r, at, 8, &mut points, &mut triangles), Ok(1));
    assert_eq!(points[..6], [1.0, -1.0, -1.0, 3.0, -1.0, -1.0]);
    assert_eq!(triangles[..6], [0, 2, 1, 0, 3, 2]);
    assert!(triangles[..36].iter().all(|&n| n < 8));
    assert_eq!((points[24], triangles[36]), (9.0, 99));
}

#[test]
fn parts_of_a_list() {
    let list = [10, 20, 30, 40];
    assert_eq!(list_slice(&list, 1, 3), &list[1..3]);
    assert_eq!(list_slice(&list, 1, 3).as_ptr(), list[1..].as_ptr());
    assert_eq!(list_slice(&list, 4, 4), &[] as &[u32]);
    for (start, end) in [(3, 1), (0, 5), (u32::MAX, 0), (5, u32::MAX)] {
        assert_eq!(list_slice(&list, start, end), &[] as &[u32]);
        assert_eq!(check_range(&list, start, end), Err(Refusal { number: 15, place: 0 }));
    }
    assert_eq!(check_range(&list, 2, 2), Ok(()));
}
