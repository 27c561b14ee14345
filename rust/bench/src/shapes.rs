//! The inputs: vessels as points and triangles, and corridors and an empty grid as marks.
use lifted::sizing::Vector;
use lifted::vessels::Mesh;
use vesselmap::{Axes, Cell, Grid, Mode};

/// A vessel at a resolution, with its mesh as each side takes it.
pub struct Vessel {
    pub name: &'static str,
    pub size: u32,
    pub points: Vec<f32>,
    pub triangles: Vec<u32>,
    pub vectors: Vec<Vector>,
    pub indices: Vec<[u32; 3]>,
    pub grid: Grid,
}

/// Labels 0 and 8 of a grid.
pub struct Marks {
    pub name: &'static str,
    pub size: u32,
    pub axes: Axes,
    pub labels: Vec<u8>,
}

/// How many corners the circles of a vessel have: some 5,000 triangles.
const FINENESS: u32 = 64;

pub fn closed_vessel(size: u32) -> Vessel {
    vessel("closed vessel", size, lifted::vessels::closed(FINENESS))
}

pub fn open_vessel(size: u32) -> Vessel {
    vessel("open vessel", size, lifted::vessels::open_mouth(FINENESS))
}

fn vessel(name: &'static str, size: u32, (points, triangles): Mesh) -> Vessel {
    let vectors = points.chunks(3).map(|p| Vector::new(p[0], p[1], p[2])).collect();
    let indices = triangles.chunks(3).map(|t| [t[0], t[1], t[2]]).collect();
    let grid = vesselmap::size_by_resolution(&points, size).expect("a vessel that can be sized");
    Vessel { name, size, points, triangles, vectors, indices, grid }
}

pub fn cells(axes: Axes) -> usize {
    axes.r0 * axes.r1 * axes.r2
}

/// The axes as the crate has them.
pub fn resolution(axes: Axes) -> [u32; 3] {
    [axes.r0 as u32, axes.r1 as u32, axes.r2 as u32]
}

/// A vessel's marks.
pub fn marks_of(v: &Vessel) -> Marks {
    let mut labels = vec![0; cells(v.grid.axes)];
    vesselmap::mark(&v.points, &v.triangles, v.grid.axes, v.grid.placement, &mut labels)
        .expect("a vessel that can be marked");
    Marks { name: v.name, size: v.size, axes: v.grid.axes, labels }
}

/// A vessel's map.
pub fn map_of(marks: &Marks) -> Vec<u8> {
    let mut labels = marks.labels.clone();
    vesselmap::fill(&mut labels, marks.axes, Mode::Flood).expect("marks that can be filled");
    labels
}

/// A grid with walls where the answer is yes.
fn walls(name: &'static str, size: u32, axes: Axes, wall: impl Fn(Cell) -> bool) -> Marks {
    let mut labels = vec![0; cells(axes)];
    for (n, label) in labels.iter_mut().enumerate() {
        let cell = Cell { i: n % axes.r0, j: n / axes.r0 % axes.r1, k: n / (axes.r0 * axes.r1) };
        *label = if wall(cell) { 8 } else { 0 };
    }
    Marks { name, size, axes, labels }
}

fn cube(size: u32) -> Axes {
    let r = size as usize;
    Axes { r0: r, r1: r, r2: r }
}

pub fn empty(size: u32) -> Marks {
    walls("empty grid", size, cube(size), |_| false)
}

/// How many rooms the plates make, at every size.
const ROOMS: usize = 16;

/// A closed cube of rooms one above the other, each joined to the next by a slot, at one side and at the other in
/// turn; the first is open to the border.
pub fn plates(size: u32) -> Marks {
    let r = size as usize;
    let height = r / ROOMS;
    walls("plates", size, cube(size), move |c| {
        if c.i == 0 || c.j == 0 || c.i == r - 1 || c.j == r - 1 || c.k == r - 1 {
            return true;
        }
        let (room, plate) = (c.k / height, c.k % height == height - 1);
        let slot = if room % 2 == 0 { c.j == 1 } else { c.j == r - 2 };
        plate && !slot
    })
}

/// One corridor that winds to the middle of a flat grid.
pub fn spiral(size: u32) -> Marks {
    let side = (size - 1) | 1;
    let r = side as usize;
    let axes = Axes { r0: r, r1: r, r2: 3 };
    let mut marks = walls("spiral", size, axes, |_| true);
    for [i, j, k] in lifted::shapes::spiral(side as i32) {
        marks.labels[i as usize + j as usize * r + k as usize * r * r] = 0;
    }
    marks.labels[1 + r * r] = 0; // where it meets the border
    marks
}
