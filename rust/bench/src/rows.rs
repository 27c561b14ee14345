//! What is timed of a vessel: sizing, marking, marking with pairs and the list, the list alone, and the whole way. Of
//! any marks: the fills. Each row has our side, the crate's, and the bytes that must be moved.
use crate::passes::Bytes;
use crate::shapes::{cells, map_of, marks_of, resolution, Marks, Vessel};
use crate::timing::{timed, Side};
use lifted::fill::{FillMode, VoxelizedVolume};
use lifted::list::VoxelSet;
use std::hint::black_box;
use vesselmap::{Axes, Mode};

pub struct Row<'a> {
    pub name: &'static str,
    pub shape: &'static str,
    pub size: u32,
    pub cells: usize,
    pub bytes: Bytes,
    pub ours: Side<'a>,
    pub theirs: Side<'a>,
}

/// How often a call is repeated that is too short to be timed alone.
const REPEATS: usize = 100;

const FLOOD: FillMode = FillMode::FloodFill { detect_cavities: false };

fn row<'a>(name: &'static str, v: &Vessel, bytes: Bytes, ours: Side<'a>, theirs: Side<'a>) -> Row<'a> {
    Row { name, shape: v.name, size: v.size, cells: cells(v.grid.axes), bytes, ours, theirs }
}

fn mesh_bytes(v: &Vessel) -> usize {
    4 * (v.points.len() + v.triangles.len())
}

/// The time of one of many repeats.
fn many<T>(work: impl Fn() -> T) -> f64 {
    let all = || {
        for _ in 0..REPEATS {
            black_box(work());
        }
    };
    timed(all) / REPEATS as f64
}

pub fn sizing(v: &Vessel) -> Row<'_> {
    let ours = || many(|| vesselmap::size_by_resolution(black_box(&v.points), v.size));
    let theirs = || many(|| lifted::sizing::VoxelizedVolume::voxelize(black_box(&v.vectors), v.size));
    let bytes = Bytes { read: 4 * v.points.len(), ..Bytes::default() };
    row("sizing", v, bytes, Box::new(ours), Box::new(theirs))
}

/// Our marking into lent labels.
fn mark(v: &Vessel, labels: &mut [u8]) {
    vesselmap::mark(&v.points, &v.triangles, v.grid.axes, v.grid.placement, labels).expect("marked before");
}

/// The crate's marking with what it allocates, and its sizing before that, which takes microseconds; with the pairs
/// where they are kept.
fn marked(v: &Vessel, keep: bool) -> VoxelizedVolume {
    let mut volume = VoxelizedVolume::from_sizing(lifted::sizing::VoxelizedVolume::voxelize(&v.vectors, v.size));
    volume.do_mark(&v.vectors, &v.indices, keep);
    volume
}

pub fn marking(v: &Vessel) -> Row<'_> {
    let mut labels = vec![0; cells(v.grid.axes)];
    let bytes = Bytes { read: mesh_bytes(v), written: labels.len(), swept: 0 };
    let ours = move || timed(|| mark(v, &mut labels));
    let theirs = move || timed(|| marked(v, false));
    row("marking", v, bytes, Box::new(ours), Box::new(theirs))
}

/// The outputs of a list with pairs, large enough for the vessel's.
struct Outputs {
    records: Vec<u32>,
    list: Vec<u32>,
}

impl Outputs {
    /// And how many bytes of them are written.
    fn of(v: &Vessel, map: &[u8]) -> (Outputs, usize) {
        let listed = map.iter().filter(|&&label| label == 7 || label == 8).count();
        let pairs = marked(v, true).primitive_intersections.len();
        (Outputs { records: vec![0; 6 * listed], list: vec![0; 2 * pairs] }, 24 * listed + 4 * pairs)
    }

    fn write(&mut self, v: &Vessel, map: &[u8]) {
        let Vessel { points, triangles, grid, .. } = v;
        vesselmap::list_pairs(points, triangles, grid.axes, grid.placement, map, &mut self.records, &mut self.list)
            .expect("outputs that are long enough");
    }
}

/// Marking with pairs, and the list with them. The fill between is outside the time.
pub fn pairs(v: &Vessel) -> Row<'_> {
    let map = map_of(&marks_of(v));
    let (mut outputs, written) = Outputs::of(v, &map);
    let mut labels = map.clone();
    let bytes = Bytes { read: mesh_bytes(v) + map.len(), written: map.len() + written, swept: 0 };
    let mut filled = marked(v, false);
    filled.fill(FLOOD);
    let ours = move || {
        let marking = timed(|| mark(v, &mut labels));
        marking + timed(|| outputs.write(v, &map))
    };
    let theirs = move || {
        let mut volume = None;
        let marking = timed(|| volume = Some(marked(v, true)));
        let mut volume = volume.expect("just marked");
        volume.values.copy_from_slice(&filled.values);
        marking + timed(|| VoxelSet::from(volume))
    };
    row("marking with pairs and list", v, bytes, Box::new(ours), Box::new(theirs))
}

pub fn list(v: &Vessel) -> Row<'_> {
    let map = map_of(&marks_of(v));
    let listed = map.iter().filter(|&&label| label == 7 || label == 8).count();
    let mut records = vec![0; 6 * listed];
    let bytes = Bytes { read: map.len(), written: 24 * listed, swept: 0 };
    let axes = v.grid.axes;
    let labels = map.clone();
    let ours =
        move || timed(|| vesselmap::list_cells(&labels, axes, &mut records).expect("records that are long enough"));
    let theirs = move || {
        let volume = VoxelizedVolume::from_labels(resolution(axes), &map, &[]);
        timed(|| VoxelSet::from(volume))
    };
    row("list", v, bytes, Box::new(ours), Box::new(theirs))
}

/// From points and triangles to the list with pairs.
pub fn whole(v: &Vessel) -> Row<'_> {
    let map = map_of(&marks_of(v));
    let (mut outputs, written) = Outputs::of(v, &map);
    let bytes = Bytes { read: mesh_bytes(v) + map.len(), written: map.len() + written, swept: map.len() };
    let mut labels = map;
    let ours = move || {
        timed(|| {
            vesselmap::size_by_resolution(&v.points, v.size).expect("sized before");
            mark(v, &mut labels);
            vesselmap::fill(&mut labels, v.grid.axes, Mode::Flood).expect("marks");
            outputs.write(v, &labels);
        })
    };
    let theirs = move || {
        timed(|| {
            let mut volume = marked(v, true);
            volume.fill(FLOOD);
            VoxelSet::from(volume)
        })
    };
    row("the whole way", v, bytes, Box::new(ours), Box::new(theirs))
}

/// Our fill of copied marks: the time of the fill alone.
pub fn fill_side(marks: &[u8], axes: Axes, mode: Mode) -> Side<'_> {
    let mut labels = marks.to_vec();
    Box::new(move || {
        labels.copy_from_slice(marks);
        timed(|| vesselmap::fill(&mut labels, axes, mode).expect("marks"))
    })
}

/// The crate's, in the same way.
pub fn their_fill_side(marks: &[u8], axes: Axes, mode: FillMode) -> Side<'static> {
    let mut volume = VoxelizedVolume::from_labels(resolution(axes), marks, &[]);
    let values = volume.values.clone();
    Box::new(move || {
        volume.values.copy_from_slice(&values);
        timed(|| volume.fill(mode))
    })
}

fn fill_row<'a>(name: &'static str, m: &'a Marks, cavities: bool) -> Row<'a> {
    let ours = fill_side(&m.labels, m.axes, if cavities { Mode::Cavities } else { Mode::Flood });
    let theirs = their_fill_side(&m.labels, m.axes, FillMode::FloodFill { detect_cavities: cavities });
    let bytes = Bytes { swept: m.labels.len(), ..Bytes::default() };
    Row { name, shape: m.name, size: m.size, cells: m.labels.len(), bytes, ours, theirs }
}

pub fn flood(m: &Marks) -> Row<'_> {
    fill_row("flood", m, false)
}

pub fn cavities(m: &Marks) -> Row<'_> {
    fill_row("cavities", m, true)
}
