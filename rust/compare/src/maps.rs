//! Maps of cells to be filled, edited and listed: labels 8 for surface and 0 for any other cell.

use crate::meshes;
use crate::random::Random;
use lifted::fill::VoxelizedVolume;
use lifted::models::sizing::vectors;
use lifted::shapes::{serpentine, spiral, Cell};
use lifted::sizing;

#[derive(Clone)]
pub struct Marks {
    pub axes: [u32; 3],
    pub labels: Vec<u8>,
}

/// The cells of a grid, in the order of their numbers.
pub fn cells(axes: [u32; 3]) -> impl Iterator<Item = Cell> {
    let [r0, r1, r2] = axes;
    (0..r2).flat_map(move |k| (0..r1).flat_map(move |j| (0..r0).map(move |i| [i, j, k])))
}

/// A map whose axes are turned and mirrored by chance.
fn laid(rng: &mut Random, axes: [u32; 3], mut surface: impl FnMut(Cell) -> bool) -> Marks {
    let (turn, mirror) = (rng.below(3), rng.below(8));
    let mut turned = axes;
    turned.rotate_right(turn);
    let label = |mut at: Cell| {
        for a in 0..3 {
            at[a] = if mirror >> a & 1 == 1 { turned[a] - 1 - at[a] } else { at[a] };
        }
        at.rotate_left(turn);
        if surface(at) {
            8
        } else {
            0
        }
    };
    Marks { axes: turned, labels: cells(turned).map(label).collect() }
}

/// Any density on any grid of up to so many cells a side.
fn scattered(rng: &mut Random, size: usize) -> Marks {
    let most = if rng.one_in(16) { size } else { rng.pick(&[3, 5, 9, 20, 40]).min(size) };
    let axes = [0; 3].map(|_| rng.within(1, most) as u32);
    let density = rng.pick(&[0, 3, 10, 60, 120, 200, 300, 400, 500, 600, 700, 850, 950, 1000]);
    let mut labels = Random::of(rng.bits() as u64, 0, 0);
    laid(rng, axes, |_| labels.below(1000) < density)
}

/// Lengths about the 64 cells that a walk goes, and about multiples of it.
const LONG: [u32; 18] = [1, 2, 62, 63, 64, 65, 66, 67, 127, 128, 129, 130, 131, 192, 193, 194, 255, 256];

/// A long axis, with few surface cells.
fn long(rng: &mut Random) -> Marks {
    let wide = if rng.one_in(4) { rng.within(62, 67) } else { rng.within(1, 5) };
    let axes = [rng.pick(&LONG), wide as u32, rng.within(1, 5) as u32];
    let density = rng.pick(&[0, 5, 20, 100, 400]);
    let mut labels = Random::of(rng.bits() as u64, 0, 0);
    laid(rng, axes, |_| labels.below(1000) < density)
}

/// A long tube, each end closed or open, with up to two plugs in it and up to two holes in its wall.
fn tube(rng: &mut Random) -> Marks {
    let axes = [rng.pick(&LONG), rng.within(3, 4) as u32, rng.within(3, 4) as u32];
    let (closed, odd) = ([rng.one_in(2), rng.one_in(2)], rng.below(3));
    let changed = [0; 4].map(|_| axes.map(|r| rng.below(r as usize) as u32));
    let wall = |at: Cell| {
        let beside = (1..3).any(|a| at[a] == 0 || at[a] + 1 == axes[a]);
        beside || closed[0] && at[0] == 0 || closed[1] && at[0] + 1 == axes[0]
    };
    laid(rng, axes, |at| wall(at) != changed[..2 * odd].contains(&at))
}

/// A solid block with a corridor through it, to and fro or in a spiral, some plugs in it and some entrances.
fn corridor(rng: &mut Random, size: usize) -> Marks {
    let flat = rng.one_in(2);
    let most = if flat { 74 } else { size.clamp(8, 34) };
    let side = 5 + 2 * rng.below(most / 2 - 3) as u32;
    let (axes, path) = if flat { ([side, side, 3], spiral(side as i32)) } else { ([side; 3], serpentine(side)) };
    let mut open = vec![false; axes.iter().product::<u32>() as usize];
    let number = |at: Cell| (at[0] + axes[0] * (at[1] + axes[1] * at[2])) as usize;
    path.iter().for_each(|&at| open[number(at)] = true);
    for _ in 0..rng.below(4) {
        let plug = rng.pick(&path);
        open[number(plug)] = false;
    }
    let ends = [path[0], path[path.len() - 1], rng.pick(&path)];
    for mut end in ends.into_iter().take(rng.below(4)) {
        end[rng.below(3)] = 0;
        open[number(end)] = true;
    }
    laid(rng, axes, |at| !open[number(at)])
}

/// Boxes within boxes or balls within balls, with walls of one or two cells and some holes: a vessel of many walls.
fn layered(rng: &mut Random, size: usize) -> Marks {
    let most = size.clamp(6, 40);
    let axes = [0; 3].map(|_| rng.within(5, most) as u32);
    let (gap, thick, ball) = (rng.within(2, 5) as u32, rng.within(1, 2) as u32, rng.one_in(2));
    let holes = rng.pick(&[0, 0, 1, 5, 50]);
    let mut chance = Random::of(rng.bits() as u64, 0, 0);
    let first = rng.below(2) as u32;
    let ring = |at: Cell| {
        let middle = |a: usize| (2.0 * at[a] as f32 + 1.0 - axes[a] as f32) / 2.0;
        let far = (middle(0) * middle(0) + middle(1) * middle(1) + middle(2) * middle(2)).sqrt() as u32;
        let near = (0..3).map(|a| at[a].min(axes[a] - 1 - at[a])).min().unwrap();
        if ball {
            far
        } else {
            near + first
        }
    };
    laid(rng, axes, |at| ring(at) % (gap + thick) >= gap && chance.below(1000) >= holes)
}

/// The steel of a vessel, as the lifted marking marks it.
fn steel(rng: &mut Random, size: usize) -> Marks {
    let (_, (points, triangles)) = meshes::vessel(rng, 24);
    let (points, resolution) = (vectors(&points), rng.within(6, size.clamp(6, 48)) as u32);
    let triangles: Vec<[u32; 3]> = triangles.chunks(3).map(|t| [t[0], t[1], t[2]]).collect();
    let mut volume = VoxelizedVolume::from_sizing(sizing::VoxelizedVolume::voxelize(&points, resolution));
    volume.do_mark(&points, &triangles, false);
    Marks { axes: volume.resolution, labels: volume.values.iter().map(|v| v.number()).collect() }
}

pub fn marks(rng: &mut Random, size: usize) -> Marks {
    match rng.below(10) {
        0..=2 => scattered(rng, size),
        3 => long(rng),
        4 => tube(rng),
        5 => corridor(rng, size),
        6 => steel(rng, size),
        _ => layered(rng, size),
    }
}

/// The grids of at most so many cells, the fewest first.
pub fn tiny(most: u32) -> Vec<[u32; 3]> {
    let axes = (0..most * most * most).map(|n| [n % most + 1, n / most % most + 1, n / most / most + 1]);
    let mut all: Vec<[u32; 3]> = axes.filter(|r| r.iter().product::<u32>() <= most).collect();
    all.sort_by_key(|r| r.iter().product::<u32>());
    all
}

/// The n-th row of so many labels of these.
pub fn row(labels: &[u8], length: usize, mut n: usize) -> Vec<u8> {
    let next = |_| {
        let label = labels[n % labels.len()];
        n /= labels.len();
        label
    };
    (0..length).map(next).collect()
}
