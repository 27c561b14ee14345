//! Writes the stored cases of crates/test_fill: its `stdin`, and in `stdout` what the lifted crate's filling,
//! with a plain model of document 01's refusals before it, answers. Run it in rust/lifted:
//! `cargo run --offline --release --bin test_fill -- ../../crates/test_fill`.
//!
//! A case is a row of little-endian words: a kind, three axes, the length of the label buffer, and two numbers a
//! and b, 0 save in kind 1. What follows gives the labels before the call, 8 for surface and 0 for any other cell:
//! - kind 0: a bit for each cell; cell n is bit n % 32 of word n / 32.
//! - kind 1: nothing follows. From s = a on, each cell in turn makes s into s * 1664525 + 1013904223 modulo 2^32,
//!   and is surface if s / 65536 % 256 is less than b.
//! - kind 2: nothing follows. The case is every grid: for each m below 2^length, cell n is bit n of m.
//! - kind 3: the labels themselves, whatever they are, four to a word.
//!
//! Each case is run in three modes, surface-only, flood and cavities, with a line for each. The sum of a row of
//! numbers x is s from 0 on, each x making it (s * 31 + x + 1) % 4294967291.
//! - `filled`: scans, cells left, how many labels are 6, 7 and 8, the sum of the labels.
//! - `refused`: number, place, the sum of the labels, which are as before.
//! - `every`, for kind 2: how many grids, all scans, all cells left, the sum over the grids of each one's labels,
//!   scans and cells left.
//!
//! Every answer is compared with a model written after 01's section Fill, and every flood with a breadth-first
//! search. The cases chosen by hand come first; random ones, from a fixed seed, fill the file up. How many there
//! are of each family is printed.

use lifted::fill::FillMode;
use lifted::models::fill::{count, lifted, refusal, Filled, CAVITIES, FLOOD, MODES};
use lifted::shapes::{serpentine, spiral, Cell, Random};
use std::time::{Duration, Instant};

const LIMIT: usize = 65536;

#[derive(Clone)]
enum Marks {
    Bits(Vec<bool>),
    Random(u32, u32),
    Every,
    Raw(Vec<u8>),
}

#[derive(Clone)]
struct Case {
    axes: [u32; 3],
    length: usize,
    marks: Marks,
}

/// What is counted over all calls: those of the crate, those refused, cells visited by scans, the most scans of a
/// call, calls with cells left, calls with labels 1 or 2 at the end, and the crate's time.
#[derive(Default)]
struct Tally {
    calls: usize,
    refused: usize,
    visits: u64,
    most: u32,
    left: usize,
    unwalked: usize,
    time: Duration,
}

/// A phase: cells `walk` take `set`, cells `walkers` walk too, and a surface cell that ends a walk takes `mark`.
struct Phase {
    walk: u8,
    set: u8,
    walkers: Option<u8>,
    mark: u8,
}

/// The model of 01's section Fill.
struct Plain {
    axes: [usize; 3],
    labels: Vec<u8>,
    scans: u32,
}

impl Plain {
    fn number(&self, at: [usize; 3]) -> usize {
        at[0] + at[1] * self.axes[0] + at[2] * self.axes[0] * self.axes[1]
    }
    /// All cells, i outermost, k innermost.
    fn cells(&self) -> impl Iterator<Item = [usize; 3]> {
        let [r0, r1, r2] = self.axes;
        (0..r0).flat_map(move |i| (0..r1).flat_map(move |j| (0..r2).map(move |k| [i, j, k])))
    }
    fn neighbour(&self, mut at: [usize; 3], axis: usize, up: bool) -> Option<[usize; 3]> {
        at[axis] = if up { at[axis] + 1 } else { at[axis].checked_sub(1)? };
        (at[axis] < self.axes[axis]).then_some(at)
    }
    fn on_border(&self, at: [usize; 3]) -> bool {
        (0..3).any(|a| self.neighbour(at, a, false).is_none() || self.neighbour(at, a, true).is_none())
    }
    /// Border cells with label 0 take the given label.
    fn seed(&mut self, label: u8) -> Vec<[usize; 3]> {
        let seeds: Vec<_> = self.cells().filter(|&c| self.on_border(c) && self.labels[self.number(c)] == 0).collect();
        for &at in &seeds {
            let n = self.number(at);
            self.labels[n] = label;
        }
        seeds
    }
    fn replace(&mut self, olds: &[u8], new: u8) {
        self.labels.iter_mut().filter(|v| olds.contains(v)).for_each(|v| *v = new);
    }
    fn walk(&mut self, mut at: [usize; 3], axis: usize, up: bool, p: &Phase) {
        for _ in 0..64 {
            let Some(next) = self.neighbour(at, axis, up) else { return };
            at = next;
            let n = self.number(at);
            match self.labels[n] {
                0 => self.labels[n] = p.walk,
                8 => return self.labels[n] = p.mark,
                _ => return,
            }
        }
    }
    fn scan(&mut self, p: &Phase) -> usize {
        let mut walked = 0;
        for at in self.cells() {
            let n = self.number(at);
            if self.labels[n] == p.walk {
                self.labels[n] = p.set;
                walked += 1;
            } else if p.walkers != Some(self.labels[n]) {
                continue;
            }
            for (axis, up) in [(2, true), (2, false), (1, true), (1, false), (0, true), (0, false)] {
                self.walk(at, axis, up, p);
            }
        }
        self.scans += 1;
        walked
    }
    /// How many cells were walked in all the phase's scans.
    fn phase(&mut self, p: Phase) -> usize {
        std::iter::repeat_with(|| self.scan(&p)).take_while(|&walked| walked > 0).sum()
    }
    fn cavities(&mut self) {
        self.phase(Phase { walk: 1, set: 6, walkers: None, mark: 4 });
        let inner = || Phase { walk: 2, set: 7, walkers: Some(4), mark: 5 };
        let outer = || Phase { walk: 1, set: 6, walkers: Some(5), mark: 4 };
        while self.phase(inner()) > 0 && self.phase(outer()) > 0 {}
        self.replace(&[3, 4, 5], 8);
    }
}

fn model(axes: [u32; 3], labels: &[u8]) -> Plain {
    Plain { axes: axes.map(|r| r as usize), labels: labels.to_vec(), scans: 0 }
}

fn plain(axes: [u32; 3], labels: &[u8], mode: FillMode) -> Filled {
    let mut grid = model(axes, labels);
    match mode {
        FillMode::SurfaceOnly => grid.replace(&[0, 1, 2, 3, 4, 5, 7], 6),
        FLOOD => {
            grid.seed(1);
            grid.phase(Phase { walk: 1, set: 6, walkers: None, mark: 8 });
            grid.replace(&[0], 7);
        }
        _ => {
            grid.seed(1);
            grid.cavities();
        }
    }
    Filled { left: count(&grid.labels, 0), labels: grid.labels, scans: grid.scans }
}

/// What a flood makes of the labels, by breadth-first search: 6 if joined to the border through cells that are no
/// surface, else 7.
fn searched(axes: [u32; 3], labels: &[u8]) -> Vec<u8> {
    let mut grid = model(axes, labels);
    let mut queue = std::collections::VecDeque::from(grid.seed(6));
    while let Some(at) = queue.pop_front() {
        let nexts: [_; 6] = std::array::from_fn(|d| grid.neighbour(at, d / 2, d % 2 == 0));
        for next in nexts.into_iter().flatten() {
            let n = grid.number(next);
            if grid.labels[n] == 0 {
                grid.labels[n] = 6;
                queue.push_back(next);
            }
        }
    }
    grid.replace(&[0], 7);
    grid.labels
}

/// The crate's answer, compared and counted.
fn filled(axes: [u32; 3], labels: &[u8], mode: FillMode, tally: &mut Tally) -> Filled {
    let start = Instant::now();
    let f = lifted(axes, labels, mode);
    tally.time += start.elapsed();
    assert!(f == plain(axes, labels, mode), "{axes:?}: the model differs from the crate");
    if mode == FLOOD {
        assert!(f.labels == searched(axes, labels), "{axes:?}: the search differs from the crate");
        assert!(f.scans as usize <= count(&f.labels, 6) + 1, "{axes:?}: too many scans");
    }
    tally.calls += 1;
    tally.visits += f.scans as u64 * labels.len() as u64;
    tally.most = tally.most.max(f.scans);
    tally.left += (f.left > 0) as usize;
    tally.unwalked += f.labels.iter().any(|v| [1, 2].contains(v)) as usize;
    f
}

fn labels(c: &Case) -> Vec<u8> {
    let surface = |m: bool| if m { 8 } else { 0 };
    match &c.marks {
        Marks::Bits(bits) => bits.iter().map(|&m| surface(m)).collect(),
        Marks::Random(a, b) => {
            let next = |s: &u32| Some(s.wrapping_mul(1664525).wrapping_add(1013904223));
            let row = std::iter::successors(next(a), next).take(c.length);
            row.map(|s| surface(s / 65536 % 256 < *b)).collect()
        }
        Marks::Every => vec![],
        Marks::Raw(labels) => labels.clone(),
    }
}

fn fold(s: u64, x: u64) -> u64 {
    (s * 31 + x + 1) % 4294967291
}

fn sum(s: u64, labels: &[u8]) -> u64 {
    labels.iter().fold(s, |s, &v| fold(s, v as u64))
}

fn single(c: &Case, mode: FillMode, tally: &mut Tally) -> String {
    let labels = labels(c);
    if let Some((number, place)) = refusal(c.axes, &labels) {
        tally.refused += 1;
        return format!("refused {number} {place} {} \n", sum(0, &labels));
    }
    let f = filled(c.axes, &labels, mode, tally);
    let [n6, n7, n8] = [6, 7, 8].map(|v| count(&f.labels, v));
    format!("filled {} {} {n6} {n7} {n8} {} \n", f.scans, f.left, sum(0, &f.labels))
}

fn every(c: &Case, mode: FillMode, tally: &mut Tally) -> String {
    let (mut scans, mut left, mut s) = (0, 0, 0);
    for m in 0..1u32 << c.length {
        let labels: Vec<u8> = (0..c.length).map(|n| (m >> n & 1) as u8 * 8).collect();
        let f = filled(c.axes, &labels, mode, tally);
        scans += f.scans;
        left += f.left;
        s = fold(fold(sum(s, &f.labels), f.scans as u64), f.left as u64);
    }
    format!("every {} {scans} {left} {s} \n", 1u32 << c.length)
}

fn answer(c: &Case, tally: &mut Tally) -> String {
    MODES.map(|mode| if let Marks::Every = c.marks { every(c, mode, tally) } else { single(c, mode, tally) }).concat()
}

fn words(c: &Case) -> Vec<u8> {
    assert!(c.length <= 65536);
    let bit = |(n, &m): (usize, &bool)| (m as u32) << n;
    let pack = |bits: &Vec<bool>| bits.chunks(32).map(|w| w.iter().enumerate().map(bit).sum()).collect();
    let word = |four: &[u8]| four.iter().rev().fold(0, |w, &v| w << 8 | v as u32);
    let (kind, a, b, payload): (u32, u32, u32, Vec<u32>) = match &c.marks {
        Marks::Bits(bits) => (0, 0, 0, pack(bits)),
        Marks::Random(a, b) => (1, *a, *b, vec![]),
        Marks::Every => (2, 0, 0, vec![]),
        Marks::Raw(labels) => (3, 0, 0, labels.chunks(4).map(word).collect()),
    };
    let [r0, r1, r2] = c.axes;
    let head = [kind, r0, r1, r2, c.length as u32, a, b];
    head.iter().chain(&payload).flat_map(|w| w.to_le_bytes()).collect()
}

/// A grid of the given axes, turned so that the last lies along another one, with the marks that `surface` gives.
fn marked(mut axes: [u32; 3], turn: usize, surface: impl Fn(Cell) -> bool) -> Case {
    axes.rotate_right(turn);
    let length = axes.iter().product::<u32>();
    let at = |n: u32| [n % axes[0], n / axes[0] % axes[1], n / axes[0] / axes[1]];
    let mark = |n: u32| {
        let mut at = at(n);
        at.rotate_left(turn);
        surface(at)
    };
    Case { axes, length: length as usize, marks: Marks::Bits((0..length).map(mark).collect()) }
}

/// A grid that is all surface but for these cells.
fn hollowed(axes: [u32; 3], turn: usize, cells: &[Cell]) -> Case {
    let cells: std::collections::HashSet<_> = cells.iter().collect();
    marked(axes, turn, |at| !cells.contains(&at))
}

fn random_marks(axes: [u32; 3], a: u32, b: u32) -> Case {
    Case { axes, length: axes.iter().product::<u32>() as usize, marks: Marks::Random(a, b) }
}

fn raw(axes: [u32; 3], labels: &[u8]) -> Case {
    Case { axes, length: labels.len(), marks: Marks::Raw(labels.to_vec()) }
}

/// Every grid of at most 2 by 2 by 3 cells, the 3 in each place.
fn small(out: &mut Vec<Case>) {
    for n in 0..27 {
        let axes = [n % 3 + 1, n / 3 % 3 + 1, n / 9 + 1];
        if axes.iter().filter(|&&r| r == 3).count() <= 1 {
            out.push(Case { axes, length: axes.iter().product::<u32>() as usize, marks: Marks::Every });
        }
    }
}

/// 01's samples and that of request 4.
fn samples(out: &mut Vec<Case>) {
    out.push(hollowed([3, 3, 3], 0, &[[1, 1, 1]]));
    out.push(marked([5, 5, 5], 0, |at| at.iter().all(|x| (1..4).contains(x)) && at != [2, 2, 2]));
    out.push(marked([3, 3, 3], 0, |at| [[0, 0, 0], [1, 0, 0]].contains(&at)));
    out.push(hollowed([3, 3, 5], 0, &[[1, 1, 1], [1, 1, 2], [1, 1, 4]]));
}

/// Straight corridors about one and two walks long, open at neither end, either or both; and the longest.
fn corridors(out: &mut Vec<Case>) {
    for length in [62, 63, 64, 65, 66, 127, 128, 129, 130] {
        for (turn, ends) in (0..12).map(|n| (n as usize % 3, n / 3)) {
            let cells: Vec<_> = (1 - ends % 2..length + 1 + ends / 2).map(|k| [1, 1, k]).collect();
            out.push(hollowed([3, 3, length + 2], turn, &cells));
        }
    }
    let cells: Vec<_> = (1..256).map(|k| [1, 1, k]).collect();
    out.extend([0, 1, 2].map(|turn| hollowed([3, 3, 256], turn, &cells)));
}

/// Corridors open at one end: with marked cells that leave rooms about one walk long between them; and with a
/// single marked cell about one walk from the open end and room behind it.
fn plugs(out: &mut Vec<Case>) {
    let mut plugged = |last: u32, open: &dyn Fn(u32) -> bool| {
        for (turn, high) in (0..6).map(|n| (n % 3, n / 3 == 1)) {
            let place = |k: u32| if high { last + 1 - k } else { k };
            let cells: Vec<_> = (0..=last).filter(|&k| open(k)).map(|k| [1, 1, place(k)]).collect();
            out.push(hollowed([3, 3, last + 2], turn, &cells));
        }
    };
    (62..=66).for_each(|room| plugged(2 * room + 6, &|k| k % (room + 1) != 1));
    (63..=66).for_each(|plug| plugged(plug + 7, &|k| k != plug));
}

/// A spiral between two marked layers: closed, open, open but for a marked cell at its start, or open in the middle.
fn spiral_case(side: u32, turn: usize, entrance: usize, mirrored: bool) -> Case {
    let mut cells = spiral(side as i32);
    let [i, j, _] = cells[cells.len() - 1];
    match entrance {
        0 => {}
        1 => cells.push([0, 1, 1]),
        2 => cells[0] = [0, 1, 1],
        _ => cells.push([i, j, 2]),
    }
    let mirror = |[i, j, k]: Cell| if mirrored { [side - 1 - i, side - 1 - j, 2 - k] } else { [i, j, k] };
    hollowed([side, side, 3], turn, &cells.into_iter().map(mirror).collect::<Vec<_>>())
}

fn spirals(out: &mut Vec<Case>) {
    for n in 0..12 {
        out.extend([11, 19].map(|side| spiral_case(side, n % 3, n / 3, side == 19)));
    }
    out.extend((0..4).map(|n| spiral_case(61, n % 3, 1 + n / 3, n % 2 == 1)));
}

/// Serpentines open at their start, at their end, or not at all.
fn serpentines(out: &mut Vec<Case>) {
    let small = serpentine(9);
    let [_, j, k] = small[small.len() - 1];
    for turn in 0..3 {
        out.extend([[0, 1, 1], [0, j, k]].map(|end| hollowed([9; 3], turn, &[&small[..], &[end]].concat())));
        out.push(hollowed([13; 3], turn, &[&serpentine(13)[..], &[[0, 1, 1]]].concat()));
    }
    out.push(hollowed([9; 3], 0, &small));
}

/// Closed cubes or balls about one another, `gap` cells apart; those named in `missing` lack a cell.
fn shells(shells: i32, gap: i32, round: bool, missing: u32) -> Case {
    let radius = |m: i32| 1 + m * (gap + 1);
    let middle = radius(shells - 1) + 1;
    let on = |p: [i32; 3], r: i32| match round {
        true => ((2 * r - 1).pow(2)..(2 * r + 1).pow(2)).contains(&p.iter().map(|x| 4 * x * x).sum()),
        false => p.iter().map(|x| x.abs()).max() == Some(r),
    };
    let lacks = |p: [i32; 3], m: i32| {
        let mut hole = [0; 3];
        hole[m as usize % 3] = if m % 2 == 0 { radius(m) } else { -radius(m) };
        missing >> m & 1 == 1 && p == hole
    };
    marked([2 * middle as u32 + 1; 3], 0, |at| {
        let p = at.map(|x| x as i32 - middle);
        (0..shells).any(|m| on(p, radius(m)) && !lacks(p, m))
    })
}

fn nested(out: &mut Vec<Case>) {
    out.extend((1..=5).map(|n| shells(n, 1, true, 0)));
    out.extend((1..=3).map(|n| shells(n, 1, false, 0)));
    out.extend([2, 3, 5].map(|n| shells(n, 2, true, 0)));
    out.extend((2..=3).map(|n| shells(n, 2, false, 0)));
    for missing in 1..4 {
        out.extend([1, 2].map(|gap| shells(2, gap, missing % 2 == 0, missing)));
    }
    out.extend((1..8).map(|missing| shells(3, 1, missing % 2 == 0, missing)));
    out.push(shells(5, 1, false, 0b01010));
}

/// Full planes across each axis, whole and with a hole; grids all marked and not at all; axes of 1.
fn plates(out: &mut Vec<Case>) {
    for n in 0..30 {
        let (turn, hole) = (n % 3, n / 3 % 2 == 1);
        let places = [&[0][..], &[3], &[6], &[1, 5], &[0, 2, 4, 6]][n / 6];
        out.push(marked([5, 6, 7], turn, |[i, j, k]| places.contains(&k) && !(hole && [i, j] == [2, 3])));
    }
    for axes in [[1, 1, 1], [3, 3, 3], [2, 9, 4], [256, 1, 1], [1, 256, 1], [1, 1, 256], [17, 18, 19]] {
        out.extend([0, 256].map(|b| random_marks(axes, 1, b)));
    }
    for mut axes in [[9, 1, 1], [8, 9, 1], [256, 3, 3]] {
        for b in [64, 64, 64, 128, 128, 128] {
            out.push(random_marks(axes, 2, b));
            axes.rotate_right(1);
        }
    }
}

/// A tun: wall, bottom and lid, with a manway in the lid or none, and no baffle, a low one or one up to the lid.
fn tun(turn: usize, manway: bool, baffle: u32) -> Case {
    marked([11, 11, 13], turn, |[i, j, k]| {
        let (x, y) = (i as i32 - 5, j as i32 - 5);
        let way = 4 * (x * x + y * y);
        let lid = k == 11 && !(manway && (1..3).contains(&x) && (0..2).contains(&y));
        match way {
            0..49 => lid || k == 1 || x == 0 && (1..baffle).contains(&k),
            49..81 => (1..12).contains(&k),
            _ => false,
        }
    })
}

fn vessels(out: &mut Vec<Case>) {
    out.extend((0..18).map(|n| tun(n % 3, n / 3 % 2 == 1, [0, 9, 11][n / 6])));
}

/// Labels of 2 by 3 by 2 cells that are not refused.
const GOOD: [u8; 12] = [0, 8, 8, 0, 0, 8, 0, 0, 8, 0, 8, 0];

/// Refusal 8: each bad axis in each place, several, products that wrap.
fn axes_refused(out: &mut Vec<Case>) {
    let good = raw([2, 3, 2], &GOOD);
    let empty = random_marks([0; 3], 3, 128);
    out.push(good.clone());
    for n in 0..9 {
        let mut axes = good.axes;
        axes[n % 3] = [0, 257, u32::MAX][n / 3];
        out.push(Case { axes, ..good.clone() });
    }
    for axes in [[0, 257, 1], [1, 0, 257], [257; 3], [0; 3], [257, 2, 0], [65536, 65536, 1], [1 << 31, 2, 6]] {
        out.extend([Case { axes, ..good.clone() }, Case { axes, ..empty.clone() }]);
    }
}

/// Refusal 9: buffers about the right length, empty ones, and the longest one for more cells than it has.
fn lengths_refused(out: &mut Vec<Case>) {
    for axes in [[1, 1, 1], [3, 4, 5], [256, 1, 1], [1, 256, 1], [1, 1, 256], [16, 16, 16]] {
        let c = random_marks(axes, 4, 128);
        out.extend([c.length - 1, c.length + 1, 0].map(|length| Case { length, ..c.clone() }));
    }
    for (axes, length) in [([256; 3], 65536), ([256; 3], 0), ([256, 256, 1], 65535), ([256, 255, 1], 65536)] {
        out.push(Case { axes, length, marks: Marks::Random(5, 128) });
    }
    let sample = hollowed([3, 3, 3], 0, &[[1, 1, 1]]);
    out.extend([[3, 3, 2], [3, 4, 3], [27, 2, 1]].map(|axes| Case { axes, ..sample.clone() }));
}

/// Refusal 11: each bad label first, within and last; two at once; and 8, 9 and 11 together.
fn labels_refused(out: &mut Vec<Case>) {
    let put = |changes: &[(usize, u8)]| {
        let mut labels = GOOD;
        changes.iter().for_each(|&(n, v)| labels[n] = v);
        raw([2, 3, 2], &labels)
    };
    for v in (1..8).chain([9, 255]) {
        out.extend([0, 6, 11].map(|n| put(&[(n, v)])));
    }
    out.extend([put(&[(3, 9), (4, 1)]), put(&[(7, 6), (2, 7)]), put(&[(0, 255), (11, 255)]), raw([3; 3], &[6; 27])]);
    let bad = put(&[(0, 3), (5, 200)]);
    for axes in [[2, 3, 257], [0, 3, 2], [2, 257, 0], [2, 3, 1], [2, 2, 2], [12, 1, 2], [256, 256, 256]] {
        out.extend([bad.clone(), put(&[])].map(|c| Case { axes, ..c }));
    }
    out.extend([raw([2, 3, 2], &[GOOD, [7; 12]].concat()), raw([2, 3, 2], &[7; 11])]);
}

/// Large grids, at densities where what is open only just hangs together and about them.
fn large(rng: &mut Random) -> Vec<Case> {
    let grids = [
        ([256, 16, 16], 174), ([16, 256, 16], 170), ([16, 16, 256], 174), ([40, 40, 40], 150), ([40, 40, 40], 174),
        ([256, 16, 16], 120), ([16, 256, 16], 190), ([16, 16, 256], 210), ([256, 256, 1], 100),
    ];
    grids.map(|(axes, b)| random_marks(axes, rng.below(1 << 32), b)).into()
}

/// Small random grids that cavities leave with a label 0, 1 or 2.
fn unfinished(rng: &mut Random) -> Vec<Case> {
    let mut draw = |label: u8| {
        let axes = [0; 3].map(|_| 3 + rng.below(6));
        let c = random_marks(axes, rng.below(1 << 32), 170 + rng.below(86));
        let after = lifted(axes, &labels(&c), CAVITIES).labels;
        after.contains(&label).then_some(c)
    };
    let mut found = |label| std::iter::repeat_with(|| draw(label)).flatten().take(14).collect::<Vec<_>>();
    [0, 1, 2].map(&mut found).concat()
}

/// A random grid: small, middling, any, or long and thin; of any density, more often a high one.
fn random(rng: &mut Random) -> Case {
    let (least, most) = [(1, 4), (3, 5), (3, 8), (4, 12), (8, 20), (1, 40)][rng.below(6) as usize];
    let mut axes = [0; 3].map(|_| least + rng.below(most - least as u64 + 1));
    if rng.below(8) == 0 {
        axes = [100 + rng.below(157), 3 + rng.below(5), 3 + rng.below(5)];
        axes.rotate_right(rng.below(3) as usize);
    }
    let b = match rng.below(6) {
        0 => rng.below(257),
        1 | 2 => 100 + rng.below(91),
        3 => 150 + rng.below(41),
        4 => 190 + rng.below(41),
        _ => 230 + rng.below(26),
    };
    random_marks(axes, rng.below(1 << 32), b)
}

/// The families of cases chosen by hand, each with its name.
fn families() -> Vec<(&'static str, Vec<Case>)> {
    let groups: [(&str, fn(&mut Vec<Case>)); 12] = [
        ("samples", samples), ("every small grid", small), ("corridors", corridors), ("plugs", plugs),
        ("spirals", spirals), ("serpentines", serpentines), ("nested shells", nested), ("plates", plates),
        ("vessels", vessels), ("axes refused", axes_refused), ("lengths refused", lengths_refused),
        ("labels refused", labels_refused),
    ];
    let made = |group: fn(&mut Vec<Case>)| {
        let mut out = vec![];
        group(&mut out);
        out
    };
    groups.map(|(name, group)| (name, made(group))).into()
}

/// What 01 and request 4 say of the samples, by the number of the line.
fn agree(lines: &str) {
    let said = [
        (1, "filled 1 0 0 1 26 "), (2, "filled 2 1 0 0 26 "), (4, "filled 2 0 98 1 26 "), (5, "filled 5 0 98 1 26 "),
        (7, "filled 2 0 25 0 2 "), (11, "filled 3 0 1 0 42 "),
    ];
    for (n, start) in said {
        assert!(lines.lines().nth(n).unwrap().starts_with(start), "line {n} is not {start}");
    }
}

fn report(families: &[(&str, Vec<Case>)], bytes: usize, tally: &Tally) {
    let cases: Vec<&Case> = families.iter().flat_map(|f| &f.1).collect();
    let kinds = [0, 1, 2, 3].map(|kind| cases.iter().filter(|c| words(c)[0] == kind).count());
    eprintln!("{} cases in {bytes} bytes; of kinds 0 to 3: {kinds:?}", cases.len());
    for (name, cases) in families {
        eprintln!("- {name}: {} in {} bytes", cases.len(), cases.iter().flat_map(words).count());
    }
    eprintln!("{} calls of the lifted crate, {} refused before it", tally.calls, tally.refused);
    eprintln!("cells left in {} calls, labels 1 or 2 at the end in {}", tally.left, tally.unwalked);
    eprintln!("{} cells visited in scans, at most {} scans in a call", tally.visits, tally.most);
}

fn main() {
    let start = Instant::now();
    let folder = std::env::args().nth(1).expect("the folder to write stdin and stdout to");
    let mut rng = Random(0x5eed_0005_2026);
    let mut families = families();
    families.push(("large", large(&mut rng)));
    families.push(("unfinished", unfinished(&mut rng)));
    let mut input: Vec<u8> = families.iter().flat_map(|f| &f.1).flat_map(words).collect();
    let rest: Vec<Case> = (0..(LIMIT - 1 - input.len()) / 28).map(|_| random(&mut rng)).collect();
    input.extend(rest.iter().flat_map(words));
    families.push(("random", rest));
    assert!(input.len() <= LIMIT, "the program reads 65,536 bytes, and these are {}", input.len());
    let mut tally = Tally::default();
    let output: String = families.iter().flat_map(|f| &f.1).map(|c| answer(c, &mut tally)).collect();
    agree(&output);
    std::fs::create_dir_all(&folder).unwrap();
    std::fs::write(format!("{folder}/stdin"), input.as_slice()).unwrap();
    std::fs::write(format!("{folder}/stdout"), output).unwrap();
    report(&families, input.len(), &tally);
    eprintln!("{:.2} s, of which the lifted crate {:.2} s", start.elapsed().as_secs_f32(), tally.time.as_secs_f32());
}
