//! Writes the stored cases of crates/test_edits: its `stdin`, and in `stdout` what a plain model of document 01's
//! opening and closing of cells answers. parry3d has no edits, so nothing of the crate is asked here: the model, a
//! breadth-first search after 01's section Edits with 01's refusals before it, is what answers. Run it in rust/lifted:
//! `cargo run --offline --release --bin test_edits -- ../../crates/test_edits`.
//!
//! A case is a row of little-endian words: a kind, three axes, the length of the label buffer, three numbers a, b and
//! c, a way, a count and a seed. The kind and what follows give the labels before the first edit:
//! - kind 0: a bit for each cell, 1 for surface; cell n is bit n % 32 of word n / 32. The labels are its flood.
//! - kind 1: nothing follows. From s = a on, each cell in turn makes s into s * 1664525 + 1013904223 modulo 2^32, and
//!   is surface if v = s / 65536 % 256 is less than b. The labels are the flood of that.
//! - kind 2: the labels themselves, whatever they are, four to a word.
//! - kind 3: nothing follows. With the same v, a cell is 8 if v < b, else 7 if v < b + c, else 6.
//! - kind 4: a pattern, four bytes to a word, of at most 512 cells; a is how many grids it stands for, 3 to the power
//!   of its free cells. A byte's remainder by 16 is the cell's label, or 0 for a free cell; in grid m the free cells
//!   are 6 plus the digits of m to base 3, the lowest first. A byte of 16 or more says that the cell is edited.
//!
//! The way says which edits are made, one after the other on the same labels (in kind 4 it is 0, and each cell to be
//! edited is opened and then closed, both from the grid's own labels):
//! - way 0: `count` edits follow, of four words each, which are 0 to open or 1 to close, and i, j and k.
//! - way 1: `count` random ones. From s = seed on, each makes two numbers x and y, as in kind 1. The cell's number is
//!   x / 256 modulo the length; with v = y / 65536 % 32, 0 opens it, 1 closes it, 2, 3 and 4 move it off the grid by an
//!   axis; save for 0 and 1 a cell that is surface is opened, and any other closed.
//! - way 2: each cell in turn is opened if it is surface, else closed; and once more.
//!
//! The sum of a row of numbers x is s from 0 on, each x making it (s * 31 + x + 1) % 4294967291. In way 0 of kinds 0
//! to 3 there is a line for each edit, else one for the case:
//! - `changed`: the answer, how many labels are then 6, 7 and 8, the sum of the labels.
//! - `refused`: number, place, the sum of the labels, which are as before.
//! - `calls`: how many are answered, how many refused, all labels changed, the sum over all calls of the answer (or the
//!   refusal's number and place) and then all labels.
//!
//! While writing, each answered number is compared with the labels that differ; and where the labels before an edit
//! are a fill without cavities, those after it are compared with a fresh flood of the surface cells. The cases chosen
//! by hand come first; random ones, from a fixed seed, follow. How many there are of each family is printed.

use lifted::models::edits::{refusal, Edit, Map, CLOSE, INSIDE, OPEN, OUTSIDE, SURFACE};
use lifted::shapes::{serpentine, spiral, Cell, Random};
use std::collections::HashSet;
use std::time::Instant;

/// What the program reads.
const LIMIT: usize = 65536;

// ---- cases

#[derive(Clone)]
enum Before {
    Marks(Vec<bool>),
    RandomMarks(u32, u32),
    Raw(Vec<u8>),
    RandomLabels(u32, u32, u32),
    Pattern(Vec<u8>),
}

#[derive(Clone)]
enum Edits {
    List(Vec<Edit>),
    Random(u32, u32),
    Each,
}

#[derive(Clone)]
struct Case {
    axes: Cell,
    length: usize,
    before: Before,
    edits: Edits,
}

// ---- the model, run

enum Answer {
    Changed(usize),
    Refused(usize, usize),
}

/// What is counted over all calls; `floods` are those whose labels were compared with a fresh flood, `sealed` and
/// `joined` the closings and openings that changed more than the cell.
#[derive(Clone, Copy, Default)]
struct Tally {
    answered: usize,
    refused: usize,
    floods: usize,
    sealed: usize,
    joined: usize,
    numbers: [usize; 14],
}

impl Tally {
    fn add(&mut self, t: &Tally) {
        self.answered += t.answered;
        self.refused += t.refused;
        self.floods += t.floods;
        self.sealed += t.sealed;
        self.joined += t.joined;
        (0..14).for_each(|n| self.numbers[n] += t.numbers[n]);
    }
}

impl std::fmt::Display for Tally {
    fn fmt(&self, f: &mut std::fmt::Formatter) -> std::fmt::Result {
        write!(f, "{} calls answered, of which {} openings and ", self.answered, self.joined)?;
        write!(f, "{} closings changed more than the cell; {} compared with a flood; ", self.sealed, self.floods)?;
        let numbers = (0..14).filter(|&n| self.numbers[n] > 0).map(|n| format!(" {n}: {}", self.numbers[n]));
        write!(f, "{} refused{}", self.refused, numbers.collect::<String>())
    }
}

/// A case as it runs: the labels, whether they are a fill without cavities, and what all calls are counted in.
struct Run<'a> {
    axes: Cell,
    labels: Vec<u8>,
    fill: bool,
    tally: &'a mut Tally,
}

impl Run<'_> {
    fn new(axes: Cell, labels: Vec<u8>, tally: &mut Tally) -> Run<'_> {
        let sound = axes.iter().all(|r| (1..257).contains(r)) && labels.len() as u32 == axes.iter().product();
        let map = Map { axes: axes.map(|r| r as usize), labels };
        Run { axes, fill: sound && map.flooded() == map, labels: map.labels, tally }
    }
    fn edit(&mut self, e: Edit) -> Answer {
        if let Some((number, place)) = refusal(self.axes, &self.labels, e) {
            self.tally.refused += 1;
            self.tally.numbers[number] += 1;
            return Answer::Refused(number, place);
        }
        let mut map = Map { axes: self.axes.map(|r| r as usize), labels: self.labels.clone() };
        let c = map.number(e.cell.map(|x| x as usize));
        match e.way {
            OPEN => map.open(c),
            _ => map.close(c),
        }
        if self.fill {
            assert!(map == map.flooded(), "{:?}: an edit of {:?} differs from a fresh flood", self.axes, e.cell);
            self.tally.floods += 1;
        }
        let changed = map.labels.iter().zip(&self.labels).filter(|(v, w)| v != w).count();
        self.tally.answered += 1;
        self.tally.joined += (e.way == OPEN && changed > 1) as usize;
        self.tally.sealed += (e.way == CLOSE && changed > 1) as usize;
        self.labels = map.labels;
        Answer::Changed(changed)
    }
    fn cell(&self, n: u32) -> Cell {
        let [r0, r1, _] = self.axes.map(|r| r.max(1));
        [n % r0, n / r0 % r1, n / r0 / r1]
    }
    /// What can be done to a cell.
    fn way(&self, n: u32) -> u32 {
        if self.labels.get(n as usize).is_none_or(|&v| v == SURFACE) { OPEN } else { CLOSE }
    }
}

// ---- labels and edits of a case

fn next(s: u32) -> u32 {
    s.wrapping_mul(1664525).wrapping_add(1013904223)
}

fn random_row(seed: u32, length: usize) -> impl Iterator<Item = u32> {
    std::iter::successors(Some(next(seed)), |&s| Some(next(s))).take(length).map(|s| s / 65536 % 256)
}

fn flood(axes: Cell, marks: impl Iterator<Item = bool>) -> Vec<u8> {
    let labels = marks.map(|m| if m { SURFACE } else { 0 }).collect();
    Map { axes: axes.map(|r| r as usize), labels }.flooded().labels
}

fn labels(c: &Case) -> Vec<u8> {
    match &c.before {
        Before::Marks(marks) => flood(c.axes, marks.iter().copied()),
        Before::RandomMarks(a, b) => flood(c.axes, random_row(*a, c.length).map(|v| v < *b)),
        Before::Raw(labels) | Before::Pattern(labels) => labels.clone(),
        Before::RandomLabels(a, b, d) => {
            let label = |v| if v < *b { SURFACE } else if v < b + d { INSIDE } else { OUTSIDE };
            random_row(*a, c.length).map(label).collect()
        }
    }
}

/// Grid m of a pattern.
fn numbered(pattern: &[u8], mut m: usize) -> Vec<u8> {
    let mut label = |&byte: &u8| {
        if byte % 16 > 0 {
            return byte % 16;
        }
        let digit = m % 3;
        m /= 3;
        6 + digit as u8
    };
    pattern.iter().map(&mut label).collect()
}

fn grids(pattern: &[u8]) -> usize {
    3usize.pow(pattern.iter().filter(|&&byte| byte % 16 == 0).count() as u32)
}

fn random_edit(run: &Run, x: u32, y: u32) -> Edit {
    let n = x / 256 % (run.labels.len() as u32).max(1);
    let v = y / 65536 % 32;
    let mut cell = run.cell(n);
    if (2..5).contains(&v) {
        cell[v as usize - 2] += run.axes[v as usize - 2];
    }
    Edit { way: if v < 2 { v } else { run.way(n) }, cell }
}

// ---- answers

fn fold(s: u64, x: usize) -> u64 {
    (s * 31 + x as u64 + 1) % 4294967291
}

fn sum(s: u64, labels: &[u8]) -> u64 {
    labels.iter().fold(s, |s, &v| fold(s, v as usize))
}

#[derive(Default)]
struct Calls {
    answered: usize,
    refused: usize,
    changed: usize,
    sum: u64,
}

impl Calls {
    fn edit(&mut self, run: &mut Run, e: Edit) {
        match run.edit(e) {
            Answer::Changed(n) => {
                self.answered += 1;
                self.changed += n;
                self.sum = fold(self.sum, n);
            }
            Answer::Refused(number, place) => {
                self.refused += 1;
                self.sum = fold(fold(self.sum, number), place);
            }
        }
        self.sum = sum(self.sum, &run.labels);
    }
    fn line(&self) -> String {
        format!("calls {} {} {} {} \n", self.answered, self.refused, self.changed, self.sum)
    }
}

fn listed(run: &mut Run, e: Edit) -> String {
    let answer = run.edit(e);
    let s = sum(0, &run.labels);
    let count = |v: u8| run.labels.iter().filter(|&&w| w == v).count();
    match answer {
        Answer::Changed(n) => format!("changed {n} {} {} {} {s} \n", count(6), count(7), count(8)),
        Answer::Refused(number, place) => format!("refused {number} {place} {s} \n"),
    }
}

fn pattern(c: &Case, bytes: &[u8], tally: &mut Tally) -> String {
    let mut calls = Calls::default();
    let edited = (0..bytes.len()).filter(|&n| bytes[n] >= 16);
    let edits: Vec<(usize, u32)> = edited.flat_map(|n| [(n, OPEN), (n, CLOSE)]).collect();
    for m in 0..grids(bytes) {
        for &(n, way) in &edits {
            let mut run = Run::new(c.axes, numbered(bytes, m), tally);
            let cell = run.cell(n as u32);
            calls.edit(&mut run, Edit { way, cell });
        }
    }
    calls.line()
}

fn answer(c: &Case, tally: &mut Tally) -> String {
    if let Before::Pattern(bytes) = &c.before {
        return pattern(c, bytes, tally);
    }
    let mut run = Run::new(c.axes, labels(c), tally);
    let mut calls = Calls::default();
    match &c.edits {
        Edits::List(edits) => return edits.iter().map(|&e| listed(&mut run, e)).collect(),
        Edits::Random(count, seed) => {
            let mut s = *seed;
            for _ in 0..*count {
                let (x, y) = (next(s), next(next(s)));
                s = y;
                let e = random_edit(&run, x, y);
                calls.edit(&mut run, e);
            }
        }
        Edits::Each => {
            for n in (0..c.length as u32).flat_map(|n| [n, n]) {
                let e = Edit { way: run.way(n), cell: run.cell(n) };
                calls.edit(&mut run, e);
            }
        }
    }
    calls.line()
}

fn words(c: &Case) -> Vec<u8> {
    assert!(c.length <= 65536);
    let bit = |(n, &m): (usize, &bool)| (m as u32) << n;
    let pack = |bits: &Vec<bool>| bits.chunks(32).map(|w| w.iter().enumerate().map(bit).sum()).collect();
    let word = |four: &[u8]| four.iter().rev().fold(0, |w, &v| w << 8 | v as u32);
    let row = |bytes: &[u8]| bytes.chunks(4).map(word).collect();
    let (kind, numbers, payload): (u32, [u32; 3], Vec<u32>) = match &c.before {
        Before::Marks(marks) => (0, [0; 3], pack(marks)),
        Before::RandomMarks(a, b) => (1, [*a, *b, 0], vec![]),
        Before::Raw(labels) => (2, [0; 3], row(labels)),
        Before::RandomLabels(a, b, d) => (3, [*a, *b, *d], vec![]),
        Before::Pattern(bytes) => (4, [grids(bytes) as u32, 0, 0], row(bytes)),
    };
    let four = |e: &Edit| [e.way, e.cell[0], e.cell[1], e.cell[2]];
    let (way, list): ([u32; 3], Vec<u32>) = match &c.edits {
        Edits::List(edits) => ([0, edits.len() as u32, 0], edits.iter().flat_map(four).collect()),
        Edits::Random(count, seed) => ([1, *count, *seed], vec![]),
        Edits::Each => ([2, 0, 0], vec![]),
    };
    let head = [[kind].as_slice(), &c.axes, &[c.length as u32], &numbers, &way].concat();
    [head, payload, list].concat().iter().flat_map(|w| w.to_le_bytes()).collect()
}

// ---- cases by hand

/// How a shape is laid: its axes turned so that the last lies along another one, and mirrored in all three or not.
#[derive(Clone, Copy)]
struct View {
    turn: usize,
    mirrored: bool,
}

const PLAIN: View = View { turn: 0, mirrored: false };

impl View {
    fn all() -> impl Iterator<Item = View> {
        (0..6).map(|n| View { turn: n % 3, mirrored: n >= 3 })
    }
    /// Each turn once.
    fn turns() -> impl Iterator<Item = View> {
        (0..3).map(|n| View { turn: n, mirrored: n == 1 })
    }
    fn axes(self, mut axes: Cell) -> Cell {
        axes.rotate_right(self.turn);
        axes
    }
    /// Where a cell of a shape of these axes comes to lie; a cell off the grid stays off it.
    fn laid(self, axes: Cell, mut at: Cell) -> Cell {
        if self.mirrored && (0..3).all(|a| at[a] < axes[a]) {
            at = std::array::from_fn(|a| axes[a] - 1 - at[a]);
        }
        at.rotate_right(self.turn);
        at
    }
    /// The values of a shape's cells, in the order of their numbers as laid.
    fn row<T: Copy>(self, axes: Cell, of: impl Fn(Cell) -> T) -> Vec<T> {
        let laid = self.axes(axes);
        let cell = |n: u32| [n % laid[0], n / laid[0] % laid[1], n / laid[0] / laid[1]];
        let back = |mut at: Cell| {
            at.rotate_left(self.turn);
            if self.mirrored { std::array::from_fn(|a| axes[a] - 1 - at[a]) } else { at }
        };
        (0..laid.iter().product()).map(|n| of(back(cell(n)))).collect()
    }
    fn edits(self, axes: Cell, edits: &[(u32, Cell)]) -> Edits {
        Edits::List(edits.iter().map(|&(way, at)| Edit { way, cell: self.laid(axes, at) }).collect())
    }
    fn case(self, axes: Cell, before: Before, edits: Edits) -> Case {
        let axes = self.axes(axes);
        Case { axes, length: axes.iter().product::<u32>() as usize, before, edits }
    }
    /// The flood of the cells that are surface, with these edits.
    fn marked(self, axes: Cell, surface: impl Fn(Cell) -> bool, edits: &[(u32, Cell)]) -> Case {
        self.case(axes, Before::Marks(self.row(axes, surface)), self.edits(axes, edits))
    }
    /// The flood of all cells but these, with these edits.
    fn hollowed(self, axes: Cell, cells: &[Cell], edits: &[(u32, Cell)]) -> Case {
        let cells: HashSet<_> = cells.iter().collect();
        self.marked(axes, |at| !cells.contains(&at), edits)
    }
    /// Labels of any kind, with these edits.
    fn labelled(self, axes: Cell, label: impl Fn(Cell) -> u8, edits: &[(u32, Cell)]) -> Case {
        self.case(axes, Before::Raw(self.row(axes, label)), self.edits(axes, edits))
    }
    fn patterned(self, axes: Cell, byte: impl Fn(Cell) -> u8) -> Case {
        self.case(axes, Before::Pattern(self.row(axes, byte)), Edits::List(vec![]))
    }
}

/// The same labels, each cell of which is edited twice.
fn each(c: Case) -> Case {
    Case { edits: Edits::Each, ..c }
}

fn far(a: Cell, b: Cell) -> u32 {
    (0..3).map(|n| a[n].abs_diff(b[n])).sum()
}

fn border(axes: Cell, at: Cell) -> bool {
    (0..3).any(|a| at[a] == 0 || at[a] + 1 == axes[a])
}

const FREE: u8 = 0;
const EDITED: u8 = 16;

/// 01's samples: a room of one cell; and that the map is back after an opening and a closing of any cell.
fn samples(out: &mut Vec<Case>) {
    let shell = |at: Cell| at.iter().all(|x| (1..4).contains(x)) && at != [2, 2, 2];
    let edits = [(OPEN, [1, 2, 2]), (CLOSE, [1, 2, 2]), (OPEN, [2, 2, 2])];
    for view in View::all() {
        out.push(view.marked([5; 3], shell, &edits));
    }
    out.push(each(PLAIN.marked([5; 3], shell, &[])));
}

/// Every grid of at most 7 cells, and of 2 by 2 by 2, with every cell opened and closed.
fn small(out: &mut Vec<Case>) {
    for n in 0..343 {
        let axes = [n % 7 + 1, n / 7 % 7 + 1, n / 49 + 1];
        if axes.iter().product::<u32>() <= 7 || axes == [2; 3] {
            out.push(PLAIN.patterned(axes, |_| EDITED + FREE));
        }
    }
}

/// Every block of 2 by 2 by 2, 3 by 2 by 1 or 7 by 1 by 1 cells in a frame one cell thick, of one label or of walls
/// with one or two cells Outside; every cell of the block and a cell or two of the frame opened and closed.
fn blocks(out: &mut Vec<Case>) {
    for (axes, view) in [[4, 4, 4]].map(|axes| (axes, PLAIN)).into_iter().chain(View::all().map(|v| ([5, 4, 3], v))) {
        for (frame, holes) in [(OUTSIDE, 0), (INSIDE, 0), (SURFACE, 0), (SURFACE, 1), (SURFACE, 2)] {
            out.push(view.patterned(axes, |at| match at {
                [1, 1, 0] if holes > 0 => OUTSIDE,
                [0, 2, 1] if holes > 1 => EDITED + OUTSIDE,
                [1, 2, 0] => EDITED + frame,
                _ if border(axes, at) => frame,
                _ => EDITED + FREE,
            }));
        }
    }
    for turn in 0..3 {
        let view = View { turn, mirrored: false };
        out.push(view.patterned([9, 3, 3], |at| match at {
            [0 | 8, 1, 1] => EDITED + OUTSIDE,
            _ if border([9, 3, 3], at) => SURFACE,
            _ => EDITED + FREE,
        }));
    }
}

/// A cell of each label with every choice of its neighbours' labels, among cells of each label: in the middle of 3
/// by 3 by 3, where the neighbours are on the border, and of 5 by 5 by 5, where they are not; and the neighbours
/// edited as well.
fn middles(out: &mut Vec<Case>) {
    let mut about = |side: u32, centre: u8, near: u8, rest: u8| {
        out.push(PLAIN.patterned([side; 3], |at| match far(at, [side / 2; 3]) {
            0 => centre,
            1 => near,
            _ => rest,
        }));
    };
    for n in 0..9 {
        [3, 5].iter().for_each(|&side| about(side, EDITED + 6 + n % 3, FREE, 6 + n / 3));
    }
    (6..9).for_each(|rest| about(5, EDITED + FREE, EDITED + FREE, rest));
}

/// A cell 6 in the middle of 5 by 5 by 5 with every choice of its neighbours' labels: with a way out beyond some of
/// them and walls elsewhere; and among random cells, with few ways out, so that some neighbours hang together.
fn forks(out: &mut Vec<Case>, rng: &mut Random) {
    let mut about = |rest: &dyn Fn(Cell) -> u8| {
        out.push(PLAIN.patterned([5; 3], |at| match far(at, [2; 3]) {
            0 => EDITED + OUTSIDE,
            1 => FREE,
            _ => rest(at),
        }));
    };
    for ways in [0, 1, 2, 4, 8, 16, 32, 5, 42, 30, 63] {
        let arm = |at: Cell| (0..6).find(|&d| at == std::array::from_fn(|a| [2, [0, 4][d % 2]][(a == d / 2) as usize]));
        about(&|at| if arm(at).is_some_and(|d| ways >> d & 1 == 1) { OUTSIDE } else { SURFACE });
    }
    for _ in 0..14 {
        let walls: Vec<u8> = (0..125).map(|_| if rng.below(12) == 0 { OUTSIDE } else { SURFACE }).collect();
        let inner: Vec<u8> = (0..125).map(|_| [6, 6, 7, 8][rng.below(4) as usize]).collect();
        about(&|at| if border([5; 3], at) { &walls } else { &inner }[(at[0] + 5 * at[1] + 25 * at[2]) as usize]);
    }
}

/// A cell inside and on each face, edge and corner, with every choice of its and its neighbours' labels.
fn places(out: &mut Vec<Case>, rng: &mut Random) {
    let axes = [4, 5, 3];
    for n in 0..27 {
        let place = [n % 3, n / 3 % 3, n / 9];
        let c: Cell = std::array::from_fn(|a| [0, 1, axes[a] - 1][place[a]]);
        let rest: Vec<u8> = (0..60).map(|_| 6 + rng.below(3) as u8).collect();
        out.push(PLAIN.patterned(axes, |at| match far(at, c) {
            0 => EDITED + FREE,
            1 => FREE,
            _ => rest[(at[0] + 4 * at[1] + 20 * at[2]) as usize],
        }));
    }
}

/// A room with two ways out; a cell of a room; open air; rooms of which one opening makes one.
fn pockets(out: &mut Vec<Case>) {
    let axes = [7, 8, 9];
    let room = |at: Cell| at.iter().all(|x| (2..5).contains(x));
    let (one, other) = ([1, 3, 3], [3, 3, 1]);
    let surface = |at: Cell| !border(axes, at) && !room(at) && at != one && at != other;
    let doors = [
        (CLOSE, one), (CLOSE, other), (OPEN, one), (OPEN, other), (CLOSE, other), (CLOSE, one), (CLOSE, [3, 3, 3]),
        (OPEN, [3, 3, 3]), (CLOSE, [0, 3, 3]), (OPEN, one), (CLOSE, [3, 2, 3]), (CLOSE, [2, 3, 3]), (OPEN, other),
        (OPEN, [2, 3, 3]), (OPEN, [2, 3, 3]), (CLOSE, [2, 3, 3]), (CLOSE, [6, 7, 8]), (CLOSE, [0, 0, 0]),
    ];
    // Seven pockets that a cell inside joins; then one of them gets a way out, then the way is closed at each end.
    let star = |at: Cell| far(at, [3, 3, 3]) == 1 || at == [5, 3, 3];
    let stars = [
        (OPEN, [3, 3, 3]), (OPEN, [1, 3, 3]), (OPEN, [0, 3, 3]), (OPEN, [4, 3, 3]), (CLOSE, [3, 3, 3]),
        (OPEN, [3, 3, 3]), (CLOSE, [0, 3, 3]), (OPEN, [6, 3, 3]), (OPEN, [3, 3, 0]), (OPEN, [3, 3, 1]),
        (CLOSE, [1, 3, 3]), (CLOSE, [6, 3, 3]), (CLOSE, [3, 3, 1]),
    ];
    // Rooms that meet at edges and corners only.
    let checks = |at: Cell| !border(axes, at) && at.iter().sum::<u32>() % 2 == 0;
    let chess = [(OPEN, [2, 2, 2]), (OPEN, [1, 1, 2]), (CLOSE, [1, 1, 2]), (OPEN, [3, 3, 4]), (CLOSE, [2, 2, 2])];
    let air = [(CLOSE, [3, 3, 3]), (CLOSE, [0, 0, 0]), (CLOSE, [6, 7, 8]), (CLOSE, [0, 4, 4]), (OPEN, [3, 3, 3])];
    let rock = [(OPEN, [3, 3, 3]), (OPEN, [3, 3, 4]), (OPEN, [0, 0, 0]), (OPEN, [0, 3, 3]), (OPEN, [1, 3, 3]),
        (OPEN, [2, 3, 3]), (CLOSE, [1, 3, 3]), (CLOSE, [3, 3, 3]), (OPEN, [3, 7, 4]), (OPEN, [3, 4, 4])];
    for view in View::turns() {
        out.push(view.marked(axes, surface, &doors));
        out.push(view.marked(axes, |at| !star(at), &stars));
        out.push(view.marked(axes, checks, &chess));
        out.push(view.marked(axes, |_| false, &air));
        out.push(view.marked(axes, |_| true, &rock));
    }
    out.extend([each(PLAIN.marked(axes, surface, &[])), each(PLAIN.marked(axes, |at| !star(at), &[]))]);
}

/// Grids that are no fill: cells 6 without a path to the border, two such regions of which one is edited, cells 7 on
/// the border, and an opening beside both.
fn unfilled(out: &mut Vec<Case>) {
    let axes = [8, 6, 7];
    let regions = |at: Cell| match at {
        [1..=2, 1..=4, 2] | [2, 2, 3] => OUTSIDE,
        [4..=6, 1..=4, 2] | [5, 2, 3] => OUTSIDE,
        [3, 4, 4..=5] => OUTSIDE,
        [3, 1..=4, 3] | [2, 2, 4] => INSIDE,
        [_, 0, 5] | [7, 2..=4, 5] => INSIDE,
        _ if at[2] == 6 => OUTSIDE,
        _ => SURFACE,
    };
    let edits = [
        (CLOSE, [1, 2, 2]), (CLOSE, [5, 2, 3]), (CLOSE, [5, 2, 2]), (OPEN, [3, 2, 2]), (OPEN, [5, 2, 2]),
        (OPEN, [3, 4, 2]), (CLOSE, [3, 2, 3]), (OPEN, [5, 2, 3]),
        (OPEN, [5, 2, 4]), (OPEN, [5, 2, 5]), (OPEN, [2, 1, 3]), (OPEN, [7, 1, 5]),
        (CLOSE, [0, 0, 5]), (CLOSE, [5, 0, 5]), (OPEN, [4, 1, 5]), (OPEN, [7, 0, 4]), (CLOSE, [3, 3, 6]),
        (CLOSE, [7, 5, 6]), (OPEN, [5, 3, 6]), (CLOSE, [7, 2, 5]),
    ];
    for view in View::turns() {
        out.push(view.labelled(axes, regions, &edits));
        out.push(view.patterned(axes, |at| EDITED + regions(at)));
    }
    for label in 6..9 {
        out.push(each(PLAIN.labelled([4, 5, 6], |_| label, &[])));
        out.push(PLAIN.patterned([4, 5, 6], |_| EDITED + label));
    }
}

/// Corridors with many bends, from a way out at their start, at their end, at both or at none: closed at every
/// place and opened again; and with an edit here and there.
fn mazes(out: &mut Vec<Case>) {
    let mut maze = |axes: Cell, path: &[Cell], end: Cell, way: u32, view: View| {
        let doors = [[0, path[0][1], path[0][2]], end];
        let open = [&doors[..1], &doors[1..], &doors[..], &[]][way as usize];
        let at = |n: usize| path[path.len() * n / 8];
        let edits = [
            (CLOSE, at(3)), (CLOSE, at(6)), (OPEN, at(3)), (CLOSE, at(1)), (OPEN, at(6)), (OPEN, at(1)), (CLOSE, at(7)),
            (CLOSE, at(4)), (OPEN, at(7)), (OPEN, at(4)),
        ];
        let case = view.hollowed(axes, &[path, open].concat(), &edits);
        out.extend([each(case.clone()), case]);
    };
    let (small, flat) = (serpentine(7), spiral(13));
    let ([i, j, k], [x, y, _]) = (small[small.len() - 1], flat[flat.len() - 1]);
    for (n, view) in View::all().enumerate() {
        let way = n as u32 % 4;
        maze([7; 3], &small, [if i == 1 { 0 } else { 6 }, j, k], way, view);
        maze([13, 13, 3], &flat, [x, y, 2], (way + 1) % 4, view);
    }
    let large = serpentine(11);
    maze([11; 3], &large, [0, 1, 1], 0, PLAIN);
}

/// A comb: a corridor with a dead end to each side at every other place, and a way out at its start.
fn combs(out: &mut Vec<Case>) {
    let axes = [7, 3, 15];
    let spine = (0..14).map(|k| [3, 1, k]);
    let teeth = (1..14).step_by(2).flat_map(|k| [1, 2, 4, 5].map(|i| [i, 1, k]));
    let cells: Vec<Cell> = spine.chain(teeth).collect();
    let edits = [
        (CLOSE, [3, 1, 7]), (CLOSE, [4, 1, 5]), (OPEN, [0, 1, 9]), (OPEN, [6, 1, 5]), (OPEN, [4, 1, 5]),
        (CLOSE, [3, 1, 0]), (CLOSE, [6, 1, 5]), (CLOSE, [0, 1, 9]), (OPEN, [3, 1, 7]), (OPEN, [3, 1, 14]),
    ];
    for view in View::all() {
        let case = view.hollowed(axes, &cells, &edits);
        out.extend([each(case.clone()), case]);
    }
}

/// Straight corridors longer than a walk of 64 cells, with a way out at one end or at both; the longest axes.
fn corridors(out: &mut Vec<Case>) {
    for (view, length) in View::all().zip([66, 67, 130, 131, 256, 256]) {
        let axes = [3, 3, length];
        let cells: Vec<Cell> = (0..length - 1).map(|k| [1, 1, k]).collect();
        let ends = [[1, 1, 0], [1, 1, length - 1]];
        let edits = [
            (CLOSE, ends[0]), (OPEN, ends[1]), (CLOSE, [1, 1, 64]), (CLOSE, [1, 1, 1]), (OPEN, [1, 1, 64]),
            (OPEN, ends[0]), (CLOSE, ends[1]), (OPEN, [1, 1, 1]), (CLOSE, [1, 1, length - 2]), (OPEN, [0, 1, 65]),
        ];
        out.push(view.hollowed(axes, &cells, &edits));
    }
}

/// Closed cubes about one another: walls opened from the outside in and from the inside out, and closed again.
fn shells(out: &mut Vec<Case>) {
    let wall = |at: Cell| [2, 4].contains(&at.iter().map(|x| x.abs_diff(5)).max().unwrap());
    let edits = [
        (OPEN, [1, 5, 5]), (OPEN, [5, 3, 5]), (CLOSE, [1, 5, 5]), (CLOSE, [5, 3, 5]), (OPEN, [5, 3, 5]),
        (OPEN, [5, 5, 9]), (CLOSE, [5, 4, 5]), (CLOSE, [5, 2, 5]), (OPEN, [7, 7, 7]), (OPEN, [5, 4, 5]),
        (CLOSE, [5, 5, 9]), (OPEN, [9, 9, 9]), (OPEN, [9, 9, 8]), (CLOSE, [9, 9, 8]), (OPEN, [1, 1, 5]),
    ];
    View::turns().for_each(|view| out.push(view.marked([11; 3], wall, &edits)));
}

/// Rooms of thousands of cells: a box with a door; and grids of nearly one label, edited at a corner, within and on a
/// face.
fn rooms(out: &mut Vec<Case>) {
    let axes = [20, 18, 22];
    let door = [1, 9, 9];
    let edits = [
        (OPEN, door), (CLOSE, door), (CLOSE, [9, 9, 9]), (OPEN, door), (OPEN, [9, 9, 9]), (CLOSE, [2, 9, 9]),
        (CLOSE, door),
    ];
    let wall = |at: Cell| (0..3).any(|a| at[a] == 1 || at[a] + 2 == axes[a]) && !border(axes, at);
    View::turns().for_each(|view| out.push(view.marked(axes, wall, &edits)));
    for (b, c) in [(3, 253), (3, 0), (3, 120), (0, 256), (0, 0), (40, 216), (90, 166)] {
        for axes in [[40, 40, 40], [16, 256, 16]] {
            let within = axes.map(|r| r / 2);
            let cells = [[0; 3], within, axes.map(|r| r - 1), [0, within[1], within[2]], within];
            let edits: Vec<_> = cells.iter().flat_map(|&at| [(CLOSE, at), (OPEN, at)]).collect();
            out.push(PLAIN.case(axes, Before::RandomLabels(b + c, b, c), PLAIN.edits(axes, &edits)));
        }
    }
}

/// Axes of 1 and 2, fills and any labels.
fn thin(out: &mut Vec<Case>, rng: &mut Random) {
    for axes in [[1, 1, 12], [1, 9, 8], [2, 1, 9], [2, 2, 11], [2, 7, 6], [1, 1, 256], [3, 2, 9]] {
        for view in View::all().take(3) {
            let (a, b) = (rng.below(1 << 32), 60 + rng.below(120));
            out.push(view.case(axes, Before::RandomMarks(a, b), Edits::Each));
            out.push(view.case(axes, Before::RandomLabels(a, b, 80), Edits::Each));
            out.push(view.case(axes, Before::RandomLabels(b, a % 256, 60), Edits::Random(60, a)));
        }
    }
}

// ---- refusals

/// Labels of 2 by 3 by 2 cells that are not refused.
const GOOD: [u8; 12] = [6, 8, 8, 7, 7, 8, 6, 7, 8, 6, 8, 6];

/// Labels with edits that are good, of the wrong cell and off the grid.
fn raw(axes: Cell, labels: &[u8]) -> Case {
    let edits = [(OPEN, [1, 0, 0]), (CLOSE, [1, 0, 1]), (OPEN, [0, 0, 0]), (CLOSE, [1, 1, 1]), (CLOSE, [2, 0, 0])];
    let edits = PLAIN.edits(axes, &edits);
    Case { axes, length: labels.len(), before: Before::Raw(labels.to_vec()), edits }
}

fn put(changes: &[(usize, u8)]) -> Vec<u8> {
    let mut labels = GOOD;
    changes.iter().for_each(|&(n, v)| labels[n] = v);
    labels.to_vec()
}

/// Refusal 8: each bad axis in each place, several, products that wrap; with bad lengths and labels too.
fn axes_refused(out: &mut Vec<Case>) {
    for n in 0..9 {
        let mut axes = [2, 3, 2];
        axes[n % 3] = [0, 257, u32::MAX][n / 3];
        out.push(raw(axes, &GOOD));
    }
    for axes in [[0, 257, 1], [1, 0, 257], [257; 3], [0; 3], [257, 2, 0], [65536, 65536, 1], [1 << 31, 2, 6]] {
        out.extend([raw(axes, &GOOD), raw(axes, &[]), raw(axes, &put(&[(0, 5)]))]);
    }
}

/// Refusal 9: one short, one long, none; with bad labels too.
fn lengths_refused(out: &mut Vec<Case>) {
    out.extend([&GOOD[..11], &[GOOD.as_slice(), &[6]].concat(), &[], &put(&[(0, 9)])[..11]].map(|l| raw([2, 3, 2], l)));
    out.extend([[2, 3, 1], [2, 2, 2], [12, 1, 2], [1, 1, 1], [256; 3], [3, 3, 2]].map(|axes| raw(axes, &GOOD)));
    out.extend([[2, 3, 1], [256; 3]].map(|axes| raw(axes, &put(&[(3, 0)]))));
    for axes in [[16, 16, 16], [256, 1, 1], [1, 256, 1], [1, 1, 256]] {
        let length = axes.iter().product::<u32>() as usize;
        for length in [length - 1, length + 1] {
            out.push(Case { length, before: Before::RandomLabels(7, 90, 80), ..raw(axes, &[]) });
        }
    }
}

/// Refusal 11: each bad label first, within and last, and two at once; the edits are good, of a wrong cell and off
/// the grid, so that 11 goes before 12 and 13.
fn labels_refused(out: &mut Vec<Case>) {
    for v in [0, 1, 5, 9, 255] {
        out.extend([0, 6, 11].map(|n| raw([2, 3, 2], &put(&[(n, v)]))));
    }
    for changes in [[(3, 9), (4, 1)], [(7, 0), (2, 5)], [(0, 255), (11, 255)], [(1, 1), (2, 2)]] {
        out.push(raw([2, 3, 2], &put(&changes)));
    }
    out.push(raw([3; 3], &[0; 27]));
}

/// Refusals 12 and 13 and what lies about them: each axis at its end, beyond it and far off; cells whose number, wrong
/// as they are, is one of the grid; and the labels go on to be edited.
fn cells_refused(out: &mut Vec<Case>) {
    let axes = [3, 4, 5];
    let label = |at: Cell| [6, 8, 7][(at[0] + at[1] + at[2]) as usize % 3];
    let mut edits = vec![];
    for way in [OPEN, CLOSE] {
        for a in 0..3 {
            for x in [axes[a] - 1, axes[a], axes[a] + 1, 256, 1 << 31, u32::MAX] {
                for base in [[0; 3], [2, 1, 1]] {
                    let mut at = base;
                    at[a] = x;
                    edits.push((way, at));
                }
            }
        }
        let more = [[3, 0, 0], [0, 4, 0], [5, 0, 4], [3, 4, 5], [u32::MAX; 3], [1, 1, 1], [2, 2, 2]];
        edits.extend(more.map(|at| (way, at)));
    }
    out.push(PLAIN.labelled(axes, label, &edits));
    let same = [(OPEN, [1, 0, 0]), (OPEN, [1, 0, 0]), (CLOSE, [1, 0, 0]), (CLOSE, [1, 0, 0]), (OPEN, [3, 0, 0])];
    out.push(PLAIN.labelled(axes, label, &same));
    let single = [OPEN, OPEN, CLOSE, CLOSE].map(|way| (way, [0; 3]));
    (6..9).for_each(|v| out.push(PLAIN.labelled([1; 3], |_| v, &single)));
}

// ---- random cases

/// Large grids, fills and any labels, at densities where what is open only just hangs together and about them.
fn large(out: &mut Vec<Case>, rng: &mut Random) {
    let grids = [
        ([16, 16, 16], 250), ([20, 17, 23], 150), ([31, 8, 12], 200), ([24, 24, 24], 60), ([40, 40, 40], 12),
        ([256, 12, 9], 20),
    ];
    for (axes, count) in grids {
        for b in [64, 110, 140, 160, 170, 176, 182, 192] {
            let view = View { turn: rng.below(3) as usize, mirrored: false };
            let edits = Edits::Random(count, rng.below(1 << 32));
            out.push(view.case(axes, Before::RandomMarks(rng.below(1 << 32), b), edits));
        }
        for (b, c) in [(64, 90), (100, 50), (100, 100), (130, 20), (160, 48), (20, 100)] {
            let edits = Edits::Random(count, rng.below(1 << 32));
            out.push(PLAIN.case(axes, Before::RandomLabels(rng.below(1 << 32), b, c), edits));
        }
    }
}

/// A small random grid, a fill or any labels, of any density, more often a high one.
fn random(rng: &mut Random) -> Case {
    let most = [3, 4, 6, 9][rng.below(4) as usize];
    let axes = [0; 3].map(|_| 1 + most / 2 + rng.below(most as u64));
    let b = [rng.below(257), 120 + rng.below(90), 150 + rng.below(40)][rng.below(3) as usize];
    let before = match rng.below(2) {
        0 => Before::RandomMarks(rng.below(1 << 32), b),
        _ => Before::RandomLabels(rng.below(1 << 32), b, rng.below(257 - b as u64)),
    };
    let edits = if rng.below(2) == 0 { Edits::Random(100, rng.below(1 << 32)) } else { Edits::Each };
    PLAIN.case(axes, before, edits)
}

fn randoms(out: &mut Vec<Case>, rng: &mut Random) {
    out.extend((0..130).map(|_| random(rng)));
}

// ---- all of them

/// The families, each with its name.
fn families(rng: &mut Random) -> Vec<(&'static str, Vec<Case>)> {
    let made = |group: fn(&mut Vec<Case>)| {
        let mut out = vec![];
        group(&mut out);
        out
    };
    let mut drawn = |group: fn(&mut Vec<Case>, &mut Random)| {
        let mut out = vec![];
        group(&mut out, rng);
        out
    };
    vec![
        ("samples", made(samples)), ("every small grid", made(small)), ("every block in a frame", made(blocks)),
        ("neighbours of a middle cell", made(middles)), ("forks", drawn(forks)),
        ("faces, edges and corners", drawn(places)), ("pockets", made(pockets)), ("no fills", made(unfilled)),
        ("mazes", made(mazes)), ("combs", made(combs)),
        ("corridors", made(corridors)), ("shells", made(shells)), ("rooms", made(rooms)), ("thin grids", drawn(thin)),
        ("axes refused", made(axes_refused)), ("lengths refused", made(lengths_refused)),
        ("labels refused", made(labels_refused)), ("cells refused", made(cells_refused)), ("large", drawn(large)),
        ("random", drawn(randoms)),
    ]
}

/// What 01 says of its samples, by the number of the line.
fn agree(lines: &str) {
    for (n, start) in [(0, "changed 2 100 0 25 "), (1, "changed 2 98 1 26 "), (2, "refused 13 0 ")] {
        assert!(lines.lines().nth(n).unwrap().starts_with(start), "line {n} is not {start}");
    }
}

/// The answers to a family's cases; prints how many there are and what they come to.
fn answers(name: &str, cases: &[Case], all: &mut Tally) -> String {
    let (start, mut t) = (Instant::now(), Tally::default());
    let lines = cases.iter().map(|c| answer(c, &mut t)).collect::<String>();
    let size = cases.iter().flat_map(words).count();
    let time = start.elapsed().as_secs_f32();
    eprintln!("- {name}: {} cases, {size} + {} bytes, {time:.2} s", cases.len(), lines.len());
    eprintln!("  {t}");
    all.add(&t);
    lines
}

fn main() {
    let folder = std::env::args().nth(1).expect("the folder to write stdin and stdout to");
    let families = families(&mut Random(0x5eed_0006_2026));
    let input: Vec<u8> = families.iter().flat_map(|f| &f.1).flat_map(words).collect();
    assert!(input.len() <= LIMIT, "the program reads {LIMIT} bytes, and these are {}", input.len());
    let mut all = Tally::default();
    let output: String = families.iter().map(|(name, cases)| answers(name, cases, &mut all)).collect();
    agree(&output);
    std::fs::create_dir_all(&folder).unwrap();
    std::fs::write(format!("{folder}/stdin"), &input).unwrap();
    std::fs::write(format!("{folder}/stdout"), &output).unwrap();
    let cases: usize = families.iter().map(|f| f.1.len()).sum();
    eprintln!("{cases} cases, {} + {} bytes", input.len(), output.len());
    eprintln!("{all}");
}
