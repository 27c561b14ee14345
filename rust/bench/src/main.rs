//! The map of a vessel, timed beside the lifted crate on the same input, in one run. It prints the tables of
//! docs/BENCHMARKS.md. To be built for release:
//!
//!     cargo run --release --offline -- [--rounds N] [--only ROW] [--sizes 62,126,254]
//!
//! ROW is one of sizing, marking, pairs, list, whole, flood, cavities, edits, passes.
mod edits;
mod passes;
mod print;
mod rows;
mod shapes;
mod timing;

use crate::passes::Passes;
use crate::print::{EditLine, Line};
use crate::rows::Row;
use crate::shapes::{closed_vessel, empty, marks_of, open_vessel, plates, spiral, Marks, Vessel};
use crate::timing::{in_turns, ratios, spread, Side};

const ROWS: [&str; 9] = ["sizing", "marking", "pairs", "list", "whole", "flood", "cavities", "edits", "passes"];

struct Arguments {
    rounds: usize,
    only: Option<String>,
    sizes: Vec<u32>,
}

impl Arguments {
    fn read() -> Result<Arguments, String> {
        let mut read = Arguments { rounds: 7, only: None, sizes: vec![62, 126, 254] };
        let mut words = std::env::args().skip(1);
        while let Some(word) = words.next() {
            let value = words.next().ok_or(format!("{word} needs a value"))?;
            let number = |text: &str| text.parse::<u32>().map_err(|_| format!("{text} is no number"));
            match word.as_str() {
                "--rounds" => read.rounds = number(&value)?.max(1) as usize,
                "--sizes" => read.sizes = value.split(',').map(number).collect::<Result<_, _>>()?,
                "--only" if ROWS.contains(&value.as_str()) => read.only = Some(value),
                "--only" => return Err(format!("{value} is no row; the rows are {}", ROWS.join(", "))),
                _ => return Err(format!("{word} is no argument; they are --rounds, --only and --sizes")),
            }
        }
        if read.sizes.iter().any(|size| !(32..=254).contains(size)) {
            return Err("a size is 32 to 254".to_string());
        }
        Ok(read)
    }

    fn wants(&self, row: &str) -> bool {
        self.only.as_ref().is_none_or(|only| only == row)
    }
}

fn line(row: Row, rounds: usize) -> Line {
    let Row { name, shape, size, cells, bytes, ours, theirs } = row;
    eprintln!("{name}, {shape}, {size}");
    let mut over = Passes::of(bytes);
    let mut sides: Vec<Side> = vec![ours, theirs, Box::new(|| over.go())];
    let times = in_turns(rounds, &mut sides);
    let [ours, theirs, passes] = [0, 1, 2].map(|n: usize| spread(&times[n]));
    Line { name, shape, size, cells, ours, theirs, ratio: ratios(&times[0], &times[1]), bytes, passes }
}

/// The rows of vessels, row by row, each over every shape and size.
fn vessel_lines(a: &Arguments) -> Vec<Line> {
    let rows: [(&str, fn(&Vessel) -> Row<'_>); 5] = [
        ("sizing", rows::sizing),
        ("marking", rows::marking),
        ("pairs", rows::pairs),
        ("list", rows::list),
        ("whole", rows::whole),
    ];
    let shapes: [fn(u32) -> Vessel; 2] = [closed_vessel, open_vessel];
    let mut lines = vec![];
    for (_, row) in rows.iter().filter(|(name, _)| a.wants(name)) {
        for shape in shapes {
            lines.extend(a.sizes.iter().map(|&size| line(row(&shape(size)), a.rounds)));
        }
    }
    lines
}

/// The fills, in the same way.
fn fill_lines(a: &Arguments) -> Vec<Line> {
    let rows: [(&str, fn(&Marks) -> Row<'_>); 2] = [("flood", rows::flood), ("cavities", rows::cavities)];
    let shapes: [fn(u32) -> Marks; 5] =
        [|size| marks_of(&closed_vessel(size)), |size| marks_of(&open_vessel(size)), plates, spiral, empty];
    let mut lines = vec![];
    for (_, row) in rows.iter().filter(|(name, _)| a.wants(name)) {
        for shape in shapes {
            lines.extend(a.sizes.iter().map(|&size| line(row(&shape(size)), a.rounds)));
        }
    }
    lines
}

fn edit_line(e: &edits::Edit, rounds: usize) -> EditLine {
    eprintln!("{}, {}", e.name, e.size);
    let mut over = Passes::of(e.bytes());
    let [edit, ours, theirs] = e.sides();
    let mut sides: Vec<Side> = vec![edit, ours, theirs, Box::new(|| over.go())];
    let times = in_turns(rounds, &mut sides);
    let [edit, our_flood, their_flood, passes] = [0, 1, 2, 3].map(|n: usize| spread(&times[n]));
    let (ratio, their_ratio) = (ratios(&times[0], &times[1]), ratios(&times[0], &times[2]));
    let (name, size, cells, changed) = (e.name, e.size, e.map.len(), e.changed);
    EditLine { name, size, cells, changed, edit, our_flood, their_flood, ratio, their_ratio, passes }
}

fn main() {
    let a = Arguments::read().unwrap_or_else(|fault| {
        eprintln!("error: {fault}");
        std::process::exit(2);
    });
    print::machine();
    if a.wants("passes") {
        let bytes = |size: &u32| (*size as usize).pow(3);
        print::bandwidths(&a.sizes.iter().flat_map(|s| passes::bandwidths(bytes(s), a.rounds)).collect::<Vec<_>>());
    }
    let mut lines = vessel_lines(&a);
    lines.extend(fill_lines(&a));
    if !lines.is_empty() {
        print::rows(&lines);
        print::growth(&lines);
    }
    if a.wants("edits") {
        let all = a.sizes.iter().flat_map(|&size| edits::edits(size));
        print::edits(&all.map(|e| edit_line(&e, a.rounds)).collect::<Vec<_>>());
    }
}
