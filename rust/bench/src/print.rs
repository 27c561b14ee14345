//! The tables, in Markdown, as docs/BENCHMARKS.md has them.
use crate::passes::{Bandwidth, Bytes};
use crate::timing::Spread;
use std::fs::read_to_string;

/// A timed row.
pub struct Line {
    pub name: &'static str,
    pub shape: &'static str,
    pub size: u32,
    pub cells: usize,
    pub ours: Spread,
    pub theirs: Spread,
    pub ratio: Spread,
    pub bytes: Bytes,
    /// The plain passes over these bytes.
    pub passes: Spread,
}

/// A timed edit.
pub struct EditLine {
    pub name: &'static str,
    pub size: u32,
    pub cells: usize,
    pub changed: usize,
    pub edit: Spread,
    pub our_flood: Spread,
    pub their_flood: Spread,
    pub ratio: Spread,
    pub their_ratio: Spread,
    pub passes: Spread,
}

/// Three digits, or all before the point.
fn short(x: f64) -> String {
    match x {
        x if x >= 100.0 => format!("{x:.0}"),
        x if x >= 10.0 => format!("{x:.1}"),
        x if x >= 1.0 => format!("{x:.2}"),
        x if x >= 0.1 => format!("{x:.3}"),
        x => format!("{x:.4}"),
    }
}

fn spread(s: Spread) -> String {
    format!("{} ({} to {})", short(s.middle), short(s.least), short(s.most))
}

/// The processor's kind, the cores and the memory.
pub fn machine() {
    let after = |file: &str, key: &str| {
        let text = read_to_string(file).unwrap_or_default();
        let line = text.lines().find(|l| l.starts_with(key)).unwrap_or("unknown: unknown").to_string();
        line.split_once(':').map_or("unknown".to_string(), |(_, value)| value.trim().to_string())
    };
    let cores = std::thread::available_parallelism().map_or(0, |n| n.get());
    let memory = after("/proc/meminfo", "MemTotal");
    println!("Machine: {}, {cores} cores, memory {memory}.\n", after("/proc/cpuinfo", "model name"));
}

pub fn bandwidths(all: &[Bandwidth]) {
    println!("## Plain passes\n\n| bytes | pass | 10^9 bytes a second |\n|---|---|---|");
    for b in all {
        println!("| {} | {} | {} |", b.bytes, b.name, short(b.rate));
    }
    println!();
}

pub fn rows(lines: &[Line]) {
    println!("## Ours beside the crate\n");
    println!("| row | shape | resolution | cells | ours, ms | the crate, ms | times as fast | bytes that must move | plain passes over them, ms |");
    println!("|---|---|---|---|---|---|---|---|---|");
    for l in lines {
        let Bytes { read, written, swept } = l.bytes;
        let (ours, theirs, ratio) = (spread(l.ours), spread(l.theirs), spread(l.ratio));
        let (moved, passes) = (read + written + 2 * swept, short(l.passes.middle));
        println!(
            "| {} | {} | {} | {} | {ours} | {theirs} | {ratio} | {moved} | {passes} |",
            l.name, l.shape, l.size, l.cells
        );
    }
    println!();
}

pub fn edits(lines: &[EditLine]) {
    println!("## Edits beside a fresh flood\n");
    println!("| edit | resolution | cells | labels changed | the edit, ms | our flood, ms | the crate's flood, ms | times as fast as our flood | as the crate's | plain passes, ms |");
    println!("|---|---|---|---|---|---|---|---|---|---|");
    for l in lines {
        let [edit, ours, theirs] = [l.edit, l.our_flood, l.their_flood].map(spread);
        let [ratio, their_ratio] = [l.ratio, l.their_ratio].map(spread);
        let passes = short(l.passes.middle);
        println!(
            "| {} | {} | {} | {} | {edit} | {ours} | {theirs} | {ratio} | {their_ratio} | {passes} |",
            l.name, l.size, l.cells, l.changed
        );
    }
    println!();
}

/// Lines that are the same save for their size, one group after the other.
fn groups(lines: &[Line]) -> Vec<Vec<&Line>> {
    let mut all: Vec<Vec<&Line>> = vec![];
    for line in lines {
        let same = |g: &&mut Vec<&Line>| g[0].name == line.name && g[0].shape == line.shape;
        match all.iter_mut().find(same) {
            Some(group) => group.push(line),
            None => all.push(vec![line]),
        }
    }
    all
}

/// Of each row: the time a cell at each size, and by what the time grows from a size to the next.
pub fn growth(lines: &[Line]) {
    println!("## Growth from size to size\n");
    println!(
        "| row | shape | resolutions | cells grow by | ours, ns a cell | grows by | the crate, ns a cell | grows by |"
    );
    println!("|---|---|---|---|---|---|---|---|");
    for group in groups(lines) {
        let joined = |x: Vec<String>| x.join(", ");
        let steps = |of: &dyn Fn(&Line) -> f64| joined(group.windows(2).map(|w| short(of(w[1]) / of(w[0]))).collect());
        let each =
            |of: &dyn Fn(&Line) -> f64| joined(group.iter().map(|l| short(of(l) * 1e6 / l.cells as f64)).collect());
        let (ours, theirs) = (|l: &Line| l.ours.middle, |l: &Line| l.theirs.middle);
        let sizes = joined(group.iter().map(|l| l.size.to_string()).collect());
        println!(
            "| {} | {} | {sizes} | {} | {} | {} | {} | {} |",
            group[0].name,
            group[0].shape,
            steps(&|l| l.cells as f64),
            each(&ours),
            steps(&ours),
            each(&theirs),
            steps(&theirs)
        );
    }
    println!();
}
