//! Runs the verified library and the lifted crate on the same inputs and counts where they differ.
//!
//! `compare [--seed N] [--seconds N] [--size N] [--family NAME [--case N]]`: the seed of all random inputs, how long to
//! run, the most cells along an axis of the random grids (4 to 254); one family alone, one case of it alone. A line
//! for each family tells its cases, the calls made and the numbers compared, how many calls were to be refused, and how
//! many differ; the smallest input that differs follows. The last line is `N compared, M differ`, in calls; if M is not 0
//! the program ends with 1.
//!
//! The crate's triangle test is not in the supplied text, so a plain f32 one stands in for it (lifted/src/marking.rs).
//! Cells that it marks otherwise are counted apart. Each must be explained by rounding, or it is a difference.

mod boxes;
mod calls;
mod edits;
mod fill;
mod guard;
mod list;
mod maps;
mod marking;
mod meshes;
mod parts;
mod program;
mod random;
mod refusals;
mod sizing;
mod stand;
mod tally;
mod way;

use random::Random;
use std::time::{Duration, Instant};
use tally::{Case, Stand, Tally};

/// A family's name, its share of the time in hundredths, and one case of it.
type Family = (&'static str, u32, fn(&mut Case));

const FAMILIES: [Family; 10] = [
    ("sizing", 4, sizing::case),
    ("marking", 10, marking::case),
    ("fill", 18, fill::case),
    ("edits", 18, edits::case),
    ("list", 7, list::case),
    ("parts", 4, parts::case),
    ("boxes", 4, boxes::case),
    ("program", 5, program::case),
    ("refusals", 12, refusals::case),
    ("whole way", 18, way::case),
];

struct Settings {
    seed: u64,
    seconds: u64,
    size: usize,
    family: Option<String>,
    case: Option<u64>,
}

fn settings() -> Result<Settings, String> {
    let mut s = Settings { seed: 1, seconds: 60, size: 64, family: None, case: None };
    let mut arguments = std::env::args().skip(1);
    while let Some(name) = arguments.next() {
        let value = arguments.next().ok_or(format!("{name} without a value"))?;
        let number = || value.parse::<u64>().map_err(|_| format!("{name} {value}: not a number"));
        match name.as_str() {
            "--seed" => s.seed = number()?,
            "--seconds" => s.seconds = number()?,
            "--size" => s.size = number()? as usize,
            "--family" => s.family = Some(value.clone()),
            "--case" => s.case = Some(number()?),
            _ => return Err(format!("unknown argument {name}")),
        }
    }
    if !(4..=254).contains(&s.size) {
        return Err("a size is 4 to 254".into());
    }
    if s.family.as_ref().is_some_and(|name| FAMILIES.iter().all(|f| f.0 != name)) {
        return Err(format!("no such family; there are {:?}", FAMILIES.map(|f| f.0)));
    }
    Ok(s)
}

/// One case of a family.
fn run_case(s: &Settings, at: usize, number: u64, tally: &mut Tally) {
    tally.case = number;
    let rng = Random::of(s.seed, at, number);
    FAMILIES[at].2(&mut Case { number, rng, size: s.size, tally });
}

/// Cases of a family until its time is over; at least one. Answers how many.
fn run(s: &Settings, at: usize, time: Duration, tally: &mut Tally) -> u64 {
    if let Some(number) = s.case {
        run_case(s, at, number, tally);
        return 1;
    }
    let (start, mut number) = (Instant::now(), 0);
    while number == 0 || start.elapsed() < time {
        run_case(s, at, number, tally);
        number += 1;
    }
    number
}

fn tell(s: &Settings, name: &str, cases: u64, tally: &Tally) {
    let refused: u64 = tally.refused[1..].iter().sum();
    let counts = format!("{cases} cases, {} calls, {} numbers compared", tally.calls, tally.numbers);
    println!("{name}: {counts}, {refused} refused, {} differ", tally.differ);
    if let Some(d) = &tally.smallest {
        println!("  smallest: --seed {} --size {} --family '{name}' --case {}: {}", s.seed, s.size, d.case, d.input);
    }
}

/// How the marks compare with the stand-in's, for each kind of mesh.
fn tell_stands(stands: &[Stand]) {
    let sum = |of: fn(&Stand) -> u64| stands.iter().map(of).sum::<u64>();
    println!("marks: {} cells, {} differ from the f32 stand-in", sum(|s| s.cells), sum(|s| s.differ()));
    for s in stands {
        let counts = format!("{} meshes, {} cells, {} differ", s.meshes, s.cells, s.differ());
        let sides = format!("{} marked only here, {} only by f32", s.only[0], s.only[1]);
        println!("  {}: {counts}: {sides}; {} because vertices are rounded to 1/256", s.kind, s.by_vertex);
    }
    for (sort, only) in ["only here", "only by f32"].iter().enumerate() {
        if let Some(d) = stands.iter().flat_map(|s| &s.smallest[sort]).min_by_key(|d| d.weight) {
            println!("  smallest that is marked {only}, case {}: {}", d.case, d.input);
        }
    }
}

fn main() {
    let s = settings().unwrap_or_else(|fault| {
        eprintln!("error: {fault}");
        std::process::exit(2);
    });
    let chosen = |at: &usize| s.family.as_ref().is_none_or(|name| FAMILIES[*at].0 == name);
    let shares: u32 = (0..FAMILIES.len()).filter(chosen).map(|at| FAMILIES[at].1).sum();
    let (mut calls, mut differ, mut refused, mut stands) = (0, 0, [0; 18], vec![]);
    for at in (0..FAMILIES.len()).filter(chosen) {
        let (name, share, _) = FAMILIES[at];
        let mut tally = Tally::default();
        let cases = run(&s, at, Duration::from_secs(s.seconds) * share / shares, &mut tally);
        tell(&s, name, cases, &tally);
        calls += tally.calls;
        differ += tally.differ;
        (0..18).for_each(|n| refused[n] += tally.refused[n]);
        stands.extend(tally.stands);
    }
    tell_stands(&stands);
    let numbers: Vec<String> = (1..18).map(|n| format!("{n}: {}", refused[n])).collect();
    println!("refused, by number: {}", numbers.join(", "));
    println!("{calls} compared, {differ} differ");
    std::process::exit((differ > 0) as i32);
}
