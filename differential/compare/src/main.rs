//! Runs both sides on the same inputs and counts the differences.
//!
//! Usage: `compare SUMMARY [TOPIC...]`; no topic means all. Each check has its line on standard
//! output, and each topic's sums have theirs in the file SUMMARY. Four words do something else:
//! `cases` writes the inputs that MPFR judges too, `bench` times both sides, `held` prints how many
//! conversions are held for the grid of each lattice, `record FOLDER` writes the Rust's answers for
//! the program `replay`, whose crate is in that folder.
//! Exit status: 0 no difference, 1 some, 2 an unknown topic, a Rust side that can't be the judge, or
//! a summary that can't be written.

mod analytic;
mod arithmetic;
mod bench;
mod buffers;
mod check;
mod directions;
mod grids;
mod helpers;
mod invariance;
mod islands;
mod lattices;
mod marks;
mod meshes;
mod operands;
mod pairs;
mod patterns;
mod queries;
mod record;
mod renumber;
mod reserved;
mod rows;
mod steps;
mod stored;
mod vectors;
mod walk;
mod weights;
mod zeros;

use check::Topic;
use std::fs;
use std::io::{self, BufWriter, Write};
use std::path::Path;
use std::process::ExitCode;

const TOPICS: [Topic; 15] = [
    Topic::new("helpers", helpers::checks),
    Topic::new("arithmetic", arithmetic::checks),
    Topic::new("vectors", vectors::checks),
    Topic::new("weights", weights::checks),
    Topic::new("analytic", analytic::checks),
    Topic::new("walk", walk::checks),
    Topic::new("islands", islands::checks),
    Topic::new("steps", steps::checks),
    Topic::new("renumber", renumber::checks),
    Topic::new("lattices", lattices::checks),
    Topic::new("marks", marks::checks),
    Topic::new("grids", grids::checks),
    Topic::new("queries", queries::checks),
    Topic::new("buffers", buffers::checks),
    Topic::new("invariance", invariance::checks),
];

fn main() -> ExitCode {
    let arguments: Vec<String> = std::env::args().skip(1).collect();
    match &arguments.iter().map(String::as_str).collect::<Vec<_>>()[..] {
        ["cases"] => write_cases(),
        ["bench"] => {
            bench::run();
            ExitCode::SUCCESS
        }
        ["held"] => print_held(),
        ["record", folder] => write_records(folder),
        [summary, topics @ ..] => compare(summary, topics),
        [] => {
            eprintln!("usage: compare SUMMARY [TOPIC...]");
            ExitCode::from(2)
        }
    }
}

fn compare(summary: &str, names: &[&str]) -> ExitCode {
    for name in names {
        if !TOPICS.iter().any(|topic| topic.name == *name) {
            let known = TOPICS.map(|topic| topic.name).join(", ");
            eprintln!("compare: no topic {name}; there are: {known}");
            return ExitCode::from(2);
        }
    }
    if !arithmetic::rust_is_fused() {
        eprintln!("compare: f64::mul_add rounds twice on this machine, so it can't be the judge");
        return ExitCode::from(2);
    }
    let chosen = |topic: &&Topic| names.is_empty() || names.contains(&topic.name);
    println!("{}\n{}", points_note(), arithmetic::mul_add_note());
    let sums = check::run(&TOPICS.iter().filter(chosen).collect::<Vec<_>>());
    let lines: String = sums.iter().map(|sum| format!("{sum}\n")).collect();
    if let Err(error) = fs::write(summary, lines) {
        eprintln!("compare: {summary}: {error}");
        return ExitCode::from(2);
    }
    let differ = sums.iter().any(|sum| sum.differences != 0);
    ExitCode::from(u8::from(differ))
}

fn write_cases() -> ExitCode {
    let mut out = BufWriter::new(io::stdout().lock());
    match arithmetic::write_cases(&mut out).and_then(|()| out.flush()) {
        Ok(()) => ExitCode::SUCCESS,
        Err(error) => {
            eprintln!("compare: {error}");
            ExitCode::FAILURE
        }
    }
}

fn print_held() -> ExitCode {
    if !arithmetic::rust_is_fused() {
        eprintln!("compare: f64::mul_add rounds twice on this machine, so nothing is counted");
        return ExitCode::from(2);
    }
    grids::print_held();
    ExitCode::SUCCESS
}

fn write_records(folder: &str) -> ExitCode {
    if !arithmetic::rust_is_fused() {
        eprintln!("compare: f64::mul_add rounds twice on this machine, so it can't be recorded");
        return ExitCode::from(2);
    }
    match record::write(Path::new(folder)) {
        Ok(()) => ExitCode::SUCCESS,
        Err(error) => {
            eprintln!("compare: {error}");
            ExitCode::FAILURE
        }
    }
}

/// Both sides read the committed points, so another libm makes no difference to the comparison.
fn points_note() -> String {
    let computed = icotable_oracle::computed_icosahedron_points();
    let committed = icotable_oracle::icosahedron_points();
    let bits = |p: &icotable_oracle::Vector3| [p.x, p.y, p.z].map(f64::to_bits);
    let same = computed.iter().map(bits).eq(committed.iter().map(bits));
    let state = if same {
        "the committed bits"
    } else {
        "other bits (for information)"
    };
    format!("icosahedron points: computed on this machine they have {state}")
}
