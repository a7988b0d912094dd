//! Runs the library and an independent model of documents 01 and 02 side by side and counts mismatches.

mod abi;
mod bench;
mod bench_sheet;
mod calls;
mod copies;
mod damage;
mod every_order;
mod guarded;
mod large;
mod ledger;
mod lengths;
mod library;
mod lines;
mod long_runs;
mod model;
mod order;
mod pools;
mod private;
mod random;
mod restart;
mod segment_form;
mod segment_search;
mod session;
mod session_bench;
mod session_damage;
mod sessions;
mod single_calls;
mod situations;
mod tally;
mod text;
mod tiny;
mod tree_form;
mod vast;
mod watch;

use bench::Bench;
use model::{Kind, SEGMENT};
use random::Random;
use std::process::ExitCode;
use std::time::Instant;
use tally::Subject;

/// Random cases to the segment pool and to each form of the tree pool; the bench sheet, tiny pools, vast lengths and
/// sessions come on top.
const CASES: u64 = 1_200_000;
const SEED: u64 = 61;

struct Wanted {
    cases: u64,
    seed: u64,
    /// Leaves out what does not depend on the seed.
    random_only: bool,
    /// Leaves out all but sessions.
    sessions_only: bool,
}

fn wanted() -> Result<Wanted, String> {
    let mut wanted = Wanted { cases: CASES, seed: SEED, random_only: false, sessions_only: false };
    let mut arguments = std::env::args().skip(1);
    while let Some(name) = arguments.next() {
        let mut number = || {
            let value = arguments.next().and_then(|value| value.parse().ok());
            value.ok_or(format!("{name}: a number, please"))
        };
        match name.as_str() {
            "--cases" => wanted.cases = number()?,
            "--seed" => wanted.seed = number()?,
            "--random-only" => wanted.random_only = true,
            "--sessions-only" => wanted.sessions_only = true,
            _ => return Err(format!("unknown: {name}")),
        }
    }
    Ok(wanted)
}

/// The tree pool in each of its forms, and the segment pool.
fn kinds() -> Vec<Kind> {
    tree_form::FORMS.into_iter().map(Kind::tree).chain([SEGMENT]).collect()
}

fn run(bench: &mut Bench, kind: Kind, wanted: &Wanted) {
    let mut random = Random::new(wanted.seed ^ (kind.form as u64) << 32);
    bench.tally.subject = Subject::Pool(kind);
    if !wanted.random_only {
        bench_sheet::run(bench, kind);
        tiny::run(bench, kind);
    }
    single_calls::run(bench, kind, wanted.cases / 5 * 2, &mut random);
    long_runs::run(bench, kind, wanted.cases / 5, &mut random);
    order::run(bench, kind, wanted.cases / 5, &mut random);
    restart::run(bench, kind, wanted.cases / 10, &mut random);
    every_order::run(bench, kind, wanted.cases / 50, &mut random);
    private::run(bench, kind, wanted.cases / 10, &mut random);
    copies::run(bench, kind, wanted.cases / 50, &mut random);
    if *kind.arena_words().end() > 16_384 {
        large::run(bench, kind, wanted.cases / 12_000 + 8, &mut random);
    }
}

pub fn compare() -> ExitCode {
    let wanted = match wanted() {
        Ok(wanted) => wanted,
        Err(told) => {
            eprintln!("{told}\nusage: compare [--cases N] [--seed S] [--random-only] [--sessions-only]");
            return ExitCode::from(2);
        }
    };
    watch::begin();
    let began = Instant::now();
    let mut bench = Bench::new(wanted.seed);
    let kinds = if wanted.sessions_only { Vec::new() } else { kinds() };
    for kind in &kinds {
        run(&mut bench, *kind, &wanted);
    }
    sessions::run(&mut bench, wanted.cases / 3, wanted.random_only, &mut Random::new(wanted.seed));
    vast::run(&mut bench.tally, &kinds);
    let subjects: Vec<Subject> = kinds.into_iter().map(Subject::Pool).chain([Subject::Sessions]).collect();
    let whole = bench.tally.report(&subjects);
    println!("seed {}, {:.1} s", wanted.seed, began.elapsed().as_secs_f64());
    match (bench.tally.mismatches, whole) {
        (0, true) => ExitCode::SUCCESS,
        (0, false) => {
            println!("a number or situation that can occur was never reached");
            ExitCode::from(2)
        }
        _ => ExitCode::from(1),
    }
}
