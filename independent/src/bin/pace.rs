//! Times the proved shelf beside this program: `pace TIMED STACKED [RUNS]`, as bin/pace calls it.
//! TIMED is the proved program, STACKED the same with a clock that counts bytes of stack.

use std::env;
use std::io;
use std::path::Path;
use std::process::ExitCode;

use independent::pace::clock::{thread_time, CALLS};
use independent::pace::plan::Plan;
use independent::pace::report::{heading, lines, Pace};
use independent::pace::stack::{stack_clock, OWN};
use independent::pace::{child, rust};

const RUNS: usize = 10;

/// The paces of one plan in all runs so far.
struct Paces {
    plan: Plan,
    proved: Vec<Pace>,
    rust: Vec<Pace>,
}

fn main() -> ExitCode {
    let words: Vec<String> = env::args().skip(1).collect();
    let [timed, stacked, rest @ ..] = &words[..] else {
        eprintln!("pace TIMED STACKED [RUNS]");
        return ExitCode::FAILURE;
    };
    let runs = rest.first().and_then(|runs| runs.parse().ok()).unwrap_or(RUNS);
    match time(Path::new(timed), runs).and_then(|()| measure_stack(Path::new(stacked))) {
        Ok(()) => ExitCode::SUCCESS,
        Err(error) => {
            eprintln!("pace: {error}");
            ExitCode::FAILURE
        }
    }
}

/// Runs all plans so many times and prints the table.
fn time(timed: &Path, runs: usize) -> io::Result<()> {
    let new = |plan| Paces { plan, proved: Vec::new(), rust: Vec::new() };
    let mut all: Vec<Paces> = Plan::all().into_iter().map(new).collect();
    for run in 0..runs {
        for paces in &mut all {
            run_both(timed, run, paces)?;
        }
    }
    println!("medians of {runs} runs; in brackets how many times the bus's own 2,375,000 frames a second\n");
    print!("{}", heading());
    for paces in &all {
        print!("{}", lines(paces.plan, &paces.proved, &paces.rust));
    }
    Ok(())
}

/// One run of each program; they take turns at being first.
fn run_both(timed: &Path, run: usize, paces: &mut Paces) -> io::Result<()> {
    let plan = paces.plan;
    let early = (run % 2 == 1).then(|| rust::run(plan, thread_time));
    let proved = child::run(timed, plan)?;
    let rust = early.unwrap_or_else(|| rust::run(plan, thread_time));
    if proved.sum != rust.sum {
        return Err(io::Error::other(format!("the answers differ: {plan:?}: proved {proved:?}, Rust {rust:?}")));
    }
    paces.proved.push(Pace::of(plan, proved));
    paces.rust.push(Pace::of(plan, rust));
    Ok(())
}

/// Prints the deepest stack of each kind of call over all plans, one round of each.
fn measure_stack(stacked: &Path) -> io::Result<()> {
    let mut deepest = [[0; 2]; CALLS.len()];
    for plan in Plan::all() {
        let plan = Plan { rounds: 1, ..plan };
        let proved = child::run(stacked, plan)?.calls();
        let rust = rust::run(plan, stack_clock).calls();
        for (deepest, used) in deepest.iter_mut().zip(proved.into_iter().zip(rust)) {
            *deepest = [deepest[0].max(used.0), deepest[1].max(used.1)];
        }
    }
    println!("\nbytes of stack below the caller, the deepest of all calls; up to {OWN} is not told apart");
    println!("{:<6} {:>8} {:>8}", "call", "proved", "Rust");
    for (word, [proved, rust]) in CALLS.into_iter().zip(deepest) {
        println!("{word:<6} {proved:>8} {rust:>8}");
    }
    Ok(())
}
