//! Compares the console given by a command line, or this program's own, with this program's console.

use std::io::{self, BufWriter, Write};
use std::process::ExitCode;

use independent::compare::episodes;
use independent::compare::program::{Other, Own, Program};
use independent::compare::script::{differing_bytes, table_of};
use independent::compare::settings::name_of;
use independent::compare::tally::{grouped, Tally};
use independent::compare::{Comparison, Fault, Finding};

const USAGE: &str = "usage: compare [--seed N] [--rounds N] [--jobs N] (--self | --print | COMMAND [ARGUMENT...])";

/// Rounds of a full run; so many show every kind of answer.
const FULL: u64 = 165;

/// What a full run has at least: tables, events, hand-ins and collects together, heard frames of kind 3.
const LEAST: [u64; 4] = [20_938, 367_256, 50_000, 50_000];

/// What is done with the scripts.
enum Task {
    /// This program is compared with itself.
    Itself,
    /// They are printed, for use by hand.
    Print,
    Command(Vec<String>),
}

struct Options {
    seed: u64,
    rounds: u64,
    jobs: usize,
    task: Task,
}

/// None if the arguments are wrong.
fn options(mut arguments: impl Iterator<Item = String>) -> Option<Options> {
    let (mut seed, mut rounds, mut jobs, mut task) = (1, FULL, 2, None);
    while let Some(argument) = arguments.next() {
        match argument.as_str() {
            "--seed" => seed = arguments.next()?.parse().ok()?,
            "--rounds" => rounds = arguments.next()?.parse().ok()?,
            "--jobs" => jobs = arguments.next()?.parse().ok()?,
            "--self" => task = Some(Task::Itself),
            "--print" => task = Some(Task::Print),
            option if option.starts_with('-') => return None,
            // The rest is the command line of the other program.
            _ => task = Some(Task::Command([argument].into_iter().chain(&mut arguments).collect())),
        }
    }
    task.map(|task| Options { seed, rounds, jobs, task })
}

fn print_scripts(seed: u64, rounds: u64) -> io::Result<()> {
    let mut out = BufWriter::new(io::stdout().lock());
    for number in 0..episodes::count(rounds) {
        for line in episodes::episode(seed, number).lines() {
            out.write_all(&line)?;
            out.write_all(b"\n")?;
        }
    }
    out.flush()
}

fn print_finding(finding: &Finding, seed: u64) {
    println!("disagreement in episode {} of seed {seed}; the shortest script found:", finding.episode);
    for line in &finding.script {
        println!("{}", String::from_utf8_lossy(line));
    }
    for table in finding.script.iter().filter_map(|line| table_of(line)) {
        println!("a table in it:\n{}", String::from_utf8_lossy(&table));
    }
    println!("the fault:");
    let text = |answer: &[u8]| String::from_utf8_lossy(answer).into_owned();
    let given = |answer: &Option<Vec<u8>>| answer.as_deref().map_or("(no answer)".to_string(), text);
    match &finding.fault {
        Fault::Answers { line, judged, judge } => {
            println!("asked:   {}\nproved:  {}\nthis:    {}", text(line), given(judged), given(judge));
            if let (Some(judged), Some(judge)) = (judged, judge) {
                print_bytes(judged, judge);
            }
        }
        Fault::Cards { line, wide, narrow } => {
            println!("asked:   {}\nwide:    {}\nnarrow:  {}", text(line), text(wide), text(narrow));
            print_bytes(wide, narrow);
        }
        Fault::End => println!("the program said more than it was asked, or did not end well"),
    }
}

/// Prints which bytes differ in two answers to `show state`.
fn print_bytes(first: &[u8], second: &[u8]) {
    for (at, [first, second]) in differing_bytes(first, second) {
        println!("byte {at} ({}): {first:02X}, {second:02X}", name_of(at));
    }
}

/// Prints what occurred; gives whether a full run missed nothing.
fn print_tally(tally: &Tally, full: bool) -> bool {
    print!("{}", tally.report());
    let missing = tally.missing();
    if !missing.is_empty() {
        println!("never occurred: {}", missing.join(", "));
    }
    let (processors, heard) = (grouped(tally.processors), grouped(tally.heard));
    println!("of processors: {processors} hand-ins and collects, {heard} heard frames of kind 3");
    let counts = [tally.tables, tally.events, tally.processors, tally.heard];
    let large = counts.iter().zip(LEAST).all(|(count, least)| *count >= least);
    if full && !large {
        println!("too few tables, events, hand-ins and collects, or heard frames of kind 3 for a full run");
    }
    !full || (missing.is_empty() && large)
}

/// Compares and prints; gives whether all is well.
fn compare(judged: &dyn Program, seed: u64, rounds: u64, jobs: usize) -> io::Result<bool> {
    let (tally, finding) = Comparison { judged, judge: &Own, seed, rounds, jobs }.run()?;
    let complete = print_tally(&tally, rounds >= FULL && finding.is_none());
    finding.iter().for_each(|finding| print_finding(finding, seed));
    let (tables, events, faults) = (grouped(tally.tables), grouped(tally.events), usize::from(finding.is_some()));
    println!("compared: {tables} tables, {events} events, {faults} disagreements");
    Ok(complete && finding.is_none())
}

fn main() -> ExitCode {
    let Some(Options { seed, rounds, jobs, task }) = options(std::env::args().skip(1)) else {
        eprintln!("{USAGE}");
        return ExitCode::from(2);
    };
    let result = match task {
        Task::Itself => compare(&Own, seed, rounds, jobs),
        Task::Command(command) => compare(&Other { command }, seed, rounds, jobs),
        Task::Print => print_scripts(seed, rounds).map(|()| true),
    };
    match result {
        Ok(true) => ExitCode::SUCCESS,
        Ok(false) => ExitCode::FAILURE,
        Err(error) => {
            eprintln!("compare: {error}");
            ExitCode::from(2)
        }
    }
}
