//! Plays random tables, events and spoiled states on the firmware library and on the independent program in one
//! process, and compares every answer and what is lent. The scripts are those of the two consoles' comparison.

mod expected;
mod lent;
mod library;
mod pair;
mod tally;

/// The numbers of the header beside the library.
#[allow(dead_code)]
mod header {
    include!(concat!(env!("OUT_DIR"), "/header.rs"));
}

use independent::compare::episodes::episode;
use independent::compare::script::Line;
use independent::compare::shrink::shrink;
use independent::compare::tally::grouped;
use independent::console::command::parse;
use pair::Pair;
use std::process::ExitCode;
use std::time::{Duration, Instant};
use tally::Tally;

const USAGE: &str =
    "usage: inprocess [--seed N] [--events N] [--seconds N] [--loud]    or    --seed N --episode K [--print]";

/// What a run has at least, if its time is up before all its events are played.
const LEAST: u64 = 200_000;
/// How long shorter lines are looked for that show a disagreement.
const SHORTENING: Duration = Duration::from_secs(20);

struct Options {
    seed: u64,
    events: u64,
    seconds: Option<u64>,
    /// This episode alone.
    episode: Option<u64>,
    /// Its lines are printed, for the console.
    print: bool,
    /// Each episode is named before it is played: for a library that ends the process.
    loud: bool,
}

/// None if the arguments are wrong.
fn options(mut arguments: impl Iterator<Item = String>) -> Option<Options> {
    let mut options = Options { seed: 1, events: 2_000_000, seconds: None, episode: None, print: false, loud: false };
    while let Some(argument) = arguments.next() {
        match argument.as_str() {
            "--seed" => options.seed = arguments.next()?.parse().ok()?,
            "--events" => options.events = arguments.next()?.parse().ok()?,
            "--seconds" => options.seconds = Some(arguments.next()?.parse().ok()?),
            "--episode" => options.episode = Some(arguments.next()?.parse().ok()?),
            "--print" => options.print = true,
            "--loud" => options.loud = true,
            _ => return None,
        }
    }
    Some(options)
}

/// A line on which the two do not agree, and what differs after it.
struct Fault {
    line: usize,
    differences: Vec<String>,
}

/// Plays lines from a fresh start.
fn play(number: u64, lines: &[Line], tally: &mut Tally) -> Result<(), Fault> {
    let mut pair = Pair::new(number);
    for (index, line) in lines.iter().enumerate() {
        let played = parse(line).map_or(Ok(()), |command| pair.play(&command, tally));
        played.map_err(|differences| Fault { line: index + 1, differences })?;
    }
    pair.compare_all().map_err(|differences| Fault { line: lines.len(), differences })
}

/// Prints a disagreement, how to play it again, and the shortest lines found that show one.
fn print_fault(seed: u64, number: u64, lines: &[Line], fault: &Fault) {
    let text = |line: &[u8]| String::from_utf8_lossy(line).into_owned();
    println!("disagreement in seed {seed}, episode {number}, line {} of {}", fault.line, lines.len());
    println!("asked: {}", text(&lines[fault.line - 1]));
    fault.differences.iter().for_each(|difference| println!("{difference}"));
    println!("again: inprocess --seed {seed} --episode {number}");
    let end = Instant::now() + SHORTENING;
    let is_faulty = |lines: &[Line]| Instant::now() < end && play(number, lines, &mut Tally::default()).is_err();
    let shortest = shrink(lines[..fault.line].to_vec(), &mut |lines: &[Line]| is_faulty(lines));
    println!("the shortest lines found, as the console takes them:");
    shortest.iter().for_each(|line| println!("{}", text(line)));
}

/// Plays episodes until there are enough events or the time is up; gives the events a second, None on a disagreement.
fn run(options: &Options, tally: &mut Tally) -> Option<u64> {
    let start = Instant::now();
    let is_over = |events: u64| {
        let late = options.seconds.is_some_and(|seconds| start.elapsed() >= Duration::from_secs(seconds));
        events >= options.events || late
    };
    let mut number = 0;
    while !is_over(tally.events) {
        if options.loud {
            eprintln!("episode {number}");
        }
        let lines = episode(options.seed, number).lines();
        if let Err(fault) = play(number, &lines, tally) {
            print_fault(options.seed, number, &lines, &fault);
            return None;
        }
        number += 1;
    }
    let seconds = start.elapsed().as_secs_f64();
    println!("{} episodes of seed {} in {seconds:.1} s", grouped(number), options.seed);
    Some((tally.events as f64 / seconds) as u64)
}

/// Whether the run has played enough to say something.
fn is_enough(options: &Options, tally: &Tally) -> bool {
    let missing = tally.missing();
    if !missing.is_empty() {
        println!("never occurred: {}", missing.join(", "));
    }
    let few = tally.events < options.events.min(LEAST);
    if few {
        println!("too few events for a verdict: fewer than {}", grouped(LEAST));
    }
    missing.is_empty() && !few
}

/// One episode again, or its lines.
fn one(options: &Options, number: u64) -> bool {
    let lines = episode(options.seed, number).lines();
    if options.print {
        lines.iter().for_each(|line| println!("{}", String::from_utf8_lossy(line)));
        return true;
    }
    match play(number, &lines, &mut Tally::default()) {
        Ok(()) => println!("no disagreement in seed {}, episode {number}", options.seed),
        Err(fault) => {
            print_fault(options.seed, number, &lines, &fault);
            return false;
        }
    }
    true
}

/// The sizes in the header that are not those of the independent program.
fn wrong_sizes() -> Vec<&'static str> {
    use independent as own;
    let sizes = [
        ("STATE_BYTES", header::STATE_BYTES, own::state::STATE_BYTES),
        ("STORE_BYTES", header::STORE_BYTES, own::STORE_PER_UNIT),
        ("ROW_BYTES", header::ROW_BYTES, std::mem::size_of::<library::Row>()),
        ("RECORD_BYTES", header::RECORD_BYTES, own::RECORD_BYTES),
        ("MEMORY_MOST", header::MEMORY_MOST, own::MEMORY_MAX),
        ("TEXT_MOST", header::TEXT_MOST, own::TEXT_MAX),
        ("UNITS_MOST", header::UNITS_MOST, own::UNITS_MAX),
        ("CELL_BYTES", header::CELL_BYTES, own::CELL_BYTES),
        ("FRAME_BYTES", header::FRAME_BYTES, own::FRAME_BYTES),
        ("CONTROL_BYTES", header::CONTROL_BYTES, own::CONTROL_BYTES),
    ];
    sizes.iter().filter(|(_, header, own)| *header != *own as u64).map(|(name, _, _)| *name).collect()
}

/// Compares and prints; gives whether all is well.
fn compare(options: &Options) -> bool {
    let wrong = wrong_sizes();
    if !wrong.is_empty() {
        println!("sizes of the header that are not document 01's: {}", wrong.join(", "));
        return false;
    }
    if let Some(number) = options.episode {
        return one(options, number);
    }
    let mut tally = Tally::default();
    let pace = run(options, &mut tally);
    print!("{}", tally.report());
    let good = pace.is_some() && is_enough(options, &tally);
    let (tables, events) = (grouped(tally.tables), grouped(tally.events));
    let pace = pace.map_or("1 disagreement".to_string(), |pace| format!("{} a second, 0 disagreements", grouped(pace)));
    println!("in process: {tables} tables, {events} events, {pace}");
    good
}

fn main() -> ExitCode {
    let Some(options) = options(std::env::args().skip(1)) else {
        eprintln!("{USAGE}");
        return ExitCode::from(2);
    };
    match compare(&options) {
        true => ExitCode::SUCCESS,
        false => ExitCode::FAILURE,
    }
}
