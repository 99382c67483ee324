//! The proved program: a child that is told the plan and says what its clock counted.

use std::io::{self, Write};
use std::path::Path;
use std::process::{Command, Stdio};

use super::clock::Counted;
use super::plan::Plan;

/// Runs the proved program once.
pub fn run(program: &Path, plan: Plan) -> io::Result<Counted> {
    let mut child = Command::new(program).stdin(Stdio::piped()).stdout(Stdio::piped()).spawn()?;
    let mut input = child.stdin.take().expect("standard input is a pipe");
    write!(input, "{:02} {} {:06}\n{}", plan.units, plan.traffic.vpi(), plan.rounds, plan.table())?;
    // The program reads to the end of its input.
    drop(input);
    let output = child.wait_with_output()?;
    let text = String::from_utf8_lossy(&output.stdout);
    parse(&text).ok_or_else(|| io::Error::other(format!("{} ended with {}: {text}", program.display(), output.status)))
}

fn parse(text: &str) -> Option<Counted> {
    let numbers: Result<Vec<u64>, _> = text.lines().map(str::parse).collect();
    match numbers.ok()?[..] {
        [load, arrive, frame, take, hear, count, thousand_readings, sum] => {
            Some(Counted { load, arrive, frame, take, hear, count, thousand_readings, sum })
        }
        _ => None,
    }
}
