//! Runs the console on standard input and output.

use std::io::{self, BufReader, BufWriter};
use std::process::ExitCode;

use independent::console::run;

fn main() -> ExitCode {
    let mut input = BufReader::with_capacity(65_536, io::stdin().lock());
    let mut out = BufWriter::with_capacity(65_536, io::stdout().lock());
    match run(&mut input, &mut out) {
        Ok(()) => ExitCode::SUCCESS,
        Err(error) => {
            eprintln!("console: {error}");
            ExitCode::FAILURE
        }
    }
}
