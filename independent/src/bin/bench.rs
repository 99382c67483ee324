//! Runs the bench on `table.txt` of the current directory and standard input.

use std::fs::File;
use std::io::{self, BufWriter, Read};
use std::process::ExitCode;

use independent::bench::{run, TABLE_MAX};

/// Reads one byte more than is allowed, so that a longer file shows.
fn read_table() -> io::Result<Vec<u8>> {
    let mut text = Vec::new();
    let file = File::open("table.txt")?;
    file.take(TABLE_MAX as u64 + 1).read_to_end(&mut text)?;
    Ok(text)
}

fn main() -> ExitCode {
    let table = read_table().unwrap_or_else(|error| {
        eprintln!("table.txt: {error}");
        Vec::new()
    });
    let mut events = io::stdin().lock();
    let mut out = BufWriter::new(io::stdout().lock());
    match run(&table, &mut events, &mut out) {
        Ok(()) => ExitCode::SUCCESS,
        Err(error) => {
            eprintln!("bench: {error}");
            ExitCode::FAILURE
        }
    }
}
