//! The bench program: a wide card driven by lines of text.

use std::io::{self, BufRead, ErrorKind, Write};

use crate::text::{hex_bytes, unit_number};
use crate::{load, Card, Counters, Refused, SentFrame, Shelf, Taking};
use crate::{CELL_BYTES, FRAME_BYTES, STORE_PER_UNIT};

/// Longest `table.txt` that is read.
pub const TABLE_MAX: usize = 8_192;
const MEMORY_BYTES: usize = 16_384;
const UNITS: usize = 4;
const STORE_BYTES: usize = UNITS * STORE_PER_UNIT;

/// Digits kept of a number in an event: so many are already beyond every unit.
const DIGITS_KEPT: usize = 20;
/// Longest event once its number is cut to the digits kept: an `arrive`.
const EVENT_MAX: usize = "arrive\t".len() + DIGITS_KEPT + "\t005002102B\tA5".len();

/// Loads the table, then answers the events until they end.
pub fn run(table: &[u8], events: &mut impl BufRead, out: &mut impl Write) -> io::Result<()> {
    let bench = Bench::start(table, out)?;
    if let Some(mut bench) = bench {
        bench.answer_all(events, out)?;
    }
    out.flush()
}

struct Bench {
    shelf: Shelf,
    memory: Vec<u8>,
    store: Vec<u8>,
    rows: Vec<Counters>,
}

#[derive(Debug, PartialEq, Eq)]
enum Event {
    Arrive { unit: u32, cell: [u8; CELL_BYTES] },
    Frame,
    Take { unit: u32 },
    Count { unit: u32 },
}

impl Bench {
    /// Prints the `table` line; None if the table was refused.
    fn start(table: &[u8], out: &mut impl Write) -> io::Result<Option<Bench>> {
        if table.len() > TABLE_MAX {
            writeln!(out, "table\trefused\t1\t0")?;
            return Ok(None);
        }
        let mut memory = vec![0; MEMORY_BYTES];
        let mut rows = vec![Counters::default(); UNITS];
        let (shelf, outcome) = load(Card::Wide, table, &mut memory, STORE_BYTES, &mut rows);
        match outcome {
            Ok(used) => {
                writeln!(out, "table\tok\t{used}")?;
                Ok(Some(Bench { shelf, memory, store: vec![0; STORE_BYTES], rows }))
            }
            Err(refusal) => {
                writeln!(out, "table\trefused\t{}\t{}", refusal.number(), refusal.line)?;
                Ok(None)
            }
        }
    }

    fn answer_all(&mut self, events: &mut impl BufRead, out: &mut impl Write) -> io::Result<()> {
        let mut line = EventLine::default();
        loop {
            // Whoever waits for an answer before the next event must see it.
            out.flush()?;
            let bytes = match events.fill_buf() {
                Ok(bytes) => bytes,
                Err(error) if error.kind() == ErrorKind::Interrupted => continue,
                Err(error) => return Err(error),
            };
            if bytes.is_empty() {
                break;
            }
            for &byte in bytes {
                if byte == b'\n' {
                    writeln!(out, "{}", self.answer(&line.finish()))?;
                } else {
                    line.push(byte);
                }
            }
            let read = bytes.len();
            events.consume(read);
        }
        if line.is_begun() {
            writeln!(out, "{}", self.answer(&line.finish()))?;
        }
        Ok(())
    }

    /// The line printed for a line of input.
    fn answer(&mut self, line: &[u8]) -> String {
        let Some(event) = parse_event(line) else {
            return "bad".to_string();
        };
        let (word, answer) = match event {
            Event::Arrive { unit, cell } => ("arrive", self.arrive(unit, &cell)),
            Event::Frame => ("frame", self.frame()),
            Event::Take { unit } => ("take", self.take(unit)),
            Event::Count { unit } => ("count", self.count(unit)),
        };
        match answer {
            Ok(rest) => format!("{word}\t{rest}"),
            Err(refused) => format!("{word}\trefused\t{}", refused.number()),
        }
    }

    fn arrive(&mut self, unit: u32, cell: &[u8]) -> Result<String, Refused> {
        let fate = self.shelf.arrive(unit, cell, &self.memory, &mut self.store, &mut self.rows)?;
        Ok(format!("{unit}\t{}", fate.word()))
    }

    fn frame(&mut self) -> Result<String, Refused> {
        let mut buffer = [0; FRAME_BYTES];
        let SentFrame { number, sender, granted, copies } =
            self.shelf.frame(&mut buffer, &mut self.store, &mut self.rows)?;
        Ok(format!("{number}\t{}\t{}\t{copies}", or_dash(sender), or_dash(granted)))
    }

    fn take(&mut self, unit: u32) -> Result<String, Refused> {
        let mut cell = [0; CELL_BYTES];
        match self.shelf.take(unit, &mut cell, &self.store, &mut self.rows)? {
            Taking::Empty => Ok(format!("{unit}\tempty")),
            Taking::Taken => {
                let header: String = cell[..5].iter().map(|byte| format!("{byte:02X}")).collect();
                Ok(format!("{unit}\t{header}\t{:02X}", cell[5]))
            }
        }
    }

    fn count(&self, unit: u32) -> Result<String, Refused> {
        let counters = self.shelf.count(unit, STORE_BYTES, &self.rows)?;
        let listed = counters.list().map(|counter| counter.to_string());
        Ok(format!("{unit}\t{}", listed.join("\t")))
    }
}

/// A line of input as far as it matters for being an event, so that any
/// length of line is read in little space.
#[derive(Default)]
struct EventLine {
    kept: Vec<u8>,
    /// Decimal digits just read without a break.
    digits: usize,
}

impl EventLine {
    /// Drops what cannot change the answer: further digits of a number that is
    /// already no unit, and all beyond the first byte past the longest event.
    fn push(&mut self, byte: u8) {
        self.digits = match byte.is_ascii_digit() {
            true => self.digits.saturating_add(1),
            false => 0,
        };
        if self.digits <= DIGITS_KEPT && self.kept.len() <= EVENT_MAX {
            self.kept.push(byte);
        }
    }

    fn is_begun(&self) -> bool {
        !self.kept.is_empty()
    }

    /// Gives what was kept and begins the next line.
    fn finish(&mut self) -> Vec<u8> {
        self.digits = 0;
        std::mem::take(&mut self.kept)
    }
}

fn parse_event(line: &[u8]) -> Option<Event> {
    let fields: Vec<&[u8]> = line.split(|byte| *byte == b'\t').collect();
    match fields[..] {
        [b"arrive", unit, header, payload] => {
            Some(Event::Arrive { unit: unit_number(unit)?, cell: line_cell(header, payload)? })
        }
        [b"frame"] => Some(Event::Frame),
        [b"take", unit] => Some(Event::Take { unit: unit_number(unit)? }),
        [b"count", unit] => Some(Event::Count { unit: unit_number(unit)? }),
        _ => None,
    }
}

/// A cell from header and check in hex and the byte its payload repeats.
fn line_cell(header: &[u8], payload: &[u8]) -> Option<[u8; CELL_BYTES]> {
    let header = hex_bytes(header).filter(|bytes| bytes.len() == 5)?;
    let payload = hex_bytes(payload).filter(|bytes| bytes.len() == 1)?;
    let mut cell = [payload[0]; CELL_BYTES];
    cell[..5].copy_from_slice(&header);
    Some(cell)
}

fn or_dash(unit: Option<u8>) -> String {
    unit.map_or("-".to_string(), |unit| unit.to_string())
}
