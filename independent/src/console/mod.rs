//! The console: every command of docs/CONSOLE.md, one answer a line.

pub mod command;
mod lines;
mod unit;

use std::io::Write;

use crate::text::push_hex;
use crate::{load, Card, Counters, Refused, Shelf, Taking};
use command::{Command, Part, Poked};

pub use lines::run;

/// Longest line that is a command, without its newline.
const LINE_MAX: usize = 150_000;
/// Every byte of a buffer as it is lent.
const BUFFER_BYTE: u8 = 0xEE;

/// A shelf with all that is lent to it.
pub struct Console {
    pub shelf: Shelf,
    memory: Vec<u8>,
    pub store: Vec<u8>,
    pub rows: Vec<Counters>,
}

impl Default for Console {
    fn default() -> Self {
        Console { shelf: Shelf::fresh(Card::Wide), memory: Vec::new(), store: Vec::new(), rows: Vec::new() }
    }
}

/// Writes formatted text to an answer, which never fails.
macro_rules! say {
    ($out:expr, $($text:tt)*) => {
        write!($out, $($text)*).expect("memory takes all")
    };
}

impl Console {
    /// Adds the answer to a line, both without their newline.
    pub fn answer(&mut self, line: &[u8], out: &mut Vec<u8>) {
        let command = if line.len() <= LINE_MAX { command::parse(line) } else { None };
        let Some(command) = command else {
            return say!(out, "bad");
        };
        match command {
            Command::Card(card) => self.change_card(card, out),
            Command::Lend { part, length, byte } => self.lend(part, length, byte, out),
            Command::LendRows { count, value } => self.lend_rows(count, value, out),
            Command::Load(text) => self.load(&text, out),
            Command::Arrive { unit, cell } => self.arrive(unit, &cell, out),
            Command::Hear { unit, frame } => self.hear(unit, &frame, out),
            Command::Frame { length } => self.frame(length, out),
            Command::Take { unit, length } => self.take(unit, length, out),
            Command::Hand { unit, cell } => self.hand(unit, &cell, out),
            Command::Collect { unit, length } => self.collect(unit, length, out),
            Command::Count { unit } => self.count(unit, out),
            Command::Poke { poked, at, bytes } => self.poke(poked, at, &bytes, out),
            Command::Help => say!(out, "help\tok"),
            Command::Show(part) => self.show(part, out),
            Command::ShowRows => self.show_rows(out),
            Command::ShowState => self.show_state(out),
            Command::ShowUnit { unit } => self.show_unit(unit, out),
        }
    }

    fn change_card(&mut self, card: Card, out: &mut Vec<u8>) {
        self.shelf.card = card;
        say!(out, "card\tok");
    }

    fn part(&mut self, part: Part) -> &mut Vec<u8> {
        match part {
            Part::Memory => &mut self.memory,
            Part::Store => &mut self.store,
        }
    }

    fn lend(&mut self, part: Part, length: usize, byte: u8, out: &mut Vec<u8>) {
        let lent = self.part(part);
        lent.clear();
        lent.resize(length, byte);
        say!(out, "lend\tok");
    }

    fn lend_rows(&mut self, count: usize, value: u32, out: &mut Vec<u8>) {
        self.rows.clear();
        self.rows.resize(count, Counters::all(value));
        say!(out, "lend\tok");
    }

    fn load(&mut self, text: &[u8], out: &mut Vec<u8>) {
        let (shelf, outcome) = load(self.shelf.card, text, &mut self.memory, self.store.len(), &mut self.rows);
        self.shelf = shelf;
        match outcome {
            Ok(used) => say!(out, "load\tok\t{used}"),
            Err(refusal) => say!(out, "load\trefused\t{}\t{}", refusal.number(), refusal.line),
        }
    }

    fn arrive(&mut self, unit: u32, cell: &[u8], out: &mut Vec<u8>) {
        let fate = self.shelf.arrive(unit, cell, &self.memory, &mut self.store, &mut self.rows);
        match fate {
            Ok(fate) => say!(out, "arrive\t{unit}\t{}", fate.word()),
            Err(refused) => say_refused("arrive", refused, out),
        }
    }

    fn hear(&mut self, unit: u32, frame: &[u8], out: &mut Vec<u8>) {
        let fate = self.shelf.hear(unit, frame, &mut self.store, &mut self.rows);
        match fate {
            Ok(fate) => say!(out, "hear\t{unit}\t{}", fate.word()),
            Err(refused) => say_refused("hear", refused, out),
        }
    }

    fn frame(&mut self, length: usize, out: &mut Vec<u8>) {
        let mut buffer = vec![BUFFER_BYTE; length];
        let sent = self.shelf.frame(&mut buffer, &mut self.store, &mut self.rows);
        match sent {
            Ok(sent) => {
                say!(out, "frame\t{}\t", sent.number);
                say_unit(sent.sender, out);
                say_unit(sent.granted, out);
                say!(out, "{}", sent.copies);
            }
            Err(refused) => say_refused("frame", refused, out),
        }
        say_buffer(&buffer, out);
    }

    fn take(&mut self, unit: u32, length: usize, out: &mut Vec<u8>) {
        let mut buffer = vec![BUFFER_BYTE; length];
        match self.shelf.take(unit, &mut buffer, &self.store, &mut self.rows) {
            Ok(Taking::Taken) => say!(out, "take\t{unit}\tcell"),
            Ok(Taking::Empty) => say!(out, "take\t{unit}\tempty"),
            Err(refused) => say_refused("take", refused, out),
        }
        say_buffer(&buffer, out);
    }

    fn hand(&mut self, unit: u32, cell: &[u8], out: &mut Vec<u8>) {
        match self.shelf.hand(unit, cell, &mut self.store, self.rows.len()) {
            Ok(()) => say!(out, "hand\t{unit}\tok"),
            Err(refused) => say_refused("hand", refused, out),
        }
    }

    fn collect(&mut self, unit: u32, length: usize, out: &mut Vec<u8>) {
        let mut buffer = vec![BUFFER_BYTE; length];
        match self.shelf.collect(unit, &mut buffer, &self.store, &mut self.rows) {
            Ok(Taking::Taken) => say!(out, "collect\t{unit}\tcell"),
            Ok(Taking::Empty) => say!(out, "collect\t{unit}\tempty"),
            Err(refused) => say_refused("collect", refused, out),
        }
        say_buffer(&buffer, out);
    }

    fn count(&mut self, unit: u32, out: &mut Vec<u8>) {
        match self.shelf.count(unit, self.store.len(), &self.rows) {
            Ok(row) => {
                say!(out, "count\t{unit}");
                say_numbers(row.list(), out);
            }
            Err(refused) => say_refused("count", refused, out),
        }
    }

    fn poke(&mut self, poked: Poked, at: usize, bytes: &[u8], out: &mut Vec<u8>) {
        let end = at.saturating_add(bytes.len());
        let all = match poked {
            Poked::Part(part) => &mut self.part(part)[..],
            Poked::State => self.shelf.state.bytes_mut(),
        };
        match all.get_mut(at..end) {
            Some(place) => {
                place.copy_from_slice(bytes);
                say!(out, "poke\tok");
            }
            None => say!(out, "bad"),
        }
    }

    fn show(&mut self, part: Part, out: &mut Vec<u8>) {
        let bytes = self.part(part);
        say!(out, "show\t{}\t{}\t{:08X}", part.word(), bytes.len(), sum(bytes));
    }

    fn show_rows(&self, out: &mut Vec<u8>) {
        say!(out, "show\trows\t{}", self.rows.len());
        self.rows.iter().for_each(|row| say_numbers(row.list(), out));
    }

    fn show_state(&self, out: &mut Vec<u8>) {
        say!(out, "show\tstate\t");
        push_hex(out, self.shelf.state.bytes());
    }

    fn show_unit(&self, unit: u32, out: &mut Vec<u8>) {
        match unit::find(&self.shelf.state, unit) {
            Some(place) => {
                say!(out, "show\tunit\t");
                unit::write(&self.shelf.state, place, out).expect("memory takes all");
            }
            None => say_refused("show\tunit", Refused::Unit, out),
        }
    }
}

fn say_refused(word: &str, refused: Refused, out: &mut Vec<u8>) {
    say!(out, "{word}\trefused\t{}", refused.number());
}

/// A unit's number or `-`, with the tab after it.
fn say_unit(unit: Option<u8>, out: &mut Vec<u8>) {
    match unit {
        Some(unit) => say!(out, "{unit}\t"),
        None => say!(out, "-\t"),
    }
}

fn say_buffer(buffer: &[u8], out: &mut Vec<u8>) {
    out.push(b'\t');
    push_hex(out, buffer);
}

fn say_numbers<N: std::fmt::Display>(numbers: impl IntoIterator<Item = N>, out: &mut Vec<u8>) {
    for number in numbers {
        say!(out, "\t{number}");
    }
}

/// The FNV-1a sum of 32 bits.
fn sum(bytes: &[u8]) -> u32 {
    bytes.iter().fold(0x811C_9DC5, |sum: u32, byte| (sum ^ u32::from(*byte)).wrapping_mul(0x0100_0193))
}
