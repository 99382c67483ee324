//! Scripts of console lines, and the cells and frames in them.

use crate::codec::{header_check, parity, Header, Link, Routing, Target};
use crate::text::{hex_bytes, number, push_hex};
use crate::{CELL_BYTES, CONTROL_BYTES, FRAME_BYTES};

/// A line without its newline.
pub type Line = Vec<u8>;

/// Lines that set their own stage: each lends and loads all that it needs.
#[derive(Clone, Debug, Default, PartialEq, Eq)]
pub struct Script {
    pub lines: Vec<Line>,
}

impl Script {
    /// Adds a line with blanks for tabs.
    pub fn say(&mut self, line: &str) {
        self.lines.push(line.replace(' ', "\t").into_bytes());
    }

    /// Adds a line of words, blanks for tabs, and bytes in hex.
    pub fn say_bytes(&mut self, words: &str, bytes: &[u8]) {
        let mut line = words.replace(' ', "\t").into_bytes();
        line.push(b'\t');
        push_hex(&mut line, bytes);
        self.lines.push(line);
    }

    /// Lends all three with these lengths.
    pub fn lend(&mut self, memory: usize, store: usize, rows: usize) {
        self.say(&format!("lend memory {memory} EE"));
        self.say(&format!("lend store {store} DD"));
        self.say(&format!("lend rows {rows} 7"));
    }

    pub fn load(&mut self, text: &[u8]) {
        self.say_bytes("load", text);
    }

    pub fn arrive(&mut self, unit: u64, cell: &[u8]) {
        self.say_bytes(&format!("arrive {unit}"), cell);
    }

    pub fn hear(&mut self, unit: u64, frame: &[u8]) {
        self.say_bytes(&format!("hear {unit}"), frame);
    }

    pub fn hand(&mut self, unit: u64, cell: &[u8]) {
        self.say_bytes(&format!("hand {unit}"), cell);
    }

    pub fn collect(&mut self, unit: u64) {
        self.say(&format!("collect {unit} 56"));
    }

    /// Writes bytes of the state.
    pub fn poke(&mut self, at: usize, bytes: &[u8]) {
        self.say_bytes(&format!("poke state {at}"), bytes);
    }

    pub fn frames(&mut self, count: usize) {
        (0..count).for_each(|_| self.say("frame 57"));
    }

    pub fn show_all(&mut self) {
        ["memory", "store", "rows", "state"].iter().for_each(|part| self.say(&format!("show {part}")));
    }
}

/// The table in a `load` line.
pub fn table_of(line: &[u8]) -> Option<Vec<u8>> {
    line.strip_prefix(b"load\t").and_then(hex_bytes)
}

/// Where a `poke` of the state writes, and what.
pub fn poke_of(line: &[u8]) -> Option<(usize, Vec<u8>)> {
    let mut fields = line.strip_prefix(b"poke\tstate\t")?.split(|byte| *byte == b'\t');
    let (at, bytes) = (number(fields.next()?)?, hex_bytes(fields.next()?)?);
    fields.next().is_none().then_some((at.try_into().ok()?, bytes))
}

/// Bytes that differ in two answers to `show state`, each with its place; none in other answers.
pub fn differing_bytes(first: &[u8], second: &[u8]) -> Vec<(usize, [u8; 2])> {
    let shown = |answer: &[u8]| answer.strip_prefix(b"show\tstate\t").and_then(hex_bytes).unwrap_or_default();
    let pairs = shown(first).into_iter().zip(shown(second)).enumerate();
    pairs.filter(|(_, (first, second))| first != second).map(|(at, (first, second))| (at, [first, second])).collect()
}

/// A `load` line of a table.
pub fn load_line(text: &[u8]) -> Line {
    let mut script = Script::default();
    script.load(text);
    script.lines.remove(0)
}

/// A line cell with a right check.
pub fn cell(header: [u8; 4], payload: &[u8; 48]) -> [u8; CELL_BYTES] {
    let mut cell = [0; CELL_BYTES];
    cell[..4].copy_from_slice(&header);
    cell[4] = header_check(header);
    cell[5..].copy_from_slice(payload);
    cell
}

/// A bus frame with right parity.
pub fn frame(routing: u16, tandem: [u8; 2], header: Header, payload: &[u8; 48]) -> [u8; FRAME_BYTES] {
    let mut frame = [0; FRAME_BYTES];
    frame[..2].copy_from_slice(&routing.to_be_bytes());
    frame[2..4].copy_from_slice(&tandem);
    frame[4..8].copy_from_slice(&header.write(Link::Nni));
    frame[8..56].copy_from_slice(payload);
    frame[56] = parity(&frame[..56]);
    frame
}

/// A processor's cell of these tandem bytes, told apart by its payload; its header is of no account.
pub fn processor_cell(routing: u16, tandem: [u8; 2], payload: u8) -> [u8; CONTROL_BYTES] {
    let mut cell = [payload; CONTROL_BYTES];
    cell[..2].copy_from_slice(&routing.to_be_bytes());
    cell[2..4].copy_from_slice(&tandem);
    cell
}

/// The frame that such a cell is sent in.
pub fn framed(cell: &[u8; CONTROL_BYTES]) -> [u8; FRAME_BYTES] {
    let mut frame = [parity(cell); FRAME_BYTES];
    frame[..CONTROL_BYTES].copy_from_slice(cell);
    frame
}

pub fn to_unit(unit: u8, class: u8) -> u16 {
    Routing { target: Target::Unit(unit), class }.encode()
}
