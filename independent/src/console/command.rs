//! What a line of the console asks, or that it is no command.

use crate::text::{hex_bytes, number, unit_number};
use crate::Card;

/// Most bytes of memory or store that are lent.
const LENT_MAX: u64 = 300_000;
/// Most counter rows that are lent.
const ROWS_MAX: u64 = 40;
/// Most bytes of a table, cell or frame.
const BYTES_MAX: usize = 70_000;
/// Longest buffer of a frame, a take or a collect.
const BUFFER_MAX: u64 = 1_000;

/// What is lent byte by byte, in a length of one's choice.
#[derive(Clone, Copy)]
pub enum Part {
    Memory,
    Store,
}

impl Part {
    pub fn word(self) -> &'static str {
        match self {
            Part::Memory => "memory",
            Part::Store => "store",
        }
    }
}

/// What bytes are poked into.
#[derive(Clone, Copy)]
pub enum Poked {
    Part(Part),
    State,
}

pub enum Command {
    Card(Card),
    Lend { part: Part, length: usize, byte: u8 },
    LendRows { count: usize, value: u32 },
    Load(Vec<u8>),
    Arrive { unit: u32, cell: Vec<u8> },
    Hear { unit: u32, frame: Vec<u8> },
    Frame { length: usize },
    Take { unit: u32, length: usize },
    Hand { unit: u32, cell: Vec<u8> },
    Collect { unit: u32, length: usize },
    Count { unit: u32 },
    Poke { poked: Poked, at: usize, bytes: Vec<u8> },
    Help,
    Show(Part),
    ShowRows,
    ShowState,
    ShowUnit { unit: u32 },
}

/// Reads a line without its newline; None is answered `bad`.
pub fn parse(line: &[u8]) -> Option<Command> {
    let mut fields = [&[][..]; 5];
    let mut count = 0;
    for field in line.split(|byte| *byte == b'\t') {
        *fields.get_mut(count)? = field;
        count += 1;
    }
    match fields[..count] {
        [b"card", card] => parse_card(card),
        [b"lend", b"rows", count, value] => {
            Some(Command::LendRows { count: up_to(count, ROWS_MAX)? as usize, value: number(value)?.try_into().ok()? })
        }
        [b"lend", part, length, byte] => {
            let (part, length) = (parse_part(part)?, up_to(length, LENT_MAX)? as usize);
            Some(Command::Lend { part, length, byte: one_byte(byte)? })
        }
        [b"load", text] => Some(Command::Load(some_bytes(text)?)),
        [b"arrive", unit, cell] => Some(Command::Arrive { unit: unit_number(unit)?, cell: some_bytes(cell)? }),
        [b"hear", unit, frame] => Some(Command::Hear { unit: unit_number(unit)?, frame: some_bytes(frame)? }),
        [b"frame", length] => Some(Command::Frame { length: up_to(length, BUFFER_MAX)? as usize }),
        [b"take", unit, length] => {
            Some(Command::Take { unit: unit_number(unit)?, length: up_to(length, BUFFER_MAX)? as usize })
        }
        [b"hand", unit, cell] => Some(Command::Hand { unit: unit_number(unit)?, cell: some_bytes(cell)? }),
        [b"collect", unit, length] => {
            Some(Command::Collect { unit: unit_number(unit)?, length: up_to(length, BUFFER_MAX)? as usize })
        }
        [b"count", unit] => Some(Command::Count { unit: unit_number(unit)? }),
        [b"poke", poked, at, bytes] => {
            let (poked, at) = (parse_poked(poked)?, number(at)?.try_into().ok()?);
            Some(Command::Poke { poked, at, bytes: hex_bytes(bytes)? })
        }
        [b"help"] => Some(Command::Help),
        [b"show", b"rows"] => Some(Command::ShowRows),
        [b"show", b"state"] => Some(Command::ShowState),
        [b"show", b"unit", unit] => Some(Command::ShowUnit { unit: unit_number(unit)? }),
        [b"show", part] => Some(Command::Show(parse_part(part)?)),
        _ => None,
    }
}

fn parse_card(card: &[u8]) -> Option<Command> {
    match card {
        b"narrow" => Some(Command::Card(Card::Narrow)),
        b"wide" => Some(Command::Card(Card::Wide)),
        _ => None,
    }
}

fn parse_part(part: &[u8]) -> Option<Part> {
    match part {
        b"memory" => Some(Part::Memory),
        b"store" => Some(Part::Store),
        _ => None,
    }
}

fn parse_poked(poked: &[u8]) -> Option<Poked> {
    match poked {
        b"state" => Some(Poked::State),
        part => parse_part(part).map(Poked::Part),
    }
}

fn up_to(field: &[u8], highest: u64) -> Option<u64> {
    number(field).filter(|value| *value <= highest)
}

fn one_byte(field: &[u8]) -> Option<u8> {
    match hex_bytes(field)?[..] {
        [byte] => Some(byte),
        _ => None,
    }
}

fn some_bytes(field: &[u8]) -> Option<Vec<u8>> {
    hex_bytes(field).filter(|bytes| bytes.len() <= BYTES_MAX)
}
