//! Looking up an arriving cell in the lent memory, which anybody may have spoiled.

use crate::codec::Header;
use crate::{Card, RECORD_BYTES};

/// What the memory says of a cell.
#[derive(Clone, Copy, Debug, PartialEq, Eq)]
pub enum Answer {
    Ignored,
    Misrouted,
    /// The routing header as it stands in the memory, and the new VPI and VCI.
    Route {
        routing: u16,
        vpi: u16,
        vci: u16,
    },
}

// Kinds of record; 0 is an empty one.
pub const DROP: u8 = 1;
pub const ROUTE: u8 = 2;
pub const PAGE: u8 = 3;

type Record = [u8; RECORD_BYTES];

/// Looks a header up for a unit whose VPI records begin at `place`.
pub fn lookup(card: Card, memory: &[u8], place: u32, top_vpi: u16, header: Header) -> Answer {
    if header.vpi > top_vpi {
        return Answer::Misrouted;
    }
    let Some(record) = record_at(memory, place, header.vpi) else {
        return Answer::Misrouted;
    };
    match record[0] {
        DROP => Answer::Ignored,
        ROUTE => route(card, &record, header.vci),
        PAGE => in_page(card, memory, &record, header.vci),
        _ => Answer::Misrouted,
    }
}

/// The record of number `index` of those beginning at `place`, if wholly inside.
fn record_at(memory: &[u8], place: u32, index: u16) -> Option<Record> {
    let start = u64::from(place) + u64::from(index) * RECORD_BYTES as u64;
    let start = usize::try_from(start).ok()?;
    let bytes = memory.get(start..start.checked_add(RECORD_BYTES)?)?;
    bytes.try_into().ok()
}

/// Follows a page to the VCI's record, which must be a route.
fn in_page(card: Card, memory: &[u8], page: &Record, vci: u16) -> Answer {
    let top_vci = two(page, 1);
    let place = u32::from_be_bytes([page[4], page[5], page[6], page[7]]);
    if vci > top_vci {
        return Answer::Misrouted;
    }
    match record_at(memory, place, vci) {
        Some(record) if record[0] == ROUTE => route(card, &record, two(&record, 4)),
        _ => Answer::Misrouted,
    }
}

/// The answer of a route record for the VCI the cell shall carry.
fn route(card: Card, record: &Record, vci: u16) -> Answer {
    let vpi = match card {
        Card::Narrow => u16::from(record[3]),
        Card::Wide => two(record, 6),
    };
    if vpi > 4_095 {
        return Answer::Misrouted;
    }
    let routing = two(record, 1);
    Answer::Route { routing, vpi, vci }
}

fn two(record: &Record, at: usize) -> u16 {
    u16::from_be_bytes([record[at], record[at + 1]])
}
