//! Independent reference program for the cell-bus shelf of document 01.
//!
//! Translation memory, cell store, counter rows and buffers are lent by the
//! caller. The memory is written and read byte for byte as document 01 says,
//! the store as docs/CONSOLE.md says, the state as docs/STATE.md says; every
//! byte of all three may have been spoiled.

pub mod arbiter;
pub mod bench;
pub mod codec;
pub mod compare;
pub mod console;
pub mod counters;
pub mod load;
pub mod lookup;
pub mod outlet;
pub mod pace;
pub mod refusal;
pub mod ring;
pub mod shelf;
pub mod sound;
pub mod state;
pub mod table;
pub mod text;
pub mod unit;

pub use counters::Counters;
pub use load::load;
pub use refusal::{Refusal, Refused};
pub use shelf::{Arrival, Hearing, SentFrame, Shelf, Taking};
pub use state::State;

/// The two cards differ only in how wide a stored outgoing VPI is.
#[derive(Clone, Copy, Debug, PartialEq, Eq)]
pub enum Card {
    /// Outgoing VPI in one byte.
    Narrow,
    /// Outgoing VPI in two bytes.
    Wide,
}

/// Longest route table text that is read.
pub const TEXT_MAX: usize = 65_536;
/// The part of the lent memory that loading governs.
pub const MEMORY_MAX: usize = 262_144;
/// Bytes of one record of the translation memory.
pub const RECORD_BYTES: usize = 8;
/// Bytes of cell store asked for each declared unit.
pub const STORE_PER_UNIT: usize = 8_192;
/// Bytes of a line cell: header 4, check 1, payload 48.
pub const CELL_BYTES: usize = 53;
/// Bytes of a bus frame: routing 2, tandem 2, header 4, payload 48, parity 1.
pub const FRAME_BYTES: usize = 57;
/// Cells an inlet holds.
pub const INLET_CELLS: u8 = 4;
/// Bytes that a processor hands in or collects: a bus frame before its parity.
pub const CONTROL_BYTES: usize = 56;
/// Cells a control outlet holds.
pub const CONTROL_CELLS: u8 = 4;
/// Most units on a bus.
pub const UNITS_MAX: usize = 32;
