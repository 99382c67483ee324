//! The 2,048 bytes of docs/STATE.md: all that a shelf keeps of itself.
//!
//! They stand as 64 columns of 32 bytes, so that the byte of place p in column c, byte 32 c + p, is `columns[c][p]`.
//! They are judged, read and written as the bytes they are: anybody may have spoiled them.

use crate::codec::Link;
use crate::outlet::{Mode, Settings};
use crate::ring::Ring;
use crate::table::UnitLine;
use crate::UNITS_MAX;

const COLUMNS: usize = 64;
/// Bytes of a state.
pub const STATE_BYTES: usize = COLUMNS * UNITS_MAX;

/// Stands where no unit was granted.
pub const NOBODY: u8 = 255;

// Columns with a byte for each place.
pub const NUMBER: usize = 0;
pub const LINK: usize = 1;
pub const TOP_HIGH: usize = 2;
pub const TOP_LOW: usize = 3;
pub const PRIORITY: usize = 4;
pub const MODE: usize = 5;
pub const CBR_LENGTH: usize = 6;
pub const CBR_LIMIT: usize = 7;
pub const VBR_LIMIT: usize = 8;
pub const MARK: usize = 9;
/// The first of four, the highest byte: where in the memory the unit's VPI records start.
pub const RECORDS: usize = 10;
pub const INLET_HEAD: usize = 14;
pub const INLET_COUNT: usize = 15;
/// The first of four, one for each queue.
pub const QUEUE_HEAD: usize = 16;
/// The first of four, one for each queue.
pub const QUEUE_COUNT: usize = 20;

/// What each unit asks at, by its number.
pub const ASKS: usize = 24;

/// The bytes of the shelf itself, each at its own index; the others are free.
pub const SHELF: usize = 25;
/// The first of three, the last unit granted at each priority.
pub const LAST: usize = 0;
pub const GRANTED: usize = 3;
pub const BUS: usize = 4;
pub const COUNT: usize = 5;
/// The first of two, the high byte.
pub const FRAME: usize = 6;

// Columns again: control and loopback cells, of which each place but the control outlet has none or one.
pub const CONTROL_IN: usize = 26;
pub const LOOPBACK_IN: usize = 27;
pub const CONTROL_HEAD: usize = 28;
pub const CONTROL_COUNT: usize = 29;
/// The last; the column behind it is free.
pub const LOOPBACK_OUT: usize = 30;

/// The sessions of place 0; each place has a column.
pub const SESSIONS: usize = 32;

/// All bytes of a state.
#[derive(Clone, Copy, Debug, PartialEq, Eq)]
pub struct State {
    pub columns: [[u8; UNITS_MAX]; COLUMNS],
}

impl State {
    /// A 16 bus without units.
    pub fn fresh() -> State {
        let mut columns = [[0; UNITS_MAX]; COLUMNS];
        columns[SHELF][LAST..=GRANTED].fill(NOBODY);
        columns[SHELF][BUS] = 16;
        State { columns }
    }

    pub fn bytes(&self) -> &[u8] {
        self.columns.as_flattened()
    }

    pub fn bytes_mut(&mut self) -> &mut [u8] {
        self.columns.as_flattened_mut()
    }

    pub fn bus(&self) -> u8 {
        self.columns[SHELF][BUS]
    }

    /// How many units are declared.
    pub fn count(&self) -> u8 {
        self.columns[SHELF][COUNT]
    }

    /// Number of the next frame.
    pub fn frame(&self) -> u16 {
        u16::from_be_bytes([self.columns[SHELF][FRAME], self.columns[SHELF][FRAME + 1]])
    }

    pub fn set_frame(&mut self, number: u16) {
        self.columns[SHELF][FRAME..FRAME + 2].copy_from_slice(&number.to_be_bytes());
    }

    /// The open grant.
    pub fn granted(&self) -> u8 {
        self.columns[SHELF][GRANTED]
    }

    /// Numbers of the declared units in their places; the count must be sound.
    pub fn numbers(&self) -> &[u8] {
        &self.columns[NUMBER][..usize::from(self.count())]
    }

    /// The place of a declared unit; the count must be sound.
    pub fn place_of(&self, unit: u32) -> Option<usize> {
        self.numbers().iter().position(|number| u32::from(*number) == unit)
    }

    pub fn link(&self, place: usize) -> Link {
        match self.columns[LINK][place] {
            0 => Link::Uni,
            _ => Link::Nni,
        }
    }

    pub fn top(&self, place: usize) -> u16 {
        u16::from_be_bytes([self.columns[TOP_HIGH][place], self.columns[TOP_LOW][place]])
    }

    /// Where in the memory the unit's VPI records start.
    pub fn records(&self, place: usize) -> u32 {
        u32::from_be_bytes([0, 1, 2, 3].map(|byte| self.columns[RECORDS + byte][place]))
    }

    pub fn settings(&self, place: usize) -> Settings {
        Settings {
            mode: if self.columns[MODE][place] == 0 { Mode::One } else { Mode::Four },
            cbr_length: self.columns[CBR_LENGTH][place],
            cbr_limit: self.columns[CBR_LIMIT][place],
            vbr_limit: self.columns[VBR_LIMIT][place],
        }
    }

    pub fn inlet(&self, place: usize) -> Ring {
        Ring { head: self.columns[INLET_HEAD][place], count: self.columns[INLET_COUNT][place] }
    }

    pub fn set_inlet(&mut self, place: usize, ring: Ring) {
        self.columns[INLET_HEAD][place] = ring.head;
        self.columns[INLET_COUNT][place] = ring.count;
    }

    /// By place: the cells waiting in the inlet, data, control and loopback together. All places at once, as the
    /// compiler then adds sixteen of them at once; nothing wraps where each count is sound.
    pub fn waiting(&self) -> [u8; UNITS_MAX] {
        let mut waiting = self.columns[INLET_COUNT];
        for (place, waiting) in waiting.iter_mut().enumerate() {
            let single = self.columns[CONTROL_IN][place].wrapping_add(self.columns[LOOPBACK_IN][place]);
            *waiting = waiting.wrapping_add(single);
        }
        waiting
    }

    /// Whether any loopback cell may wait in an outlet: cheap to ask, though of all places, declared or not.
    pub fn any_loopback_out(&self) -> bool {
        self.columns[LOOPBACK_OUT] != [0; UNITS_MAX]
    }

    pub fn control_outlet(&self, place: usize) -> Ring {
        Ring { head: self.columns[CONTROL_HEAD][place], count: self.columns[CONTROL_COUNT][place] }
    }

    pub fn set_control_outlet(&mut self, place: usize, ring: Ring) {
        self.columns[CONTROL_HEAD][place] = ring.head;
        self.columns[CONTROL_COUNT][place] = ring.count;
    }

    pub fn queue(&self, place: usize, queue: usize) -> Ring {
        Ring { head: self.columns[QUEUE_HEAD + queue][place], count: self.columns[QUEUE_COUNT + queue][place] }
    }

    pub fn set_queue(&mut self, place: usize, queue: usize, ring: Ring) {
        self.columns[QUEUE_HEAD + queue][place] = ring.head;
        self.columns[QUEUE_COUNT + queue][place] = ring.count;
    }

    pub fn hears_session(&self, place: usize, session: u8) -> bool {
        self.columns[SESSIONS + place][usize::from(session / 8)] >> (session % 8) & 1 == 1
    }

    pub fn set_session(&mut self, place: usize, session: u8) {
        self.columns[SESSIONS + place][usize::from(session / 8)] |= 1 << (session % 8);
    }

    /// Declares one more unit, with empty queues and no session; there must be a place left.
    pub fn add_unit(&mut self, line: UnitLine, records: u32) {
        let place = usize::from(self.count());
        let [top_high, top_low] = line.top_vpi.to_be_bytes();
        let settings = line.settings;
        let bytes = [
            (NUMBER, line.unit),
            (LINK, line.link as u8),
            (TOP_HIGH, top_high),
            (TOP_LOW, top_low),
            (PRIORITY, line.priority),
            (MODE, settings.mode as u8),
            (CBR_LENGTH, settings.cbr_length),
            (CBR_LIMIT, settings.cbr_limit),
            (VBR_LIMIT, settings.vbr_limit),
            (MARK, line.mark.into()),
        ];
        bytes.into_iter().for_each(|(column, byte)| self.columns[column][place] = byte);
        for (index, byte) in records.to_be_bytes().into_iter().enumerate() {
            self.columns[RECORDS + index][place] = byte;
        }
        self.columns[SHELF][COUNT] += 1;
    }
}
