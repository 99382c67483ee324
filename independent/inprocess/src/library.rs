//! The library's functions as include/plevandor.h has them, on memory that is lent to them.

use crate::header;
use crate::lent::Lent;
use independent::Card;

/// Counters in a row.
pub const COUNTERS: usize = header::COUNTERS as usize;

pub type Row = [u32; COUNTERS];

type Bytes = *const u8;
type BytesMut = *mut u8;

#[rustfmt::skip]
extern "C" {
    fn plevandor_load(
        card: u8, text: Bytes, text_len: usize, memory: BytesMut, memory_len: usize, state: BytesMut, store: Bytes,
        store_len: usize, rows: *mut Row, rows_len: usize) -> u64;
    fn plevandor_arrive(
        card: u8, state: BytesMut, memory: Bytes, memory_len: usize, store: BytesMut, store_len: usize,
        rows: *mut Row, rows_len: usize, unit: u8, cell: Bytes, cell_len: usize) -> u64;
    fn plevandor_frame(
        card: u8, state: BytesMut, store: BytesMut, store_len: usize, rows: *mut Row, rows_len: usize,
        buffer: BytesMut, buffer_len: usize) -> u64;
    fn plevandor_hear(
        card: u8, state: BytesMut, store: BytesMut, store_len: usize, rows: *mut Row, rows_len: usize, unit: u8,
        frame: Bytes, frame_len: usize) -> u64;
    fn plevandor_take(
        card: u8, state: BytesMut, store: Bytes, store_len: usize, rows: *mut Row, rows_len: usize, unit: u8,
        buffer: BytesMut, buffer_len: usize) -> u64;
    fn plevandor_hand(
        card: u8, state: BytesMut, store: BytesMut, store_len: usize, rows: *const Row, rows_len: usize, unit: u8,
        cell: Bytes, cell_len: usize) -> u64;
    fn plevandor_collect(
        card: u8, state: BytesMut, store: Bytes, store_len: usize, rows: *mut Row, rows_len: usize, unit: u8,
        buffer: BytesMut, buffer_len: usize) -> u64;
    fn plevandor_count(
        card: u8, state: Bytes, store: Bytes, store_len: usize, rows: *const Row, rows_len: usize, unit: u8) -> u64;
}

/// All that is lent to the library.
pub struct Library {
    card: u8,
    pub state: Lent<u8>,
    pub memory: Lent<u8>,
    pub store: Lent<u8>,
    pub rows: Lent<Row>,
    /// What a call reads: a text, a cell or a frame.
    pub input: Lent<u8>,
    /// What a call may fill.
    pub buffer: Lent<u8>,
    /// Counts on with each card that is chosen, so that the narrow one is given by every number that means it.
    chosen: u64,
}

impl Library {
    pub fn new(chosen: u64) -> Library {
        let byte = || Lent::none(0xC7);
        let rows = Lent::none([0xC7C7_C7C7; COUNTERS]);
        let [state, memory, store, input, buffer] = [byte(), byte(), byte(), byte(), byte()];
        Library { card: header::WIDE as u8, state, memory, store, rows, input, buffer, chosen }
    }

    pub fn choose(&mut self, card: Card) {
        self.chosen += 1;
        self.card = match card {
            Card::Wide => header::WIDE as u8,
            // Any number but the wide card's.
            Card::Narrow => match (self.chosen % 255) as u8 {
                0 => header::NARROW as u8,
                number => number + 1,
            },
        };
    }

    /// The names of what has been written around.
    pub fn written_around(&self) -> impl Iterator<Item = &'static str> {
        let intact = [
            ("state", self.state.is_intact()),
            ("memory", self.memory.is_intact()),
            ("store", self.store.is_intact()),
            ("rows", self.rows.is_intact()),
            ("input", self.input.is_intact()),
            ("buffer", self.buffer.is_intact()),
        ];
        intact.into_iter().filter(|(_, intact)| !intact).map(|(name, _)| name)
    }

    // SAFETY, of all that follow: each pointer comes from a slice of the length beside it (a state has as many bytes as
    // the header says), and no two of them overlap.

    pub fn load(&mut self) -> u64 {
        let Library { card, state, memory, store, rows, input, .. } = self;
        let (text, memory, store, rows) =
            (input.elements(), memory.elements_mut(), store.elements(), rows.elements_mut());
        unsafe {
            plevandor_load(
                *card,
                text.as_ptr(),
                text.len(),
                memory.as_mut_ptr(),
                memory.len(),
                state.elements_mut().as_mut_ptr(),
                store.as_ptr(),
                store.len(),
                rows.as_mut_ptr(),
                rows.len(),
            )
        }
    }

    pub fn arrive(&mut self, unit: u8) -> u64 {
        let Library { card, state, memory, store, rows, input, .. } = self;
        let (memory, store, rows, cell) =
            (memory.elements(), store.elements_mut(), rows.elements_mut(), input.elements());
        unsafe {
            plevandor_arrive(
                *card,
                state.elements_mut().as_mut_ptr(),
                memory.as_ptr(),
                memory.len(),
                store.as_mut_ptr(),
                store.len(),
                rows.as_mut_ptr(),
                rows.len(),
                unit,
                cell.as_ptr(),
                cell.len(),
            )
        }
    }

    pub fn frame(&mut self) -> u64 {
        let Library { card, state, store, rows, buffer, .. } = self;
        let (store, rows, buffer) = (store.elements_mut(), rows.elements_mut(), buffer.elements_mut());
        unsafe {
            plevandor_frame(
                *card,
                state.elements_mut().as_mut_ptr(),
                store.as_mut_ptr(),
                store.len(),
                rows.as_mut_ptr(),
                rows.len(),
                buffer.as_mut_ptr(),
                buffer.len(),
            )
        }
    }

    pub fn hear(&mut self, unit: u8) -> u64 {
        let Library { card, state, store, rows, input, .. } = self;
        let (store, rows, frame) = (store.elements_mut(), rows.elements_mut(), input.elements());
        unsafe {
            plevandor_hear(
                *card,
                state.elements_mut().as_mut_ptr(),
                store.as_mut_ptr(),
                store.len(),
                rows.as_mut_ptr(),
                rows.len(),
                unit,
                frame.as_ptr(),
                frame.len(),
            )
        }
    }

    pub fn take(&mut self, unit: u8) -> u64 {
        self.leave(plevandor_take, unit)
    }

    pub fn collect(&mut self, unit: u8) -> u64 {
        self.leave(plevandor_collect, unit)
    }

    fn leave(&mut self, function: Leave, unit: u8) -> u64 {
        let Library { card, state, store, rows, buffer, .. } = self;
        let (store, rows, buffer) = (store.elements(), rows.elements_mut(), buffer.elements_mut());
        unsafe {
            function(
                *card,
                state.elements_mut().as_mut_ptr(),
                store.as_ptr(),
                store.len(),
                rows.as_mut_ptr(),
                rows.len(),
                unit,
                buffer.as_mut_ptr(),
                buffer.len(),
            )
        }
    }

    pub fn hand(&mut self, unit: u8) -> u64 {
        let Library { card, state, store, rows, input, .. } = self;
        let (store, rows, cell) = (store.elements_mut(), rows.elements(), input.elements());
        unsafe {
            plevandor_hand(
                *card,
                state.elements_mut().as_mut_ptr(),
                store.as_mut_ptr(),
                store.len(),
                rows.as_ptr(),
                rows.len(),
                unit,
                cell.as_ptr(),
                cell.len(),
            )
        }
    }

    pub fn count(&mut self, unit: u8) -> u64 {
        let Library { card, state, store, rows, .. } = self;
        let (store, rows) = (store.elements(), rows.elements());
        unsafe {
            plevandor_count(
                *card,
                state.elements().as_ptr(),
                store.as_ptr(),
                store.len(),
                rows.as_ptr(),
                rows.len(),
                unit,
            )
        }
    }
}

/// What take and collect have alike.
type Leave = unsafe extern "C" fn(u8, BytesMut, Bytes, usize, *mut Row, usize, u8, BytesMut, usize) -> u64;
