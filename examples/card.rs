//! The card's main loop of card.c behind a safe wrapper: document 01's table and events, and its listing. Then the
//! processor of unit 0 sends a control cell to that of unit 3, which is told on standard error.
//! rustc --edition 2021 -O -L native=OUT -l static=plevandor examples/card.rs, with OUT from bin/library OUT

use std::fmt::Write;

/// The library's functions and numbers, as include/plevandor.h has them.
mod raw {
    use super::Counters;

    pub const WIDE: u8 = 1;
    pub const STATE_BYTES: usize = 2_048;
    pub const STORE_BYTES: usize = 8_192;
    pub const LOADED: u8 = 0;
    pub const ARRIVED: u8 = 3;
    pub const FRAMED: u8 = 4;
    pub const TAKEN: u8 = 6;
    pub const EMPTY: u8 = 7;
    pub const HANDED: u8 = 8;
    pub const COUNTED: u8 = 9;
    pub const NOBODY: u8 = 255;

    type Bytes = *const u8;
    type Lent = *mut u8;

    #[rustfmt::skip]
    extern "C" {
        pub fn plevandor_load(
            card: u8, text: Bytes, text_len: usize, memory: Lent, memory_len: usize, state: Lent, store: Bytes,
            store_len: usize, rows: *mut Counters, rows_len: usize) -> u64;
        pub fn plevandor_arrive(
            card: u8, state: Lent, memory: Bytes, memory_len: usize, store: Lent, store_len: usize,
            rows: *mut Counters, rows_len: usize, unit: u8, cell: Bytes, cell_len: usize) -> u64;
        pub fn plevandor_frame(
            card: u8, state: Lent, store: Lent, store_len: usize, rows: *mut Counters, rows_len: usize, buffer: Lent,
            buffer_len: usize) -> u64;
        pub fn plevandor_take(
            card: u8, state: Lent, store: Bytes, store_len: usize, rows: *mut Counters, rows_len: usize, unit: u8,
            buffer: Lent, buffer_len: usize) -> u64;
        pub fn plevandor_hand(
            card: u8, state: Lent, store: Lent, store_len: usize, rows: *const Counters, rows_len: usize, unit: u8,
            cell: Bytes, cell_len: usize) -> u64;
        pub fn plevandor_collect(
            card: u8, state: Lent, store: Bytes, store_len: usize, rows: *mut Counters, rows_len: usize, unit: u8,
            buffer: Lent, buffer_len: usize) -> u64;
        pub fn plevandor_count(
            card: u8, state: Bytes, store: Bytes, store_len: usize, rows: *const Counters, rows_len: usize,
            unit: u8) -> u64;
    }
}

/// A unit's counters in 01's order.
#[repr(C)]
#[derive(Clone, Copy, Default)]
pub struct Counters(pub [u32; 13]);

/// Why a table or an event was refused: 01's number, and of a table the line.
#[derive(Debug)]
pub struct Refused {
    pub number: u8,
    pub line: u32,
}

#[derive(Clone, Copy)]
pub enum Arrival {
    Hec,
    Ignored,
    Misrouted,
    InletFull,
    Queued,
}

pub struct Framed {
    pub number: u16,
    pub sender: Option<u8>,
    pub granted: Option<u8>,
    pub copies: u8,
    /// What goes to the bus; none of an idle frame.
    pub bytes: Option<[u8; 57]>,
}

/// An answer of the library.
#[derive(Clone, Copy)]
struct Answer(u64);

impl Answer {
    fn byte(self, at: u32) -> u8 {
        (self.0 >> (8 * at)) as u8
    }

    fn high(self) -> u32 {
        (self.0 >> 32) as u32
    }

    fn is(self, kind: u8) -> Result<Answer, Refused> {
        match self.byte(0) == kind {
            true => Ok(self),
            false => Err(Refused { number: self.byte(1), line: self.high() }),
        }
    }

    fn unit(self, at: u32) -> Option<u8> {
        Some(self.byte(at)).filter(|unit| *unit != raw::NOBODY)
    }
}

/// A shelf on the wide card with all that it needs. It owns what the library asks to be apart, so no caller can lend
/// too little, twice, or to two calls at a time.
pub struct Shelf {
    state: [u8; raw::STATE_BYTES],
    memory: Vec<u8>,
    store: Vec<u8>,
    rows: Vec<Counters>,
}

impl Shelf {
    /// A shelf for so many units and bytes of records, and the bytes that this table uses.
    pub fn load(text: &[u8], units: usize, memory: usize) -> Result<(Shelf, u32), Refused> {
        let mut shelf = Shelf {
            state: [0; raw::STATE_BYTES],
            memory: vec![0; memory],
            store: vec![0; units * raw::STORE_BYTES],
            rows: vec![Counters::default(); units],
        };
        let Shelf { state, memory, store, rows } = &mut shelf;
        // SAFETY: here and below, each pointer comes from a slice of the length beside it, and no two of them overlap.
        let answer = Answer(unsafe {
            raw::plevandor_load(
                raw::WIDE,
                text.as_ptr(),
                text.len(),
                memory.as_mut_ptr(),
                memory.len(),
                state.as_mut_ptr(),
                store.as_ptr(),
                store.len(),
                rows.as_mut_ptr(),
                rows.len(),
            )
        });
        answer.is(raw::LOADED).map(|answer| (shelf, answer.high()))
    }

    pub fn arrive(&mut self, unit: u8, cell: &[u8; 53]) -> Result<Arrival, Refused> {
        let Shelf { state, memory, store, rows } = self;
        let answer = Answer(unsafe {
            raw::plevandor_arrive(
                raw::WIDE,
                state.as_mut_ptr(),
                memory.as_ptr(),
                memory.len(),
                store.as_mut_ptr(),
                store.len(),
                rows.as_mut_ptr(),
                rows.len(),
                unit,
                cell.as_ptr(),
                cell.len(),
            )
        });
        const FATES: [Arrival; 5] =
            [Arrival::Hec, Arrival::Ignored, Arrival::Misrouted, Arrival::InletFull, Arrival::Queued];
        answer.is(raw::ARRIVED).map(|answer| FATES[usize::from(answer.byte(1))])
    }

    pub fn frame(&mut self) -> Result<Framed, Refused> {
        let Shelf { state, store, rows, .. } = self;
        let mut bytes = [0; 57];
        let answer = Answer(unsafe {
            raw::plevandor_frame(
                raw::WIDE,
                state.as_mut_ptr(),
                store.as_mut_ptr(),
                store.len(),
                rows.as_mut_ptr(),
                rows.len(),
                bytes.as_mut_ptr(),
                bytes.len(),
            )
        });
        let answer = answer.is(raw::FRAMED)?;
        let (sender, granted, copies) = (answer.unit(2), answer.unit(3), answer.byte(1));
        Ok(Framed { number: answer.high() as u16, sender, granted, copies, bytes: sender.map(|_| bytes) })
    }

    /// The next cell that leaves the unit, if there is one.
    pub fn take(&mut self, unit: u8) -> Result<Option<[u8; 53]>, Refused> {
        self.leave(raw::plevandor_take, unit)
    }

    /// The next cell for the unit's processor, if there is one.
    pub fn collect(&mut self, unit: u8) -> Result<Option<[u8; 56]>, Refused> {
        self.leave(raw::plevandor_collect, unit)
    }

    fn leave<const N: usize>(&mut self, function: Leave, unit: u8) -> Result<Option<[u8; N]>, Refused> {
        let Shelf { state, store, rows, .. } = self;
        let mut cell = [0; N];
        let answer = Answer(unsafe {
            function(
                raw::WIDE,
                state.as_mut_ptr(),
                store.as_ptr(),
                store.len(),
                rows.as_mut_ptr(),
                rows.len(),
                unit,
                cell.as_mut_ptr(),
                cell.len(),
            )
        });
        match answer.byte(0) == raw::EMPTY {
            true => Ok(None),
            false => answer.is(raw::TAKEN).map(|_| Some(cell)),
        }
    }

    pub fn hand(&mut self, unit: u8, cell: &[u8; 56]) -> Result<(), Refused> {
        let Shelf { state, store, rows, .. } = self;
        let answer = Answer(unsafe {
            raw::plevandor_hand(
                raw::WIDE,
                state.as_mut_ptr(),
                store.as_mut_ptr(),
                store.len(),
                rows.as_ptr(),
                rows.len(),
                unit,
                cell.as_ptr(),
                cell.len(),
            )
        });
        answer.is(raw::HANDED).map(|_| ())
    }

    pub fn count(&self, unit: u8) -> Result<&Counters, Refused> {
        let Shelf { state, store, rows, .. } = self;
        let answer = Answer(unsafe {
            raw::plevandor_count(
                raw::WIDE,
                state.as_ptr(),
                store.as_ptr(),
                store.len(),
                rows.as_ptr(),
                rows.len(),
                unit,
            )
        });
        answer.is(raw::COUNTED).map(|answer| &rows[answer.high() as usize])
    }
}

/// What take and collect have alike.
type Leave = unsafe extern "C" fn(u8, *mut u8, *const u8, usize, *mut Counters, usize, u8, *mut u8, usize) -> u64;

const TABLE: &str = "bus\t16\nunit\t0\tuni\t5\t2\tone\t0\t0\t100\t0\nunit\t3\tuni\t0\t1\tfour\t40\t30\t20\t1\n\
    page\t0\t5\t33\nvc\t0\t5\t33\tu3\t2\t9\t40\n";

/// What the hardware reports to the loop.
enum Report {
    LineIn(u8, [u8; 5], u8),
    BusClock,
    LineOut(u8),
    CountersAsked(u8),
    ProcessorOut(u8, [u8; 8], u8),
    ProcessorIn(u8),
}

use Report::{BusClock, CountersAsked, LineIn, LineOut, ProcessorIn, ProcessorOut};

const LISTED: [Report; 7] = [
    LineIn(0, [0x00, 0x50, 0x02, 0x10, 0x2B], 0xA5),
    LineIn(0, [0x10, 0x50, 0x02, 0x10, 0x4F], 0xA5),
    BusClock,
    BusClock,
    LineOut(3),
    LineOut(3),
    CountersAsked(3),
];

/// Kind 3, class 0, unit 3 and their check; tandem and cell header are the processors' own.
const UPDATE: [u8; 8] = [0xC0, 0x3D, 0, 0, 0, 0, 0, 0];

const PROCESSORS: [Report; 6] =
    [ProcessorOut(0, UPDATE, 0x01), ProcessorOut(0, UPDATE, 0x02), BusClock, BusClock, ProcessorIn(3), ProcessorIn(3)];

/// A header, and one byte 48 times.
fn cell<const HEADER: usize, const ALL: usize>(header: &[u8; HEADER], payload: u8) -> [u8; ALL] {
    let mut cell = [payload; ALL];
    cell[..HEADER].copy_from_slice(header);
    cell
}

fn hex(bytes: &[u8]) -> String {
    bytes.iter().fold(String::new(), |mut text, byte| {
        write!(text, "{byte:02X}").expect("memory takes all");
        text
    })
}

fn unit_or_nobody(unit: Option<u8>) -> String {
    unit.map_or("-".to_string(), |unit| unit.to_string())
}

/// Serves one report; what is to be said of it.
fn serve(shelf: &mut Shelf, report: &Report) -> String {
    let (word, said) = match report {
        LineIn(unit, header, payload) => ("arrive", arrive(shelf, *unit, &cell(header, *payload))),
        BusClock => ("frame", shelf.frame().map(|framed| say_frame(&framed))),
        LineOut(unit) => {
            ("take", shelf.take(*unit).map(|cell| say_cell(*unit, cell.map(|cell| (hex(&cell[..5]), cell[5])))))
        }
        CountersAsked(unit) => ("count", shelf.count(*unit).map(|row| say_counters(*unit, row))),
        ProcessorOut(unit, header, payload) => {
            ("hand", shelf.hand(*unit, &cell(header, *payload)).map(|()| format!("{unit}\tok")))
        }
        ProcessorIn(unit) => {
            ("collect", shelf.collect(*unit).map(|cell| say_cell(*unit, cell.map(|cell| (hex(&cell[..2]), cell[8])))))
        }
    };
    said.map_or_else(|refused| format!("{word}\trefused\t{}", refused.number), |said| format!("{word}\t{said}"))
}

fn arrive(shelf: &mut Shelf, unit: u8, cell: &[u8; 53]) -> Result<String, Refused> {
    let fate = match shelf.arrive(unit, cell)? {
        Arrival::Hec => "hec",
        Arrival::Ignored => "ignored",
        Arrival::Misrouted => "misrouted",
        Arrival::InletFull => "inletfull",
        Arrival::Queued => "queued",
    };
    Ok(format!("{unit}\t{fate}"))
}

fn say_frame(framed: &Framed) -> String {
    let Framed { number, sender, granted, copies, .. } = framed;
    format!("{number}\t{}\t{}\t{copies}", unit_or_nobody(*sender), unit_or_nobody(*granted))
}

fn say_cell(unit: u8, cell: Option<(String, u8)>) -> String {
    match cell {
        Some((header, payload)) => format!("{unit}\t{header}\t{payload:02X}"),
        None => format!("{unit}\tempty"),
    }
}

fn say_counters(unit: u8, row: &Counters) -> String {
    row.0.iter().fold(unit.to_string(), |text, counter| format!("{text}\t{counter}"))
}

fn main() {
    let (mut shelf, used) = match Shelf::load(TABLE.as_bytes(), 4, 16_384) {
        Ok(loaded) => loaded,
        Err(Refused { number, line }) => {
            println!("table\trefused\t{number}\t{line}");
            std::process::exit(1);
        }
    };
    println!("table\tok\t{used}");
    LISTED.iter().for_each(|report| println!("{}", serve(&mut shelf, report)));
    PROCESSORS.iter().for_each(|report| eprintln!("{}", serve(&mut shelf, report)));
}
