//! The shelf and its events: arrive, frame, hear, take, hand, collect and count.

use crate::codec::{parity, Heard};
use crate::counters::bump;
use crate::state::State;
use crate::unit::Unit;
use crate::{Card, Counters, Refused, CELL_BYTES, CONTROL_BYTES, FRAME_BYTES, STORE_PER_UNIT};

/// The fates of an arriving cell.
#[derive(Clone, Copy, Debug, PartialEq, Eq)]
pub enum Arrival {
    Hec,
    Ignored,
    Misrouted,
    InletFull,
    Queued,
}

impl Arrival {
    /// Document 01's word.
    pub fn word(self) -> &'static str {
        match self {
            Arrival::Hec => "hec",
            Arrival::Ignored => "ignored",
            Arrival::Misrouted => "misrouted",
            Arrival::InletFull => "inletfull",
            Arrival::Queued => "queued",
        }
    }
}

/// The fates of a heard frame at one unit.
#[derive(Clone, Copy, Debug, PartialEq, Eq)]
pub enum Hearing {
    Damaged,
    Other,
    Wide,
    Full,
    Clp,
    Queued,
}

impl Hearing {
    /// Document 01's word.
    pub fn word(self) -> &'static str {
        match self {
            Hearing::Damaged => "damaged",
            Hearing::Other => "other",
            Hearing::Wide => "wide",
            Hearing::Full => "full",
            Hearing::Clp => "clp",
            Hearing::Queued => "queued",
        }
    }
}

/// What a frame did; a frame without sender is idle.
#[derive(Clone, Copy, Debug, PartialEq, Eq)]
pub struct SentFrame {
    pub number: u16,
    pub sender: Option<u8>,
    pub granted: Option<u8>,
    /// Copies of the sent cell that were queued.
    pub copies: usize,
}

/// What a take or a collect gave.
#[derive(Clone, Copy, Debug, PartialEq, Eq)]
pub enum Taking {
    Taken,
    Empty,
}

/// Up to 32 units on one bus.
#[derive(Clone, Copy, Debug, PartialEq, Eq)]
pub struct Shelf {
    pub card: Card,
    /// Open, so that it can be spoiled.
    pub state: State,
}

impl Shelf {
    /// A 16 bus without units.
    pub fn fresh(card: Card) -> Self {
        Shelf { card, state: State::fresh() }
    }

    /// A cell arrives at a unit's line.
    pub fn arrive(
        &mut self,
        unit: u32,
        cell: &[u8],
        memory: &[u8],
        store: &mut [u8],
        rows: &mut [Counters],
    ) -> Result<Arrival, Refused> {
        let place = self.judge(unit, store.len(), rows.len())?;
        let cell: &[u8; CELL_BYTES] = cell.try_into().map_err(|_| Refused::Length)?;
        let card = self.card;
        let fate = self.unit(place).arrive(card, cell, memory, part_mut(store, place));
        count_arrival(&mut rows[place], fate);
        Ok(fate)
    }

    /// The next frame on the bus: loopback cells move, then the requests, then the sending, then the grant.
    pub fn frame(&mut self, buffer: &mut [u8], store: &mut [u8], rows: &mut [Counters]) -> Result<SentFrame, Refused> {
        self.judge_state(store.len(), rows.len())?;
        let buffer: &mut [u8; FRAME_BYTES] = buffer.try_into().map_err(|_| Refused::Length)?;
        if self.state.any_loopback_out() {
            self.loop_back(store, rows);
        }
        let number = self.state.frame();
        self.state.set_frame(number.wrapping_add(1));
        self.state.renew(number);
        let (sender, copies) = self.send(buffer, store, rows);
        let granted = self.state.grant();
        Ok(SentFrame { number, sender, granted, copies })
    }

    /// A frame from outside is handed in by the unit named with it.
    pub fn hear(
        &mut self,
        unit: u32,
        frame: &[u8],
        store: &mut [u8],
        rows: &mut [Counters],
    ) -> Result<Hearing, Refused> {
        let place = self.judge(unit, store.len(), rows.len())?;
        let frame: &[u8; FRAME_BYTES] = frame.try_into().map_err(|_| Refused::Length)?;
        let (cell, heard) = Heard::read(frame);
        let fate = self.unit(place).hear(heard, cell, part_mut(store, place));
        count_hearing(&mut rows[place], fate);
        Ok(fate)
    }

    /// A cell leaves a unit's outlet into the buffer.
    pub fn take(
        &mut self,
        unit: u32,
        buffer: &mut [u8],
        store: &[u8],
        rows: &mut [Counters],
    ) -> Result<Taking, Refused> {
        let place = self.judge(unit, store.len(), rows.len())?;
        let buffer: &mut [u8; CELL_BYTES] = buffer.try_into().map_err(|_| Refused::Length)?;
        let Some(cell) = self.unit(place).take(part(store, place)) else {
            return Ok(Taking::Empty);
        };
        *buffer = cell;
        bump(&mut rows[place].taken);
        Ok(Taking::Taken)
    }

    /// A unit's processor hands in a cell, which counts nothing yet.
    pub fn hand(&mut self, unit: u32, cell: &[u8], store: &mut [u8], rows: usize) -> Result<(), Refused> {
        let place = self.judge(unit, store.len(), rows)?;
        let cell: &[u8; CONTROL_BYTES] = cell.try_into().map_err(|_| Refused::Length)?;
        match self.unit(place).hand(cell, part_mut(store, place)) {
            true => Ok(()),
            false => Err(Refused::Busy),
        }
    }

    /// A cell leaves a unit's control outlet into the processor's buffer.
    pub fn collect(
        &mut self,
        unit: u32,
        buffer: &mut [u8],
        store: &[u8],
        rows: &mut [Counters],
    ) -> Result<Taking, Refused> {
        let place = self.judge(unit, store.len(), rows.len())?;
        let buffer: &mut [u8; CONTROL_BYTES] = buffer.try_into().map_err(|_| Refused::Length)?;
        let Some(cell) = self.unit(place).collect(part(store, place)) else {
            return Ok(Taking::Empty);
        };
        *buffer = cell;
        bump(&mut rows[place].taken);
        Ok(Taking::Taken)
    }

    /// The counters of a unit.
    pub fn count(&self, unit: u32, store_len: usize, rows: &[Counters]) -> Result<Counters, Refused> {
        let place = self.judge(unit, store_len, rows.len())?;
        Ok(rows[place])
    }

    /// Judges State, then Unit; gives the unit's place, which is that of its counter row too.
    fn judge(&self, unit: u32, store_len: usize, rows: usize) -> Result<usize, Refused> {
        self.judge_state(store_len, rows)?;
        self.state.place_of(unit).ok_or(Refused::Unit)
    }

    fn judge_state(&self, store_len: usize, rows: usize) -> Result<(), Refused> {
        match self.state.is_sound(self.card, store_len, rows) {
            true => Ok(()),
            false => Err(Refused::State),
        }
    }

    fn unit(&mut self, place: usize) -> Unit<'_> {
        Unit { state: &mut self.state, place }
    }

    /// Every loopback cell that can goes on to its unit's inlet, which counts as taken.
    fn loop_back(&mut self, store: &mut [u8], rows: &mut [Counters]) {
        let places = 0..usize::from(self.state.count());
        for ((place, row), part) in places.zip(rows).zip(store.chunks_exact_mut(STORE_PER_UNIT)) {
            if self.unit(place).loop_back(part) {
                bump(&mut row.taken);
            }
        }
    }

    /// The unit granted before sends a cell; gives it and the copies queued.
    fn send(&mut self, buffer: &mut [u8; FRAME_BYTES], store: &mut [u8], rows: &mut [Counters]) -> (Option<u8>, usize) {
        let Some(sender) = self.state.close() else {
            return (None, 0);
        };
        let place = self.state.place_of(sender.into()).expect("in a sound state the unit granted is declared");
        let cell = self.unit(place).send(part(store, place));
        buffer[..56].copy_from_slice(&cell);
        buffer[56] = parity(&cell);
        bump(&mut rows[place].sent);
        let (addressed, copies) = self.hear_all(buffer, store, rows);
        if !addressed {
            bump(&mut rows[place].unheard);
        }
        (Some(sender), copies)
    }

    /// Every declared unit hears a sent frame, the sender too; gives whether
    /// any was addressed, and the copies queued.
    fn hear_all(&mut self, frame: &[u8; FRAME_BYTES], store: &mut [u8], rows: &mut [Counters]) -> (bool, usize) {
        let (cell, heard) = Heard::read(frame);
        let (mut addressed, mut copies) = (false, 0);
        let places = 0..usize::from(self.state.count());
        for ((place, row), part) in places.zip(rows).zip(store.chunks_exact_mut(STORE_PER_UNIT)) {
            let fate = self.unit(place).hear(heard, cell, part);
            count_hearing(row, fate);
            addressed |= !matches!(fate, Hearing::Damaged | Hearing::Other);
            copies += usize::from(fate == Hearing::Queued);
        }
        (addressed, copies)
    }
}

/// The part of the store that the unit in a place has.
fn part(store: &[u8], place: usize) -> &[u8] {
    &store[place * STORE_PER_UNIT..][..STORE_PER_UNIT]
}

fn part_mut(store: &mut [u8], place: usize) -> &mut [u8] {
    &mut store[place * STORE_PER_UNIT..][..STORE_PER_UNIT]
}

/// Every cell counts as arrived; every fate but `queued` has a counter too.
fn count_arrival(row: &mut Counters, fate: Arrival) {
    bump(&mut row.arrived);
    match fate {
        Arrival::Hec => bump(&mut row.hec),
        Arrival::Ignored => bump(&mut row.ignored),
        Arrival::Misrouted => bump(&mut row.misrouted),
        Arrival::InletFull => bump(&mut row.inletfull),
        Arrival::Queued => {}
    }
}

fn count_hearing(row: &mut Counters, fate: Hearing) {
    match fate {
        Hearing::Damaged => bump(&mut row.damaged),
        Hearing::Other => {}
        Hearing::Wide => bump(&mut row.wide),
        Hearing::Full => bump(&mut row.full),
        Hearing::Clp => bump(&mut row.clp),
        Hearing::Queued => bump(&mut row.queued),
    }
}
