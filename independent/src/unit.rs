//! One unit of a sound state, and what it does with a cell.

use crate::codec::{bus_cell, header_check, header_of, looped_back, BusCell, Header, Heard, Target};
use crate::codec::{CLP_BIT, CONGESTION_BIT, TOP_PT_BIT};
use crate::lookup::{lookup, Answer};
use crate::ring::{read_slot, write_slot, Slots};
use crate::state::{State, CONTROL_IN, LOOPBACK_IN, LOOPBACK_OUT, MARK, NUMBER, QUEUE_COUNT};
use crate::{Arrival, Card, Hearing, CELL_BYTES, CONTROL_CELLS, INLET_CELLS};

/// The slots behind those of the outlet queues.
const INLET_SLOTS: Slots = Slots { first: 123, capacity: INLET_CELLS };
const CONTROL_IN_SLOT: u8 = 127;
const LOOPBACK_IN_SLOT: u8 = 128;
const CONTROL_OUT_SLOTS: Slots = Slots { first: 129, capacity: CONTROL_CELLS };
const LOOPBACK_OUT_SLOT: u8 = 133;

/// The unit in a place; its cells stand in its part of the lent store.
pub struct Unit<'a> {
    pub state: &'a mut State,
    pub place: usize,
}

impl Unit<'_> {
    /// A line cell arrives.
    pub fn arrive(&mut self, card: Card, cell: &[u8; CELL_BYTES], memory: &[u8], part: &mut [u8]) -> Arrival {
        let bytes = [cell[0], cell[1], cell[2], cell[3]];
        if header_check(bytes) != cell[4] {
            return Arrival::Hec;
        }
        let header = Header::read(self.state.link(self.place), bytes);
        if header.vpi == 0 && header.vci == 0 {
            return Arrival::Ignored;
        }
        let mut inlet = self.state.inlet(self.place);
        match lookup(card, memory, self.state.records(self.place), self.state.top(self.place), header) {
            Answer::Ignored => Arrival::Ignored,
            Answer::Misrouted => Arrival::Misrouted,
            Answer::Route { .. } if inlet.count >= INLET_CELLS => Arrival::InletFull,
            Answer::Route { routing, vpi, vci } => {
                let header = Header { vpi, vci, tail: header.tail };
                inlet.push(INLET_SLOTS, part, &bus_cell(routing, header, &cell[5..]));
                self.state.set_inlet(self.place, inlet);
                Arrival::Queued
            }
        }
    }

    /// The processor hands a control cell in; false if the place is taken, and then nothing is done.
    pub fn hand(&mut self, cell: &BusCell, part: &mut [u8]) -> bool {
        if self.holds(CONTROL_IN) {
            return false;
        }
        write_slot(part, CONTROL_IN_SLOT, cell);
        self.state.columns[CONTROL_IN][self.place] = 1;
        true
    }

    /// The loopback cell of the outlet goes on to the inlet, once that is free; gives whether it did.
    pub fn loop_back(&mut self, part: &mut [u8]) -> bool {
        let moves = self.holds(LOOPBACK_OUT) && !self.holds(LOOPBACK_IN);
        if moves {
            write_slot(part, LOOPBACK_IN_SLOT, &looped_back(read_slot(part, LOOPBACK_OUT_SLOT)));
            self.state.columns[LOOPBACK_OUT][self.place] = 0;
            self.state.columns[LOOPBACK_IN][self.place] = 1;
        }
        moves
    }

    /// A cell leaves the inlet, where one must wait: the oldest data cell, else the control, else the loopback cell.
    pub fn send(&mut self, part: &[u8]) -> BusCell {
        let mut inlet = self.state.inlet(self.place);
        if inlet.count == 0 {
            return self.send_single(part);
        }
        let cell = inlet.pop(INLET_SLOTS, part);
        self.state.set_inlet(self.place, inlet);
        cell
    }

    fn send_single(&mut self, part: &[u8]) -> BusCell {
        let (column, slot) = match self.holds(CONTROL_IN) {
            true => (CONTROL_IN, CONTROL_IN_SLOT),
            false => (LOOPBACK_IN, LOOPBACK_IN_SLOT),
        };
        self.state.columns[column][self.place] = 0;
        read_slot(part, slot)
    }

    /// Whether one of the single places, by its column, is taken.
    fn holds(&self, column: usize) -> bool {
        self.state.columns[column][self.place] != 0
    }

    /// A frame is heard; None is a damaged one.
    pub fn hear(&mut self, heard: Option<Heard>, cell: &BusCell, part: &mut [u8]) -> Hearing {
        let Some(Heard { routing, header }) = heard else {
            return Hearing::Damaged;
        };
        if !self.is_addressed(routing.target) {
            return Hearing::Other;
        }
        match routing.target {
            Target::Control(_) => self.hear_control(cell, part),
            Target::Loopback(_) => self.hear_loopback(cell, part),
            _ => self.hear_data(routing.class, header, cell, part),
        }
    }

    // Cold, as data shall not wait for it; so is the next.
    #[cold]
    fn hear_control(&mut self, cell: &BusCell, part: &mut [u8]) -> Hearing {
        let mut ring = self.state.control_outlet(self.place);
        if ring.count >= CONTROL_CELLS {
            return Hearing::Full;
        }
        ring.push(CONTROL_OUT_SLOTS, part, cell);
        self.state.set_control_outlet(self.place, ring);
        Hearing::Queued
    }

    #[cold]
    fn hear_loopback(&mut self, cell: &BusCell, part: &mut [u8]) -> Hearing {
        if self.holds(LOOPBACK_OUT) {
            return Hearing::Full;
        }
        write_slot(part, LOOPBACK_OUT_SLOT, cell);
        self.state.columns[LOOPBACK_OUT][self.place] = 1;
        Hearing::Queued
    }

    fn hear_data(&mut self, class: u8, header: Header, cell: &BusCell, part: &mut [u8]) -> Hearing {
        if header.vpi > self.state.link(self.place).highest_vpi() {
            return Hearing::Wide;
        }
        let settings = self.state.settings(self.place);
        let queue = settings.queue_of(class);
        let slots = settings.slots(queue);
        let mut ring = self.state.queue(self.place, queue);
        if ring.count >= slots.capacity {
            return Hearing::Full;
        }
        if header.tail & CLP_BIT != 0 && settings.reaches_limit(queue, ring.count) {
            return Hearing::Clp;
        }
        ring.push(slots, part, cell);
        self.state.set_queue(self.place, queue, ring);
        Hearing::Queued
    }

    fn number(&self) -> u8 {
        self.state.columns[NUMBER][self.place]
    }

    fn is_addressed(&self, target: Target) -> bool {
        match target {
            Target::Unit(unit) | Target::Control(unit) | Target::Loopback(unit) => unit == self.number(),
            Target::Session(session) => self.state.hears_session(self.place, session),
            Target::Broadcast => true,
        }
    }

    /// The oldest cell of the control outlet, as the processor gets it.
    pub fn collect(&mut self, part: &[u8]) -> Option<BusCell> {
        let mut ring = self.state.control_outlet(self.place);
        if ring.count == 0 {
            return None;
        }
        let cell = ring.pop(CONTROL_OUT_SLOTS, part);
        self.state.set_control_outlet(self.place, ring);
        Some(cell)
    }

    /// The oldest cell of the lowest class held, as the line gets it.
    pub fn take(&mut self, part: &[u8]) -> Option<[u8; CELL_BYTES]> {
        let settings = self.state.settings(self.place);
        let counts = [0, 1, 2, 3].map(|queue| self.state.columns[QUEUE_COUNT + queue][self.place]);
        let queue = counts.iter().position(|count| *count > 0)?;
        let mut ring = self.state.queue(self.place, queue);
        let cell = ring.pop(settings.slots(queue), part);
        self.state.set_queue(self.place, queue, ring);
        // The queues are counted before the cell leaves them.
        let congested = (0..4).any(|queue| settings.reaches_limit(queue, counts[queue]));
        let mut header = header_of(&cell);
        let is_user_data = header.tail & TOP_PT_BIT == 0;
        if is_user_data && congested && self.state.columns[MARK][self.place] == 1 {
            header.tail |= CONGESTION_BIT;
        }
        let bytes = header.write(self.state.link(self.place));
        let mut taken = [0; CELL_BYTES];
        taken[..4].copy_from_slice(&bytes);
        taken[4] = header_check(bytes);
        taken[5..].copy_from_slice(&cell[8..]);
        Some(taken)
    }
}
