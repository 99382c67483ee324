//! Loading a route table into a translation memory.

use crate::codec::{Link, Target};
use crate::lookup::{DROP, PAGE, ROUTE};
use crate::sound::store_suffices;
use crate::state::{BUS, SHELF};
use crate::table::{parse_line, Line, Route};
use crate::{Card, Counters, Refusal, Refused, Shelf, State, MEMORY_MAX, RECORD_BYTES, TEXT_MAX};

/// Loads a table: gives the shelf and the bytes used, or a fresh 16 bus
/// without units and the refusal.
pub fn load(
    card: Card,
    text: &[u8],
    memory: &mut [u8],
    store_len: usize,
    rows: &mut [Counters],
) -> (Shelf, Result<usize, Refusal>) {
    let room = memory.len().min(MEMORY_MAX);
    let memory = &mut memory[..room];
    memory.fill(0);
    let mut table = Table { card, memory, state: State::fresh(), begun: false, used: 0 };
    match table.read(text).and_then(|()| table.fits(store_len, rows.len())) {
        Ok(()) => {
            rows[..table.state.numbers().len()].fill(Counters::default());
            (Shelf { card, state: table.state }, Ok(table.used))
        }
        Err(refusal) => {
            table.memory[..table.used].fill(0);
            (Shelf::fresh(card), Err(refusal))
        }
    }
}

/// The good lines so far. Records have places of their own: what a line gives is known by the record it wrote.
struct Table<'a> {
    card: Card,
    /// As much as records may take; all zero but the records.
    memory: &'a mut [u8],
    state: State,
    /// Whether there was a `bus` line.
    begun: bool,
    /// Bytes that the records take.
    used: usize,
}

impl Table<'_> {
    fn read(&mut self, text: &[u8]) -> Result<(), Refusal> {
        if text.len() > TEXT_MAX {
            return Err(Refusal::new(Refused::Long, 0));
        }
        if text.is_empty() {
            return Err(Refusal::new(Refused::Form, 1));
        }
        for (index, line) in text.split_inclusive(|byte| *byte == b'\n').enumerate() {
            self.read_line(line).map_err(|refused| Refusal::new(refused, index + 1))?;
        }
        Ok(())
    }

    /// Judges a line with its newline, numbers 2 to 6 in that order, and takes it in.
    fn read_line(&mut self, line: &[u8]) -> Result<(), Refused> {
        let line = line.strip_suffix(b"\n").and_then(parse_line).ok_or(Refused::Form)?;
        let place = self.place_for(&line).ok_or(Refused::Order)?;
        if self.is_twice(&line, place) {
            return Err(Refused::Twice);
        }
        if self.card == Card::Narrow && is_wide(&line) {
            return Err(Refused::Wide);
        }
        if self.used + records(&line) * RECORD_BYTES > self.memory.len() {
            return Err(Refused::Room);
        }
        self.add(line, place);
        Ok(())
    }

    /// Where the line writes: the byte of its record, for `unit` and `mc` the unit's place. None if it is out of order.
    fn place_for(&self, line: &Line) -> Option<usize> {
        let bus = self.state.bus();
        match *line {
            Line::Bus(_) => (!self.begun).then_some(0),
            _ if !self.begun => None,
            Line::Unit(unit) => (unit.unit < bus).then_some(self.state.numbers().len()),
            Line::Vp { unit, vpi, route } => self.vpi_record(unit, vpi).filter(|_| !is_beyond(bus, route)),
            Line::Drop { unit, vpi } | Line::Page { unit, vpi, .. } => self.vpi_record(unit, vpi),
            Line::Vc { unit, vpi, vci, route, .. } => {
                self.vci_record(unit, vpi, vci).filter(|_| !is_beyond(bus, route))
            }
            Line::Mc { unit, .. } => self.state.place_of(unit.into()),
        }
    }

    /// The byte of a VPI's record, if the unit is declared and the VPI not above its top.
    fn vpi_record(&self, unit: u8, vpi: u16) -> Option<usize> {
        let place = self.state.place_of(unit.into())?;
        let first = self.state.records(place) as usize;
        (vpi <= self.state.top(place)).then_some(first + usize::from(vpi) * RECORD_BYTES)
    }

    /// The byte of a VCI's record, if a page stands for the VPI and the VCI is not above its top.
    fn vci_record(&self, unit: u8, vpi: u16, vci: u16) -> Option<usize> {
        let page = self.vpi_record(unit, vpi)?;
        let [PAGE, high, low, _, a, b, c, d] = self.memory[page..page + RECORD_BYTES] else {
            return None;
        };
        let (top, first) = (u16::from_be_bytes([high, low]), u32::from_be_bytes([a, b, c, d]) as usize);
        (vci <= top).then_some(first + usize::from(vci) * RECORD_BYTES)
    }

    fn is_twice(&self, line: &Line, place: usize) -> bool {
        match *line {
            Line::Bus(_) => false,
            Line::Unit(unit) => self.state.place_of(unit.unit.into()).is_some(),
            Line::Vp { .. } | Line::Drop { .. } | Line::Page { .. } | Line::Vc { .. } => self.memory[place] != 0,
            Line::Mc { session, .. } => self.state.hears_session(place, session),
        }
    }

    fn add(&mut self, line: Line, place: usize) {
        let first = self.used as u32;
        self.used += records(&line) * RECORD_BYTES;
        match line {
            Line::Bus(bus) => {
                self.state.columns[SHELF][BUS] = bus;
                self.begun = true;
            }
            Line::Unit(unit) => self.state.add_unit(unit, first),
            Line::Vp { route, .. } => self.put(place, route_record(self.card, route, 0)),
            Line::Drop { .. } => self.put(place, [DROP, 0, 0, 0, 0, 0, 0, 0]),
            Line::Page { top_vci, .. } => self.put(place, page_record(top_vci, first)),
            Line::Vc { route, out_vci, .. } => self.put(place, route_record(self.card, route, out_vci)),
            Line::Mc { session, .. } => self.state.set_session(place, session),
        }
    }

    fn put(&mut self, at: usize, record: [u8; RECORD_BYTES]) {
        self.memory[at..at + RECORD_BYTES].copy_from_slice(&record);
    }

    /// Refuses if store or rows are too small for the units.
    fn fits(&self, store_len: usize, rows: usize) -> Result<(), Refusal> {
        match store_suffices(self.state.numbers().len(), store_len, rows) {
            true => Ok(()),
            false => Err(Refusal::new(Refused::Store, 0)),
        }
    }
}

/// Whether the route's target unit is not below the bus number.
fn is_beyond(bus: u8, route: Route) -> bool {
    matches!(route.routing.target, Target::Unit(unit) if unit >= bus)
}

/// Whether a line asks more than the narrow card has.
fn is_wide(line: &Line) -> bool {
    match line {
        Line::Bus(bus) => *bus == 32,
        Line::Unit(unit) => unit.link == Link::Nni,
        Line::Vp { route, .. } | Line::Vc { route, .. } => route.vpi > 255,
        Line::Drop { .. } | Line::Page { .. } | Line::Mc { .. } => false,
    }
}

/// How many records a line takes.
fn records(line: &Line) -> usize {
    match line {
        Line::Unit(unit) => usize::from(unit.top_vpi) + 1,
        Line::Page { top_vci, .. } => usize::from(*top_vci) + 1,
        _ => 0,
    }
}

fn route_record(card: Card, route: Route, out_vci: u16) -> [u8; RECORD_BYTES] {
    let [high, low] = route.routing.encode().to_be_bytes();
    let [vci_high, vci_low] = out_vci.to_be_bytes();
    let [vpi_high, vpi_low] = route.vpi.to_be_bytes();
    match card {
        Card::Narrow => [ROUTE, high, low, vpi_low, vci_high, vci_low, 0, 0],
        Card::Wide => [ROUTE, high, low, 0, vci_high, vci_low, vpi_high, vpi_low],
    }
}

fn page_record(top_vci: u16, first: u32) -> [u8; RECORD_BYTES] {
    let [high, low] = top_vci.to_be_bytes();
    let [a, b, c, d] = first.to_be_bytes();
    [PAGE, high, low, 0, a, b, c, d]
}
