//! The library and the independent program, lent the same and asked the same; what differs after a call.

use crate::expected;
use crate::header;
use crate::library::{Library, Row, COUNTERS};
use crate::tally::{Call, Tally};
use independent::compare::settings::name_of;
use independent::console::command::{Command, Part, Poked};
use independent::{load, Card, Counters, Shelf, STORE_PER_UNIT, UNITS_MAX};

/// Every byte of a buffer as it is lent.
const BUFFER_BYTE: u8 = 0xEE;
/// A store up to this is compared whole after each call, a larger one after each frame and now and then.
const SMALL_STORE: usize = 4 * STORE_PER_UNIT;
/// After so many calls all that is lent is compared.
const NOW_AND_THEN: u64 = 32;
/// Differences of one kind that are told.
const TOLD: usize = 8;

/// What a call may have changed.
enum Reach {
    /// The store's part of one unit.
    Unit(u8),
    Store,
    All,
}

/// Both sides.
pub struct Pair {
    library: Library,
    shelf: Shelf,
    memory: Vec<u8>,
    store: Vec<u8>,
    rows: Vec<Counters>,
    /// What the call read.
    input: Vec<u8>,
    /// What the independent program's call filled.
    buffer: Vec<u8>,
    /// Calls so far.
    calls: u64,
    /// Whether the counters have counted since a good load and nothing else.
    counting: bool,
}

impl Pair {
    /// A fresh 16 bus on the wide card and nothing lent; `number` only picks how the narrow card is told.
    pub fn new(number: u64) -> Pair {
        let shelf = Shelf::fresh(Card::Wide);
        let mut library = Library::new(number);
        library.state.put(shelf.state.bytes());
        let (memory, store, rows, input, buffer) = Default::default();
        Pair { library, shelf, memory, store, rows, input, buffer, calls: 0, counting: false }
    }

    /// Does what a line of the console asks on both sides; what differs is told.
    pub fn play(&mut self, command: &Command, tally: &mut Tally) -> Result<(), Vec<String>> {
        match command {
            Command::Card(card) => {
                self.shelf.card = *card;
                self.library.choose(*card);
            }
            Command::Lend { part, length, byte } => self.lend(*part, *length, *byte),
            Command::LendRows { count, value } => self.lend_rows(*count, *value),
            Command::Poke { poked, at, bytes } => self.poke(*poked, *at, bytes),
            Command::Show(_) | Command::ShowRows | Command::ShowState | Command::ShowUnit { .. } => {
                return self.verdict(self.differences(Reach::All));
            }
            _ => return self.call(command, tally),
        }
        Ok(())
    }

    fn lend(&mut self, part: Part, length: usize, byte: u8) {
        let (own, lent) = match part {
            Part::Memory => (&mut self.memory, &mut self.library.memory),
            Part::Store => (&mut self.store, &mut self.library.store),
        };
        own.clear();
        own.resize(length, byte);
        lent.fill(length, byte);
    }

    fn lend_rows(&mut self, count: usize, value: u32) {
        self.rows.clear();
        self.rows.resize(count, Counters::all(value));
        self.library.rows.fill(count, [value; COUNTERS]);
        self.counting = false;
    }

    /// Writes bytes on both sides, if they all lie inside.
    fn poke(&mut self, poked: Poked, at: usize, bytes: &[u8]) {
        let (own, lent) = match poked {
            Poked::Part(Part::Memory) => (&mut self.memory[..], &mut self.library.memory),
            Poked::Part(Part::Store) => (&mut self.store[..], &mut self.library.store),
            Poked::State => (self.shelf.state.bytes_mut(), &mut self.library.state),
        };
        let place = at..at.saturating_add(bytes.len());
        if let Some(own) = own.get_mut(place.clone()) {
            own.copy_from_slice(bytes);
            lent.elements_mut()[place].copy_from_slice(bytes);
        }
    }

    /// Calls the same function on both sides and compares its answer and what is lent.
    fn call(&mut self, command: &Command, tally: &mut Tally) -> Result<(), Vec<String>> {
        let (word, (library, own), reach) = match command {
            Command::Load(text) => ("load", self.load(text), Reach::All),
            Command::Arrive { unit, cell } => ("arrive", self.arrive(byte(*unit), cell), Reach::Unit(byte(*unit))),
            Command::Hear { unit, frame } => ("hear", self.hear(byte(*unit), frame), Reach::Unit(byte(*unit))),
            Command::Frame { length } => ("frame", self.frame(*length), Reach::Store),
            Command::Take { unit, length } => ("take", self.take(byte(*unit), *length), Reach::Unit(byte(*unit))),
            Command::Hand { unit, cell } => ("hand", self.hand(byte(*unit), cell), Reach::Unit(byte(*unit))),
            Command::Collect { unit, length } => {
                ("collect", self.collect(byte(*unit), *length), Reach::Unit(byte(*unit)))
            }
            Command::Count { unit } => ("count", self.count(byte(*unit)), Reach::Unit(byte(*unit))),
            _ => return Ok(()),
        };
        self.calls += 1;
        let often = self.calls.is_multiple_of(NOW_AND_THEN);
        let mut differences = self.differences(if often { Reach::All } else { reach });
        if library != own {
            differences.insert(0, format!("answer: library {library:#018X}, independent program {own:#018X}"));
        }
        self.verdict(differences)?;
        self.tell(word, own, tally);
        Ok(())
    }

    fn load(&mut self, text: &[u8]) -> (u64, u64) {
        self.lend_input(text);
        let (shelf, outcome) = load(self.shelf.card, text, &mut self.memory, self.store.len(), &mut self.rows);
        self.shelf = shelf;
        self.counting = outcome.is_ok();
        (self.library.load(), expected::loaded(outcome))
    }

    fn arrive(&mut self, unit: u8, cell: &[u8]) -> (u64, u64) {
        self.lend_input(cell);
        let outcome = self.shelf.arrive(unit.into(), cell, &self.memory, &mut self.store, &mut self.rows);
        (self.library.arrive(unit), expected::arrived(outcome))
    }

    fn hear(&mut self, unit: u8, frame: &[u8]) -> (u64, u64) {
        self.lend_input(frame);
        let outcome = self.shelf.hear(unit.into(), frame, &mut self.store, &mut self.rows);
        (self.library.hear(unit), expected::heard(outcome))
    }

    fn lend_input(&mut self, bytes: &[u8]) {
        self.library.input.put(bytes);
        self.input.clear();
        self.input.extend_from_slice(bytes);
    }

    fn lend_buffer(&mut self, length: usize) {
        self.library.buffer.fill(length, BUFFER_BYTE);
        self.buffer.clear();
        self.buffer.resize(length, BUFFER_BYTE);
    }

    fn frame(&mut self, length: usize) -> (u64, u64) {
        self.lend_buffer(length);
        let outcome = self.shelf.frame(&mut self.buffer, &mut self.store, &mut self.rows);
        (self.library.frame(), expected::framed(outcome))
    }

    fn take(&mut self, unit: u8, length: usize) -> (u64, u64) {
        self.lend_buffer(length);
        let outcome = self.shelf.take(unit.into(), &mut self.buffer, &self.store, &mut self.rows);
        (self.library.take(unit), expected::taken(outcome))
    }

    fn hand(&mut self, unit: u8, cell: &[u8]) -> (u64, u64) {
        self.lend_input(cell);
        let outcome = self.shelf.hand(unit.into(), cell, &mut self.store, self.rows.len());
        (self.library.hand(unit), expected::handed(outcome))
    }

    fn collect(&mut self, unit: u8, length: usize) -> (u64, u64) {
        self.lend_buffer(length);
        let outcome = self.shelf.collect(unit.into(), &mut self.buffer, &self.store, &mut self.rows);
        (self.library.collect(unit), expected::taken(outcome))
    }

    fn count(&mut self, unit: u8) -> (u64, u64) {
        let outcome = self.shelf.count(unit.into(), self.store.len(), &self.rows);
        let place = || self.shelf.state.place_of(unit.into()).expect("a unit that is counted has a place");
        let outcome = outcome.map(|_| place());
        (self.library.count(unit), expected::counted(outcome))
    }

    fn verdict(&self, differences: Vec<String>) -> Result<(), Vec<String>> {
        match differences.is_empty() {
            true => Ok(()),
            false => Err(differences),
        }
    }

    /// All that is lent, at the end.
    pub fn compare_all(&self) -> Result<(), Vec<String>> {
        self.verdict(self.differences(Reach::All))
    }

    /// What differs: always in state, rows, input and buffer and around all that is lent; in the store as far as the
    /// call reaches; in the memory if it reaches all.
    fn differences(&self, reach: Reach) -> Vec<String> {
        let library = &self.library;
        let mut found = Vec::new();
        differing("input", 0, library.input.elements(), &self.input, &mut found);
        differing("buffer", 0, library.buffer.elements(), &self.buffer, &mut found);
        differing("state", 0, library.state.elements(), self.shelf.state.bytes(), &mut found);
        self.differing_rows(&mut found);
        let whole = !matches!(reach, Reach::Unit(_)) || self.store.len() <= SMALL_STORE;
        let part = if whole { 0..self.store.len() } else { self.part(&reach) };
        differing("store", part.start, &library.store.elements()[part.clone()], &self.store[part.clone()], &mut found);
        if matches!(reach, Reach::All) {
            differing("memory", 0, library.memory.elements(), &self.memory, &mut found);
        }
        found.extend(library.written_around().map(|name| format!("bytes around the {name} were written")));
        found
    }

    /// The bytes of the store that a unit has; none where it is not declared.
    fn part(&self, reach: &Reach) -> std::ops::Range<usize> {
        let state = &self.shelf.state;
        let place = match reach {
            // A state that is none may have any count.
            Reach::Unit(unit) if usize::from(state.count()) <= UNITS_MAX => state.place_of((*unit).into()),
            _ => None,
        };
        let at = |place: usize| (place * STORE_PER_UNIT).min(self.store.len());
        place.map_or(0..0, |place| at(place)..at(place + 1))
    }

    fn differing_rows(&self, found: &mut Vec<String>) {
        for (place, (library, own)) in self.library.rows.elements().iter().zip(&self.rows).enumerate() {
            let own = row(own);
            if *library != own {
                found.push(format!("row {place}: library {library:?}, independent program {own:?}"));
            }
        }
    }

    fn tell(&self, word: &'static str, answer: u64, tally: &mut Tally) {
        let bytes = if word == "hear" { &self.input } else { &self.buffer };
        tally.add(&Call { word, answer, bytes, wide: self.shelf.card == Card::Wide, bus: self.shelf.state.bus() });
        if self.counting && answer & 255 == header::COUNTED {
            tally.add_counters(&row(&self.rows[(answer >> 32) as usize]), self.shelf.card == Card::Wide);
        }
    }
}

/// A unit as C's functions take it; what is above no unit is.
fn byte(unit: u32) -> u8 {
    unit.min(255) as u8
}

/// A row with each counter at the place that the header says.
fn row(counters: &Counters) -> Row {
    let mut row = [0; COUNTERS];
    row[header::COUNTER_ARRIVED as usize] = counters.arrived;
    row[header::COUNTER_HEC as usize] = counters.hec;
    row[header::COUNTER_IGNORED as usize] = counters.ignored;
    row[header::COUNTER_MISROUTED as usize] = counters.misrouted;
    row[header::COUNTER_INLETFULL as usize] = counters.inletfull;
    row[header::COUNTER_SENT as usize] = counters.sent;
    row[header::COUNTER_UNHEARD as usize] = counters.unheard;
    row[header::COUNTER_DAMAGED as usize] = counters.damaged;
    row[header::COUNTER_QUEUED as usize] = counters.queued;
    row[header::COUNTER_FULL as usize] = counters.full;
    row[header::COUNTER_CLP as usize] = counters.clp;
    row[header::COUNTER_WIDE as usize] = counters.wide;
    row[header::COUNTER_TAKEN as usize] = counters.taken;
    row
}

/// Tells the first bytes that differ, `from` being the place of the first one that is looked at.
fn differing(name: &str, from: usize, library: &[u8], own: &[u8], found: &mut Vec<String>) {
    if library == own {
        return;
    }
    let pairs = library.iter().zip(own).enumerate().filter(|(_, (library, own))| library != own);
    for (at, (library, own)) in pairs.take(TOLD) {
        let at = from + at;
        let what = if name == "state" { format!(" ({})", name_of(at)) } else { String::new() };
        found.push(format!("{name} byte {at}{what}: library {library:02X}, independent program {own:02X}"));
    }
}
