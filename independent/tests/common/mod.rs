//! What the tests share.
#![allow(dead_code)]

use independent::codec::{header_check, parity, Routing, Target};
use independent::text::hex_bytes;
use independent::{load, Arrival, Card, Counters, Hearing, Refused, SentFrame, Shelf, Taking};

/// The table of document 01, tabs shown as blanks.
pub const LISTING_TABLE: &str = "\
bus 16
unit 0 uni 5 2 one 0 0 100 0
unit 3 uni 0 1 four 40 30 20 1
page 0 5 33
vc 0 5 33 u3 2 9 40
";

/// Names of the counters in the order of document 01.
pub const NAMES: [&str; 13] = [
    "arrived",
    "hec",
    "ignored",
    "misrouted",
    "inletfull",
    "sent",
    "unheard",
    "damaged",
    "queued",
    "full",
    "clp",
    "wide",
    "taken",
];

pub fn tabs(text: &str) -> String {
    text.replace(' ', "\t")
}

/// A loaded shelf with all that is lent to it.
#[derive(Clone, PartialEq, Debug)]
pub struct Rig {
    pub shelf: Shelf,
    pub memory: Vec<u8>,
    pub store: Vec<u8>,
    pub rows: Vec<Counters>,
    pub used: usize,
}

impl Rig {
    /// Loads a good table (blanks for tabs) with 32 rows and store enough.
    pub fn new(card: Card, table: &str) -> Rig {
        let mut memory = vec![0xEE; 262_144];
        let mut rows = vec![Counters::default(); 32];
        let store = vec![0xEE; 32 * 8_192];
        let (shelf, outcome) = load(card, tabs(table).as_bytes(), &mut memory, store.len(), &mut rows);
        let used = outcome.expect("a good table");
        Rig { shelf, memory, store, rows, used }
    }

    pub fn wide(table: &str) -> Rig {
        Rig::new(Card::Wide, table)
    }

    pub fn arrive(&mut self, unit: u32, cell: &[u8]) -> Result<Arrival, Refused> {
        self.shelf.arrive(unit, cell, &self.memory, &mut self.store, &mut self.rows)
    }

    /// A sound cell with this header arrives.
    pub fn arrive_header(&mut self, unit: u32, header: [u8; 4]) -> Arrival {
        self.arrive(unit, &cell(header, 0xA5)).expect("not refused")
    }

    /// The next frame and its bytes; 0xEE where it left the buffer unchanged.
    pub fn frame(&mut self) -> (SentFrame, [u8; 57]) {
        let mut buffer = [0xEE; 57];
        let sent = self.shelf.frame(&mut buffer, &mut self.store, &mut self.rows);
        (sent.expect("not refused"), buffer)
    }

    pub fn hear(&mut self, unit: u32, frame: &[u8]) -> Result<Hearing, Refused> {
        self.shelf.hear(unit, frame, &mut self.store, &mut self.rows)
    }

    /// The cell taken, if any; an empty take must leave the buffer unchanged.
    pub fn take(&mut self, unit: u32) -> Option<[u8; 53]> {
        let mut buffer = [0xEE; 53];
        let taking = self.shelf.take(unit, &mut buffer, &self.store, &mut self.rows);
        match taking.expect("not refused") {
            Taking::Taken => Some(buffer),
            Taking::Empty => {
                assert_eq!(buffer, [0xEE; 53]);
                None
            }
        }
    }

    pub fn hand(&mut self, unit: u32, cell: &[u8]) -> Result<(), Refused> {
        self.shelf.hand(unit, cell, &mut self.store, self.rows.len())
    }

    /// The cell collected, if any; an empty collect must leave the buffer unchanged.
    pub fn collect(&mut self, unit: u32) -> Option<[u8; 56]> {
        let mut buffer = [0xEE; 56];
        let taking = self.shelf.collect(unit, &mut buffer, &self.store, &mut self.rows);
        match taking.expect("not refused") {
            Taking::Taken => Some(buffer),
            Taking::Empty => {
                assert_eq!(buffer, [0xEE; 56]);
                None
            }
        }
    }

    pub fn count(&self, unit: u32) -> Counters {
        self.shelf.count(unit, self.store.len(), &self.rows).expect("not refused")
    }

    /// Names of the counters that `event` bumps by one, with their rows.
    pub fn bumps<T>(&mut self, event: impl FnOnce(&mut Rig) -> T) -> (T, Vec<(usize, &'static str)>) {
        let before = self.rows.clone();
        let result = event(self);
        let mut bumped = Vec::new();
        for (row, (old, new)) in before.iter().zip(&self.rows).enumerate() {
            for (name, (old, new)) in NAMES.iter().zip(old.list().iter().zip(new.list())) {
                match new.wrapping_sub(*old) {
                    0 => {}
                    1 => bumped.push((row, *name)),
                    more => panic!("{name} of row {row} went up by {more}"),
                }
            }
        }
        (result, bumped)
    }
}

/// A line cell with a right check.
pub fn cell(header: [u8; 4], payload: u8) -> [u8; 53] {
    let mut cell = [payload; 53];
    cell[..4].copy_from_slice(&header);
    cell[4] = header_check(header);
    cell
}

/// A bus frame with right parity and tandem header 0.
pub fn frame(routing: u16, header: [u8; 4], payload: u8) -> [u8; 57] {
    let mut frame = [payload; 57];
    frame[..2].copy_from_slice(&routing.to_be_bytes());
    frame[2..4].fill(0);
    frame[4..8].copy_from_slice(&header);
    frame[56] = parity(&frame[..56]);
    frame
}

/// The 56 bytes of a cell as a processor has it.
pub fn bus_cell(routing: u16, tandem: [u8; 2], header: [u8; 4], payload: u8) -> [u8; 56] {
    let mut cell = [payload; 56];
    cell[..2].copy_from_slice(&routing.to_be_bytes());
    cell[2..4].copy_from_slice(&tandem);
    cell[4..8].copy_from_slice(&header);
    cell
}

/// The frame of such a cell, with right parity.
pub fn framed(cell: &[u8; 56]) -> [u8; 57] {
    let mut frame = [parity(cell); 57];
    frame[..56].copy_from_slice(cell);
    frame
}

/// Routing headers by target.
pub fn to_unit(unit: u8, class: u8) -> u16 {
    Routing { target: Target::Unit(unit), class }.encode()
}

pub fn to_session(session: u8, class: u8) -> u16 {
    Routing { target: Target::Session(session), class }.encode()
}

pub fn to_all(class: u8) -> u16 {
    Routing { target: Target::Broadcast, class }.encode()
}

/// A cell header as the bus has it.
pub fn header(vpi: u16, vci: u16, tail: u8) -> [u8; 4] {
    (u32::from(vpi) << 20 | u32::from(vci) << 4 | u32::from(tail)).to_be_bytes()
}

/// Loads and gives the refusal's number and line, or the bytes used.
pub fn try_load(card: Card, text: &[u8], memory: usize) -> Result<usize, (u8, usize)> {
    let mut memory = vec![0xEE; memory];
    let mut rows = vec![Counters::default(); 32];
    let (_, outcome) = load(card, text, &mut memory, 32 * 8_192, &mut rows);
    outcome.map_err(|refusal| (refusal.number(), refusal.line))
}

/// Runs the console's code on bytes.
pub fn console(input: &[u8]) -> Vec<String> {
    let mut out = Vec::new();
    independent::console::run(&mut &input[..], &mut out).expect("writing to memory");
    let text = String::from_utf8(out).expect("ASCII");
    text.lines().map(|line| line.replace('\t', " ")).collect()
}

/// A console asked line by line, blanks for tabs in lines and answers.
#[derive(Default)]
pub struct Desk(independent::console::Console);

impl Desk {
    /// A console with a good table and plenty lent.
    pub fn new(card: &str, table: &str) -> Desk {
        let mut desk = Desk::default();
        assert_eq!(desk.ask(&format!("card {card}")), "card ok");
        desk.ask("lend memory 4000 EE");
        desk.ask("lend store 262144 EE");
        desk.ask("lend rows 32 7");
        assert!(desk.load(table).starts_with("load ok "));
        desk
    }

    pub fn ask(&mut self, line: &str) -> String {
        let mut answer = Vec::new();
        self.0.answer(tabs(line).as_bytes(), &mut answer);
        String::from_utf8(answer).expect("ASCII").replace('\t', " ")
    }

    /// Loads a table with blanks for tabs.
    pub fn load(&mut self, table: &str) -> String {
        self.ask(&format!("load {}", hex(tabs(table).as_bytes())))
    }

    /// Everything that `show` shows.
    pub fn all(&mut self) -> [String; 4] {
        ["memory", "store", "rows", "state"].map(|part| self.ask(&format!("show {part}")))
    }

    /// Pokes a field of the state by name: `top 0 4095` is the top VPI of the unit in place 0.
    pub fn set(&mut self, setting: &str) {
        let words: Vec<&str> = setting.split(' ').collect();
        let [name, place, value] = words[..] else {
            panic!("{setting} is no setting");
        };
        let places = bytes_of(name, place.parse().expect("a place"));
        let value: u32 = value.parse().expect("a value");
        for (at, byte) in places.iter().zip(&value.to_be_bytes()[4 - places.len()..]) {
            assert_eq!(self.ask(&format!("poke state {at} {byte:02X}")), "poke ok", "{setting}");
        }
    }

    /// All bytes of the state.
    pub fn state(&mut self) -> Vec<u8> {
        let shown = self.ask("show state");
        let bytes = shown.strip_prefix("show state ").expect("a state");
        assert_eq!(bytes.len(), 2 * 2_048);
        hex_bytes(bytes.as_bytes()).expect("bytes")
    }
}

/// Where a field of docs/STATE.md stands, its highest byte first. Queue q of place p is 4 p + q.
pub fn bytes_of(name: &str, place: usize) -> Vec<usize> {
    match name {
        "byte" => vec![place],
        "number" => vec![place],
        "link" => vec![32 + place],
        "top" => vec![64 + place, 96 + place],
        "priority" => vec![128 + place],
        "mode" => vec![160 + place],
        "cbrlength" => vec![192 + place],
        "cbrlimit" => vec![224 + place],
        "vbrlimit" => vec![256 + place],
        "mark" => vec![288 + place],
        "place" => vec![320 + place, 352 + place, 384 + place, 416 + place],
        "inlethead" => vec![448 + place],
        "inletcount" => vec![480 + place],
        "queuehead" => vec![[512, 544, 576, 608][place % 4] + place / 4],
        "queuecount" => vec![[640, 672, 704, 736][place % 4] + place / 4],
        "controlin" => vec![832 + place],
        "loopbackin" => vec![864 + place],
        "controlhead" => vec![896 + place],
        "controlcount" => vec![928 + place],
        "loopbackout" => vec![960 + place],
        "asks" => vec![768 + place],
        "last" => vec![[800, 801, 802][place]],
        "granted" => vec![803],
        "bus" => vec![804],
        "count" => vec![805],
        "frame" => vec![806, 807],
        _ => panic!("{name} is no field"),
    }
}

pub fn hex(bytes: &[u8]) -> String {
    bytes.iter().map(|byte| format!("{byte:02X}")).collect()
}

/// A good table of exactly this many bytes.
pub fn table_of(length: usize) -> String {
    let mut text = tabs("bus 32\nunit 0 nni 4095 1 one 0 0 1 0\nunit 1 nni 4095 1 one 0 0 1 0\n");
    let mut drops = (0..2).flat_map(|unit| (1_000..4_096).map(move |vpi| format!("drop\t{unit}\t{vpi}\n")));
    while length - text.len() > 36 {
        text.push_str(&drops.next().expect("drop lines enough"));
    }
    // Lines of 7, 8 and 9 bytes make up any length from 21 to 27 or 28 to 36.
    let lines = if length - text.len() <= 27 { 3 } else { 4 };
    for line in 0..lines {
        let rest = length - text.len() - 7 * (lines - line - 1);
        let session = [line, 10 + line, 100 + line][(rest - 7).min(2)];
        text.push_str(&format!("mc\t0\t{session}\n"));
    }
    assert_eq!(text.len(), length);
    text
}
