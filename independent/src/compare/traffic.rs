//! Random events on a loaded table: mostly sound cells that its lines route.

use super::dice::Dice;
use super::script::{cell, frame, framed, Script};
use super::tables::{Draft, DraftUnit, SESSIONS};
use crate::codec::{control_routing, loopback_routing, routing_check, Header, Link, Routing, Target};

/// How often each event comes, out of their sum.
#[derive(Clone, Copy)]
pub struct Weights {
    pub arrive: u64,
    pub frame: u64,
    pub take: u64,
    pub hear: u64,
    pub hand: u64,
    pub collect: u64,
    /// Hearing of such a frame as processors hand in.
    pub control: u64,
}

/// Times of different traffic, which fill and empty the queues in turn.
pub const PHASES: [Weights; 6] = [
    Weights { arrive: 40, frame: 38, take: 20, hear: 2, hand: 4, collect: 2, control: 1 },
    Weights { arrive: 40, frame: 38, take: 20, hear: 2, hand: 0, collect: 0, control: 0 },
    Weights { arrive: 50, frame: 48, take: 0, hear: 2, hand: 5, collect: 2, control: 1 },
    Weights { arrive: 5, frame: 20, take: 75, hear: 0, hand: 1, collect: 5, control: 0 },
    Weights { arrive: 85, frame: 10, take: 4, hear: 1, hand: 2, collect: 1, control: 1 },
    Weights { arrive: 4, frame: 4, take: 12, hear: 80, hand: 1, collect: 1, control: 8 },
];

/// Times in which the processors have most to say: control and loopback outlets fill and are emptied in turn, and data
/// comes before both.
pub const PROCESSOR_PHASES: [Weights; 6] = [
    Weights { arrive: 4, frame: 42, take: 3, hear: 1, hand: 28, collect: 14, control: 8 },
    Weights { arrive: 4, frame: 42, take: 3, hear: 1, hand: 28, collect: 14, control: 8 },
    Weights { arrive: 0, frame: 50, take: 0, hear: 0, hand: 40, collect: 3, control: 7 },
    Weights { arrive: 22, frame: 40, take: 6, hear: 0, hand: 18, collect: 8, control: 6 },
    Weights { arrive: 2, frame: 20, take: 2, hear: 2, hand: 8, collect: 22, control: 44 },
    Weights { arrive: 0, frame: 60, take: 2, hear: 0, hand: 3, collect: 35, control: 0 },
];

/// The maker of events for one table.
pub struct Traffic<'a> {
    pub dice: &'a mut Dice,
    pub draft: &'a Draft,
    pub script: &'a mut Script,
    /// How many of a hundred events have a wrong unit or length.
    pub faults: u64,
}

impl Traffic<'_> {
    /// So many events in changing phases.
    pub fn phases(&mut self, events: u64) {
        self.phases_of(&PHASES, events, 200);
    }

    /// The same with processors that have much to say.
    pub fn processor_phases(&mut self, events: u64) {
        self.phases_of(&PROCESSOR_PHASES, events, 80);
    }

    /// Each phase has up to so many events as `longest` says.
    fn phases_of(&mut self, phases: &[Weights], events: u64, longest: u64) {
        let mut left = events;
        while left > 0 {
            let weights = self.dice.pick(phases);
            let now = self.dice.between(20, longest).min(left);
            self.events(now, weights);
            left -= now;
        }
    }

    /// One unit is told frames of one class until its queue is full, and some more.
    pub fn flood(&mut self, events: u64) {
        let unit = self.unit().number;
        let class = self.dice.roll(4) as u8;
        let clp = self.dice.pick(&[0, 20, 50]);
        for number in 0..events {
            let tail = (number % 8 << 1) as u8 | u8::from(self.dice.chance(clp));
            let header = Header { vpi: self.dice.byte().into(), vci: 5, tail };
            let routing = Routing { target: Target::Unit(unit), class }.encode();
            let bytes = frame(routing, [0, 0], header, &self.payload());
            self.script.hear(unit.into(), &bytes);
        }
    }

    pub fn events(&mut self, events: u64, weights: Weights) {
        for number in 1..=events {
            self.event(weights);
            if number % 64 == 0 {
                self.look();
            }
        }
    }

    pub fn event(&mut self, weights: Weights) {
        let Weights { arrive, frame, take, hear, hand, collect, control } = weights;
        type Event<'a> = fn(&mut Traffic<'a>);
        let events: [(u64, Event); 7] = [
            (arrive, Self::arrive),
            (frame, Self::frame),
            (take, Self::take),
            (hear, Self::hear),
            (hand, Self::hand),
            (collect, Self::collect),
            (control, Self::hear_control),
        ];
        let mut rolled = self.dice.roll(events.iter().map(|(weight, _)| weight).sum());
        for (weight, event) in events {
            if rolled < weight {
                return event(self);
            }
            rolled -= weight;
        }
    }

    /// Looks at something without changing it.
    pub fn look(&mut self) {
        match self.dice.roll(14) {
            0 => self.script.say("show store"),
            1 => self.script.say("show memory"),
            2..=4 => self.script.say("show rows"),
            5..=6 => self.script.say("show state"),
            7..=9 => {
                let unit = self.unit_number();
                self.script.say(&format!("show unit {unit}"));
            }
            _ => {
                let unit = self.unit_number();
                self.script.say(&format!("count {unit}"));
            }
        }
    }

    /// Reads the counters of every unit.
    pub fn count_all(&mut self) {
        for unit in &self.draft.units {
            self.script.say(&format!("count {}", unit.number));
        }
    }

    fn unit(&mut self) -> &DraftUnit {
        &self.draft.units[self.dice.index(self.draft.units.len())]
    }

    /// A declared unit, or at times one that is not.
    fn unit_number(&mut self) -> u64 {
        if self.draft.units.is_empty() || self.dice.chance(self.faults) {
            let other = self.dice.roll(34);
            return self.dice.pick(&[other, 255, 256, 65_536, 4_294_967_296, u64::MAX]);
        }
        self.unit().number.into()
    }

    /// A length that is mostly the right one.
    fn length(&mut self, right: u64) -> u64 {
        if !self.dice.chance(self.faults) {
            return right;
        }
        let other = self.dice.roll(120);
        self.dice.pick(&[right - 1, right + 1, 0, 53, 56, 57, other, 1_000])
    }

    fn payload(&mut self) -> [u8; 48] {
        let byte = self.dice.byte();
        let mut payload = [byte; 48];
        if self.dice.chance(30) {
            payload.fill_with(|| self.dice.byte());
        }
        payload
    }

    /// Three bits of PT and mostly CLP 0.
    fn tail(&mut self) -> u8 {
        let clp = u8::from(self.dice.chance(25));
        (self.dice.roll(8) as u8) << 1 | clp
    }

    pub fn arrive(&mut self) {
        let unit = self.unit_number();
        let header = self.line_header(unit);
        let mut bytes = cell(header, &self.payload()).to_vec();
        if self.dice.chance(3) {
            bytes[self.dice.index(5)] ^= 1 << self.dice.roll(8);
        }
        let length = self.length(53) as usize;
        bytes.resize(length, 0x5A);
        self.script.arrive(unit, &bytes);
    }

    /// The header of a cell that the unit routes, or at times of any other.
    fn line_header(&mut self, number: u64) -> [u8; 4] {
        let draft = self.draft;
        let unit = draft.units.iter().find(|unit| u64::from(unit.number) == number);
        let (link, top, routes) =
            unit.map_or((Link::Uni, 5, &[][..]), |unit| (unit.link, u64::from(unit.top), &unit.routes[..]));
        let tail = self.tail();
        let (vpi, vci) = match self.dice.roll(20) {
            0 => (0, 0),
            1 => (self.dice.roll(top + 2) as u16, self.dice.roll(45) as u16),
            2 => (self.dice.roll(4_096) as u16, self.dice.roll(65_536) as u16),
            _ if routes.is_empty() => (self.dice.roll(top + 1) as u16, self.dice.roll(4) as u16),
            _ => {
                let (vpi, vci) = self.dice.pick(routes);
                (vpi, vci.unwrap_or(self.dice.roll(65_536) as u16))
            }
        };
        let mut header = Header { vpi, vci, tail }.write(link);
        if link == Link::Uni && self.dice.chance(20) {
            header[0] |= self.dice.byte() & 0xF0;
        }
        header
    }

    pub fn frame(&mut self) {
        let length = self.length(57);
        self.script.say(&format!("frame {length}"));
    }

    pub fn take(&mut self) {
        let (unit, length) = (self.unit_number(), self.length(53));
        self.script.say(&format!("take {unit} {length}"));
    }

    pub fn hear(&mut self) {
        let unit = self.unit_number();
        let bytes = self.bus_frame(unit);
        self.hear_nearly(unit, &bytes);
    }

    /// A unit hears a frame, at times with a bit changed or of a wrong length.
    fn hear_nearly(&mut self, unit: u64, frame: &[u8; 57]) {
        let mut bytes = frame.to_vec();
        if self.dice.chance(10) {
            bytes[self.dice.index(57)] ^= 1 << self.dice.roll(8);
        }
        let length = self.length(57) as usize;
        bytes.resize(length, 0x5A);
        self.script.hear(unit, &bytes);
    }

    pub fn hear_control(&mut self) {
        let unit = self.unit_number();
        let address = if self.dice.chance(80) { (unit % 32) as u8 } else { self.address() };
        let cell = self.processor_cell(address);
        self.hear_nearly(unit, &framed(&cell));
    }

    /// A processor hands a cell in, mostly for a declared unit, its own too.
    pub fn hand(&mut self) {
        let (unit, address) = (self.unit_number(), self.address());
        let mut bytes = self.processor_cell(address).to_vec();
        let length = self.length(56) as usize;
        bytes.resize(length, 0x5A);
        self.script.hand(unit, &bytes);
    }

    pub fn collect(&mut self) {
        let (unit, length) = (self.unit_number(), self.length(56));
        self.script.say(&format!("collect {unit} {length}"));
    }

    /// A loopback test from one unit over a second to a third, with as many frames as it takes alone, or some more.
    pub fn trip(&mut self) {
        let [from, over, to] = [0; 3].map(|_| self.address());
        let mut cell = self.processor_cell(over);
        cell[..2].copy_from_slice(&loopback_routing(over).to_be_bytes());
        cell[2] = to;
        self.script.hand(from.into(), &cell);
        for _ in 0..self.dice.between(4, 9) {
            self.script.frames(1);
            if self.dice.chance(20) {
                self.hear_control();
            }
        }
        self.script.collect(to.into());
        self.script.say(&format!("count {over}"));
    }

    /// Where a processor's cell goes: mostly a declared unit, at times any address.
    fn address(&mut self) -> u8 {
        match self.dice.roll(10) {
            _ if self.draft.units.is_empty() => self.dice.byte(),
            0 => {
                let near = self.dice.roll(40) as u8;
                self.dice.pick(&[near, 15, 16, 31, 32, 255])
            }
            _ => self.unit().number,
        }
    }

    /// A cell as a processor hands it in, of any kind; the tandem byte mostly names a declared unit too.
    pub fn processor_cell(&mut self, address: u8) -> [u8; 56] {
        let routing = match self.dice.roll(24) {
            0..=9 => control_routing(address),
            10..=18 => loopback_routing(address),
            19 => {
                // Any class and address with a right check.
                let upper = 0xC00 | self.dice.roll(1_024) as u16;
                upper << 4 | routing_check(upper)
            }
            20 => {
                let routing = self.dice.pick(&[control_routing(address), loopback_routing(address)]);
                routing ^ 1 << self.dice.roll(12)
            }
            // Data, or any routing header at all.
            _ => {
                let bytes = self.bus_frame(address.into());
                u16::from_be_bytes([bytes[0], bytes[1]])
            }
        };
        let mut cell = [0; 56];
        cell[..2].copy_from_slice(&routing.to_be_bytes());
        cell[2] = self.address();
        cell[3] = if self.dice.chance(30) { self.dice.byte() } else { 0 };
        // Any VPI and CLP, as neither is looked at but in data.
        let vpi = self.dice.pick(&[1, 255, 256, 4_095]);
        let header = Header { vpi, vci: self.dice.roll(65_536) as u16, tail: self.dice.roll(16) as u8 };
        cell[4..8].copy_from_slice(&header.write(Link::Nni));
        cell[8..].copy_from_slice(&self.payload());
        cell
    }

    /// A frame mostly for this unit, with a right parity.
    pub fn bus_frame(&mut self, unit: u64) -> [u8; 57] {
        let class = self.dice.roll(4) as u8;
        let unit = (unit % 32) as u8;
        let other = self.dice.roll(32) as u8;
        let routing = |target| Routing { target, class }.encode();
        let routing = match self.dice.roll(20) {
            0..=8 => routing(Target::Unit(unit)),
            9..=10 => routing(Target::Unit(other)),
            11..=14 => routing(Target::Session(self.dice.pick(&SESSIONS))),
            15..=16 => routing(Target::Broadcast),
            17 => self.dice.roll(65_536) as u16,
            _ => {
                // Any kind and address with a right check.
                let upper = self.dice.roll(4_096) as u16;
                upper << 4 | routing_check(upper)
            }
        };
        let vpi = if self.dice.chance(15) { self.dice.between(250, 4_095) } else { self.dice.roll(256) };
        let header = Header { vpi: vpi as u16, vci: self.dice.roll(65_536) as u16, tail: self.tail() };
        let tandem = if self.dice.chance(20) { [self.dice.byte(), self.dice.byte()] } else { [0, 0] };
        frame(routing, tandem, header, &self.payload())
    }
}
