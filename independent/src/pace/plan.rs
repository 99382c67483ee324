//! What is run: how many units, which queues, which traffic.

use std::fmt::Write;

use crate::outlet::Mode;

/// Cells for each unit in a round: an inlet that always keeps one has room for three.
pub const EACH: u8 = 3;

/// How often the table is loaded.
pub const LOADS: u64 = 100;

/// Arrivals, frames and takes of a run, near enough: so every plan takes about as long.
const EVENTS: u64 = 120_000;

/// Whom every cell is for.
#[derive(Clone, Copy, Debug, PartialEq, Eq)]
pub enum Traffic {
    /// The next unit.
    Unicast,
    /// A session that every second unit hears.
    Multicast,
    /// Every unit.
    Broadcast,
}

impl Traffic {
    pub fn word(self) -> &'static str {
        match self {
            Traffic::Unicast => "unicast",
            Traffic::Multicast => "multicast",
            Traffic::Broadcast => "broadcast",
        }
    }

    /// The VPI that the table routes so.
    pub fn vpi(self) -> u8 {
        match self {
            Traffic::Unicast => 1,
            Traffic::Multicast => 2,
            Traffic::Broadcast => 3,
        }
    }
}

/// One line of work for both programs.
#[derive(Clone, Copy, Debug, PartialEq, Eq)]
pub struct Plan {
    pub units: u8,
    pub mode: Mode,
    pub traffic: Traffic,
    pub rounds: u64,
}

impl Plan {
    /// Everything that is timed, in the order of the table.
    pub fn all() -> Vec<Plan> {
        let mut plans = Vec::new();
        for units in [16, 32] {
            for mode in [Mode::One, Mode::Four] {
                for traffic in [Traffic::Unicast, Traffic::Multicast, Traffic::Broadcast] {
                    plans.push(Plan { units, mode, traffic, rounds: 1 }.lengthened());
                }
            }
        }
        plans
    }

    /// The same with as many rounds as a run times.
    fn lengthened(self) -> Plan {
        let events = 2 * self.cells() + self.takes();
        Plan { rounds: EVENTS / events, ..self }
    }

    pub fn mode_word(self) -> &'static str {
        match self.mode {
            Mode::One => "one",
            Mode::Four => "four",
        }
    }

    /// Arrivals of a round, and frames: each unit gets and sends as many cells. Hearings and counts of a round too.
    pub fn cells(self) -> u64 {
        u64::from(EACH) * u64::from(self.units)
    }

    /// How many cells a round leaves in a unit's outlet.
    pub fn held(self, unit: u8) -> u8 {
        match self.traffic {
            Traffic::Unicast => EACH,
            Traffic::Multicast if unit % 2 == 1 => 0,
            Traffic::Multicast | Traffic::Broadcast => EACH * self.units,
        }
    }

    /// Takes of a round.
    pub fn takes(self) -> u64 {
        (0..self.units).map(|unit| u64::from(self.held(unit))).sum()
    }

    /// The route table: all units at one priority, so that they send in turn.
    pub fn table(self) -> String {
        let mut text = format!("bus\t{}\n", self.units);
        let queues = match self.mode {
            Mode::One => "one\t0\t0\t100\t1",
            Mode::Four => "four\t40\t30\t20\t1",
        };
        for unit in 0..self.units {
            add(&mut text, format_args!("unit\t{unit}\tuni\t5\t2\t{queues}"));
        }
        for unit in 0..self.units {
            // Three classes share the cells: no queue of mode four overflows, three are in use.
            let class = 1 + unit % 3;
            let next = (unit + 1) % self.units;
            add(&mut text, format_args!("vp\t{unit}\t1\tu{next}\t{class}\t7"));
            add(&mut text, format_args!("vp\t{unit}\t2\tm9\t{class}\t7"));
            add(&mut text, format_args!("vp\t{unit}\t3\tb\t{class}\t7"));
            if unit % 2 == 0 {
                add(&mut text, format_args!("mc\t{unit}\t9"));
            }
        }
        text
    }
}

fn add(text: &mut String, line: std::fmt::Arguments) {
    writeln!(text, "{line}").expect("a string takes every line");
}
