//! The traffic through this program. independent/pace/main.c does the same through the proved shelf:
//!
//! 1. The table is loaded `LOADS` times, all in one batch of the clock.
//! 2. One cell arrives at each unit, and one frame follows.
//! 3. Rounds, each of three batches: `EACH` arrivals at each unit, as many frames, the takes of all cells.
//! 4. Rounds, each of a batch in which each unit hears the last frame `EACH` times, and, not timed, takes of each unit
//!    until it is empty.
//! 5. Rounds, each of a batch of `EACH` counts of each unit.
//!
//! Every answer goes into the sum in the order of the calls, at last every byte of the state.

use super::clock::Counted;
use super::plan::{Plan, EACH, LOADS};
use crate::codec::header_check;
use crate::{load, Arrival, Card, Counters, Hearing, Refused, SentFrame, Shelf, Taking};
use crate::{CELL_BYTES, FRAME_BYTES, STORE_PER_UNIT, UNITS_MAX};

const MEMORY_BYTES: usize = 16_384;
const STORE_BYTES: usize = UNITS_MAX * STORE_PER_UNIT;
const NOBODY: u8 = 255;

/// Runs a plan from its table to the counters.
pub fn run(plan: Plan, clock: fn() -> u64) -> Counted {
    let mut bench = Bench::loaded(plan, clock);
    bench.run_rounds();
    bench.hear_rounds();
    bench.count_rounds();
    bench.mix_state();
    bench.counted.thousand_readings = bench.thousand_readings();
    bench.counted
}

/// The counter rows that the rounds of a plan leave, and those that the hearings after them leave.
pub fn counters_after(plan: Plan) -> [Vec<Counters>; 2] {
    let mut bench = Bench::loaded(plan, || 0);
    bench.run_rounds();
    let rounds = bench.rows.clone();
    bench.hear_rounds();
    [rounds, bench.rows]
}

struct Bench {
    plan: Plan,
    clock: fn() -> u64,
    shelf: Shelf,
    memory: Vec<u8>,
    store: Vec<u8>,
    rows: Vec<Counters>,
    cell: [u8; CELL_BYTES],
    buffer: [u8; FRAME_BYTES],
    out: [u8; CELL_BYTES],
    counted: Counted,
}

impl Bench {
    fn loaded(plan: Plan, clock: fn() -> u64) -> Bench {
        let mut bench = Bench {
            plan,
            clock,
            shelf: Shelf::fresh(Card::Wide),
            memory: vec![0; MEMORY_BYTES],
            store: vec![0; STORE_BYTES],
            rows: vec![Counters::default(); UNITS_MAX],
            cell: cell_of(plan.traffic.vpi()),
            buffer: [0; FRAME_BYTES],
            out: [0; CELL_BYTES],
            counted: Counted::default(),
        };
        bench.counted.load = bench.loads();
        bench
    }

    /// The table is loaded again and again; gives what the clock counted.
    fn loads(&mut self) -> u64 {
        let table = self.plan.table();
        let start = (self.clock)();
        for _ in 0..LOADS {
            let (shelf, outcome) = load(Card::Wide, table.as_bytes(), &mut self.memory, STORE_BYTES, &mut self.rows);
            self.shelf = shelf;
            self.mix(outcome.map_or_else(|refusal| refused_code(refusal.number().into()), |used| used as u64));
        }
        (self.clock)() - start
    }

    fn run_rounds(&mut self) {
        // One cell stays in each inlet, and the first grant is given: from here on each frame has a sender.
        self.arrivals(1);
        self.frames(1);
        for round in 0..self.plan.rounds {
            self.cell[52] = (round % 256) as u8;
            self.counted.arrive += self.arrivals(EACH);
            self.counted.frame += self.frames(self.plan.cells());
            self.counted.take += self.takes();
        }
    }

    fn mix(&mut self, code: u64) {
        self.counted.sum = mixed(self.counted.sum, code);
    }

    /// So many cells arrive at each unit in turn; gives what the clock counted.
    fn arrivals(&mut self, each: u8) -> u64 {
        let start = (self.clock)();
        for _ in 0..each {
            for unit in 0..self.plan.units {
                self.cell[5] = unit;
                let answer = self.shelf.arrive(unit.into(), &self.cell, &self.memory, &mut self.store, &mut self.rows);
                self.mix(answer.map_or_else(refusal_code, arrival_code));
            }
        }
        (self.clock)() - start
    }

    fn frames(&mut self, times: u64) -> u64 {
        let start = (self.clock)();
        for _ in 0..times {
            let answer = self.shelf.frame(&mut self.buffer, &mut self.store, &mut self.rows);
            self.mix(answer.map_or_else(refusal_code, frame_code));
            self.mix(self.buffer[56].into());
        }
        (self.clock)() - start
    }

    /// Every cell is taken, unit by unit: each call gives a cell.
    fn takes(&mut self) -> u64 {
        let start = (self.clock)();
        for unit in 0..self.plan.units {
            for _ in 0..self.plan.held(unit) {
                self.take(unit);
            }
        }
        (self.clock)() - start
    }

    /// Gives whether there was a cell. Taken in, as the stack is counted from its caller on.
    #[inline(always)]
    fn take(&mut self, unit: u8) -> bool {
        let answer = self.shelf.take(unit.into(), &mut self.out, &self.store, &mut self.rows);
        self.mix(answer.map_or_else(refusal_code, taking_code));
        self.mix(cell_code(&self.out));
        answer == Ok(Taking::Taken)
    }

    /// Frames handed in from outside: the last one sent, at each unit in turn. What they queue is taken before the
    /// next round.
    fn hear_rounds(&mut self) {
        for _ in 0..self.plan.rounds {
            self.counted.hear += self.hearings();
            for unit in 0..self.plan.units {
                while self.take(unit) {}
            }
        }
    }

    fn hearings(&mut self) -> u64 {
        let start = (self.clock)();
        for _ in 0..EACH {
            for unit in 0..self.plan.units {
                let answer = self.shelf.hear(unit.into(), &self.buffer, &mut self.store, &mut self.rows);
                self.mix(answer.map_or_else(refusal_code, hearing_code));
            }
        }
        (self.clock)() - start
    }

    fn count_rounds(&mut self) {
        for _ in 0..self.plan.rounds {
            self.counted.count += self.counts();
        }
    }

    fn counts(&mut self) -> u64 {
        let start = (self.clock)();
        for _ in 0..EACH {
            for unit in 0..self.plan.units {
                match self.shelf.count(unit.into(), STORE_BYTES, &self.rows) {
                    Ok(row) => [row.arrived, row.inletfull, row.sent, row.queued, row.full, row.taken]
                        .into_iter()
                        .for_each(|counter| self.mix(counter.into())),
                    Err(refused) => self.mix(refusal_code(refused)),
                }
            }
        }
        (self.clock)() - start
    }

    /// What the run left is compared too.
    fn mix_state(&mut self) {
        let state = self.shelf.state;
        state.bytes().iter().for_each(|byte| self.mix((*byte).into()));
    }

    fn thousand_readings(&self) -> u64 {
        let start = (self.clock)();
        (0..1000).fold(start, |_, _| (self.clock)()) - start
    }
}

/// A cell of this VPI, VCI 1.
fn cell_of(vpi: u8) -> [u8; CELL_BYTES] {
    let header = (u32::from(vpi) << 20 | 16).to_be_bytes();
    let mut cell = [165; CELL_BYTES];
    cell[..4].copy_from_slice(&header);
    cell[4] = header_check(header);
    cell
}

/// Below 2 to the 56th, times 31, leaves room for any code.
fn mixed(sum: u64, code: u64) -> u64 {
    sum % (1 << 56) * 31 + code
}

/// What is refused has a code above all others.
fn refused_code(number: u64) -> u64 {
    (1 << 40) + number
}

fn refusal_code(refused: Refused) -> u64 {
    refused_code(refused.number().into())
}

fn arrival_code(fate: Arrival) -> u64 {
    match fate {
        Arrival::Hec => 1,
        Arrival::Ignored => 2,
        Arrival::Misrouted => 3,
        Arrival::InletFull => 4,
        Arrival::Queued => 5,
    }
}

fn hearing_code(fate: Hearing) -> u64 {
    match fate {
        Hearing::Damaged => 1,
        Hearing::Other => 2,
        Hearing::Wide => 3,
        Hearing::Full => 4,
        Hearing::Clp => 5,
        Hearing::Queued => 6,
    }
}

fn frame_code(frame: SentFrame) -> u64 {
    let sender = u64::from(frame.sender.unwrap_or(NOBODY));
    let granted = u64::from(frame.granted.unwrap_or(NOBODY));
    (frame.copies as u64) << 32 | granted << 24 | sender << 16 | u64::from(frame.number)
}

fn taking_code(taking: Taking) -> u64 {
    u64::from(taking == Taking::Taken)
}

/// Header, check, and the two bytes of the payload that say whose cell it is.
fn cell_code(cell: &[u8; CELL_BYTES]) -> u64 {
    [0, 1, 2, 3, 4, 5, 52].into_iter().fold(0, |code, at| code << 8 | u64::from(cell[at]))
}
