//! Anything may come in: nothing panics, and the counters add up.

mod common;

use common::{bus_cell, cell, frame, framed, header, tabs, to_all, to_session, to_unit, Rig};
use independent::bench::run;
use independent::codec::{control_routing, loopback_routing, Header, Link};
use independent::{load, Card, Counters, Shelf, Taking};

/// A small generator of numbers, the same in every run.
struct Dice(u64);

impl Dice {
    fn roll(&mut self, sides: u64) -> u64 {
        self.0 = self.0.wrapping_mul(6_364_136_223_846_793_005).wrapping_add(1_442_695_040_888_963_407);
        (self.0 >> 33) % sides
    }

    fn pick<T: Copy>(&mut self, choices: &[T]) -> T {
        choices[self.roll(choices.len() as u64) as usize]
    }
}

const TABLE: &str = "\
bus 32
unit 1 uni 7 3 four 3 2 2 1
unit 20 nni 7 3 one 0 0 4 1
unit 9 uni 7 1 one 0 0 123 0
vp 1 1 u20 1 300
vp 1 2 b 0 7
vp 1 3 m5 2 7
vp 20 1 u1 1 256
vp 20 2 u9 3 255
drop 20 3
vp 20 4 u30 3 255
page 9 5 9
vc 9 5 5 u1 2 9 9
vc 9 5 6 b 3 999 9
mc 1 5
mc 9 5
";

/// Hand-ins and takes that were not refused nor empty, by row: what the counters do not name.
#[derive(Default)]
struct Known {
    handed: [u32; 3],
    taken: [u32; 3],
}

/// A cell of any kind for any of the units, at times any bytes' nonsense.
fn any_cell(dice: &mut Dice) -> [u8; 56] {
    let (random, unit) = (dice.roll(65_536) as u16, dice.pick(&[1, 20, 9, 2]));
    let routing =
        [random, to_unit(unit, 1), to_all(2), to_session(5, 0), control_routing(unit), loopback_routing(unit)];
    let tandem = [dice.pick(&[1, 20, 9, 2, 32]), dice.roll(256) as u8];
    bus_cell(dice.pick(&routing), tandem, header(dice.roll(512) as u16, 1, 1), 1)
}

/// One random event; gives nothing, as only the counters are judged.
fn event(rig: &mut Rig, dice: &mut Dice, known: &mut Known) {
    let unit = dice.pick(&[1, 20, 9, 2]);
    let row = [1, 20, 9, 2].iter().position(|other| *other == unit).expect("one of them");
    match dice.roll(20) {
        0..=9 => {
            let mut bytes = cell(header(dice.roll(9) as u16, dice.roll(12) as u16, dice.roll(16) as u8), 1);
            bytes[4] ^= u8::from(dice.roll(9) == 0);
            let _ = rig.arrive(unit, &bytes);
        }
        10 => {
            rig.frame();
        }
        11..=13 => {
            let random = dice.roll(65_536) as u16;
            let routing = dice.pick(&[random, to_unit(unit as u8, 1), to_all(2), to_session(5, 0)]);
            let _ = rig.hear(unit, &frame(routing, header(dice.roll(512) as u16, 1, 1), 1));
        }
        14 => {
            let _ = rig.hear(unit, &framed(&any_cell(dice)));
        }
        15..=16 => {
            if rig.hand(unit, &any_cell(dice)).is_ok() {
                known.handed[row] += 1;
            }
        }
        17 => {
            let mut buffer = [0; 56];
            let taking = rig.shelf.collect(unit, &mut buffer, &rig.store, &mut rig.rows);
            if taking == Ok(Taking::Taken) {
                known.taken[row] += 1;
            }
        }
        _ => {
            let mut buffer = [0; 53];
            let taking = rig.shelf.take(unit, &mut buffer, &rig.store, &mut rig.rows);
            if taking == Ok(Taking::Taken) {
                known.taken[row] += 1;
            }
        }
    }
}

/// Runs the bus until two frames in a row neither send nor grant, then empties the outlets.
fn drain(rig: &mut Rig, known: &mut Known) {
    let mut idle = 0;
    while idle < 2 {
        let sent = rig.frame().0;
        idle = if sent.sender.is_none() && sent.granted.is_none() { idle + 1 } else { 0 };
    }
    for (unit, taken) in [1, 20, 9].into_iter().zip(&mut known.taken) {
        while rig.take(unit).is_some() || rig.collect(unit).is_some() {
            *taken += 1;
        }
    }
}

#[test]
fn counters_add_up_over_random_events() {
    let (mut totals, mut moves) = ([0; 13], 0);
    for seed in 0..40 {
        let (mut dice, mut rig, mut known) = (Dice(seed), Rig::wide(TABLE), Known::default());
        for _ in 0..3_000 {
            event(&mut rig, &mut dice, &mut known);
            if dice.roll(50) == 0 {
                let place = dice.roll(400) as usize;
                rig.memory[place] = dice.roll(256) as u8;
            }
        }
        drain(&mut rig, &mut known);
        for (row, (handed, taken)) in rig.rows.iter().zip(known.handed.into_iter().zip(known.taken)) {
            let routed = row.arrived - row.hec - row.ignored - row.misrouted - row.inletfull;
            // What was taken by nobody moved on to be sent again.
            let moved = row.taken - taken;
            moves += moved;
            assert_eq!(row.sent, routed + handed + moved);
            assert_eq!(row.queued, row.taken);
            assert!(row.unheard <= row.sent);
            for (total, counter) in totals.iter_mut().zip(row.list()) {
                *total += counter;
            }
        }
    }
    // The events were many enough to bump every counter.
    assert!(totals.iter().all(|total| *total > 100) && moves > 100, "{totals:?} {moves}");
}

const WORDS: [&str; 25] = [
    "bus",
    "unit",
    "vp",
    "drop",
    "page",
    "vc",
    "mc",
    "uni",
    "nni",
    "one",
    "four",
    "u1",
    "m3",
    "b",
    "0",
    "1",
    "2",
    "3",
    "16",
    "32",
    "255",
    "99999999999999999999",
    "",
    "x",
    "\u{FF}",
];

#[test]
fn random_tables_are_judged() {
    for seed in 0..20_000 {
        let mut dice = Dice(seed);
        let mut text = if dice.roll(4) > 0 { "bus\t32\nunit\t1\tnni\t3\t1\tone\t0\t0\t1\t0\n" } else { "" }.to_string();
        for _ in 0..dice.roll(40) {
            text += dice.pick(&WORDS);
            text += dice.pick(&["\t", "\t", "\t", "\n"]);
        }
        let mut memory = vec![1; dice.roll(100) as usize];
        let mut rows = [Counters::default(); 1];
        let card = dice.pick(&[Card::Narrow, Card::Wide]);
        let (shelf, outcome) = load(card, text.as_bytes(), &mut memory, 8_192, &mut rows);
        if outcome.is_err() {
            assert_eq!(shelf, Shelf::fresh(card));
            assert!(memory.iter().all(|byte| *byte == 0));
        }
    }
}

#[test]
fn bench_survives_random_bytes() {
    let table = tabs("bus 16\nunit 0 uni 1 1 one 0 0 1 0\nvp 0 1 u0 1 1\n");
    let pieces: [&[u8]; 10] = [b"arrive", b"frame", b"take", b"\t", b"\n", b"0", b"0010000000", b"A5", b"\xFF", b"\r"];
    for seed in 0..2_000 {
        let mut dice = Dice(seed);
        let mut events = Vec::new();
        for _ in 0..dice.roll(200) {
            events.extend_from_slice(dice.pick(&pieces));
        }
        let mut out = Vec::new();
        run(table.as_bytes(), &mut &events[..], &mut out).expect("writing to memory");
        // One line for the table and one for each line of input.
        let lines = events.split_inclusive(|byte| *byte == b'\n').count();
        assert_eq!(out.iter().filter(|byte| **byte == b'\n').count(), lines + 1);
    }
}

#[test]
fn console_survives_random_lines() {
    let pieces: [&[u8]; 25] = [
        b"hand", b"collect", b"56", b"card", b"wide", b"narrow", b"lend", b"memory", b"store", b"rows", b"load",
        b"arrive", b"hear", b"frame", b"take", b"count", b"poke", b"state", b"unit", b"show", b"805", b"53", b"0",
        b"AB", b"\xFF",
    ];
    for seed in 0..2_000 {
        let mut dice = Dice(seed);
        let mut input = Vec::new();
        for _ in 0..dice.roll(200) {
            input.extend_from_slice(dice.pick(&pieces));
            input.extend_from_slice(dice.pick(&[b"\t", b"\t", b"\n"]));
        }
        let mut out = Vec::new();
        independent::console::run(&mut &input[..], &mut out).expect("writing to memory");
        let lines = input.split_inclusive(|byte| *byte == b'\n').count();
        assert_eq!(out.iter().filter(|byte| **byte == b'\n').count(), lines);
    }
}

#[test]
fn gfc_0_wins_over_a_vpi_above_255() {
    let wide = Header { vpi: 0xABC, vci: 0x1234, tail: 5 };
    assert_eq!(wide.write(Link::Uni), [0x0B, 0xC1, 0x23, 0x45]);
    assert_eq!(wide.write(Link::Nni), [0xAB, 0xC1, 0x23, 0x45]);
}
