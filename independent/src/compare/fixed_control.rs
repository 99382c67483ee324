//! Fixed scripts of request W1: control and loopback cells.

use super::fixed::stage;
use super::script::{cell, frame, framed, processor_cell, to_unit, Script};
use super::settings::set;
use crate::codec::{control_routing, loopback_routing, routing_check, Header, Link, Routing, Target};

#[rustfmt::skip]
pub const SCRIPTS: [fn(&mut Script); 15] = [
    update, loopback_test, loopback_of_all, full_control_outlet, full_loopback_outlet, busy_place, waiting_inlet,
    sending_order, other_kinds, addresses, tandem_bytes, refused, poked_places, kind_3_route, on_a_32_bus,
];

/// Units 0 and 3, as in document 01's listing; each has a VPI to the other.
const PAIR: &str = "\
bus 16
unit 0 uni 5 2 one 0 0 100 0
unit 3 uni 5 1 four 40 30 20 1
vp 0 1 u3 2 9
vp 3 1 u0 1 9
mc 3 17
";

/// Lower and upper half of a 32 bus, an NNI link among them.
const FOUR: &str = "\
bus 32
unit 20 nni 5 2 one 0 0 2 1
unit 3 uni 5 1 four 40 30 20 1
unit 31 uni 5 3 one 0 0 1 0
unit 0 uni 5 2 four 1 1 1 0
vp 20 1 u3 1 300
vp 3 1 b 0 9
mc 0 17
mc 20 17
";

fn control(unit: u8, payload: u8) -> [u8; 56] {
    processor_cell(control_routing(unit), [0xC5, 0x5C], payload)
}

/// To a unit, and from there to the one of the tandem byte.
fn loopback(unit: u8, tandem: u8, payload: u8) -> [u8; 56] {
    processor_cell(loopback_routing(unit), [tandem, 0x5C], payload)
}

/// A data cell arrives that unit 0 or 3 routes to the other.
fn arrive(script: &mut Script, unit: u64, payload: u8) {
    script.arrive(unit, &cell(Header { vpi: 1, vci: 5, tail: 0 }.write(Link::Uni), &[payload; 48]));
}

/// What may have changed of the two units.
fn look(script: &mut Script) {
    for line in ["show unit 0", "show unit 3", "count 0", "count 3", "show state"] {
        script.say(line);
    }
}

/// An update as control cells from unit 0's processor to unit 3's.
fn update(script: &mut Script) {
    stage(script, PAIR);
    for number in 1..=6 {
        script.hand(0, &control(3, number));
        script.frames(2);
        if number % 3 == 0 {
            (0..4).for_each(|_| script.collect(3));
        }
    }
    look(script);
    script.show_all();
}

/// A test of unit 3 from unit 0: out, moved, back, collected.
fn loopback_test(script: &mut Script) {
    stage(script, PAIR);
    script.hand(0, &loopback(3, 0, 0x5A));
    for _ in 0..4 {
        script.frames(1);
        look(script);
    }
    script.collect(0);
    script.collect(3);
    script.show_all();
}

/// Each unit over each unit to each, its own processor's too.
fn loopback_of_all(script: &mut Script) {
    for table in [PAIR, FOUR] {
        stage(script, table);
        let units: &[u8] = if table == PAIR { &[0, 3] } else { &[20, 3, 31, 0] };
        for (from, over) in units.iter().flat_map(|from| units.iter().map(move |over| (*from, *over))) {
            for to in units {
                script.hand(from.into(), &loopback(over, *to, from ^ over << 3));
                script.frames(8);
                script.collect((*to).into());
            }
            script.say(&format!("count {over}"));
        }
        script.show_all();
    }
}

/// Cell 4 is queued, cell 5 is full; the ring goes round.
fn full_control_outlet(script: &mut Script) {
    stage(script, PAIR);
    for first in [1, 11, 21] {
        for payload in first..first + 6 {
            script.hear(3, &framed(&control(3, payload)));
        }
        script.hand(0, &control(3, first + 6));
        script.frames(2);
        look(script);
        for payload in [first + 7, first + 8] {
            script.collect(3);
            script.hear(3, &framed(&control(3, payload)));
        }
        (0..5).for_each(|_| script.collect(3));
        script.hear(3, &framed(&control(3, first + 9)));
    }
    script.show_all();
}

/// The second loopback cell is full, heard or sent; the first moves.
fn full_loopback_outlet(script: &mut Script) {
    stage(script, PAIR);
    script.hear(3, &framed(&loopback(3, 0, 1)));
    script.hear(3, &framed(&loopback(3, 0, 2)));
    look(script);
    // Data keeps the inlet waiting, so that the next stays in the outlet.
    (1..=4).for_each(|payload| arrive(script, 3, payload));
    script.frames(1);
    script.hear(3, &framed(&loopback(3, 0, 3)));
    script.hear(3, &framed(&loopback(3, 0, 4)));
    script.hand(0, &loopback(3, 0, 5));
    for _ in 0..10 {
        script.frames(1);
        look(script);
    }
    (0..5).for_each(|_| script.collect(0));
    script.show_all();
}

/// The place is taken until its cell is sent, granted or not; Length goes before Busy, Unit before both.
fn busy_place(script: &mut Script) {
    stage(script, PAIR);
    script.hand(0, &control(3, 1));
    for frame in 0..4 {
        script.hand(0, &control(3, 2 + frame));
        script.hand(0, &[0; 55]);
        script.hand(0, &[0; 57]);
        script.hand(0, &[]);
        script.hand(1, &control(3, 9));
        script.hand(1, &[]);
        script.hand(3, &control(0, 3));
        look(script);
        script.say("show store");
        script.frames(1);
    }
    (0..4).for_each(|_| script.collect(3));
    script.show_all();
}

/// A moved cell's inlet counts as taken at the start of the frame that sends it.
fn waiting_inlet(script: &mut Script) {
    stage(script, PAIR);
    for payload in 1..=9 {
        script.hear(3, &framed(&loopback(3, 0, payload)));
        look(script);
        script.say("show store");
        script.frames(1);
    }
    script.frames(3);
    script.say("frame 56");
    (0..5).for_each(|_| script.collect(0));
    script.show_all();
}

/// Data, then control, then loopback, chosen when it is sent and not when it is granted.
fn sending_order(script: &mut Script) {
    for when in 0..4 {
        stage(script, PAIR);
        script.hear(3, &framed(&loopback(3, 0, 1)));
        script.frames(1);
        for step in 0..4 {
            if step == when {
                script.hand(3, &control(0, 2));
            }
            if step == when % 3 {
                arrive(script, 3, 3);
                arrive(script, 3, 4);
            }
            script.frames(1);
            look(script);
        }
        script.hand(3, &control(0, 5));
        script.frames(1);
        arrive(script, 3, 6);
        script.frames(4);
        (0..4).for_each(|_| script.collect(0));
        script.show_all();
    }
}

/// Data from the processor: unicast, sessions, broadcast, wide, full, CLP, and damaged ones.
fn other_kinds(script: &mut Script) {
    for table in [PAIR, FOUR] {
        stage(script, table);
        let targets = [Target::Unit(3), Target::Unit(0), Target::Unit(9), Target::Session(17), Target::Session(18)];
        for (target, class) in
            targets.into_iter().chain([Target::Broadcast]).flat_map(|target| (0..4).map(move |class| (target, class)))
        {
            for (vpi, tail, wrong) in [(255, 0, 0), (256, 0, 0), (1, 1, 0), (1, 0, 0), (1, 0, 1), (1, 0, 0x10)] {
                let header = Header { vpi, vci: 5, tail };
                let routing = Routing { target, class }.encode() ^ wrong;
                script.hand(0, &frame(routing, [0xDE, 0xAD], header, &[0x77; 48])[..56]);
                script.frames(2);
            }
        }
        for unit in [0, 3] {
            (0..6).for_each(|_| script.say(&format!("take {unit} 53")));
            script.collect(unit);
        }
        look(script);
        script.show_all();
    }
}

/// Every class and address of kind 3, on both buses.
fn addresses(script: &mut Script) {
    for table in [PAIR, FOUR] {
        stage(script, table);
        for upper in 0xC00..=0xFFF_u16 {
            let routing = upper << 4 | routing_check(upper);
            script.hear(3, &framed(&processor_cell(routing, [0, 0], upper as u8)));
            if upper % 32 == 3 {
                script.hear(3, &framed(&processor_cell(routing ^ 1, [0, 0], upper as u8)));
                script.collect(3);
                script.frames(2);
            }
        }
        look(script);
        script.show_all();
    }
}

/// Every first tandem byte of a control and of a loopback cell, and the second that is never judged.
fn tandem_bytes(script: &mut Script) {
    for table in [PAIR, FOUR] {
        stage(script, table);
        for tandem in 0..=255 {
            for routing in [control_routing(3), loopback_routing(3), loopback_routing(9)] {
                script.hear(3, &framed(&processor_cell(routing, [tandem, 255 - tandem], tandem)));
            }
            // Sent, it is damaged at every unit.
            if tandem % 8 < 2 {
                script.hand(0, &loopback(3, tandem, 7));
                script.frames(4);
                script.collect(3);
            }
        }
        look(script);
        script.show_all();
    }
}

/// Lengths and units that hand and collect refuse, and that a refused frame moves nothing.
fn refused(script: &mut Script) {
    stage(script, PAIR);
    script.hear(3, &framed(&loopback(3, 0, 1)));
    script.hear(3, &framed(&control(3, 2)));
    for length in [0, 1, 53, 55, 56, 57, 112, 1_000] {
        for unit in ["0", "3", "1", "16", "32", "255", "256", "259", "4294967299", "18446744073709551619"] {
            script.say_bytes(&format!("hand {unit}"), &vec![0xC0; length]);
            script.say(&format!("collect {unit} {length}"));
        }
    }
    for length in [0, 56, 58] {
        script.say(&format!("frame {length}"));
        script.say("show state");
    }
    for line in ["lend store 16383 00", "lend store 16384 00", "lend rows 1 0", "lend rows 2 4294967295"] {
        script.say(line);
        script.hand(0, &control(3, 3));
        script.collect(3);
        script.frames(1);
        script.say("show rows");
    }
    script.show_all();
}

/// Every place of the store poked, so that what is moved, sent and collected is known by its slot.
fn poked_places(script: &mut Script) {
    for card in ["card wide", "card narrow"] {
        stage(script, PAIR);
        script.say(card);
        for (place, slot) in [0, 1].into_iter().flat_map(|place| (123..=134).map(move |slot| (place, slot))) {
            let bytes = [(16 * place + slot) as u8; 56];
            script.say_bytes(&format!("poke store {}", 8_192 * place + 56 * slot), &bytes);
        }
        for setting in [
            "inlethead 0 3",
            "inletcount 0 2",
            "controlin 0 1",
            "loopbackin 0 1",
            "loopbackout 0 1",
            "controlhead 0 2",
            "controlcount 0 4",
            "loopbackout 1 1",
            "controlhead 1 3",
            "controlcount 1 3",
        ] {
            set(script, setting);
        }
        for _ in 0..12 {
            script.frames(1);
            ["collect 0 56", "collect 3 56", "show store"].iter().for_each(|line| script.say(line));
            look(script);
        }
        // Cells that say whom they are for, back from every tandem byte.
        for tandem in 0..=255 {
            script.say_bytes(&format!("poke store {}", 8_192 + 56 * 133), &loopback(9, tandem, tandem));
            set(script, "loopbackout 1 1");
            script.frames(2);
            script.say("collect 0 56");
            script.say("collect 3 56");
        }
        script.show_all();
    }
}

/// A route that no table gives: the arrival leaves as a control cell, or as a loopback cell with tandem byte 0.
fn kind_3_route(script: &mut Script) {
    for card in ["card wide", "card narrow"] {
        for routing in [control_routing(3), loopback_routing(3), loopback_routing(0), control_routing(3) ^ 2, 0xE030] {
            stage(script, "bus 16\n");
            script.say(card);
            script.load(PAIR.replace(' ', "\t").as_bytes());
            script.say_bytes("poke memory 9", &routing.to_be_bytes());
            for payload in 1..=3 {
                arrive(script, 0, payload);
            }
            for _ in 0..8 {
                script.frames(1);
                look(script);
            }
            for unit in [0, 3] {
                script.say(&format!("take {unit} 53"));
                (0..4).for_each(|_| script.collect(unit));
            }
            script.show_all();
        }
    }
}

/// Moves in every frame, requests in every other.
fn on_a_32_bus(script: &mut Script) {
    for start in [0, 1, 65_535] {
        stage(script, FOUR);
        set(script, &format!("frame 0 {start}"));
        for round in 0..4 {
            for (unit, to) in [(20, 3), (3, 31), (31, 0), (0, 20)] {
                script.hear(unit.into(), &framed(&loopback(unit, to, 16 * round + unit)));
                script.hand(unit.into(), &control(to, 16 * round + to));
            }
            script.hear(20, &frame(to_unit(20, 1), [0, 0], Header { vpi: 300, vci: 5, tail: 1 }, &[round; 48]));
            for _ in 0..=2 * round {
                script.frames(1);
                script.say("show state");
            }
        }
        for unit in [20, 3, 31, 0] {
            (0..5).for_each(|_| script.collect(unit));
            script.say(&format!("show unit {unit}"));
        }
        script.show_all();
    }
}
