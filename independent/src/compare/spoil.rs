//! Random spoiling: of the state, of memory, store and rows, and lines that are no commands.

use super::dice::Dice;
use super::script::{cell, Script};
use super::settings::{byte_of, set};
use super::states::{loaded, made};
use super::tables::{Draft, DraftUnit, SESSIONS};
use super::traffic::{Traffic, Weights};
use crate::codec::{control_routing, loopback_routing, Header, Link};
use crate::state::{self, ASKS, CONTROL_IN, LOOPBACK_OUT, SHELF, STATE_BYTES};
use crate::UNITS_MAX;

/// A few events after each spoiling.
const AFTER: Weights = Weights { arrive: 30, frame: 34, take: 28, hear: 14, hand: 8, collect: 8, control: 8 };
/// The same where control and loopback cells are what was spoiled.
const AFTER_CONTROL: Weights = Weights { arrive: 4, frame: 50, take: 3, hear: 1, hand: 12, collect: 20, control: 10 };

/// Bytes on either side of what some field may hold.
const EDGES: [u8; 20] = [0, 1, 2, 3, 4, 5, 15, 16, 17, 31, 32, 33, 40, 88, 89, 90, 123, 124, 254, 255];

#[rustfmt::skip]
const NO_COMMANDS: [&str; 54] = [
    "", " ", "bad", "card", "card both", "card wide ", "Card wide", "lend memory 300001 00", "lend memory 5 0",
    "lend store 5 000", "lend rows 41 0", "lend rows 1 4294967296", "lend rows 01 0", "load", "load 0", "load GG",
    "arrive 0", "arrive 0 0", "arrive 00 00", "arrive x 00", "hear 0 ZZ", "frame", "frame 1001", "frame 057",
    "take 0 1001", "take 0", "count", "count -1", "show", "show all", "lend state 5 00", "poke state 2048 00",
    "poke state 2047 0000", "poke state 0 0", "poke state 00 00", "poke state 0", "poke shelf 0 00",
    "state bus 0 16", "show shelf", "show state 0", "show unit", "show unit x", "show unit 00", "show unit 0 0",
    "hand", "hand 0", "hand 0 0", "hand 00 00", "hand x 00", "hand 0 ZZ", "collect 0", "collect 0 1001",
    "collect 0 056", "collect x 56",
];

/// Slots of the control and loopback places of a unit.
const CONTROL_SLOTS: [usize; 7] = [127, 128, 129, 130, 131, 132, 133];

/// Spoils one thing, lets some events see it, and at times mends it.
pub fn spoil(traffic: &mut Traffic) {
    match traffic.dice.roll(33) {
        0..=6 => setting_and_back(traffic),
        7..=8 => grants(traffic),
        9..=10 => any_byte(traffic),
        11..=12 => column_and_back(traffic),
        13..=14 => whole_state(traffic),
        15 => sessions(traffic),
        16..=17 => not_judged(traffic),
        18..=20 => poke_memory(traffic),
        21..=22 => poke_store(traffic),
        23 => lend_again(traffic),
        24 => {
            let card = traffic.dice.pick(&["card narrow", "card wide", "card wide"]);
            traffic.script.say(card);
        }
        25 => no_command(traffic.dice, traffic.script),
        26..=28 => control_and_back(traffic),
        29..=30 => held_cells(traffic),
        31 => poke_route(traffic),
        _ => change_a_line(traffic),
    }
    events(traffic, 5);
}

/// Some events, up to so many.
fn events(traffic: &mut Traffic, most: u64) {
    let events = traffic.dice.between(1, most);
    (0..events).for_each(|_| traffic.event(AFTER));
}

/// Spoils only what both cards have alike.
pub fn spoil_alike(traffic: &mut Traffic) {
    let place = traffic.dice.index(traffic.draft.units.len().max(1));
    match (traffic.draft.units.get(place), traffic.dice.roll(12)) {
        (Some(unit), 0..=2) => {
            let (field, edges, _) = queue_setting(traffic.dice, unit, place);
            let value = traffic.dice.pick(&edges);
            set(traffic.script, &format!("{field} {value}"));
        }
        (_, 3) => mend(traffic),
        (_, 4) => sessions(traffic),
        (_, 5) => not_judged(traffic),
        (Some(_), 8) => {
            let (field, edges, _) = control_setting(traffic.dice, place);
            let value = traffic.dice.pick(&edges);
            set(traffic.script, &format!("{field} {value}"));
        }
        (Some(_), 9..=10) => held_cells(traffic),
        _ => poke_store(traffic),
    }
}

/// Puts a state in place that 01 knows.
pub fn mend(traffic: &mut Traffic) {
    let state = made(traffic.dice, traffic.draft);
    traffic.script.poke(0, state.bytes());
}

/// Cells, grant and request of one unit together, as each bears on the others.
fn grants(traffic: &mut Traffic) {
    let dice = &mut *traffic.dice;
    let place = dice.index(traffic.draft.units.len().max(1));
    let Some(unit) = traffic.draft.units.get(place) else {
        return;
    };
    let (number, priority) = (u64::from(unit.number), u64::from(unit.priority));
    let settings = [
        (format!("inletcount {place}"), dice.pick(&[0, 0, 0, 1, 2, 3])),
        (format!("controlin {place}"), dice.roll(2)),
        (format!("loopbackin {place}"), dice.roll(2)),
        ("granted 0".to_string(), dice.pick(&[number, number, 255])),
        (format!("asks {number}"), dice.pick(&[0, priority, priority, 1, 2, 3])),
        (format!("last {}", priority.clamp(1, 3) - 1), dice.pick(&[number, 255])),
    ];
    settings.iter().for_each(|(field, value)| set(traffic.script, &format!("{field} {value}")));
}

/// One setting on either side of what is sound, then one that is sound by itself.
fn setting_and_back(traffic: &mut Traffic) {
    let (field, edges, back) = setting(traffic.dice, traffic.draft);
    let value = traffic.dice.pick(&edges);
    set(traffic.script, &format!("{field} {value}"));
    events(traffic, 6);
    if traffic.dice.chance(30) {
        traffic.look();
    }
    set(traffic.script, &format!("{field} {back}"));
}

/// A field with its place, values around its edges, and a value of a sound shelf.
fn setting(dice: &mut Dice, draft: &Draft) -> (String, Vec<u64>, u64) {
    if draft.units.is_empty() || dice.chance(25) {
        return shelf_setting(dice, draft);
    }
    let place = dice.index(draft.units.len());
    let unit = &draft.units[place];
    if dice.chance(45) {
        return queue_setting(dice, unit, place);
    }
    let (name, edges, back): (&str, Vec<u64>, u64) = match dice.roll(9) {
        0 => ("number", vec![0, 15, 16, 31, 32, 255, u64::from(draft.units[0].number)], unit.number.into()),
        1 => ("priority", vec![0, 1, 2, 3, 4, 255], unit.priority.into()),
        2 => ("link", vec![0, 1, 1, 2, 255], u64::from(unit.link == Link::Nni)),
        3 => ("mode", vec![0, 1, 2, 255], unit.four.into()),
        4 => ("cbrlength", vec![0, 1, 30, 88, 89, 90, 255], unit.cbr_length.into()),
        5 => ("cbrlimit", vec![0, 1, unit.cbr_length.into(), u64::from(unit.cbr_length) + 1], unit.cbr_limit.into()),
        6 => ("vbrlimit", vec![0, 1, 49, 88, 89, 123, 124, 255], unit.vbr_limit.into()),
        7 => ("top", vec![0, 255, 256, 4_095, 4_096, 65_535], unit.top.into()),
        _ => ("mark", vec![0, 1, 2, 255], unit.mark.into()),
    };
    (format!("{name} {place}"), edges, back)
}

fn shelf_setting(dice: &mut Dice, draft: &Draft) -> (String, Vec<u64>, u64) {
    let count = draft.units.len() as u64;
    let some_unit = draft.units.first().map_or(3, |unit| u64::from(unit.number));
    match dice.roll(6) {
        0 => ("bus 0".to_string(), vec![0, 15, 16, 17, 31, 32, 33, 255], draft.bus.into()),
        1 => ("count 0".to_string(), vec![0, 1, count.saturating_sub(1), count + 1, 32, 33, 255], count),
        2 => ("granted 0".to_string(), vec![0, 15, 16, 31, 32, 254, some_unit, some_unit, some_unit], 255),
        3 => (format!("last {}", dice.roll(3)), vec![0, 15, 16, 31, 32, 254, some_unit, some_unit], 255),
        4 => ("frame 0".to_string(), vec![0, 1, 65_533, 65_534, 65_535], 65_534),
        _ => (format!("asks {}", dice.pick(&[some_unit, some_unit, 0, 31])), vec![1, 2, 3, 4, 255], 0),
    }
}

/// Head or count of a queue or of the inlet, around its capacity.
fn queue_setting(dice: &mut Dice, unit: &DraftUnit, place: usize) -> (String, Vec<u64>, u64) {
    let queue = dice.index(4);
    let length = u64::from(unit.cbr_length);
    let capacity = match (unit.four, queue) {
        (false, 0) => 123,
        (false, _) => 0,
        (true, _) => [2, length, 89 - length, 32][queue],
    };
    let edges = |capacity: u64| vec![0, capacity.saturating_sub(1), capacity, capacity + 1, 255];
    let back = |dice: &mut Dice, capacity: u64| if capacity > 0 { dice.roll(capacity) } else { 0 };
    let field = 4 * place + queue;
    match dice.roll(4) {
        0 => (format!("inlethead {place}"), vec![0, 1, 2, 3, 4, 255], dice.roll(4)),
        1 => (format!("inletcount {place}"), vec![0, 1, 2, 3, 4, 5, 255], dice.roll(5)),
        2 => (format!("queuehead {field}"), edges(capacity), back(dice, capacity)),
        _ => (format!("queuecount {field}"), edges(capacity), back(dice, capacity)),
    }
}

/// One of the control and loopback columns around its edges, and a value of a sound shelf.
fn control_setting(dice: &mut Dice, place: usize) -> (String, Vec<u64>, u64) {
    let (name, edges, highest) = match dice.roll(5) {
        0 => ("controlin", vec![0, 1, 1, 2, 255], 1),
        1 => ("loopbackin", vec![0, 1, 1, 2, 255], 1),
        2 => ("controlhead", vec![0, 1, 2, 3, 4, 255], 3),
        3 => ("controlcount", vec![0, 1, 3, 4, 5, 255], 4),
        _ => ("loopbackout", vec![0, 1, 1, 2, 255], 1),
    };
    (format!("{name} {place}"), edges, dice.roll(highest + 1))
}

fn control_events(traffic: &mut Traffic, most: u64) {
    let events = traffic.dice.between(1, most);
    (0..events).for_each(|_| traffic.event(AFTER_CONTROL));
}

/// A control or loopback column on either side of what is sound, then a sound value.
fn control_and_back(traffic: &mut Traffic) {
    let place = traffic.dice.index(traffic.draft.units.len().max(1));
    let (field, edges, back) = control_setting(traffic.dice, place);
    let value = traffic.dice.pick(&edges);
    set(traffic.script, &format!("{field} {value}"));
    control_events(traffic, 6);
    set(traffic.script, &format!("{field} {back}"));
    control_events(traffic, 3);
}

/// Cells put into the store and the state at once, so that they are moved, sent and collected whatever they say.
fn held_cells(traffic: &mut Traffic) {
    let place = traffic.dice.index(traffic.draft.units.len().max(1));
    for _ in 0..traffic.dice.between(1, 3) {
        let slot = traffic.dice.pick(&[127, 128, 133, 133, 129, 132]);
        let bytes = control_bytes(traffic, place);
        traffic.script.say_bytes(&format!("poke store {}", 8_192 * place + 56 * slot), &bytes);
        let held = match slot {
            127 => format!("controlin {place} 1"),
            128 => format!("loopbackin {place} 1"),
            133 => format!("loopbackout {place} 1"),
            _ => {
                set(traffic.script, &format!("controlhead {place} {}", slot - 129));
                format!("controlcount {place} {}", traffic.dice.between(1, 4))
            }
        };
        set(traffic.script, &held);
    }
    control_events(traffic, 10);
}

/// A processor's cell, often with any tandem byte, or any bytes at all.
fn control_bytes(traffic: &mut Traffic, place: usize) -> Vec<u8> {
    let unit = traffic.draft.units.get(place).map_or(0, |unit| unit.number);
    let mut bytes = traffic.processor_cell(unit).to_vec();
    match traffic.dice.roll(4) {
        0 => bytes = traffic.dice.bytes(56),
        1 => bytes[2] = traffic.dice.byte(),
        _ => {}
    }
    bytes
}

/// A route of the memory gets a routing header of kind 3, which no table gives; some cells find it.
fn poke_route(traffic: &mut Traffic) {
    let place = traffic.dice.index(traffic.draft.units.len().max(1));
    let whole_vpi = |unit: &DraftUnit| unit.routes.iter().find(|(_, vci)| vci.is_none()).map(|(vpi, _)| *vpi);
    let Some((unit, vpi)) = traffic.draft.units.get(place).and_then(|unit| Some((unit, whole_vpi(unit)?))) else {
        return;
    };
    let at = loaded(traffic.draft).records(place) as usize + 8 * usize::from(vpi) + 1;
    let to = traffic.draft.units[traffic.dice.index(traffic.draft.units.len())].number;
    let routing = traffic.dice.pick(&[control_routing(to), loopback_routing(to)]);
    traffic.script.say_bytes(&format!("poke memory {at}"), &routing.to_be_bytes());
    for _ in 0..traffic.dice.between(1, 3) {
        let header = Header { vpi, vci: 7, tail: 0 }.write(unit.link);
        let payload = [traffic.dice.byte(); 48];
        traffic.script.arrive(unit.number.into(), &cell(header, &payload));
        let frames = traffic.dice.index(4);
        traffic.script.frames(frames);
    }
    traffic.script.collect(to.into());
}

/// A column with a byte for each place.
fn any_column(dice: &mut Dice) -> usize {
    match dice.chance(75) {
        true => dice.index(ASKS),
        false => dice.between(CONTROL_IN as u64, LOOPBACK_OUT as u64) as usize,
    }
}

/// Any byte of the state, mostly one that can matter.
fn any_byte(traffic: &mut Traffic) {
    let dice = &mut *traffic.dice;
    let place = dice.index(traffic.draft.units.len().clamp(1, UNITS_MAX));
    let number = traffic.draft.units.get(place).map_or(0, |unit| unit.number);
    let at = match dice.roll(8) {
        0..=3 => byte_of(any_column(dice), place),
        4 => byte_of(ASKS, number.into()),
        5 => byte_of(SHELF, dice.index(8)),
        6 => byte_of(state::SESSIONS + place, usize::from(dice.pick(&SESSIONS) / 8)),
        _ => dice.index(STATE_BYTES),
    };
    let byte = if dice.chance(70) { dice.pick(&EDGES) } else { dice.byte() };
    traffic.script.poke(at, &[byte]);
}

/// A whole column, then the one that the table gives.
fn column_and_back(traffic: &mut Traffic) {
    let dice = &mut *traffic.dice;
    let column = if dice.chance(5) { ASKS } else { any_column(dice) };
    let back = loaded(traffic.draft).columns[column];
    let mut bytes = back;
    let declared = traffic.draft.units.len();
    let edge = dice.pick(&EDGES);
    match dice.roll(4) {
        0 => bytes.fill(edge),
        1 => bytes.fill_with(|| dice.byte()),
        2 => bytes.fill_with(|| dice.roll(4) as u8),
        // Only where no unit is declared.
        _ => bytes[declared..].fill(edge),
    }
    traffic.script.poke(byte_of(column, 0), &bytes);
    events(traffic, 6);
    if traffic.dice.chance(30) {
        traffic.look();
    }
    traffic.script.poke(byte_of(column, 0), &back);
}

/// All bytes: of a state that 01 knows, at times with one byte changed, in one poke or in two.
fn whole_state(traffic: &mut Traffic) {
    let dice = &mut *traffic.dice;
    let mut state = made(dice, traffic.draft);
    if dice.chance(40) {
        let place = dice.index(traffic.draft.units.len().clamp(1, UNITS_MAX));
        let (column, edge) = (any_column(dice), dice.pick(&EDGES));
        state.columns[column][place] = edge;
    }
    let middle = if dice.chance(20) { dice.index(STATE_BYTES + 1) } else { 0 };
    let (first, second) = state.bytes().split_at(middle);
    if !first.is_empty() {
        traffic.script.poke(0, first);
    }
    traffic.script.poke(middle, second);
    events(traffic, 20);
}

/// Other sessions for a unit, and frames for them.
fn sessions(traffic: &mut Traffic) {
    let dice = &mut *traffic.dice;
    let place = dice.index(traffic.draft.units.len().max(1));
    let column = byte_of(state::SESSIONS + place, 0);
    let (at, bytes) = match dice.roll(4) {
        0 => (column, vec![dice.pick(&[0, 255]); UNITS_MAX]),
        1 => (column, dice.bytes(UNITS_MAX)),
        _ => (column + usize::from(dice.pick(&SESSIONS) / 8), vec![dice.byte()]),
    };
    traffic.script.poke(at, &bytes);
    (0..4).for_each(|_| traffic.hear());
}

/// Bytes that no event looks at: free ones, or of a place that is not declared.
fn not_judged(traffic: &mut Traffic) {
    let dice = &mut *traffic.dice;
    let declared = traffic.draft.units.len();
    let free = if dice.chance(50) { 808 + dice.index(24) } else { 992 + dice.index(32) };
    let place = declared + dice.index((UNITS_MAX - declared).max(1));
    let at = match dice.roll(3) {
        _ if place >= UNITS_MAX => free,
        0 => free,
        1 => byte_of(any_column(dice), place),
        _ => byte_of(state::SESSIONS + place, dice.index(UNITS_MAX)),
    };
    let edge = dice.pick(&EDGES);
    traffic.script.poke(at, &[edge]);
}

/// Changes a record of the memory, at its kind or anywhere in it.
fn poke_memory(traffic: &mut Traffic) {
    let dice = &mut *traffic.dice;
    let record = 8 * dice.index((traffic.draft.used / 8).max(1));
    let (at, length) = match dice.roll(4) {
        0 => (record, 1),
        1 => (record, 8),
        2 => (record + dice.index(8), 1),
        _ => (record + 4, 4),
    };
    let mut bytes = dice.bytes(length);
    if at == record {
        bytes[0] = dice.pick(&[0, 1, 2, 2, 2, 3, 3, 4, 255]);
    }
    if length == 8 && dice.chance(60) {
        // A place and a top that may well lie inside.
        bytes[3..6].copy_from_slice(&[0, 0, 0]);
        bytes[6] &= 0x1F;
    }
    traffic.script.say_bytes(&format!("poke memory {at}"), &bytes);
}

/// Puts a sound or any cell into a slot, or a byte anywhere.
fn poke_store(traffic: &mut Traffic) {
    let place = traffic.dice.index(traffic.draft.units.len().max(1));
    if traffic.dice.chance(40) {
        let slot = traffic.dice.pick(&CONTROL_SLOTS);
        let bytes = control_bytes(traffic, place);
        return traffic.script.say_bytes(&format!("poke store {}", 8_192 * place + 56 * slot), &bytes);
    }
    let slot = traffic.dice.pick(&[0, 1, 2, 3, 42, 91, 92, 122, 123, 124, 125, 126]);
    let unit = traffic.draft.units.get(place).map_or(0, |unit| u64::from(unit.number));
    let mut bytes = traffic.bus_frame(unit)[..56].to_vec();
    let mut at = 8_192 * place + 56 * slot;
    match traffic.dice.roll(4) {
        0 => bytes = traffic.dice.bytes(56),
        1 => {
            at += traffic.dice.index(56);
            bytes = traffic.dice.bytes(1);
        }
        _ => {}
    }
    traffic.script.say_bytes(&format!("poke store {at}"), &bytes);
}

/// Other lengths of what is lent, or counters about to wrap.
fn lend_again(traffic: &mut Traffic) {
    let count = traffic.draft.units.len();
    let exact = 8_192 * count;
    let line = match traffic.dice.roll(9) {
        0 => format!("lend store {} AA", exact.saturating_sub(1)),
        1 => format!("lend store {exact} 00"),
        2 => format!("lend rows {} 9", count.saturating_sub(1)),
        3 => "lend memory 300000 02".to_string(),
        4 => format!("lend memory {} 02", traffic.dice.index(traffic.draft.used + 9)),
        _ => "lend rows 40 4294967295".to_string(),
    };
    traffic.script.say(&line);
}

/// A line that is no command.
pub fn no_command(dice: &mut Dice, script: &mut Script) {
    script.say(dice.pick(&NO_COMMANDS));
}

/// A line of before with a byte changed, which may still be a command.
fn change_a_line(traffic: &mut Traffic) {
    let script = &mut *traffic.script;
    let dice = &mut *traffic.dice;
    let mut line = script.lines[dice.index(script.lines.len())].clone();
    if line.is_empty() || line.starts_with(b"load") {
        return no_command(dice, script);
    }
    let at = dice.index(line.len());
    match dice.roll(3) {
        0 => line[at] = dice.pick(b"0123456789abcdefxX \t\r\xFF"),
        1 => line.truncate(at),
        _ => line.insert(at, dice.pick(b"019AfgG \t")),
    }
    script.lines.push(line);
}
