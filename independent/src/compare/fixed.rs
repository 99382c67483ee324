//! Fixed scripts: document 01's values on each side of a line, figures 15 and 16 of document 004, every PT at an outlet
//! at its limit and below (request W3), every byte of the state, and in a file of their own those of request W1.

use super::fixed_control;
use super::script::{cell, frame, poke_of, to_unit, Script};
use super::settings::{byte_of, set};
use crate::codec::{Header, Link};
use crate::state::{State, ASKS, CONTROL_IN, LOOPBACK_OUT, STATE_BYTES};
use crate::{load, Card, Counters};

/// Tabs shown as blanks.
const LISTING: &str = "\
bus 16
unit 0 uni 5 2 one 0 0 100 0
unit 3 uni 0 1 four 40 30 20 1
page 0 5 33
vc 0 5 33 u3 2 9 40
";

#[rustfmt::skip]
const SCRIPTS: [fn(&mut Script); 18] = [
    fresh_start, listing, inlet, figure_15, figure_16, outgoing_vpi, states, every_byte, every_value, whole_states,
    units_shown, pokes, mode_one, far_records, whole_memory, long_texts, long_lines, payload_types,
];

/// Place 0 is unit 4 in mode one, place 1 unit 9 in mode four.
const TWO_UNITS: &str = "\
bus 16
unit 4 uni 5 2 one 0 0 100 0
unit 9 uni 7 3 four 40 30 20 0
vp 4 1 u9 1 7
vp 4 2 b 3 8
";

/// Settings on both sides of every line that State draws, on a shelf of the two units.
#[rustfmt::skip]
const STATES: &[&str] = &[
    "bus 0 0", "bus 0 15", "bus 0 16", "bus 0 17", "bus 0 31", "bus 0 32", "bus 0 33", "bus 0 255",
    "number 0 9", "number 1 4", "number 0 15", "number 0 16", "number 0 31", "number 0 255", "number 2 4",
    "bus 0 32,number 0 16", "bus 0 32,number 0 31", "bus 0 32,number 0 32", "count 0 0", "count 0 1", "count 0 3",
    "count 0 32", "count 0 33", "count 0 255", "top 0 0", "top 0 255", "top 0 256", "link 0 1,top 0 4095",
    "link 0 1,top 0 4096", "top 0 65535", "priority 0 0", "priority 0 1", "priority 0 3", "priority 0 4",
    "vbrlimit 0 0", "vbrlimit 0 1", "vbrlimit 0 123", "vbrlimit 0 124", "cbrlength 0 1", "cbrlimit 0 1", "mode 0 1",
    "mode 1 0", "cbrlimit 1 0", "cbrlimit 1 1", "cbrlimit 1 40", "cbrlimit 1 41", "vbrlimit 1 0", "vbrlimit 1 49",
    "vbrlimit 1 50", "cbrlength 1 0", "cbrlength 1 29", "cbrlength 1 30", "cbrlength 1 69", "cbrlength 1 70",
    "cbrlimit 1 1,vbrlimit 1 1,cbrlength 1 1", "cbrlimit 1 1,vbrlimit 1 1,cbrlength 1 88",
    "cbrlimit 1 1,vbrlimit 1 1,cbrlength 1 89", "cbrlimit 1 1,vbrlimit 1 1,cbrlength 1 90", "queuehead 0 122",
    "queuehead 0 123", "queuecount 0 123", "queuecount 0 124", "queuehead 1 1", "queuecount 3 1", "queuehead 4 1",
    "queuehead 4 2", "queuecount 4 2", "queuecount 4 3", "queuehead 5 39", "queuehead 5 40", "queuecount 5 40",
    "queuecount 5 41", "queuehead 6 48", "queuehead 6 49", "queuecount 6 49", "queuecount 6 50", "queuehead 7 31",
    "queuehead 7 32", "queuecount 7 32", "queuecount 7 33", "inlethead 0 3", "inlethead 0 4", "inletcount 0 4",
    "inletcount 0 5", "granted 0 4", "granted 0 5", "granted 0 254", "inletcount 0 1,granted 0 4",
    "inletcount 0 1,granted 0 9", "asks 4 2", "asks 31 1", "inletcount 0 1,asks 4 2", "inletcount 0 1,asks 4 1",
    "inletcount 0 1,asks 4 255", "inletcount 0 1,asks 9 3", "inletcount 0 1,asks 5 2",
    "inletcount 0 1,granted 0 4,asks 4 2", "inletcount 0 2,granted 0 4,asks 4 2",
    "inletcount 0 2,granted 0 4,asks 4 3", "inletcount 0 1,inletcount 1 1,granted 0 9,asks 4 2",
    "inletcount 0 1,inletcount 1 1,granted 0 9,asks 9 3", "last 0 4", "last 1 9", "last 2 5", "last 2 31",
    "last 0 254", "link 0 1", "link 0 2", "link 0 255", "link 2 1", "link 2 255", "mode 0 2", "mode 0 255",
    "mode 1 2", "mode 1 255", "mode 2 255", "mark 0 1", "mark 0 2", "mark 0 255", "mark 1 1", "mark 2 255",
    "place 0 4294967295", "frame 0 65535", "byte 808 255", "byte 831 255", "byte 992 255", "byte 1023 1",
    "byte 1024 255", "byte 2047 255", "controlin 0 1", "controlin 0 2", "controlin 1 255", "controlin 2 255",
    "loopbackin 0 1", "loopbackin 0 2", "loopbackin 1 255", "loopbackin 2 2", "controlhead 0 3", "controlhead 0 4",
    "controlhead 1 255", "controlhead 2 4", "controlcount 0 4", "controlcount 0 5", "controlcount 1 255",
    "controlcount 2 5", "loopbackout 0 1", "loopbackout 0 2", "loopbackout 1 255", "loopbackout 2 1",
    "loopbackout 31 255", "controlin 0 1,granted 0 4", "controlin 0 1,granted 0 9", "loopbackin 0 1,granted 0 4",
    "loopbackin 1 1,granted 0 4", "loopbackout 0 1,granted 0 4", "controlcount 0 1,granted 0 4",
    "controlin 0 1,asks 4 2", "loopbackin 0 1,asks 4 2", "loopbackin 0 1,asks 4 1", "loopbackout 0 1,asks 4 2",
    "controlin 0 1,granted 0 4,asks 4 2", "loopbackin 0 1,granted 0 4,asks 4 2",
    "controlin 0 1,loopbackin 0 1,granted 0 4,asks 4 2", "inletcount 0 1,controlin 0 1,granted 0 4,asks 4 2",
    "inletcount 0 1,loopbackin 0 1,granted 0 4,asks 4 2", "controlin 2 1,asks 5 2", "controlin 2 1,number 2 5,asks 5 2",
    "inletcount 0 4,controlin 0 1,loopbackin 0 1,granted 0 4,asks 4 2,loopbackout 0 1,controlcount 0 4,controlhead 0 3",
    "loopbackin 0 1,loopbackout 0 1,granted 0 4", "controlhead 0 3,controlcount 0 4", "loopbackin 0 128",
    "controlin 0 129", "controlin 0 254,loopbackin 0 2,inletcount 0 1,granted 0 4",
];

pub fn count() -> u64 {
    (SCRIPTS.len() + fixed_control::SCRIPTS.len()) as u64
}

/// The fixed script of a number below the count.
pub fn script(number: u64) -> Script {
    let mut script = Script::default();
    let mut all = SCRIPTS.iter().chain(&fixed_control::SCRIPTS);
    all.nth(number as usize).expect("a number below the count")(&mut script);
    script
}

/// Lends plenty and loads a table with blanks for tabs.
pub fn stage(script: &mut Script, table: &str) {
    script.say("card wide");
    script.lend(16_384, 32_768, 5);
    script.load(table.replace(' ', "\t").as_bytes());
}

fn plain(vpi: u16, vci: u16, tail: u8) -> Header {
    Header { vpi, vci, tail }
}

/// What there is before anything is lent; leads back to it for whoever comes after.
fn fresh_start(script: &mut Script) {
    script.show_all();
    script.frames(2);
    ["take 0 53", "collect 0 56", "count 0", "show state", "show unit 0"].iter().for_each(|line| script.say(line));
    script.load(b"");
    script.show_all();
}

fn listing(script: &mut Script) {
    stage(script, LISTING);
    script.say("show memory");
    script.arrive(0, &cell([0x00, 0x50, 0x02, 0x10], &[0xA5; 48]));
    let mut wrong = cell([0x10, 0x50, 0x02, 0x10], &[0xA5; 48]);
    wrong[4] = 0x4F;
    script.arrive(0, &wrong);
    script.frames(2);
    ["take 3 53", "take 3 53", "count 3", "count 0"].iter().for_each(|line| script.say(line));
    script.show_all();
}

/// Cell 4 is queued, cell 5 finds the inlet full.
fn inlet(script: &mut Script) {
    stage(script, LISTING);
    for payload in 1..=5 {
        script.arrive(0, &cell([0x00, 0x50, 0x02, 0x10], &[payload; 48]));
    }
    script.say("count 0");
    script.frames(7);
    script.show_all();
}

/// Each setting on both cards, and what the events make of it.
fn states(script: &mut Script) {
    for (card, settings) in
        ["card wide", "card narrow"].iter().flat_map(|card| STATES.iter().map(move |set| (card, set)))
    {
        script.say(card);
        script.lend(200, 16_384, 2);
        script.load(TWO_UNITS.replace(' ', "\t").as_bytes());
        settings.split(',').for_each(|setting| set(script, setting));
        script.arrive(4, &cell(plain(2, 7, 0).write(Link::Uni), &[9; 48]));
        script.frames(2);
        ["take 9 53", "take 4 53", "collect 4 56", "count 4", "show state"].iter().for_each(|line| script.say(line));
    }
    script.show_all();
}

/// Two units with cells, an open grant, requests and last grants.
const BUSY: &str = "\
inlethead 0 3,inletcount 0 2,inlethead 1 1,inletcount 1 1,queuehead 0 100,queuecount 0 50,queuehead 4 1,queuecount 4 1,\
queuehead 5 7,queuecount 5 30,queuehead 6 20,queuecount 6 19,queuehead 7 31,queuecount 7 32,granted 0 4,asks 4 2,\
asks 9 3,last 1 4,last 2 9,frame 0 258,controlin 0 1,loopbackin 1 1,controlhead 0 3,controlcount 0 2,\
controlhead 1 1,controlcount 1 4,loopbackout 0 1,loopbackout 1 1";

/// Loads the two units and makes them busy; gives the bytes of the state.
fn stage_busy(script: &mut Script, card: &str) -> State {
    let table = TWO_UNITS.replace(' ', "\t");
    script.say(card);
    script.lend(200, 16_384, 2);
    script.load(table.as_bytes());
    let mut pokes = Script::default();
    BUSY.split(',').for_each(|setting| set(&mut pokes, setting));
    let (shelf, _) = load(Card::Wide, table.as_bytes(), &mut [0; 200], 16_384, &mut [Counters::default(); 2]);
    let mut state = shelf.state;
    for (at, bytes) in pokes.lines.iter().filter_map(|line| poke_of(line)) {
        state.bytes_mut()[at..at + bytes.len()].copy_from_slice(&bytes);
    }
    script.lines.append(&mut pokes.lines);
    ["show state", "count 4"].iter().for_each(|line| script.say(line));
    state
}

/// Every byte of the state by itself, also those that no event looks at.
fn every_byte(script: &mut Script) {
    let state = stage_busy(script, "card wide");
    for (at, byte) in state.bytes().iter().enumerate() {
        for other in [0, 1, 255] {
            script.poke(at, &[other]);
            script.say("count 4");
        }
        script.poke(at, &[*byte]);
    }
    script.show_all();
}

/// Every value of each byte that is judged, by itself.
fn every_value(script: &mut Script) {
    let state = stage_busy(script, "card wide");
    let columns = (0..ASKS).chain(CONTROL_IN..=LOOPBACK_OUT);
    let units = columns.flat_map(|column| [0, 1].map(|place| byte_of(column, place)));
    let asks = [4, 9, 10].map(|number| byte_of(ASKS, number));
    for at in units.chain(asks).chain(800..808) {
        for value in 0..=255 {
            script.poke(at, &[value]);
            script.say("count 9");
        }
        script.poke(at, &[state.bytes()[at]]);
    }
    let state = stage_busy(script, "card narrow");
    for at in [32, 33, 34, 64, 96, 804, 805] {
        for value in [0, 1, 2, 15, 16, 31, 32, 33, 255] {
            script.poke(at, &[value]);
            script.say("count 9");
        }
        script.poke(at, &[state.bytes()[at]]);
    }
    script.show_all();
}

/// States put in place whole: kept, put back, and nonsense.
fn whole_states(script: &mut Script) {
    for card in ["card wide", "card narrow"] {
        let state = stage_busy(script, card);
        script.frames(3);
        ["take 9 53", "show state", "show unit 9"].iter().for_each(|line| script.say(line));
        // What was kept is put back: the same events follow.
        script.poke(0, state.bytes());
        script.frames(3);
        ["take 9 53", "show state", "show unit 9"].iter().for_each(|line| script.say(line));
        for byte in [0, 1, 2, 4, 16, 32, 255] {
            script.poke(0, &[byte; STATE_BYTES]);
            script.arrive(byte.into(), &cell(plain(2, 7, 0).write(Link::Uni), &[9; 48]));
            script.frames(1);
            for line in ["take", "count", "show unit"] {
                script.say(&format!("{line} {byte}{}", if line == "take" { " 53" } else { "" }));
            }
            script.say("show state");
        }
        // A load writes every byte, whatever stood there.
        for table in [TWO_UNITS, "bus 32\n", "nonsense\n"] {
            script.poke(0, &[0xA5; STATE_BYTES]);
            script.load(table.replace(' ', "\t").as_bytes());
            script.show_all();
        }
    }
}

/// One unit by name: found in the first of its places, whatever the bytes are.
fn units_shown(script: &mut Script) {
    stage_busy(script, "card wide");
    let show = |script: &mut Script| {
        for unit in ["0", "4", "9", "16", "254", "255", "256", "4294967551", "18446744073709551871"] {
            script.say(&format!("show unit {unit}"));
        }
    };
    show(script);
    #[rustfmt::skip]
    let settings = [
        "link 0 1", "link 0 2", "link 0 255", "mode 0 1", "mode 0 2", "mode 0 255", "mark 0 2", "mark 0 255",
        "top 0 65535", "top 0 256", "place 0 4294967295", "place 0 16909060", "priority 0 255", "cbrlength 0 254",
        "cbrlimit 0 253", "vbrlimit 0 252", "inlethead 0 251", "inletcount 0 250", "queuehead 0 249",
        "queuehead 1 248", "queuehead 2 247", "queuehead 3 246", "queuecount 0 245", "queuecount 1 244",
        "queuecount 2 243", "queuecount 3 242", "byte 1024 129", "byte 1025 1", "byte 1055 128", "byte 1056 2",
        "controlin 0 241", "loopbackin 0 240", "controlhead 0 239", "controlcount 0 238", "loopbackout 0 237",
        "number 1 4", "number 0 255", "number 1 255", "count 0 1", "count 0 0", "count 0 3", "count 0 32",
        "number 31 9", "count 0 33", "count 0 255", "number 2 16", "bus 0 0",
    ];
    for setting in settings {
        set(script, setting);
        show(script);
    }
    script.poke(1_024, &[255; 32]);
    show(script);
    script.poke(1_024, &[0; 32]);
    show(script);
}

/// Pokes at the edges of what is lent and of the state.
fn pokes(script: &mut Script) {
    stage(script, LISTING);
    for (part, length) in [("memory", 16_384), ("store", 32_768), ("state", STATE_BYTES)] {
        let end = length - 1;
        for (at, bytes) in
            [(end, "5A"), (end, "5a5A"), (length, "00"), (length, ""), (length + 1, ""), (0, ""), (5, "aBcD")]
        {
            script.say(&format!("poke {part} {at} {bytes}"));
        }
        for at in ["18446744073709551615", "18446744073709551616", "00", "-1", ""] {
            script.say(&format!("poke {part} {at} 00"));
        }
        script.say_bytes(&format!("poke {part} 0"), &vec![0x5A; length]);
        script.say_bytes(&format!("poke {part} 0"), &vec![0xA5; length + 1]);
        script.say_bytes(&format!("poke {part} 1"), &vec![0xA5; length]);
        script.say(&format!("show {part}"));
    }
    script.show_all();
}

/// Cell 123 is queued with CLP 0, cell 124 finds the queue full.
fn mode_one(script: &mut Script) {
    stage(script, "bus 16\nunit 5 uni 5 2 one 0 0 123 1\n");
    for number in 1..=125 {
        script.hear(5, &frame(to_unit(5, 1), [0, 0], plain(1, 1, 0), &[number; 48]));
    }
    script.hear(5, &frame(to_unit(5, 1), [0, 0], plain(1, 1, 1), &[0; 48]));
    script.say("count 5");
    (0..124).for_each(|_| script.say("take 5 53"));
    script.show_all();
}

/// A good table of exactly this many bytes, at least 100.
fn table_of(length: usize) -> Vec<u8> {
    let mut text =
        "bus\t32\nunit\t0\tnni\t4095\t1\tone\t0\t0\t1\t0\nunit\t1\tnni\t4095\t1\tone\t0\t0\t1\t0\n".to_string();
    let mut drops = (0..2).flat_map(|unit| (1_000..4_096).map(move |vpi| format!("drop\t{unit}\t{vpi}\n")));
    while length - text.len() > 36 {
        text += &drops.next().expect("lines enough");
    }
    // Lines of 7, 8 and 9 bytes make up any length from 21 to 27 or 28 to 36.
    let lines = if length - text.len() <= 27 { 3 } else { 4 };
    for line in 0..lines {
        let rest = length - text.len() - 7 * (lines - line - 1);
        let session = [line, 10 + line, 100 + line][(rest - 7).min(2)];
        text += &format!("mc\t0\t{session}\n");
    }
    text.into_bytes()
}

/// A text of 65,536 bytes is read, one of 65,537 is Long; 70,000 can be handed in.
fn long_texts(script: &mut Script) {
    script.say("card wide");
    script.lend(300_000, 20_000, 3);
    for length in [65_536, 65_537] {
        script.load(&table_of(length));
        script.show_all();
    }
    for length in [65_536, 65_537, 70_000, 70_001] {
        script.load(&vec![b'x'; length]);
    }
    script.load(&b"\n".repeat(65_536));
    script.arrive(0, &[0; 70_000]);
    script.hear(0, &[0; 70_001]);
    script.hand(0, &[0; 70_000]);
    script.hand(0, &[0; 70_001]);
}

/// Outgoing VPI 255 is good on the narrow card, 256 is Wide.
fn outgoing_vpi(script: &mut Script) {
    for card in ["card narrow", "card wide"] {
        for vpi in [255, 256] {
            let table = format!("bus 16\nunit 0 uni 1 1 one 0 0 1 0\nvp 0 1 u0 1 {vpi}\n");
            stage(script, "bus 16\n");
            script.say(card);
            script.load(table.replace(' ', "\t").as_bytes());
            script.arrive(0, &cell(plain(1, 7, 5).write(Link::Uni), &[9; 48]));
            script.frames(2);
            ["take 0 53", "count 0"].iter().for_each(|line| script.say(line));
            script.show_all();
        }
    }
}

/// Queues cells with these payloads in a class of unit 3.
fn queue(script: &mut Script, class: u8, payloads: &[u8]) {
    for payload in payloads {
        script.hear(3, &frame(to_unit(3, class), [0, 0], plain(1, 1, 0), &[*payload; 48]));
    }
}

/// Cells 4 and 5 are marked, cell 6 is not.
fn figure_15(script: &mut Script) {
    stage(script, "bus 16\nunit 3 uni 0 1 one 0 0 2 1\n");
    queue(script, 2, &[4, 5, 6]);
    (0..4).for_each(|_| script.say("take 3 53"));
    script.show_all();
}

/// Cells 4 to 7 are marked, cell 8 is not.
fn figure_16(script: &mut Script) {
    stage(script, "bus 16\nunit 3 uni 0 1 four 40 3 2 1\n");
    queue(script, 1, &[4, 5, 6]);
    queue(script, 2, &[7, 8]);
    (0..6).for_each(|_| script.say("take 3 53"));
    script.show_all();
}

/// Each PT and CLP in each class, in both modes, with mark 1 and 0: alone, then at an outlet at its limit, before a user
/// cell that is marked since the maintenance cell behind it counts.
fn payload_types(script: &mut Script) {
    for settings in ["one 0 0 2 1", "four 40 2 2 1", "one 0 0 2 0", "four 40 2 2 0"] {
        stage(script, &format!("bus 16\nunit 3 uni 0 1 {settings}\n"));
        for (class, tail) in (0..4).flat_map(|class| (0..16).map(move |tail| (class, tail))) {
            let cell = |class, tail| frame(to_unit(3, class), [0, 0], plain(1, 1, tail), &[tail; 48]);
            script.hear(3, &cell(class, tail));
            script.say("take 3 53");
            [cell(class, tail), cell(2, 0b0000), cell(2, 0b1000)].iter().for_each(|bytes| script.hear(3, bytes));
            (0..4).for_each(|_| script.say("take 3 53"));
        }
        script.show_all();
    }
}

/// Records up to byte 262,144 and not one more; later bytes are untouched.
fn whole_memory(script: &mut Script) {
    for memory in [262_136, 262_144, 300_000] {
        for top in [32_765, 32_766, 32_767, 65_535] {
            stage(script, "bus 16\n");
            script.say(&format!("lend memory {memory} AB"));
            let table = format!("bus 16\nunit 0 uni 0 1 one 0 0 1 0\npage 0 0 {top}\nvc 0 0 {top} b 3 9 8\n");
            script.load(table.replace(' ', "\t").as_bytes());
            script.arrive(0, &cell(plain(0, top as u16, 0).write(Link::Uni), &[9; 48]));
            script.say("show memory");
        }
    }
}

/// Records count wherever they lie wholly inside the lent memory, past 262,144 bytes too.
fn far_records(script: &mut Script) {
    stage(script, LISTING);
    script.say("lend memory 300000 00");
    let line_cell = cell(plain(5, 33, 0).write(Link::Uni), &[9; 48]);
    // A route for VPI 5, and a page whose VCI 33 has the last record or reaches one byte out.
    for (record, page) in [(299_992_u32, 0_u32), (299_000, 299_728), (299_000, 299_729), (299_000, u32::MAX)] {
        let mut bytes = [2, 0x20, 0x38, 0, 0, 40, 0, 9];
        script.say_bytes("poke memory 299992", &bytes);
        if page > 0 {
            bytes = [3, 0, 33, 0, 0, 0, 0, 0];
            bytes[4..].copy_from_slice(&page.to_be_bytes());
        }
        script.say_bytes(&format!("poke memory {record}"), &bytes);
        for place in [record - 40, record - 39, 300_000, u32::MAX - 47, u32::MAX] {
            set(script, &format!("place 0 {place}"));
            script.arrive(0, &line_cell);
        }
        script.frames(2);
    }
    script.show_all();
}

/// A line of 150,000 bytes is read, a longer one is bad; `help` has no more than its word.
fn long_lines(script: &mut Script) {
    stage(script, "bus 16\n");
    script.say("lend memory 300000 00");
    for bytes in [74_993, 74_994, 90_000] {
        script.say_bytes("poke memory 0", &vec![0xAB; bytes]);
        script.say("show memory");
    }
    script.lines.push(vec![b'9'; 150_000]);
    script.say(&format!("take {} 53", "9".repeat(100_000)));
    script.say("help");
    script.say("help 0");
}
