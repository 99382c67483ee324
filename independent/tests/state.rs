//! Spoiled shelves and stores: what is State, item by item, and what cells a poked store gives.

mod common;

use common::{cell, frame, header, hex, to_all, to_unit, Desk};

/// Place 0 is unit 4 in mode one, place 1 unit 9 in mode four.
const TABLE: &str = "\
bus 16
unit 4 uni 5 2 one 0 0 100 0
unit 9 uni 7 3 four 40 30 20 0
vp 4 1 u9 1 7
vp 4 2 b 3 8
";

/// Whether the settings leave a sound state behind.
fn is_sound_on(card: &str, settings: &[&str]) -> bool {
    let mut desk = Desk::new(card, TABLE);
    for setting in settings {
        desk.set(setting);
    }
    let before = desk.all();
    let counted = desk.ask("count 4");
    let lines = ["arrive 99 ", "hear 99 ", "take 99 0", "hand 99 ", "collect 99 0", "frame 0"];
    let others = lines.map(|line| desk.ask(line));
    let sound = counted != "count refused 8";
    let numbers = if sound { ["9", "9", "9", "9", "9", "10"] } else { ["8"; 6] };
    for (answer, number) in others.iter().zip(numbers) {
        assert_eq!(answer.split(' ').nth(2), Some(number), "{settings:?} {answer}");
    }
    assert_eq!(desk.all(), before);
    sound
}

fn is_sound(settings: &[&str]) -> bool {
    is_sound_on("wide", settings)
}

/// Each case: a sound state, and the same but for one setting.
fn assert_sides(common: &[&str], inside: &[&str], outside: &[&str]) {
    for (settings, sound) in [(inside, true), (outside, false)] {
        for setting in settings {
            let all = [common, &[*setting]].concat();
            assert_eq!(is_sound(&all), sound, "{all:?}");
        }
    }
}

#[test]
fn bus_number() {
    assert_sides(&[], &["bus 0 16", "bus 0 32"], &["bus 0 0", "bus 0 15", "bus 0 17", "bus 0 31", "bus 0 255"]);
}

#[test]
fn unit_numbers() {
    let outside = ["number 0 9", "number 1 4", "number 0 16", "number 0 32", "number 0 255"];
    assert_sides(&[], &["number 0 0", "number 0 15", "number 1 5"], &outside);
    assert_sides(&["bus 0 32"], &["number 0 16", "number 0 31"], &["number 0 32", "number 0 9"]);
    // A place that is no unit may hold anything.
    assert_sides(&[], &["number 2 4", "number 31 255", "priority 2 9", "queuecount 8 255", "inlethead 2 9"], &[]);
}

#[test]
fn how_many_units() {
    // Place 2 is all zeros, which no `unit` line gives.
    assert_sides(&[], &["count 0 1", "count 0 2"], &["count 0 3", "count 0 32", "count 0 33", "count 0 255"]);
    let mut all = vec!["bus 0 32".to_string(), "count 0 32".to_string()];
    for place in 2..32 {
        let number = [0, 1, 2, 3, 5, 6, 7, 8].get(place - 2).copied().unwrap_or(place);
        all.extend([format!("number {place} {number}"), format!("priority {place} 1"), format!("vbrlimit {place} 1")]);
    }
    let all: Vec<&str> = all.iter().map(String::as_str).collect();
    assert!(is_sound(&all));
    assert!(!is_sound(&[&all[..], &["count 0 33"]].concat()));
    assert!(!is_sound(&[&all[..], &["bus 0 16"]].concat()));
}

#[test]
fn tops_links_and_priorities() {
    assert_sides(&[], &["top 0 0", "top 0 255"], &["top 0 256", "top 0 4095", "top 0 65535"]);
    assert_sides(&["link 0 1"], &["top 0 256", "top 0 4095"], &["top 0 4096", "top 0 65535"]);
    assert_sides(&[], &["priority 0 1", "priority 0 3"], &["priority 0 0", "priority 0 4", "priority 0 255"]);
    assert!(!is_sound_on("narrow", &["link 0 1"]));
    assert!(is_sound_on("narrow", &["bus 0 32", "number 0 31"]));
    assert!(is_sound_on("narrow", &["link 2 1"]));
    assert_sides(&[], &["mark 0 1", "place 0 4294967295", "byte 1055 255", "frame 0 65535"], &[]);
}

#[test]
fn settings_of_mode_one() {
    let outside = ["vbrlimit 0 0", "vbrlimit 0 124", "cbrlength 0 1", "cbrlimit 0 1", "mode 0 1"];
    assert_sides(&[], &["vbrlimit 0 1", "vbrlimit 0 123"], &outside);
}

#[test]
fn settings_of_mode_four() {
    assert_sides(&[], &["cbrlimit 1 1", "cbrlimit 1 40"], &["cbrlimit 1 0", "cbrlimit 1 41", "mode 1 0"]);
    assert_sides(&[], &["vbrlimit 1 1", "vbrlimit 1 49"], &["vbrlimit 1 0", "vbrlimit 1 50"]);
    let inside = ["cbrlength 1 30", "cbrlength 1 69"];
    assert_sides(&[], &inside, &["cbrlength 1 29", "cbrlength 1 70", "cbrlength 1 0", "cbrlength 1 255"]);
    let edge = ["cbrlimit 1 1", "vbrlimit 1 1"];
    assert_sides(&edge, &["cbrlength 1 1", "cbrlength 1 88"], &["cbrlength 1 0", "cbrlength 1 89", "cbrlength 1 90"]);
}

#[test]
fn control_and_loopback_places() {
    let inside = ["controlin 0 1", "loopbackin 1 1", "loopbackout 0 1", "controlhead 1 3", "controlcount 0 4"];
    let outside = ["controlin 0 2", "loopbackin 1 2", "loopbackout 0 2", "controlhead 1 4", "controlcount 0 5"];
    assert_sides(&[], &inside, &outside);
    assert_sides(&["controlin 0 1"], &["granted 0 4", "asks 4 2"], &["granted 0 9", "asks 4 1", "asks 9 3"]);
    assert_sides(&["loopbackin 1 1", "granted 0 9"], &["inletcount 1 1"], &["asks 9 3"]);
    assert_sides(&["loopbackin 1 1", "controlin 1 1", "granted 0 9"], &["asks 9 3"], &["asks 9 2"]);
    assert_sides(&["loopbackout 0 1", "controlcount 0 4"], &["inletcount 0 1"], &["granted 0 4", "asks 4 2"]);
    for setting in inside {
        assert!(is_sound_on("narrow", &[setting]));
    }
    assert!(outside.iter().all(|setting| !is_sound_on("narrow", &[setting])));
}

#[test]
fn positions_and_counts() {
    let inside = ["queuehead 0 122", "queuecount 0 123", "inlethead 0 3", "inletcount 0 4"];
    let outside = ["queuehead 0 123", "queuecount 0 124", "queuecount 0 255", "inlethead 0 4", "inletcount 0 5"];
    assert_sides(&[], &inside, &outside);
    // Queues that mode one does not use.
    assert_sides(&[], &[], &["queuehead 1 1", "queuecount 1 1", "queuehead 3 1", "queuecount 2 1"]);
    for (queue, capacity) in [(4, 2), (5, 40), (6, 49), (7, 32)] {
        let near = capacity - 1;
        let past = capacity + 1;
        let inside = [format!("queuehead {queue} {near}"), format!("queuecount {queue} {capacity}")];
        let outside = [format!("queuehead {queue} {capacity}"), format!("queuecount {queue} {past}")];
        assert_sides(&[], &[&inside[0], &inside[1]], &[&outside[0], &outside[1]]);
    }
}

#[test]
fn open_grants() {
    let outside = ["granted 0 4", "granted 0 9", "granted 0 0", "granted 0 16", "granted 0 31", "granted 0 254"];
    assert_sides(&[], &["granted 0 255"], &outside);
    assert_sides(&["inletcount 0 1"], &["granted 0 4"], &["granted 0 9", "granted 0 5"]);
}

#[test]
fn requests() {
    assert_sides(&[], &["asks 4 0"], &["asks 4 2", "asks 4 1", "asks 0 1", "asks 31 1", "asks 31 255"]);
    let outside = ["asks 4 1", "asks 4 3", "asks 4 255", "asks 9 3", "asks 5 2"];
    assert_sides(&["inletcount 0 1"], &["asks 4 2"], &outside);
    assert_sides(&["inletcount 0 1", "granted 0 4"], &["asks 4 0"], &["asks 4 2"]);
    assert_sides(&["inletcount 0 2", "granted 0 4"], &["asks 4 2"], &["asks 4 1"]);
    assert_sides(&["inletcount 0 1", "inletcount 1 1", "granted 0 9"], &["asks 4 2"], &["asks 9 3"]);
}

#[test]
fn last_grants() {
    for priority in 0..3 {
        let last = |unit: u8| format!("last {priority} {unit}");
        assert_sides(&[], &[&last(255), &last(4), &last(9)], &[&last(0), &last(5), &last(31), &last(32), &last(254)]);
    }
}

#[test]
fn store_and_rows() {
    let mut desk = Desk::new("wide", TABLE);
    for (lend, sound) in [
        ("store 16384 00", true),
        ("store 16383 00", false),
        ("store 0 00", false),
        ("store 300000 00", true),
        ("rows 2 0", true),
        ("rows 1 0", false),
        ("rows 40 0", true),
        ("rows 0 0", false),
    ] {
        desk.ask(&format!("lend {lend}"));
        assert_eq!(desk.ask("count 4") != "count refused 8", sound, "{lend}");
        let arrived = desk.ask("arrive 4 ");
        assert_eq!(arrived, if sound { "arrive refused 10" } else { "arrive refused 8" });
    }
}

/// Bytes of the store as console reads them: unit place, slot.
fn poke(desk: &mut Desk, place: usize, slot: usize, cell: &[u8]) {
    let at = 8_192 * place + 56 * slot;
    assert_eq!(desk.ask(&format!("poke store {at} {}", hex(cell))), "poke ok");
}

#[test]
fn a_changed_head_or_count_makes_old_bytes_into_cells() {
    let mut desk = Desk::new("wide", TABLE);
    let frames: Vec<[u8; 57]> = (1..=3).map(|payload| frame(to_unit(4, 1), header(1, 2, 0), payload)).collect();
    for bytes in &frames {
        assert_eq!(desk.ask(&format!("hear 4 {}", hex(bytes))), "hear 4 queued");
    }
    let take = |desk: &mut Desk| desk.ask("take 4 53")[12..].to_string();
    let taken = |payload: u8| hex(&cell(header(1, 2, 0), payload));
    assert_eq!((take(&mut desk), take(&mut desk)), (taken(1), taken(2)));
    // One more back to front, then what was taken comes again.
    desk.set("queuehead 0 0");
    desk.set("queuecount 0 2");
    assert_eq!((take(&mut desk), take(&mut desk)), (taken(1), taken(2)));
    assert_eq!(desk.ask("take 4 53"), format!("take 4 empty {}", "EE".repeat(53)));
    // Past the last place the ring goes on at its first one.
    poke(&mut desk, 0, 122, &frames[2][..56]);
    desk.set("queuehead 0 122");
    desk.set("queuecount 0 2");
    assert_eq!((take(&mut desk), take(&mut desk)), (taken(3), taken(1)));
}

#[test]
fn classes_stand_in_their_slots() {
    let mut desk = Desk::new("wide", TABLE);
    for (class, slot, capacity) in [(0, 0, 2), (1, 2, 40), (2, 42, 49), (3, 91, 32)] {
        let bytes = frame(to_unit(9, class), header(1, 2, 0), 0x11);
        desk.set(&format!("queuehead {} {}", 4 + class, capacity - 1));
        for at in [slot + capacity - 1, slot] {
            desk.ask(&format!("hear 9 {}", hex(&bytes)));
            // Poking the same bytes where they should stand changes nothing.
            let shown = desk.ask("show store");
            poke(&mut desk, 1, at, &bytes[..56]);
            assert_eq!(desk.ask("show store"), shown, "class {class}");
        }
    }
    desk.ask(&format!("arrive 4 {}", hex(&cell(header(1, 2, 0), 0x22))));
    let shown = desk.ask("show store");
    poke(&mut desk, 0, 123, &frame(to_unit(9, 1), header(7, 2, 0), 0x22)[..56]);
    assert_eq!(desk.ask("show store"), shown);
}

#[test]
fn a_poked_inlet_is_sent_as_it_is() {
    let mut desk = Desk::new("wide", TABLE);
    let mut wrong = frame(to_unit(9, 1) ^ 1, header(7, 2, 0), 0x22);
    wrong[2..4].copy_from_slice(&[0xDE, 0xAD]);
    wrong[56] = wrong[..56].iter().fold(0, |sum, byte| sum ^ byte);
    poke(&mut desk, 0, 126, &wrong[..56]);
    let mut all = frame(to_all(2), header(255, 9, 0), 0x33);
    all[2..4].copy_from_slice(&[0xDE, 0xAD]);
    all[56] = all[..56].iter().fold(0, |sum, byte| sum ^ byte);
    poke(&mut desk, 0, 123, &all[..56]);
    for setting in ["inlethead 0 3", "inletcount 0 2", "granted 0 4"] {
        desk.set(setting);
    }
    assert_eq!(desk.ask("frame 57"), format!("frame 0 4 4 0 {}", hex(&wrong)));
    assert_eq!(desk.ask("count 4"), "count 4 0 0 0 0 0 1 1 1 0 0 0 0 0");
    assert_eq!(desk.ask("count 9"), "count 9 0 0 0 0 0 0 0 1 0 0 0 0 0");
    assert_eq!(desk.ask("frame 57"), format!("frame 1 4 - 2 {}", hex(&all)));
    // The tandem header is kept where the frame was queued.
    let shown = desk.ask("show store");
    poke(&mut desk, 1, 42, &all[..56]);
    assert_eq!(desk.ask("show store"), shown);
}

#[test]
fn a_poked_outlet_is_taken_as_it_is() {
    let mut desk = Desk::new("wide", TABLE);
    poke(&mut desk, 1, 42, &frame(0xFFFF, header(0xABC, 0x1234, 0b1011), 0x44)[..56]);
    desk.set("queuecount 6 1");
    assert_eq!(desk.ask("take 9 53"), format!("take 9 cell {}", hex(&cell(header(0x0BC, 0x1234, 0b1011), 0x44))));
}

#[test]
fn the_last_grant_may_be_of_another_priority() {
    let mut desk = Desk::new("wide", TABLE);
    for setting in ["last 1 9", "inletcount 0 1"] {
        desk.set(setting);
    }
    assert_eq!(desk.ask("frame 57")[..11], *"frame 0 - 4");
}
