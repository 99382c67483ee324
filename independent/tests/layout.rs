//! The 2,048 bytes of docs/STATE.md: where each field stands, and who writes it.

mod common;

use common::{bus_cell, bytes_of, cell, frame, header, hex, to_all, to_session, to_unit, Desk, LISTING_TABLE};
use independent::{Card, Shelf};

/// Bytes with these values at these places, 0 elsewhere.
fn bytes(values: &[(usize, u8)]) -> Vec<u8> {
    let mut bytes = vec![0; 2_048];
    values.iter().for_each(|(at, value)| bytes[*at] = *value);
    bytes
}

/// 255 in bytes 800 to 803, 16 in byte 804 and 0 in all others.
fn fresh() -> Vec<u8> {
    bytes(&[(800, 255), (801, 255), (802, 255), (803, 255), (804, 16)])
}

/// What differs: each byte with its value before and after.
fn changes(before: &[u8], after: &[u8]) -> Vec<(usize, u8, u8)> {
    let pairs = before.iter().zip(after).enumerate();
    pairs.filter(|(_, (before, after))| before != after).map(|(at, (before, after))| (at, *before, *after)).collect()
}

/// What the line changes in the state.
fn changed(desk: &mut Desk, line: &str) -> Vec<(usize, u8, u8)> {
    let before = desk.state();
    desk.ask(line);
    changes(&before, &desk.state())
}

fn arrive(unit: u8, vpi: u16) -> String {
    format!("arrive {unit} {}", hex(&cell(header(vpi, 1, 0), 0xA5)))
}

fn hear(unit: u8, routing: u16) -> String {
    format!("hear {unit} {}", hex(&frame(routing, header(1, 2, 0), 0xA5)))
}

/// A processor's cell of this routing header, its first tandem byte 9.
fn hand(unit: u8, routing: u16) -> String {
    format!("hand {unit} {}", hex(&bus_cell(routing, [9, 0], header(1, 2, 0), 0xA5)))
}

// Of kind 3: control and loopback to unit 3, loopback to unit 9.
const CONTROL_3: u16 = 0xC03D;
const LOOPBACK_3: u16 = 0xD032;
const LOOPBACK_9: u16 = 0xD09F;

#[test]
fn fresh_16_bus() {
    assert_eq!(Desk::default().state(), fresh());
    for card in [Card::Narrow, Card::Wide] {
        assert_eq!(Shelf::fresh(card).state.bytes(), fresh());
    }
}

/// Units 9 and 3 in places 0 and 1; no two settings of the second are alike.
const TABLE: &str = "\
bus 32
unit 9 nni 4095 3 one 0 0 123 1
unit 3 uni 254 1 four 40 30 20 0
vp 9 1 u3 1 7
vp 3 1 b 3 8
mc 3 0
mc 3 7
mc 3 8
mc 3 255
mc 9 17
";

/// As the table leaves them.
fn loaded() -> Vec<u8> {
    let mut all = fresh();
    let units = [
        // Number, link, top VPI 0F FF and 00 FE, priority, mode.
        (0, [9, 3]),
        (32, [1, 0]),
        (64, [0x0F, 0]),
        (96, [0xFF, 0xFE]),
        (128, [3, 1]),
        (160, [0, 1]),
        // CBR length and limit, VBR limit, mark.
        (192, [0, 40]),
        (224, [0, 30]),
        (256, [123, 20]),
        (288, [1, 0]),
        // Place of the records: 0, and 4,096 records of 8 bytes on, 00 00 80 00.
        (320, [0, 0]),
        (352, [0, 0]),
        (384, [0, 0x80]),
        (416, [0, 0]),
    ];
    units.iter().for_each(|(column, values)| all[*column..column + 2].copy_from_slice(values));
    all[804..806].copy_from_slice(&[32, 2]);
    // Session 17 is bit 1 of byte 2; 0 and 7 are bits of byte 0, 8 of byte 1, 255 the highest of byte 31.
    all[1_024 + 2] = 0b0000_0010;
    all[1_056] = 0b1000_0001;
    all[1_056 + 1] = 0b0000_0001;
    all[1_056 + 31] = 0b1000_0000;
    all
}

fn desk() -> Desk {
    let mut desk = Desk::default();
    desk.ask("lend memory 40000 EE");
    desk.ask("lend store 262144 EE");
    desk.ask("lend rows 32 7");
    assert_eq!(desk.load(TABLE), "load ok 34808");
    desk
}

#[test]
fn columns_of_a_loaded_table() {
    assert_eq!(changes(&loaded(), &desk().state()), []);
}

#[test]
fn all_32_places() {
    let mut table = "bus 32\n".to_string();
    for place in 0..32_u16 {
        let (number, top, limit) = (31 - place, 5 * place, 1 + place);
        let mode = if place % 2 == 0 { format!("one 0 0 {limit}") } else { format!("four {} 1 {limit}", 2 + place) };
        table += &format!("unit {number} uni {top} {} {mode} {}\n", 1 + place % 3, place % 2);
    }
    let mut desk = Desk::default();
    desk.ask("lend memory 30000 EE");
    desk.ask("lend store 262144 EE");
    desk.ask("lend rows 32 7");
    assert!(desk.load(&table).starts_with("load ok "));
    let mut expected = fresh();
    expected[804..806].copy_from_slice(&[32, 32]);
    let mut records = 0_u32;
    for place in 0..32 {
        let small = place as u8;
        let fields = [
            (0, 31 - small),
            (96, 5 * small),
            (128, 1 + small % 3),
            (160, small % 2),
            (192, if small % 2 == 1 { 2 + small } else { 0 }),
            (224, small % 2),
            (256, 1 + small),
            (288, small % 2),
        ];
        fields.iter().for_each(|(column, value)| expected[column + place] = *value);
        for (column, byte) in [320, 352, 384, 416].iter().zip(records.to_be_bytes()) {
            expected[column + place] = byte;
        }
        records += 8 * (5 * place as u32 + 1);
    }
    assert_eq!(changes(&expected, &desk.state()), []);
}

#[test]
fn every_session_has_its_bit() {
    for session in 0..=255_u8 {
        let table = format!("bus 16\nunit 5 uni 0 1 one 0 0 1 0\nunit 2 uni 0 1 one 0 0 1 0\nmc 2 {session}\n");
        let mut desk = Desk::new("wide", &table);
        let state = desk.state();
        let at = 1_024 + 32 + usize::from(session) / 8;
        let heard: Vec<_> = (1_024..2_048).filter(|at| state[*at] != 0).map(|at| (at, state[at])).collect();
        assert_eq!(heard, [(at, 1 << (session % 8))]);
        // Unit 5 hears it too once its own bit is poked, and unit 2 no more without its.
        assert_eq!(desk.ask(&hear(2, to_session(session, 0))), "hear 2 queued");
        assert_eq!(desk.ask(&hear(5, to_session(session, 0))), "hear 5 other");
        desk.ask(&format!("poke state {} {:02X}", at - 32, 1 << (session % 8)));
        desk.ask(&format!("poke state {at} {:02X}", !(1_u8 << (session % 8))));
        assert_eq!(desk.ask(&hear(5, to_session(session, 0))), "hear 5 queued");
        assert_eq!(desk.ask(&hear(2, to_session(session, 0))), "hear 2 other");
    }
}

#[test]
fn load_writes_every_byte() {
    let mut desk = desk();
    for byte in ["00", "5A", "FF"] {
        desk.ask(&format!("poke state 0 {}", byte.repeat(2_048)));
        desk.load(TABLE);
        assert_eq!(changes(&loaded(), &desk.state()), []);
        desk.ask(&format!("poke state 0 {}", byte.repeat(2_048)));
        assert_eq!(desk.load("bus 32\n"), "load ok 0");
        assert_eq!(changes(&fresh(), &desk.state()), [(804, 16, 32)]);
    }
}

#[test]
fn refused_loads_leave_a_fresh_16_bus() {
    let head = "bus 16\nunit 0 uni 5 2 one 0 0 100 0\nmc 0 9\n";
    let texts = [
        ("x".repeat(65_537), "1 0"),
        (format!("{head}nonsense\n"), "2 4"),
        (format!("{head}drop 1 1\n"), "3 4"),
        (format!("{head}mc 0 9\n"), "4 4"),
        (format!("{head}vp 0 1 b 1 256\n"), "5 4"),
        (format!("{head}page 0 1 65535\n"), "6 4"),
        (format!("{head}unit 1 uni 5 2 one 0 0 100 0\n"), "7 0"),
    ];
    for (text, refused) in texts {
        let mut desk = Desk::default();
        for line in ["card narrow", "lend memory 4000 AB", "lend store 8192 CD", "lend rows 1 5"] {
            desk.ask(line);
        }
        desk.ask(&format!("poke state 0 {}", "5A".repeat(2_048)));
        assert_eq!(desk.load(&text), format!("load refused {refused}"));
        assert_eq!(changes(&fresh(), &desk.state()), [], "{refused}");
    }
}

#[test]
fn arrive_raises_one_inlet_count() {
    let mut desk = desk();
    assert_eq!(changed(&mut desk, &arrive(3, 1)), [(480 + 1, 0, 1)]);
    assert_eq!(changed(&mut desk, &arrive(3, 1)), [(480 + 1, 1, 2)]);
    assert_eq!(changed(&mut desk, &arrive(9, 1)), [(480, 0, 1)]);
    // Misrouted, ignored, a wrong check, a full inlet.
    for line in [&arrive(9, 2), &arrive(9, 0), &format!("arrive 9 {}", "00".repeat(53))] {
        assert_eq!(changed(&mut desk, line), []);
    }
    desk.set("inletcount 1 4");
    assert_eq!(changed(&mut desk, &arrive(3, 1)), []);
}

#[test]
fn hear_raises_one_queue_count() {
    let mut desk = desk();
    for (class, at) in [(0, 640), (1, 672), (2, 704), (3, 736)] {
        assert_eq!(changed(&mut desk, &hear(3, to_unit(3, class))), [(at + 1, 0, 1)]);
    }
    // Mode one has one queue for all classes.
    for class in 0..4 {
        assert_eq!(changed(&mut desk, &hear(9, to_all(class))), [(640, class, class + 1)]);
    }
    assert_eq!(changed(&mut desk, &hear(9, to_unit(3, 1))), []);
    assert_eq!(changed(&mut desk, &hear(9, to_unit(9, 1) ^ 1)), []);
    desk.set("queuecount 4 2");
    assert_eq!(changed(&mut desk, &hear(3, to_unit(3, 0))), []);
}

#[test]
fn take_moves_one_head_and_lowers_its_count() {
    let mut desk = desk();
    assert_eq!(changed(&mut desk, "take 3 53"), []);
    // Heads at the last place of their rings, but for class 1.
    for setting in ["queuehead 4 1", "queuehead 5 38", "queuehead 6 48", "queuehead 7 31", "queuehead 0 122"] {
        desk.set(setting);
    }
    for queue in [0, 4, 5, 6, 7] {
        desk.set(&format!("queuecount {queue} 1"));
    }
    assert_eq!(changed(&mut desk, "take 3 53"), [(512 + 1, 1, 0), (640 + 1, 1, 0)]);
    assert_eq!(changed(&mut desk, "take 3 53"), [(544 + 1, 38, 39), (672 + 1, 1, 0)]);
    assert_eq!(changed(&mut desk, "take 3 53"), [(576 + 1, 48, 0), (704 + 1, 1, 0)]);
    assert_eq!(changed(&mut desk, "take 3 53"), [(608 + 1, 31, 0), (736 + 1, 1, 0)]);
    assert_eq!(changed(&mut desk, "take 3 53"), []);
    assert_eq!(changed(&mut desk, "take 9 53"), [(512, 122, 0), (640, 1, 0)]);
}

#[test]
fn frame_writes_number_requests_grants_inlet_and_copies() {
    let mut desk = desk();
    // Idle: only the number, of two bytes.
    assert_eq!(changed(&mut desk, "frame 57"), [(807, 0, 1)]);
    desk.set("frame 0 255");
    assert_eq!(changed(&mut desk, "frame 57"), [(806, 0, 1), (807, 255, 0)]);
    desk.set("frame 0 65535");
    assert_eq!(changed(&mut desk, "frame 57"), [(806, 255, 0), (807, 255, 0)]);
    // Two cells for all at unit 3, of priority 1, and one at unit 9, of priority 3: 9 is granted, 3 goes on asking.
    desk.ask(&arrive(3, 1));
    desk.ask(&arrive(3, 1));
    desk.ask(&arrive(9, 1));
    let asked = changed(&mut desk, "frame 57");
    assert_eq!(asked, [(768 + 3, 0, 1), (802, 255, 9), (803, 255, 9), (807, 0, 1)]);
    // Frame 1 renews the upper half alone. 9 sends to 3, class 1, and 3 is granted: its request is cleared.
    let sent = changed(&mut desk, "frame 57");
    let inlet = [(448, 0, 1), (480, 1, 0)];
    let grant = [(768 + 3, 1, 0), (800, 255, 3), (803, 9, 3), (807, 1, 2)];
    assert_eq!(sent, [&inlet[..], &[(672 + 1, 0, 1)], &grant].concat());
    // Frame 2 renews 3, which has a cell besides the granted one. It sends to both units, class 3, and is granted again.
    let sent = changed(&mut desk, "frame 57");
    let inlet = [(448 + 1, 0, 1), (480 + 1, 2, 1)];
    assert_eq!(sent, [&inlet[..], &[(640, 0, 1), (736 + 1, 0, 1), (807, 2, 3)]].concat());
    // Frame 3 sends the last cell and grants nobody; the last granted units stay.
    let sent = changed(&mut desk, "frame 57");
    let inlet = [(448 + 1, 1, 2), (480 + 1, 1, 0)];
    assert_eq!(sent, [&inlet[..], &[(640, 1, 2), (736 + 1, 1, 2), (803, 3, 255), (807, 3, 4)]].concat());
}

#[test]
fn hand_sets_its_place() {
    let mut desk = desk();
    assert_eq!(changed(&mut desk, &hand(3, CONTROL_3)), [(832 + 1, 0, 1)]);
    assert_eq!(changed(&mut desk, &hand(3, CONTROL_3)), []);
    assert_eq!(changed(&mut desk, &hand(9, 0)), [(832, 0, 1)]);
}

#[test]
fn hear_and_collect_write_the_control_outlet() {
    let mut desk = desk();
    desk.set("controlhead 1 2");
    for count in 0..4 {
        assert_eq!(changed(&mut desk, &hear(3, CONTROL_3)), [(928 + 1, count, count + 1)]);
    }
    assert_eq!(changed(&mut desk, &hear(3, CONTROL_3)), []);
    assert_eq!(changed(&mut desk, "collect 3 56"), [(896 + 1, 2, 3), (928 + 1, 4, 3)]);
    assert_eq!(changed(&mut desk, "collect 3 56"), [(896 + 1, 3, 0), (928 + 1, 3, 2)]);
    assert_eq!(changed(&mut desk, "collect 9 56"), []);
    assert_eq!(changed(&mut desk, &hear(3, LOOPBACK_3)), [(960 + 1, 0, 1)]);
    assert_eq!(changed(&mut desk, &hear(3, LOOPBACK_3)), []);
}

#[test]
fn frame_moves_loopback_cells_first() {
    let mut desk = desk();
    desk.ask(&hear(9, LOOPBACK_9));
    desk.ask(&hear(3, LOOPBACK_3));
    // Frame 0 renews both: both ask with the cells just moved, 9 is granted by its priority.
    let moved = [(864, 0, 1), (864 + 1, 0, 1), (960, 1, 0), (960 + 1, 1, 0)];
    let granted = [(768 + 3, 0, 1), (802, 255, 9), (803, 255, 9), (807, 0, 1)];
    assert_eq!(changed(&mut desk, "frame 57"), [&granted[..], &moved].concat());
    // A second loopback cell waits, as the inlet was taken when frame 1 began. Tandem 0 sends the first to unit 0.
    desk.ask(&hear(9, LOOPBACK_9));
    let sent = [(768 + 3, 1, 0), (800, 255, 3), (803, 9, 3), (807, 1, 2), (864, 1, 0)];
    assert_eq!(changed(&mut desk, "frame 57"), sent);
    // Frame 2 moves it and unit 3 sends; frame 3 renews only the upper half, so 9 is granted in frame 2.
    let next = [(803, 3, 9), (807, 2, 3), (864, 0, 1), (864 + 1, 1, 0), (960, 1, 0)];
    assert_eq!(changed(&mut desk, "frame 57"), next);
}

#[test]
fn frame_clears_the_place_that_it_sends_from() {
    let mut desk = desk();
    for setting in ["inletcount 1 1", "controlin 1 1", "loopbackin 1 1", "granted 0 3"] {
        desk.set(setting);
    }
    // Each slot of the store holds EE: damaged, so nothing is queued. Frames of this bus renew unit 3 every other time.
    let mut written = Vec::new();
    for _ in 0..6 {
        let changed = changed(&mut desk, "frame 57");
        written.extend(changed.into_iter().filter(|(at, ..)| (448..512).contains(at) || (832..992).contains(at)));
    }
    assert_eq!(written, [(448 + 1, 0, 1), (480 + 1, 1, 0), (832 + 1, 1, 0), (864 + 1, 1, 0)]);
}

#[test]
fn a_frame_with_a_copy_for_a_processor() {
    let mut desk = desk();
    desk.ask(&hand(9, CONTROL_3));
    desk.ask("frame 57");
    // The sender's place is cleared, the control outlet of unit 3 counts one more.
    assert_eq!(changed(&mut desk, "frame 57"), [(803, 9, 255), (807, 1, 2), (832, 1, 0), (928 + 1, 0, 1)]);
    desk.ask(&hand(9, LOOPBACK_3));
    desk.ask("frame 57");
    assert_eq!(changed(&mut desk, "frame 57"), [(803, 9, 255), (807, 3, 4), (832, 1, 0), (960 + 1, 0, 1)]);
}

#[test]
fn the_inlet_head_goes_round() {
    let mut desk = desk();
    for setting in ["inlethead 0 3", "inletcount 0 1", "granted 0 9"] {
        desk.set(setting);
    }
    let sent = changed(&mut desk, "frame 57");
    assert_eq!(sent[..2], [(448, 3, 0), (480, 1, 0)]);
}

#[test]
fn count_and_shows_write_nothing() {
    let mut desk = desk();
    for line in ["count 3", "count 9", "count 7", "show memory", "show store", "show rows", "show state", "show unit 3"]
    {
        assert_eq!(changed(&mut desk, line), [], "{line}");
    }
}

#[test]
fn refused_events_write_nothing() {
    let mut desk = desk();
    desk.ask(&arrive(3, 1));
    desk.ask(&hear(3, LOOPBACK_3));
    desk.ask(&hear(3, CONTROL_3));
    desk.ask(&hand(3, CONTROL_3));
    let events = [arrive(3, 1), hear(3, to_unit(3, 1)), hand(9, CONTROL_3)];
    let lines = [&events[..], &["frame 57", "take 3 53", "collect 3 56"].map(String::from)].concat();
    let wrong = ["arrive 3 00", "hear 3 00", "frame 56", "take 3 52", "arrive 7 00", "hear 7 00", "take 7 53"];
    let busy = hand(3, CONTROL_3);
    for line in wrong.into_iter().chain(["hand 9 00", "hand 7 00", "collect 3 55", "collect 7 56", &busy]) {
        assert_eq!(changed(&mut desk, line), [], "{line}");
    }
    desk.set("bus 0 17");
    for line in &lines {
        assert_eq!(changed(&mut desk, line), [], "{line}");
    }
}

#[test]
fn no_event_writes_what_is_not_its_own() {
    let mut desk = desk();
    // Nonsense in the free bytes and in all places that are not declared, and a few more sessions.
    for column in (0..24).chain(26..31) {
        desk.ask(&format!("poke state {} {}", 32 * column + 2, "A7".repeat(30)));
    }
    desk.ask(&format!("poke state 808 {}", "B8".repeat(24)));
    desk.ask(&format!("poke state 992 {}", "B8".repeat(32)));
    desk.ask(&format!("poke state {} {}", 1_024 + 64, "C9".repeat(960)));
    desk.ask("poke state 1030 FF");
    let before = desk.state();
    let (both, three) = (to_all(2), to_unit(3, 0));
    for line in [arrive(3, 1), arrive(9, 1), hear(3, three), hear(9, both), hand(9, CONTROL_3), hear(3, LOOPBACK_3)] {
        desk.ask(&line);
    }
    (0..8).for_each(|_| drop(desk.ask("frame 57")));
    for line in ["take 3 53", "take 9 53", "collect 3 56", "collect 9 56", "count 3"] {
        desk.ask(line);
    }
    let after = desk.state();
    // Heads and counts of the two units, requests, grants and the number of the next frame may change.
    let of_unit = |at: usize| (448..768).contains(&at) || (832..992).contains(&at);
    let may_change = |at: usize| of_unit(at) && at % 32 < 2 || (768..=803).contains(&at) || at / 2 == 403;
    let changed = changes(&before, &after);
    assert!(changed.len() > 5 && changed.iter().all(|(at, ..)| may_change(*at)), "{changed:?}");
    // Unit 9 has sent its cell and that of its processor; unit 3's loopback cell went to unit 0, which is none.
    assert_eq!(desk.ask("count 9").split(' ').nth(7), Some("2"));
    assert_eq!(desk.ask("count 3").split(' ').nth(8), Some("1"));
}

#[test]
fn a_state_may_be_kept_and_put_back() {
    let mut desk = desk();
    desk.ask(&arrive(3, 1));
    desk.ask(&arrive(3, 1));
    desk.ask("frame 57");
    let kept = desk.state();
    let run =
        |desk: &mut Desk| [desk.ask("frame 57"), desk.ask("frame 57"), desk.ask("take 9 53"), desk.ask("show state")];
    let first = run(&mut desk);
    assert_eq!(desk.ask(&format!("poke state 0 {}", hex(&kept))), "poke ok");
    assert_eq!(run(&mut desk), first);
    // Other tables' states go in and out as well.
    desk.load("bus 16\n");
    desk.ask(&format!("poke state 0 {}", hex(&kept).to_lowercase()));
    assert_eq!(desk.state(), kept);
}

#[test]
fn pokes_stand_where_they_were_put() {
    let mut desk = Desk::default();
    let mut expected = fresh();
    for at in 0..2_048 {
        let byte = (at * 7 + at / 256 + 1) as u8;
        assert_eq!(desk.ask(&format!("poke state {at} {byte:02X}")), "poke ok");
        expected[at] = byte;
        assert_eq!(changes(&expected, &desk.state()), []);
    }
    assert_eq!(desk.ask("poke state 2046 1234"), "poke ok");
    expected[2_046..].copy_from_slice(&[0x12, 0x34]);
    assert_eq!(desk.ask("poke state 2047 5678"), "bad");
    assert_eq!(desk.ask("poke state 2048 56"), "bad");
    assert_eq!(desk.ask("poke state 7 "), "poke ok");
    assert_eq!(desk.ask("poke state 2048 "), "poke ok");
    assert_eq!(changes(&expected, &desk.state()), []);
    assert_eq!(desk.ask(&format!("poke state 0 {}", "9C".repeat(2_048))), "poke ok");
    assert_eq!(desk.ask(&format!("poke state 0 {}", "9D".repeat(2_049))), "bad");
    assert_eq!(desk.ask("show state"), format!("show state {}", "9C".repeat(2_048)));
}

#[test]
fn the_state_stays_when_the_card_or_what_is_lent_changes() {
    let mut desk = desk();
    let state = desk.state();
    for line in ["card narrow", "lend memory 0 00", "lend store 0 00", "lend rows 0 0", "nonsense"] {
        assert_eq!(changed(&mut desk, line), [], "{line}");
    }
    assert_eq!(desk.state(), state);
}

#[test]
fn both_cards_have_the_same_bytes() {
    let states = ["narrow", "wide"].map(|card| {
        let mut desk = Desk::new(card, LISTING_TABLE);
        let mut states = vec![desk.state()];
        for line in [arrive(0, 1), arrive(0, 5), hear(3, to_unit(3, 2)), "frame 57".into(), "take 3 53".into()] {
            desk.ask(&line);
            states.push(desk.state());
        }
        states
    });
    assert_eq!(states[0], states[1]);
}

#[test]
fn names_of_fields_are_all_in_their_columns() {
    // Every byte below 808 has one name, and those of the control and loopback cells.
    let mut seen = vec![0; 992];
    seen[808..832].fill(1);
    let single = ["number", "link", "priority", "mode", "cbrlength", "cbrlimit", "vbrlimit", "mark", "inlethead"];
    let control = ["controlin", "loopbackin", "controlhead", "controlcount", "loopbackout"];
    let names = single.into_iter().chain(["inletcount", "top", "place", "asks"]).chain(control);
    let fields = names.flat_map(|name| (0..32).map(move |place| (name, place)));
    let queues = ["queuehead", "queuecount"].into_iter().flat_map(|name| (0..128).map(move |place| (name, place)));
    let shelf = [("last", 0), ("last", 1), ("last", 2), ("granted", 0), ("bus", 0), ("count", 0), ("frame", 0)];
    fields.chain(queues).chain(shelf).flat_map(|(name, place)| bytes_of(name, place)).for_each(|at| seen[at] += 1);
    assert!(seen.iter().all(|count| *count == 1), "{seen:?}");
}
