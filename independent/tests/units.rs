//! `show unit`: one unit's fields by name, for every state.

mod common;

use common::{hex, Desk};

/// Unit 3 with the fields of docs/CONSOLE.md's example, after unit 7.
fn example() -> Desk {
    let mut desk =
        Desk::new("wide", "bus 16\nunit 7 uni 5 2 one 0 0 100 0\nunit 3 uni 0 1 four 40 30 20 1\nmc 3 255\nmc 3 17\n");
    desk.set("queuehead 6 1");
    desk
}

const EXAMPLE: &str = "show unit 3 link uni top 0 priority 1 mode four cbrlength 40 cbrlimit 30 vbrlimit 20 mark 1 \
    place 48 inlethead 0 inletcount 0 queueheads 0 0 1 0 queuecounts 0 0 0 0 \
    controlin 0 loopbackin 0 controlhead 0 controlcount 0 loopbackout 0 sessions 17 255";

#[test]
fn the_example() {
    assert_eq!(example().ask("show unit 3"), EXAMPLE);
}

#[test]
fn without_sessions_the_line_ends_with_the_word() {
    let shown = example().ask("show unit 7");
    assert_eq!(
        shown,
        "show unit 7 link uni top 5 priority 2 mode one cbrlength 0 cbrlimit 0 vbrlimit 100 mark 0 place 0 \
        inlethead 0 inletcount 0 queueheads 0 0 0 0 queuecounts 0 0 0 0 \
        controlin 0 loopbackin 0 controlhead 0 controlcount 0 loopbackout 0 sessions"
    );
}

#[test]
fn tabs_part_all_fields() {
    let mut console = independent::console::Console::default();
    let mut answers = Vec::new();
    for line in ["poke\tstate\t805\t01", "show\tunit\t0"] {
        console.answer(line.as_bytes(), &mut answers);
        answers.push(b'\n');
    }
    let expected = "poke ok\nshow unit 0 link uni top 0 priority 0 mode one cbrlength 0 cbrlimit 0 vbrlimit 0 mark 0 \
        place 0 inlethead 0 inletcount 0 queueheads 0 0 0 0 queuecounts 0 0 0 0 \
        controlin 0 loopbackin 0 controlhead 0 controlcount 0 loopbackout 0 sessions\n";
    assert_eq!(String::from_utf8(answers).unwrap(), expected.replace(' ', "\t"));
}

#[test]
fn each_field_is_shown_from_its_byte() {
    let mut desk = Desk::default();
    desk.set("count 0 3");
    desk.ask("poke state 0 0A0B0C");
    // Column c of place 2 gets 100 + c.
    for column in (1..24_usize).chain(26..31) {
        desk.ask(&format!("poke state {} {:02X}", 32 * column + 2, 100 + column));
    }
    let top = 102 * 256 + 103;
    let place = ((110 * 256 + 111) * 256 + 112) * 256 + 113_u64;
    let expected = format!(
        "show unit 12 link 101 top {top} priority 104 mode 105 cbrlength 106 cbrlimit 107 vbrlimit 108 mark 109 \
        place {place} inlethead 114 inletcount 115 queueheads 116 117 118 119 queuecounts 120 121 122 123 \
        controlin 126 loopbackin 127 controlhead 128 controlcount 129 loopbackout 130 sessions"
    );
    assert_eq!(desk.ask("show unit 12"), expected);
    desk.ask(&format!("poke state {} {}", 1_024 + 64, "FF".repeat(32)));
    let all: String = (0..256).map(|session| format!(" {session}")).collect();
    assert_eq!(desk.ask("show unit 12"), expected + &all);
}

#[test]
fn words_and_numbers_of_links_and_modes() {
    let mut desk = example();
    let words = |desk: &mut Desk| {
        let shown = desk.ask("show unit 3");
        let fields: Vec<&str> = shown.split(' ').collect();
        assert_eq!((fields[3], fields[9]), ("link", "mode"));
        [fields[4].to_string(), fields[10].to_string()]
    };
    for byte in 0..=255_u8 {
        desk.set(&format!("link 1 {byte}"));
        desk.set(&format!("mode 1 {byte}"));
        let expected = match byte {
            0 => ["uni".to_string(), "one".to_string()],
            1 => ["nni".to_string(), "four".to_string()],
            _ => [byte.to_string(), byte.to_string()],
        };
        assert_eq!(words(&mut desk), expected);
    }
}

#[test]
fn every_session_in_rising_order() {
    let mut desk = Desk::default();
    desk.set("count 0 1");
    for session in 0..256 {
        let mut sessions = [0_u8; 32];
        sessions[session / 8] = 1 << (session % 8);
        desk.ask(&format!("poke state 1024 {}", hex(&sessions)));
        assert!(desk.ask("show unit 0").ends_with(&format!(" sessions {session}")));
    }
    desk.ask(&format!("poke state 1024 81{}", "00".repeat(31)));
    desk.ask("poke state 1055 C0");
    assert!(desk.ask("show unit 0").ends_with(" sessions 0 7 254 255"));
}

#[test]
fn the_first_declared_place_is_shown() {
    let mut desk = example();
    desk.set("number 0 3");
    // A repeated number: place 0 has priority 2, place 1 has 1.
    assert!(desk.ask("show unit 3").contains(" priority 2 "));
    assert_eq!(desk.ask("show unit 7"), "show unit refused 9");
    // Place 2 is not declared, then it is.
    desk.set("number 2 200");
    assert_eq!(desk.ask("show unit 200"), "show unit refused 9");
    desk.set("count 0 3");
    assert!(desk.ask("show unit 200").starts_with("show unit 200 link uni "));
    // Place 31 is the last, however many are said to be declared.
    desk.set("number 31 201");
    for (count, found) in [(0, false), (1, false), (31, false), (32, true), (33, true), (64, true), (255, true)] {
        desk.set(&format!("count 0 {count}"));
        assert_eq!(desk.ask("show unit 201") != "show unit refused 9", found, "{count}");
    }
    desk.set("count 0 0");
    for unit in [0, 3, 200] {
        assert_eq!(desk.ask(&format!("show unit {unit}")), "show unit refused 9");
    }
}

#[test]
fn a_unit_above_255_counts_as_255() {
    let mut desk = example();
    let huge = "9".repeat(400);
    let numbers = ["255", "256", "259", "4294967551", "18446744073709551615", "18446744073709551616", &huge];
    for unit in numbers {
        assert_eq!(desk.ask(&format!("show unit {unit}")), "show unit refused 9");
    }
    desk.set("number 1 255");
    for unit in numbers {
        assert_eq!(desk.ask(&format!("show unit {unit}")), EXAMPLE.replace("unit 3", "unit 255"));
    }
    assert_eq!(desk.ask("show unit 254"), "show unit refused 9");
}

#[test]
fn it_tests_nothing() {
    let mut desk = example();
    for setting in ["bus 0 0", "granted 0 254", "asks 31 255", "priority 0 99"] {
        desk.set(setting);
        assert_eq!(desk.ask("show unit 3"), EXAMPLE);
    }
    for line in ["lend store 0 00", "lend rows 0 0", "card narrow"] {
        desk.ask(line);
        assert_eq!(desk.ask("show unit 3"), EXAMPLE);
    }
    assert_eq!(desk.ask("count 3"), "count refused 8");
}
