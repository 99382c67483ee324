//! The console's commands and answers, and the refusals through it.

mod common;

use common::{cell, console, frame, header, hex, table_of, tabs, to_unit, Desk, LISTING_TABLE};

/// Answers to lines with blanks for tabs.
fn answers(lines: &str) -> Vec<String> {
    console(tabs(lines).as_bytes())
}

fn listing() -> Desk {
    Desk::new("wide", LISTING_TABLE)
}

fn buffer(length: usize) -> String {
    "EE".repeat(length)
}

/// The FNV-1a sum as the document of the sum gives it.
fn sum(bytes: &[u8]) -> String {
    let mut sum = 2_166_136_261_u64;
    for byte in bytes {
        sum = (sum ^ u64::from(*byte)) * 16_777_619 % (1 << 32);
    }
    format!("{sum:08X}")
}

#[test]
fn listing_of_document_01() {
    let payload = "A5".repeat(48);
    let mut desk = Desk::default();
    assert_eq!(desk.ask("lend memory 16384 00"), "lend ok");
    assert_eq!(desk.ask("lend store 32768 00"), "lend ok");
    assert_eq!(desk.ask("lend rows 4 0"), "lend ok");
    assert_eq!(desk.load(LISTING_TABLE), "load ok 328");
    assert_eq!(desk.ask(&format!("arrive 0 005002102B{payload}")), "arrive 0 queued");
    assert_eq!(desk.ask(&format!("arrive 0 105002104F{payload}")), "arrive 0 hec");
    assert_eq!(desk.ask("frame 57"), format!("frame 0 - 0 0 {}", buffer(57)));
    let sent = frame(0x2038, header(9, 40, 0), 0xA5);
    assert_eq!(desk.ask("frame 57"), format!("frame 1 0 - 1 {}", hex(&sent)));
    assert_eq!(desk.ask("take 3 53"), format!("take 3 cell 009002805F{payload}"));
    assert_eq!(desk.ask("take 3 53"), format!("take 3 empty {}", buffer(53)));
    assert_eq!(desk.ask("count 3"), "count 3 0 0 0 0 0 0 0 0 1 0 0 0 1");
}

#[test]
fn every_line_has_one_answer() {
    assert_eq!(answers(""), Vec::<String>::new());
    assert_eq!(answers("\n"), ["bad"]);
    assert_eq!(answers("\n\nshow rows"), ["bad", "bad", "show rows 0"]);
    assert_eq!(answers("card wide\ncard narrow"), ["card ok", "card ok"]);
    assert_eq!(answers("card wide\r\n"), ["bad"]);
    assert_eq!(answers("help\nhelp me\nhelp \nHelp"), ["help ok", "bad", "bad", "bad"]);
    assert_eq!(console(b"show\tmemory\n\xFF\n"), ["show memory 0 811C9DC5", "bad"]);
}

#[rustfmt::skip]
const BAD: &[&str] = &[
    " ", "card", "card Wide", "card wide ", "lend memory 300001 00", "lend memory 1 0", "lend memory 1 000",
    "lend memory 1 ", "lend memory 01 00", "lend memory 1 G0", "lend memory -1 00", "lend rows 41 0",
    "lend rows 1 4294967296", "lend rows 1 00", "lend shelf 1 0", "load", "load 0", "load 0G", "load 00 ",
    "arrive 0", "arrive 00 00", "arrive x 00", "arrive  00", "arrive 0 0", "hear 0", "hear 0 0", "frame",
    "frame 1001", "frame ", "frame 057", "take 0", "take 0 1001", "take -1 53", "count", "count ", "count +1",
    "hand", "hand 0", "hand 0 0", "hand 0 0G", "hand 00 00", "hand x 00", "hand  00", "hand 0 00 00", "Hand 0 00",
    "collect", "collect 0", "collect 0 1001", "collect 0 056", "collect -1 56", "collect 0 56 0", "collect  56",
    "poke memory 0 0", "poke rows 0 00", "poke memory 4000 00", "poke memory 3999 0000", "poke store x 00",
    "poke memory 18446744073709551615 00", "poke memory 99999999999999999999 00", "poke shelf 0 00",
    "poke state", "poke state 0", "poke state 0 0", "poke state 0 0G", "poke state 00 00", "poke state -1 00",
    "poke state  00", "poke state 0 00 00", "poke state 2048 00", "poke state 2047 0000", "poke state 4096 00",
    "poke state 18446744073709551615 00", "poke state 18446744073709551616 00", "poke State 0 00",
    "lend state 2048 00", "state", "state bus 0 16", "state frame 0 0", "show", "show all", "show rows 0",
    "show shelf", "show state 0", "show state ", "show unit", "show unit ", "show unit x", "show unit 00",
    "show unit -1", "show unit 0 0", "show units 0",
];

#[test]
fn what_is_no_command_is_bad_and_changes_nothing() {
    let mut desk = listing();
    let before = desk.all();
    for line in BAD {
        assert_eq!(desk.ask(line), "bad", "{line}");
    }
    assert_eq!(desk.all(), before);
}

#[test]
fn lines_to_150000_bytes() {
    let poke = |bytes: usize, digits: &str| {
        let line = format!("poke memory 0 {}{digits}", "AB".repeat(bytes));
        let mut input = format!("lend memory 300000 00\n{line}\nshow memory\n{line}");
        input = tabs(&input);
        (line.len(), console(input.as_bytes()))
    };
    let whole = sum(&[vec![0xAB; 74_993], vec![0; 225_007]].concat());
    let (length, said) = poke(74_993, "");
    assert_eq!(
        (length, &said[1..]),
        (150_000, &["poke ok", &format!("show memory 300000 {whole}"), "poke ok"].map(String::from)[..])
    );
    let nothing = sum(&[0; 300_000]);
    for bytes in [74_994, 80_000, 1_000_000] {
        let (_, said) = poke(bytes, "");
        assert_eq!(said[1..], ["bad", &format!("show memory 300000 {nothing}"), "bad"].map(String::from));
    }
    assert_eq!(poke(74_993, "A"), (150_001, poke(74_994, "").1));
}

#[test]
fn texts_cells_and_frames_to_70000_bytes() {
    let mut desk = listing();
    assert_eq!(desk.ask(&format!("arrive 0 {}", "00".repeat(70_000))), "arrive refused 10");
    assert_eq!(desk.ask(&format!("hear 0 {}", "00".repeat(70_000))), "hear refused 10");
    assert_eq!(desk.ask(&format!("hand 0 {}", "00".repeat(70_000))), "hand refused 10");
    assert_eq!(desk.ask(&format!("hand 0 {}", "00".repeat(70_001))), "bad");
    assert_eq!(desk.ask(&format!("load {}", "00".repeat(70_001))), "bad");
    assert_eq!(desk.ask(&format!("arrive 0 {}", "00".repeat(70_001))), "bad");
    assert_eq!(desk.ask("count 3"), "count 3 0 0 0 0 0 0 0 0 0 0 0 0 0");
    assert_eq!(desk.ask(&format!("load {}", "00".repeat(70_000))), "load refused 1 0");
}

#[test]
fn a_text_of_65536_bytes_is_read_and_65537_is_long() {
    let mut desk = listing();
    desk.ask("lend memory 300000 EE");
    assert_eq!(desk.load(&table_of(65_536)), "load ok 65536");
    assert_eq!(desk.load(&table_of(65_537)), "load refused 1 0");
    assert_eq!(desk.load(&"x".repeat(65_536)), "load refused 2 1");
}

#[test]
fn refusals_1_to_7_zero_the_memory_and_touch_nothing_else() {
    let head = "bus 16\nunit 0 uni 5 2 one 0 0 100 0\n";
    let texts = [
        ("x".repeat(65_537), "1 0"),
        (String::new(), "2 1"),
        ("bus 16\nmc 0 1\n".to_string(), "3 2"),
        (format!("{head}mc 0 1\nmc 0 1\n"), "4 4"),
        ("bus 32\n".to_string(), "5 1"),
        (format!("{head}page 0 1 65535\n"), "6 3"),
        (format!("{head}unit 1 uni 5 2 one 0 0 100 0\n"), "7 0"),
    ];
    let zeroed = sum(&[vec![0; 262_144], vec![0xAB; 37_856]].concat());
    for (text, refused) in texts {
        let mut desk = Desk::default();
        let fresh = desk.ask("show state");
        for line in ["card narrow", "lend memory 300000 AB", "lend store 8192 CD", "lend rows 1 5"] {
            desk.ask(line);
        }
        assert_eq!(desk.load(head), "load ok 48");
        desk.ask("hear 0 00");
        for line in ["lend memory 300000 AB", "lend rows 1 5"] {
            desk.ask(line);
        }
        desk.set("frame 0 9");
        let before = desk.all();
        assert_eq!(desk.load(&text), format!("load refused {refused}"));
        let after = desk.all();
        assert_eq!(after[0], format!("show memory 300000 {zeroed}"));
        assert_eq!((&after[1], &after[2], &after[3]), (&before[1], &before[2], &fresh));
    }
}

#[test]
fn refusals_8_to_10_in_that_order_change_nothing() {
    let mut desk = listing();
    let ask_all = |desk: &mut Desk, unit: &str, cell: usize, frame: usize| {
        [
            desk.ask(&format!("arrive {unit} {}", "00".repeat(cell))),
            desk.ask(&format!("hear {unit} {}", "00".repeat(frame))),
            desk.ask(&format!("frame {frame}")),
            desk.ask(&format!("take {unit} {cell}")),
            desk.ask(&format!("hand {unit} {}", "00".repeat(cell))),
            desk.ask(&format!("collect {unit} {cell}")),
            desk.ask(&format!("count {unit}")),
        ]
    };
    let said = |number: [u8; 7], cell: usize, frame: usize| {
        let [arrive, hear, send, take, hand, collect, count] = number;
        [
            format!("arrive refused {arrive}"),
            format!("hear refused {hear}"),
            format!("frame refused {send} {}", buffer(frame)),
            format!("take refused {take} {}", buffer(cell)),
            format!("hand refused {hand}"),
            format!("collect refused {collect} {}", buffer(cell)),
            format!("count refused {count}"),
        ]
    };
    let before = desk.all();
    let huge = "9".repeat(500);
    for unit in ["7", "259", "65539", "4294967299", "18446744073709551619", &huge] {
        assert_eq!(ask_all(&mut desk, unit, 0, 56), said([9, 9, 10, 9, 9, 9, 9], 0, 56), "{unit}");
    }
    assert_eq!(ask_all(&mut desk, "3", 52, 58)[..6], said([10; 7], 52, 58)[..6]);
    assert_eq!(ask_all(&mut desk, "3", 1_000, 1_000)[2..6], said([10; 7], 1_000, 1_000)[2..6]);
    assert_eq!(desk.all(), before);
    desk.set("bus 0 17");
    let before = desk.all();
    assert_eq!(ask_all(&mut desk, "7", 0, 0), said([8; 7], 0, 0));
    assert_eq!(ask_all(&mut desk, "3", 53, 57), said([8; 7], 53, 57));
    assert_eq!(ask_all(&mut desk, "3", 56, 57), said([8; 7], 56, 57));
    assert_eq!(desk.all(), before);
}

#[test]
fn lent_300000_bytes_and_40_rows() {
    let mut desk = Desk::default();
    desk.ask("lend memory 300000 ab");
    desk.ask("lend store 300000 Cd");
    desk.ask("lend rows 40 4294967295");
    assert_eq!(desk.ask("show memory"), format!("show memory 300000 {}", sum(&[0xAB; 300_000])));
    assert_eq!(desk.ask("show store"), format!("show store 300000 {}", sum(&[0xCD; 300_000])));
    assert_eq!(desk.ask("show rows"), format!("show rows 40{}", " 4294967295".repeat(520)));
    assert_eq!(desk.load(LISTING_TABLE), "load ok 328");
    // A record past 262,144 bytes is found when it lies inside the lent memory.
    desk.set("place 0 299952");
    desk.ask("poke memory 299992 0210500000000001");
    let bytes = hex(&cell(header(5, 33, 0), 1));
    assert_eq!(desk.ask(&format!("arrive 0 {bytes}")), "arrive 0 queued");
    desk.set("place 0 299953");
    assert_eq!(desk.ask(&format!("arrive 0 {bytes}")), "arrive 0 misrouted");
    desk.set("place 0 4294967295");
    assert_eq!(desk.ask(&format!("arrive 0 {bytes}")), "arrive 0 misrouted");
}

#[test]
fn rows_beyond_the_declared_units_are_untouched() {
    let mut desk = listing();
    let rows = |zeros: usize| format!("show rows 32{}{}", " 0".repeat(13 * zeros), " 7".repeat(13 * (32 - zeros)));
    assert_eq!(desk.ask("show rows"), rows(2));
    desk.ask(&format!("arrive 0 {}", hex(&cell([0, 0x50, 2, 0x10], 0))));
    desk.ask("frame 57");
    desk.ask("frame 57");
    desk.ask("take 3 53");
    let expected =
        format!("show rows 32{}{}{}", " 1 0 0 0 0 1 0 0 0 0 0 0 0", " 0 0 0 0 0 0 0 0 1 0 0 0 1", " 7".repeat(390));
    assert_eq!(desk.ask("show rows"), expected);
}

#[test]
fn the_card_may_change_under_a_shelf() {
    let mut desk = listing();
    let shelf = desk.ask("show state");
    desk.ask("card narrow");
    assert_eq!(desk.ask("show state"), shelf);
    // The narrow card reads the outgoing VPI of a record in byte 3, where the wide one wrote 0.
    desk.ask(&format!("arrive 0 {}", hex(&cell([0, 0x50, 2, 0x10], 0))));
    desk.ask("frame 57");
    assert_eq!(desk.ask("frame 57"), format!("frame 1 0 - 1 {}", hex(&frame(to_unit(3, 2), header(0, 40, 0), 0))));
    desk.set("bus 0 32");
    assert_eq!(desk.ask("count 3").split(' ').nth(1), Some("3"));
    desk.set("link 1 1");
    assert_eq!(desk.ask("count 3"), "count refused 8");
    desk.ask("card wide");
    assert_eq!(desk.ask("count 3").split(' ').nth(1), Some("3"));
}

#[test]
fn hand_and_collect() {
    let mut desk = listing();
    let payload = "5A".repeat(48);
    // A control cell for unit 3: C0 3D, tandem 01 02.
    let cell = format!("C03D010200900280{payload}");
    assert_eq!(desk.ask(&format!("hand 0 {}", cell.to_lowercase())), "hand 0 ok");
    assert_eq!(desk.ask(&format!("hand 0 {cell}")), "hand refused 11");
    assert_eq!(desk.ask("hand 0 00"), "hand refused 10");
    assert_eq!(desk.ask("frame 57"), format!("frame 0 - 0 0 {}", buffer(57)));
    assert_eq!(desk.ask(&format!("hand 0 {cell}")), "hand refused 11");
    // The payload falls out of the parity: C0 3D 01 02 00 90 02 80 leave EC.
    assert_eq!(desk.ask("frame 57"), format!("frame 1 0 - 1 {cell}EC"));
    assert_eq!(desk.ask("collect 3 55"), format!("collect refused 10 {}", buffer(55)));
    assert_eq!(desk.ask("collect 3 56"), format!("collect 3 cell {cell}"));
    assert_eq!(desk.ask("collect 3 56"), format!("collect 3 empty {}", buffer(56)));
    assert_eq!(desk.ask("collect 1 56"), format!("collect refused 9 {}", buffer(56)));
    assert_eq!(desk.ask("count 0"), "count 0 0 0 0 0 0 1 0 0 0 0 0 0 0");
    assert_eq!(desk.ask("count 3"), "count 3 0 0 0 0 0 0 0 0 1 0 0 0 1");
    assert_eq!(desk.ask(&format!("hand 0 {cell}")), "hand 0 ok");
}
