//! Refusals 1 to 7 with their lines, and 8 to 11 with their order.

mod common;

use common::{cell, tabs, try_load, Rig, LISTING_TABLE};
use independent::{load, Card, Counters, Refused, Shelf};

const HEAD: &str = "bus 16\nunit 0 uni 5 2 one 0 0 100 0\n";
const HEAD_32: &str = "bus 32\nunit 0 nni 4095 2 one 0 0 100 0\n";

/// Loads on the wide card with blanks for tabs and plenty of memory.
fn wide(text: &str) -> Result<usize, (u8, usize)> {
    try_load(Card::Wide, tabs(text).as_bytes(), 262_144)
}

fn narrow(text: &str) -> Result<usize, (u8, usize)> {
    try_load(Card::Narrow, tabs(text).as_bytes(), 262_144)
}

/// The outcome of the third line after a head of two.
fn third(line: &str) -> Result<usize, (u8, usize)> {
    wide(&format!("{HEAD}{line}\n"))
}

#[test]
fn good_tables() {
    assert_eq!(wide("bus 16\n"), Ok(0));
    assert_eq!(wide("bus 32\n"), Ok(0));
    assert_eq!(narrow("bus 16\n"), Ok(0));
    assert_eq!(wide(LISTING_TABLE), Ok(328));
    assert_eq!(narrow(LISTING_TABLE), Ok(328));
    let lines = [
        "vp 0 5 u15 0 4095",
        "vp 0 0 m0 3 0",
        "vp 0 1 m255 1 1",
        "vp 0 2 b 2 2",
        "drop 0 5",
        "mc 0 0",
        "mc 0 255",
        "unit 15 nni 4 3 four 88 88 1 1",
        "unit 1 uni 4 1 four 1 1 88 0",
    ];
    for line in lines {
        assert!(third(line).is_ok(), "{line}");
    }
    assert_eq!(third("page 0 5 0"), Ok(56));
    assert_eq!(third("unit 1 nni 4095 1 one 0 0 1 0"), Ok(48 + 32_768));
    assert_eq!(third("unit 1 uni 255 1 one 0 0 123 0"), Ok(48 + 2_048));
}

#[rustfmt::skip]
const WRONG_WORDS_AND_COUNTS: &[&str] = &[
    "", "route 0 5", "Drop 0 5", "dropp 0 5", "drop", "drop 0", "drop 0 5 6", "drop  0 5", " drop 0 5",
    "drop 0 5 ", "drop 0 5\r", "mc 0", "mc 0 1 2", "page 0 5", "page 0 5 1 1", "vp 0 5 b 1", "vp 0 5 b 1 1 1",
    "vc 0 5 1 b 1 1", "vc 0 5 1 b 1 1 1 1", "unit 1 uni 5 2 one 0 0 100", "unit 1 uni 5 2 one 0 0 100 0 0",
    "bus", "bus 16 16", "bus 15", "bus 016", "bus 0", "bus x", "drop\u{B}0\u{B}5", "drop 0 \u{E9}", "\u{E9}",
];

#[test]
fn form_of_words_counts_and_ends() {
    assert_eq!(wide(""), Err((2, 1)));
    assert_eq!(wide("\n"), Err((2, 1)));
    assert_eq!(wide("bus 16"), Err((2, 1)));
    assert_eq!(wide("bus 16\n\n"), Err((2, 2)));
    assert_eq!(wide(&format!("{HEAD}drop 0 5")), Err((2, 3)));
    for line in WRONG_WORDS_AND_COUNTS {
        assert_eq!(third(line), Err((2, 3)), "{line:?}");
    }
    assert_eq!(try_load(Card::Wide, b"bus\t16\n\xFF\n", 8), Err((2, 2)));
    assert_eq!(try_load(Card::Wide, b"bus 16\n", 8), Err((2, 1)));
    assert_eq!(try_load(Card::Wide, b"bus\t16\r\n", 8), Err((2, 1)));
}

#[rustfmt::skip]
const FIELDS_OUTSIDE: &[&str] = &[
    "unit 32 uni 5 2 one 0 0 100 0", "unit 1 uno 5 2 one 0 0 100 0", "unit 1 uni 256 2 one 0 0 100 0",
    "unit 1 nni 4096 2 one 0 0 100 0", "unit 1 uni 5 0 one 0 0 100 0", "unit 1 uni 5 4 one 0 0 100 0",
    "unit 1 uni 5 2 two 0 0 100 0", "unit 1 uni 5 2 one 1 0 100 0", "unit 1 uni 5 2 one 0 1 100 0",
    "unit 1 uni 5 2 one 0 0 0 0", "unit 1 uni 5 2 one 0 0 124 0", "unit 1 uni 5 2 one 0 0 100 2",
    "unit 1 uni 5 2 four 0 0 20 0", "unit 1 uni 5 2 four 89 1 1 0", "unit 1 uni 5 2 four 40 0 20 0",
    "unit 1 uni 5 2 four 40 41 20 0", "unit 1 uni 5 2 four 40 30 0 0", "unit 1 uni 5 2 four 40 30 50 0",
    "unit 1 uni 5 2 four 88 1 2 0", "unit 01 uni 5 2 one 0 0 100 0", "unit 1 uni 05 2 one 0 0 100 0",
    "vp 32 5 b 1 1", "vp 0 4096 b 1 1", "vp 0 5 u32 1 1", "vp 0 5 m256 1 1", "vp 0 5 b0 1 1", "vp 0 5 u 1 1",
    "vp 0 5 m 1 1", "vp 0 5 u03 1 1", "vp 0 5 U3 1 1", "vp 0 5 3 1 1", "vp 0 5 b 4 1", "vp 0 5 b 1 4096",
    "vp 0 5 b 1 -1", "vp 0 5 b 1 +1", "vp 0 5 b 1 0x1", "vp 0 5 b 00 1", "vp 0 5 u3\u{660} 1 1", "drop 32 5",
    "drop 0 4096", "page 0 5 65536", "page 0 4096 1", "page 32 5 1", "vc 0 5 65536 b 1 1 1",
    "vc 0 5 1 b 1 1 65536", "vc 0 5 1 b 1 4096 1", "vc 0 5 1 b 4 1 1", "vc 32 5 1 b 1 1 1", "mc 32 1",
    "mc 0 256",
];

#[test]
fn form_of_fields_outside_their_range() {
    let huge = "9".repeat(400);
    for line in FIELDS_OUTSIDE {
        assert_eq!(third(line), Err((2, 3)), "{line:?}");
    }
    assert_eq!(third(&format!("mc 0 {huge}")), Err((2, 3)));
    // 2^32 and 2^64 must not come round to 0.
    assert_eq!(third("mc 0 4294967296"), Err((2, 3)));
    assert_eq!(third("mc 0 18446744073709551616"), Err((2, 3)));
    assert_eq!(third("mc 0 340282366920938463463374607431768211456"), Err((2, 3)));
}

#[rustfmt::skip]
const OUT_OF_ORDER: &[&str] = &[
    "bus 16", "bus 32", "unit 16 uni 5 2 one 0 0 100 0", "unit 31 uni 5 2 one 0 0 100 0", "vp 0 5 u16 1 1",
    "vp 16 5 u1 1 1", "vp 1 5 u1 1 1", "vp 0 6 u1 1 1", "vp 0 261 u1 1 1", "drop 1 5", "drop 0 6",
    "page 1 5 1", "page 0 6 1", "mc 1 1", "mc 16 1", "vc 0 5 1 u1 1 1 1", "vc 1 5 1 u1 1 1 1",
    "vc 0 6 1 u1 1 1 1",
];

#[test]
fn order() {
    assert_eq!(wide("unit 0 uni 5 2 one 0 0 100 0\nbus 16\n"), Err((3, 1)));
    assert_eq!(wide("drop 0 5\n"), Err((3, 1)));
    assert_eq!(wide("mc 0 5\n"), Err((3, 1)));
    for line in OUT_OF_ORDER {
        assert_eq!(third(line), Err((3, 3)), "{line:?}");
    }
    let fourth = |lines: &str| wide(&format!("{HEAD}{lines}\n"));
    assert_eq!(fourth("page 0 5 33\nvc 0 5 34 u1 1 1 1"), Err((3, 4)));
    assert_eq!(fourth("page 0 5 33\nvc 0 4 33 u1 1 1 1"), Err((3, 4)));
    assert_eq!(fourth("page 0 5 33\nvc 0 5 33 u16 1 1 1"), Err((3, 4)));
    assert_eq!(fourth("vp 0 5 b 1 1\nvc 0 5 0 u1 1 1 1"), Err((3, 4)));
    assert_eq!(fourth("drop 0 5\nvc 0 5 0 u1 1 1 1"), Err((3, 4)));
    assert_eq!(fourth("mc 1 1\nunit 1 uni 5 2 one 0 0 100 0"), Err((3, 3)));
    assert_eq!(wide(&format!("{HEAD_32}vp 0 4095 u31 1 1\nunit 31 uni 0 1 one 0 0 1 0\n")), Ok(32_776));
}

#[test]
fn twice() {
    let cases = [
        ("unit 0 uni 5 2 one 0 0 100 0", 3),
        ("unit 0 nni 7 1 four 1 1 1 1", 3),
        ("vp 0 5 b 1 1\nvp 0 5 u1 2 2", 4),
        ("vp 0 5 b 1 1\ndrop 0 5", 4),
        ("vp 0 5 b 1 1\npage 0 5 1", 4),
        ("drop 0 5\nvp 0 5 b 1 1", 4),
        ("drop 0 5\ndrop 0 5", 4),
        ("drop 0 5\npage 0 5 1", 4),
        ("page 0 5 1\nvp 0 5 b 1 1", 4),
        ("page 0 5 1\ndrop 0 5", 4),
        ("page 0 5 1\npage 0 5 2", 4),
        ("mc 0 7\nmc 0 7", 4),
        ("page 0 5 1\nvc 0 5 1 b 1 1 1\nvc 0 5 1 u1 2 2 2", 5),
    ];
    for (lines, line) in cases {
        assert_eq!(wide(&format!("{HEAD}{lines}\n")), Err((4, line)), "{lines:?}");
    }
    let good = "unit 1 uni 5 2 one 0 0 100 0\ndrop 0 5\ndrop 1 5\nmc 0 7\nmc 1 7\nmc 0 8\npage 0 4 1\n\
        page 1 4 1\nvc 0 4 0 b 1 1 1\nvc 0 4 1 b 1 1 1\nvc 1 4 1 b 1 1 1\n";
    assert_eq!(wide(&format!("{HEAD}{good}")), Ok(128));
}

#[test]
fn wide_on_the_narrow_card_only() {
    let cases = [
        ("bus 32\n".to_string(), 1),
        ("bus 16\nunit 0 nni 5 2 one 0 0 100 0\n".to_string(), 2),
        (format!("{HEAD}vp 0 5 u1 1 256\n"), 3),
        (format!("{HEAD}page 0 5 1\nvc 0 5 1 u1 1 256 1\n"), 4),
        (format!("{HEAD}page 0 5 1\nvc 0 5 1 u1 1 4095 1\n"), 4),
    ];
    for (text, line) in cases {
        assert_eq!(narrow(&text), Err((5, line)), "{text}");
        assert!(wide(&text).is_ok(), "{text}");
    }
}

#[test]
fn room() {
    let text = tabs(LISTING_TABLE);
    let load = |memory| try_load(Card::Wide, text.as_bytes(), memory);
    assert_eq!(load(0), Err((6, 2)));
    assert_eq!(load(47), Err((6, 2)));
    assert_eq!(load(48), Err((6, 3)));
    assert_eq!(load(55), Err((6, 3)));
    assert_eq!(load(56), Err((6, 4)));
    assert_eq!(load(327), Err((6, 4)));
    assert_eq!(load(328), Ok(328));
    assert_eq!(try_load(Card::Wide, b"bus\t16\n", 0), Ok(0));
    // 262,144 bytes are 32,768 records, however large the memory is.
    let page = |top: u16| tabs(&format!("bus 16\nunit 0 uni 0 1 one 0 0 1 0\npage 0 0 {top}\n"));
    for memory in [262_144, 400_000, 600_000] {
        assert_eq!(try_load(Card::Wide, page(32_766).as_bytes(), memory), Ok(262_144));
        assert_eq!(try_load(Card::Wide, page(32_767).as_bytes(), memory), Err((6, 3)));
        assert_eq!(try_load(Card::Narrow, page(65_535).as_bytes(), memory), Err((6, 3)));
    }
}

#[test]
fn store() {
    let text = tabs(LISTING_TABLE);
    let load_with = |store_len: usize, rows: usize| {
        let mut rows = vec![Counters::default(); rows];
        let (_, outcome) = load(Card::Wide, text.as_bytes(), &mut [0; 400], store_len, &mut rows);
        outcome.map_err(|refusal| (refusal.number(), refusal.line))
    };
    assert_eq!(load_with(16_384, 2), Ok(328));
    assert_eq!(load_with(16_383, 2), Err((7, 0)));
    assert_eq!(load_with(16_384, 1), Err((7, 0)));
    assert_eq!(load_with(0, 0), Err((7, 0)));
    let (_, alone) = load(Card::Wide, b"bus\t32\n", &mut [], 0, &mut []);
    assert_eq!(alone, Ok(0));
}

#[test]
fn numbers_on_one_line_are_tried_in_order() {
    // Form before Order before Twice before Wide before Room before Store.
    assert_eq!(narrow("unit 0 uni 5 2 one 0 0 100 9\n"), Err((2, 1)));
    assert_eq!(narrow("unit 0 nni 5 2 one 0 0 100 0\n"), Err((3, 1)));
    assert_eq!(wide("bus 16\nbus 17\n"), Err((2, 2)));
    assert_eq!(wide(&format!("{HEAD}vp 0 5 u16 1 4096\n")), Err((2, 3)));
    assert_eq!(narrow(&format!("{HEAD}vp 0 5 u16 1 256\n")), Err((3, 3)));
    assert_eq!(narrow("bus 16\nbus 32\n"), Err((3, 2)));
    assert_eq!(wide(&format!("{HEAD}drop 0 5\nvp 0 5 u16 1 1\n")), Err((3, 4)));
    assert_eq!(narrow(&format!("{HEAD}drop 0 5\nvp 0 5 u1 1 256\n")), Err((4, 4)));
    assert_eq!(narrow(&format!("{HEAD}unit 0 nni 5 2 one 0 0 100 0\n")), Err((4, 3)));
    let tight = |card, text: &str| try_load(card, tabs(text).as_bytes(), 48);
    assert_eq!(tight(Card::Wide, &format!("{HEAD}unit 0 uni 5 2 one 0 0 100 0\n")), Err((4, 3)));
    assert_eq!(tight(Card::Narrow, &format!("{HEAD}unit 1 nni 5 2 one 0 0 100 0\n")), Err((5, 3)));
    assert_eq!(tight(Card::Wide, &format!("{HEAD}unit 1 nni 5 2 one 0 0 100 0\n")), Err((6, 3)));
    assert_eq!(tight(Card::Wide, &format!("{HEAD}page 0 5 9")), Err((2, 3)));
    // The first faulty line wins over a smaller number on a later one.
    assert_eq!(tight(Card::Wide, &format!("{HEAD}page 0 5 9\nnonsense\n")), Err((6, 3)));
    // Room of a line wins over Store, Store over a good load.
    let (_, outcome) = load(Card::Wide, tabs(HEAD).as_bytes(), &mut [0; 47], 0, &mut []);
    assert_eq!(outcome.map_err(|refusal| refusal.number()), Err(6));
}

#[test]
fn refused_loads_zero_the_memory_and_touch_nothing_else() {
    let texts = [
        "x".repeat(65_537),
        String::new(),
        tabs("bus 16\nmc 0 1\n"),
        tabs(&format!("{HEAD}mc 0 1\nmc 0 1\n")),
        tabs("bus 32\n"),
        tabs(&format!("{HEAD}page 0 1 65535\n")),
        tabs(HEAD),
    ];
    for (text, number) in texts.iter().zip(1..) {
        let mut memory = vec![0xEE; 262_145];
        let mut rows = [Counters { arrived: 9, ..Counters::default() }; 2];
        let (shelf, outcome) = load(Card::Narrow, text.as_bytes(), &mut memory, 8_191, &mut rows);
        assert_eq!(outcome.map_err(|refusal| refusal.number()), Err(number));
        assert_eq!(shelf, Shelf::fresh(Card::Narrow));
        assert_eq!((shelf.state.bus(), shelf.state.count()), (16, 0));
        assert!(memory[..262_144].iter().all(|byte| *byte == 0));
        assert_eq!(memory[262_144], 0xEE);
        assert!(rows.iter().all(|row| row.arrived == 9));
    }
}

#[test]
fn refused_loads_leave_none_of_the_records_before_the_fault() {
    let good = format!("{HEAD}vp 0 0 b 1 1\ndrop 0 1\npage 0 5 33\nvc 0 5 33 u3 2 9 40\nmc 0 9\n");
    let faults = [
        ("nonsense\n", 2, 8),
        ("drop 1 1\n", 3, 8),
        ("vc 0 5 33 u3 2 9 40\n", 4, 8),
        ("vp 0 2 b 1 256\n", 5, 8),
        ("page 0 2 65535\n", 6, 8),
        ("unit 1 uni 5 2 one 0 0 100 0\n", 7, 0),
    ];
    for (fault, number, line) in faults {
        let text = tabs(&format!("{good}{fault}"));
        for length in [376, 400, 262_144, 262_150] {
            let mut memory = vec![0xEE; length];
            let mut rows = [Counters::all(9); 2];
            let (shelf, outcome) = load(Card::Narrow, text.as_bytes(), &mut memory, 8_192, &mut rows);
            let refused = outcome.map_err(|refusal| (refusal.number(), refusal.line));
            assert_eq!((refused, shelf), (Err((number, line)), Shelf::fresh(Card::Narrow)));
            let end = length.min(262_144);
            assert!(memory[..end].iter().all(|byte| *byte == 0), "{fault}");
            assert!(memory[end..].iter().all(|byte| *byte == 0xEE), "{fault}");
            assert_eq!(rows, [Counters::all(9); 2]);
        }
    }
}

#[test]
fn fresh_shelf_after_refusal_only_numbers_frames() {
    let (mut shelf, outcome) = load(Card::Wide, b"", &mut [], 0, &mut []);
    assert!(outcome.is_err());
    for number in 0..3 {
        let mut buffer = [7; 57];
        let frame = shelf.frame(&mut buffer, &mut [], &mut []).expect("not refused");
        assert_eq!((frame.number, frame.sender, frame.granted, frame.copies), (number, None, None, 0));
        assert_eq!(buffer, [7; 57]);
    }
    assert_eq!(shelf.count(0, 0, &[]), Err(Refused::Unit));
}

#[test]
fn good_load_zeroes_its_rows_and_no_others() {
    let mut rows = [Counters { taken: 9, ..Counters::default() }; 3];
    let (shelf, outcome) = load(Card::Wide, tabs(LISTING_TABLE).as_bytes(), &mut [0; 328], 16_384, &mut rows);
    assert_eq!(outcome, Ok(328));
    assert_eq!((shelf.state.bus(), shelf.state.numbers()), (16, &[0, 3][..]));
    assert_eq!(rows.map(|row| row.taken), [0, 0, 9]);
}

#[test]
fn state_then_unit_then_length() {
    let mut rig = Rig::wide(LISTING_TABLE);
    rig.arrive_header(0, [0x00, 0x50, 0x02, 0x10]);
    rig.frame();
    let before = rig.clone();
    for (store_len, rows, expected) in
        [(16_383, 2, Refused::State), (16_384, 1, Refused::State), (16_384, 2, Refused::Unit)]
    {
        let (memory, rows, store) = (rig.memory.clone(), &mut rig.rows[..rows], &mut rig.store[..store_len]);
        let shelf = &mut rig.shelf;
        assert_eq!(shelf.arrive(7, &[0; 9], &memory, store, rows), Err(expected));
        assert_eq!(shelf.hear(7, &[0; 9], store, rows), Err(expected));
        assert_eq!(shelf.take(7, &mut [0; 9], store, rows), Err(expected));
        assert_eq!(shelf.hand(7, &[0; 9], store, rows.len()), Err(expected));
        assert_eq!(shelf.collect(7, &mut [0; 9], store, rows), Err(expected));
        assert_eq!(shelf.count(7, store_len, rows), Err(expected));
        let frame = if expected == Refused::Unit { Refused::Length } else { expected };
        assert_eq!(shelf.frame(&mut [0; 9], store, rows), Err(frame));
    }
    assert_eq!(rig, before);
}

#[test]
fn lengths() {
    let mut rig = Rig::wide(LISTING_TABLE);
    rig.arrive_header(0, [0x00, 0x50, 0x02, 0x10]);
    let before = rig.clone();
    let length = Err(Refused::Length);
    for wrong in [0, 52, 54, 57] {
        let mut bytes = vec![0; wrong];
        assert_eq!(rig.arrive(0, &bytes).map(|_| ()), length);
        assert_eq!(rig.shelf.take(3, &mut bytes, &rig.store, &mut rig.rows).map(|_| ()), length);
    }
    for wrong in [0, 53, 55, 57] {
        let mut bytes = vec![0; wrong];
        assert_eq!(rig.hand(3, &bytes), length);
        assert_eq!(rig.shelf.collect(3, &mut bytes, &rig.store, &mut rig.rows).map(|_| ()), length);
    }
    for wrong in [0, 53, 56, 58] {
        let mut bytes = vec![0; wrong];
        assert_eq!(rig.hear(3, &bytes).map(|_| ()), length);
        assert_eq!(rig.shelf.frame(&mut bytes, &mut rig.store, &mut rig.rows).map(|_| ()), length);
    }
    assert_eq!(rig, before);
    assert_eq!(rig.frame().0.number, 0);
}

#[test]
fn units_outside_any_bus_are_not_declared() {
    let mut rig = Rig::wide(LISTING_TABLE);
    for unit in [1, 2, 16, 32, 256, 259, 65_539, u32::MAX] {
        assert_eq!(rig.arrive(unit, &cell([0; 4], 0)), Err(Refused::Unit));
        assert_eq!(rig.hear(unit, &[0; 57]), Err(Refused::Unit));
        assert_eq!(rig.hand(unit, &[0; 56]), Err(Refused::Unit));
        let collected = rig.shelf.collect(unit, &mut [0; 56], &rig.store, &mut rig.rows);
        assert_eq!(collected, Err(Refused::Unit));
    }
}

#[test]
fn numbers_of_the_names() {
    use Refused::*;
    let names = [Long, Form, Order, Twice, Wide, Room, Store, State, Unit, Length, Busy];
    assert!(names.iter().map(|name| name.number()).eq(1..=11));
}
