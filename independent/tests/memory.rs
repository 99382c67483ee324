//! The bytes of the translation memory, and lookups in one that was spoiled.

mod common;

use common::{cell, header, tabs, Rig, LISTING_TABLE};
use independent::{load, Arrival, Card, Counters};

const CELL: [u8; 4] = [0x00, 0x50, 0x02, 0x10];

/// Loads into a memory of 0xEE bytes and gives it back.
fn memory_of(card: Card, table: &str, length: usize) -> Vec<u8> {
    let mut memory = vec![0xEE; length];
    let mut rows = [Counters::default(); 32];
    let (_, outcome) = load(card, tabs(table).as_bytes(), &mut memory, 262_144, &mut rows);
    outcome.expect("a good table");
    memory
}

/// A zeroed memory with these records at these places.
fn expected(length: usize, records: &[(usize, [u8; 8])]) -> Vec<u8> {
    let mut memory = vec![0; length];
    for (place, record) in records {
        memory[*place..*place + 8].copy_from_slice(record);
    }
    memory
}

#[test]
fn listing_on_both_cards() {
    // VPI 5 of unit 0 is a page with top 33 at byte 56; VCI 33 stands at 56 + 264.
    let page = (40, [3, 0, 33, 0, 0, 0, 0, 56]);
    let narrow = (320, [2, 0x20, 0x38, 9, 0, 40, 0, 0]);
    let wide = (320, [2, 0x20, 0x38, 0, 0, 40, 0, 9]);
    assert_eq!(memory_of(Card::Narrow, LISTING_TABLE, 400), expected(400, &[page, narrow]));
    assert_eq!(memory_of(Card::Wide, LISTING_TABLE, 400), expected(400, &[page, wide]));
    assert_eq!(memory_of(Card::Wide, LISTING_TABLE, 328), expected(328, &[page, wide]));
}

#[test]
fn every_kind_of_record() {
    let table = "bus 32\nunit 7 nni 300 2 one 0 0 100 0\nvp 7 261 m17 3 4095\ndrop 7 300\npage 7 1 258\n\
        unit 1 uni 1 1 one 0 0 1 0\npage 1 1 1\nvc 7 1 257 u5 1 261 65535\nvc 1 1 0 b 0 1 513\n";
    let (page, unit, second) = (301 * 8, (301 + 259) * 8, (301 + 259 + 2) * 8);
    let records = [
        (261 * 8, [2, 0x71, 0x1D, 0, 0, 0, 0x0F, 0xFF]),
        (300 * 8, [1, 0, 0, 0, 0, 0, 0, 0]),
        (8, [3, 1, 2, 0, 0, 0, 0x09, 0x68]),
        (page + 257 * 8, [2, 0x10, 0x50, 0, 0xFF, 0xFF, 1, 5]),
        (unit + 8, [3, 0, 1, 0, 0, 0, 0x11, 0x90]),
        (second, [2, 0x80, 0x01, 0, 2, 1, 0, 1]),
    ];
    assert_eq!((page, second), (0x0968, 0x1190));
    assert!(memory_of(Card::Wide, table, 5_000) == expected(5_000, &records));
}

#[test]
fn bytes_past_262144_are_untouched() {
    let memory = memory_of(Card::Wide, "bus 16\n", 262_160);
    assert!(memory[..262_144].iter().all(|byte| *byte == 0));
    assert!(memory[262_144..].iter().all(|byte| *byte == 0xEE));
}

/// The listing's shelf with one record of its memory replaced.
fn spoiled(card: Card, place: usize, record: [u8; 8]) -> Rig {
    let mut rig = Rig::new(card, LISTING_TABLE);
    rig.memory[place..place + 8].copy_from_slice(&record);
    rig
}

#[test]
fn spoiled_kinds() {
    for kind in 0..=255 {
        let mut vpi = spoiled(Card::Wide, 40, [kind, 0, 0, 0, 0, 0, 0, 0]);
        let expected = match kind {
            1 => Arrival::Ignored,
            2 => Arrival::Queued,
            _ => Arrival::Misrouted,
        };
        assert_eq!(vpi.arrive_header(0, CELL), expected, "VPI record of kind {kind}");
        let mut vci = spoiled(Card::Wide, 320, [kind, 0x20, 0x38, 0, 0, 40, 0, 9]);
        let expected = if kind == 2 { Arrival::Queued } else { Arrival::Misrouted };
        assert_eq!(vci.arrive_header(0, CELL), expected, "VCI record of kind {kind}");
    }
}

#[test]
fn wide_vpi_above_4095_is_misrouted_on_the_wide_card_alone() {
    for (vpi, expected) in [(4_095_u16, Arrival::Queued), (4_096, Arrival::Misrouted), (65_535, Arrival::Misrouted)] {
        let [high, low] = vpi.to_be_bytes();
        let record = [2, 0x20, 0x38, 9, 0, 40, high, low];
        for place in [40, 320] {
            assert_eq!(spoiled(Card::Wide, place, record).arrive_header(0, CELL), expected);
            assert_eq!(spoiled(Card::Narrow, place, record).arrive_header(0, CELL), Arrival::Queued);
        }
    }
}

#[test]
fn records_must_lie_wholly_inside_the_lent_slice() {
    let arrive = |length: usize| {
        let mut rig = Rig::wide(LISTING_TABLE);
        rig.memory.truncate(length);
        rig.arrive_header(0, CELL)
    };
    for length in [0, 1, 40, 47, 48, 319, 320, 327] {
        assert_eq!(arrive(length), Arrival::Misrouted, "{length}");
    }
    assert_eq!(arrive(328), Arrival::Queued);
}

#[test]
fn pages_may_point_anywhere() {
    let page = |top: u16, place: u32| {
        let ([a, b], [c, d, e, f]) = (top.to_be_bytes(), place.to_be_bytes());
        [3, a, b, 0, c, d, e, f]
    };
    for place in [u32::MAX, u32::MAX - 263, 0x8000_0000, 262_144, 262_144 - 271] {
        assert_eq!(spoiled(Card::Wide, 40, page(33, place)).arrive_header(0, CELL), Arrival::Misrouted);
    }
    assert_eq!(spoiled(Card::Wide, 40, page(32, 56)).arrive_header(0, CELL), Arrival::Misrouted);
    // An odd place is as good as another, also past 262,144 bytes.
    for (length, place) in [(262_144, 1_001), (262_144, 262_144 - 272), (300_000, 299_728)] {
        let mut rig = spoiled(Card::Wide, 40, page(33, place));
        rig.memory.resize(length, 0);
        let start = place as usize + 264;
        rig.memory[start..start + 8].copy_from_slice(&[2, 0x20, 0x38, 0, 0, 40, 0, 9]);
        assert_eq!(rig.arrive_header(0, CELL), Arrival::Queued, "{place}");
    }
}

#[test]
fn spoiled_routing_header_is_sent_as_it_stands() {
    // Wrong check; and with right checks kind 3 of class 2, unit 32, broadcast address 1.
    for routing in [0x2039_u16, 0xE005, 0x020A, 0x8012] {
        let [high, low] = routing.to_be_bytes();
        let mut rig = spoiled(Card::Wide, 320, [2, high, low, 0, 0, 40, 0, 9]);
        assert_eq!(rig.arrive_header(0, CELL), Arrival::Queued);
        rig.frame();
        let ((sent, bytes), bumped) = rig.bumps(Rig::frame);
        assert_eq!((sent.sender, sent.copies), (Some(0), 0));
        assert_eq!(bytes[..2], [high, low]);
        assert_eq!(bumped, [(0, "sent"), (0, "unheard"), (0, "damaged"), (1, "damaged")], "{routing:04X}");
    }
}

#[test]
fn vp_keeps_the_vci_and_vc_replaces_it() {
    for card in [Card::Narrow, Card::Wide] {
        let table = "bus 16\nunit 0 uni 5 2 one 0 0 100 0\nvp 0 4 u0 1 7\npage 0 5 33\nvc 0 5 33 u0 1 8 40\n";
        let mut rig = Rig::new(card, table);
        rig.arrive(0, &cell([0x00, 0x40, 0x02, 0x1F], 1)).unwrap();
        rig.arrive(0, &cell([0x00, 0x50, 0x02, 0x1B], 2)).unwrap();
        for _ in 0..3 {
            rig.frame();
        }
        assert_eq!(rig.take(0), Some(cell([0x00, 0x70, 0x02, 0x1F], 1)));
        assert_eq!(rig.take(0), Some(cell([0x00, 0x80, 0x02, 0x8B], 2)));
        assert_eq!(rig.take(0), None);
    }
}

#[test]
fn vpi_above_the_top_is_misrouted_whatever_stands_there() {
    // The record after unit 0's last belongs to unit 1, whose routes must not serve unit 0.
    let table = "bus 16\nunit 0 nni 5 2 one 0 0 100 0\nunit 1 nni 300 2 one 0 0 100 0\n\
        vp 0 5 u0 1 1\nvp 1 0 u0 1 1\nvp 1 255 u0 1 1\n";
    let mut rig = Rig::wide(table);
    assert_eq!(rig.arrive_header(0, header(6, 9, 0)), Arrival::Misrouted);
    assert_eq!(rig.arrive_header(0, header(261, 9, 0)), Arrival::Misrouted);
    assert_eq!(rig.arrive_header(0, header(5, 9, 0)), Arrival::Queued);
    assert_eq!(rig.arrive_header(1, header(0, 9, 0)), Arrival::Queued);
    assert_eq!(rig.arrive_header(1, header(255, 9, 0)), Arrival::Queued);
    assert_eq!(rig.arrive_header(1, header(301, 9, 0)), Arrival::Misrouted);
}
