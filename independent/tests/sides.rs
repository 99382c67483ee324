//! The unstarred values on each side of a line.

mod common;

use common::{frame, header, table_of, to_unit, try_load, Rig, LISTING_TABLE};
use independent::{Arrival, Card, Hearing};

#[test]
fn inlet_cell_four_and_five() {
    let mut rig = Rig::wide(LISTING_TABLE);
    for number in 1..=5 {
        let expected = if number <= 4 { Arrival::Queued } else { Arrival::InletFull };
        assert_eq!(rig.arrive_header(0, [0x00, 0x50, 0x02, 0x10]), expected, "cell {number}");
    }
    assert_eq!((rig.count(0).arrived, rig.count(0).inletfull), (5, 1));
}

#[test]
fn a_granted_cell_still_fills_the_inlet() {
    let mut rig = Rig::wide(LISTING_TABLE);
    let cell = [0x00, 0x50, 0x02, 0x10];
    for _ in 0..4 {
        rig.arrive_header(0, cell);
    }
    rig.frame();
    assert_eq!(rig.arrive_header(0, cell), Arrival::InletFull);
    rig.frame();
    assert_eq!(rig.arrive_header(0, cell), Arrival::Queued);
}

#[test]
fn mode_one_cell_123_and_124() {
    let mut rig = Rig::wide("bus 16\nunit 5 uni 5 2 one 0 0 123 0\n");
    let plain = frame(0x1050, header(1, 1, 0), 0);
    for number in 1..=122 {
        assert_eq!(rig.hear(5, &plain), Ok(Hearing::Queued), "cell {number}");
    }
    assert_eq!(rig.hear(5, &plain), Ok(Hearing::Queued));
    assert_eq!(rig.hear(5, &plain), Ok(Hearing::Full));
    assert_eq!(rig.hear(5, &frame(0x1050, header(1, 1, 1), 0)), Ok(Hearing::Full));
    assert_eq!((rig.count(5).queued, rig.count(5).full, rig.count(5).clp), (123, 2, 0));
}

#[test]
fn mode_one_limit_below_capacity_discards_clp_cells() {
    let mut rig = Rig::wide("bus 16\nunit 5 uni 5 2 one 0 0 2 0\n");
    let (plain, low) = (frame(0x1050, header(1, 1, 0), 0), frame(0x1050, header(1, 1, 1), 0));
    assert_eq!(rig.hear(5, &low), Ok(Hearing::Queued));
    assert_eq!(rig.hear(5, &low), Ok(Hearing::Queued));
    assert_eq!(rig.hear(5, &low), Ok(Hearing::Clp));
    assert_eq!(rig.hear(5, &plain), Ok(Hearing::Queued));
    assert_eq!(rig.hear(5, &low), Ok(Hearing::Clp));
}

#[test]
fn text_of_65536_bytes_is_read_and_65537_is_long() {
    for length in [65_535, 65_536] {
        assert_eq!(try_load(Card::Wide, table_of(length).as_bytes(), 262_144), Ok(65_536));
    }
    assert_eq!(try_load(Card::Wide, table_of(65_537).as_bytes(), 262_144), Err((1, 0)));
    assert_eq!(try_load(Card::Wide, &[b'x'; 65_536], 262_144), Err((2, 1)));
    assert_eq!(try_load(Card::Wide, &[b'x'; 65_537], 262_144), Err((1, 0)));
}

#[test]
fn mode_four_capacities_and_limits() {
    // CBR length 3, CBR limit 2, VBR limit 5 of 86.
    let table = "bus 16\nunit 3 nni 0 1 four 3 2 5 0\n";
    let capacity = [2, 3, 86, 32];
    let limit = [2, 2, 5, 32];
    for class in 0..4 {
        let routing = to_unit(3, class as u8);
        let (plain, low) = (frame(routing, header(1, 1, 0), 0), frame(routing, header(1, 1, 1), 0));
        let mut rig = Rig::wide(table);
        for number in 0..capacity[class] {
            let mut tried = rig.clone();
            let expected = if number < limit[class] { Hearing::Queued } else { Hearing::Clp };
            assert_eq!(tried.hear(3, &low), Ok(expected), "class {class} cell {number}");
            assert_eq!(rig.hear(3, &plain), Ok(Hearing::Queued), "class {class} cell {number}");
        }
        assert_eq!(rig.hear(3, &low), Ok(Hearing::Full));
        assert_eq!(rig.hear(3, &plain), Ok(Hearing::Full));
    }
}
