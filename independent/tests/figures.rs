//! Which cells carry the mark: figures 15 and 16 of the data sheet, and around them.

mod common;

use common::{cell, frame, header, to_all, to_session, to_unit, Rig};
use independent::Hearing;

/// Queues cells with these payloads in a class of unit 3.
fn queue(rig: &mut Rig, class: u8, payloads: impl IntoIterator<Item = u8>) {
    for payload in payloads {
        let heard = rig.hear(3, &frame(to_unit(3, class), header(1, 1, 0), payload));
        assert_eq!(heard, Ok(Hearing::Queued));
    }
}

/// Payload of each cell taken from unit 3 and whether it carries the mark.
fn taken(rig: &mut Rig) -> Vec<(u8, bool)> {
    let mut cells = Vec::new();
    while let Some(cell) = rig.take(3) {
        cells.push((cell[5], cell[3] & 4 != 0));
    }
    cells
}

#[test]
fn figure_15() {
    let mut rig = Rig::wide("bus 16\nunit 3 uni 0 1 one 0 0 2 1\n");
    queue(&mut rig, 2, [4, 5, 6]);
    assert_eq!(taken(&mut rig), [(4, true), (5, true), (6, false)]);
}

#[test]
fn figure_16() {
    let mut rig = Rig::wide("bus 16\nunit 3 uni 0 1 four 40 3 2 1\n");
    queue(&mut rig, 1, [4, 5, 6]);
    queue(&mut rig, 2, [7, 8]);
    assert_eq!(taken(&mut rig), [(4, true), (5, true), (6, true), (7, true), (8, false)]);
}

#[test]
fn cbr_limit_alone_marks_too() {
    let mut rig = Rig::wide("bus 16\nunit 3 uni 0 1 four 40 3 2 1\n");
    queue(&mut rig, 1, [1, 2, 3, 4]);
    queue(&mut rig, 2, [5]);
    assert_eq!(taken(&mut rig), [(1, true), (2, true), (3, false), (4, false), (5, false)]);
}

#[test]
fn without_mark_nothing_is_marked() {
    for mode in ["one 0 0 2", "four 40 3 2"] {
        let mut rig = Rig::wide(&format!("bus 16\nunit 3 uni 0 1 {mode} 0\n"));
        queue(&mut rig, 1, [4, 5, 6]);
        queue(&mut rig, 2, [7, 8]);
        assert!(taken(&mut rig).iter().all(|(_, marked)| !marked));
    }
}

#[test]
fn any_class_that_leaves_is_marked() {
    let mut rig = Rig::wide("bus 16\nunit 3 uni 0 1 four 40 3 2 1\n");
    queue(&mut rig, 0, [1]);
    queue(&mut rig, 2, [2, 3]);
    assert_eq!(taken(&mut rig), [(1, true), (2, true), (3, false)]);
    // In mode four ABR leaves only when CBR and VBR are empty, so below their limits.
    queue(&mut rig, 3, 0..32);
    assert!(taken(&mut rig).iter().all(|(_, marked)| !marked));
    let mut one = Rig::wide("bus 16\nunit 3 uni 0 1 one 0 0 2 1\n");
    queue(&mut one, 3, [1]);
    queue(&mut one, 0, [2]);
    queue(&mut one, 3, [3]);
    assert_eq!(taken(&mut one), [(1, true), (2, true), (3, false)]);
}

#[test]
fn mode_four_takes_the_lowest_class_and_mode_one_the_oldest() {
    let arrivals = [(3, 30), (2, 20), (1, 10), (0, 0), (3, 31), (2, 21), (1, 11), (0, 1)];
    let payloads = |mode: &str| {
        let mut rig = Rig::wide(&format!("bus 16\nunit 3 uni 0 1 {mode} 0\n"));
        for (class, payload) in arrivals {
            queue(&mut rig, class, [payload]);
        }
        taken(&mut rig).into_iter().map(|(payload, _)| payload).collect::<Vec<_>>()
    };
    assert_eq!(payloads("four 40 30 20"), [0, 1, 10, 11, 20, 21, 30, 31]);
    assert_eq!(payloads("one 0 0 100"), [30, 20, 10, 0, 31, 21, 11, 1]);
}

#[test]
fn class_picks_the_queue_for_every_kind() {
    let mut rig = Rig::wide("bus 16\nunit 3 uni 0 1 four 40 30 20 0\nmc 3 9\n");
    let kinds: [fn(u8) -> u16; 3] = [|class| to_unit(3, class), |class| to_session(9, class), to_all];
    for (payload, kind) in kinds.iter().enumerate() {
        for class in (0..4).rev() {
            // Class 0 holds two cells only, so the broadcast finds it full.
            let expected = if class == 0 && payload == 2 { Hearing::Full } else { Hearing::Queued };
            let heard = rig.hear(3, &frame(kind(class), header(1, 1, 0), class * 16 + payload as u8));
            assert_eq!(heard, Ok(expected));
        }
    }
    let payloads: Vec<u8> = taken(&mut rig).into_iter().map(|(payload, _)| payload).collect();
    assert_eq!(payloads, [0x00, 0x01, 0x10, 0x11, 0x12, 0x20, 0x21, 0x22, 0x30, 0x31, 0x32]);
}

#[test]
fn mark_keeps_the_other_bits_and_renews_the_check() {
    for (tail, marked) in [(0b0000, 0b0100), (0b0011, 0b0111), (0b0110, 0b0110), (0b0010, 0b0110)] {
        let mut rig = Rig::wide("bus 16\nunit 3 nni 0 1 one 0 0 1 1\n");
        rig.hear(3, &frame(to_unit(3, 2), header(0xABC, 0x1234, tail), 7)).unwrap();
        assert_eq!(rig.take(3), Some(cell(header(0xABC, 0x1234, marked), 7)));
    }
}

#[test]
fn only_a_top_pt_bit_of_0_is_marked() {
    for (mode, class) in [("one 0 0 1", 2), ("four 40 1 1", 1), ("four 40 1 1", 2)] {
        for tail in 0..16 {
            let mut rig = Rig::wide(&format!("bus 16\nunit 3 nni 0 1 {mode} 1\n"));
            // VCI 3 and 4 are those of F4 cells, which their PT alone spares.
            for vci in [3, 4, 0x1234] {
                rig.hear(3, &frame(to_unit(3, class), header(0xABC, vci, tail & 0b1110), 7)).unwrap();
                let expected = if tail < 0b1000 { tail & 0b1110 | 0b0100 } else { tail & 0b1110 };
                assert_eq!(rig.take(3), Some(cell(header(0xABC, vci, expected), 7)));
            }
        }
    }
}

#[test]
fn cells_that_are_not_marked_count() {
    let mut rig = Rig::wide("bus 16\nunit 3 uni 0 1 one 0 0 2 1\n");
    for tail in [0b0000, 0b1010, 0b0000] {
        rig.hear(3, &frame(to_unit(3, 0), header(1, 1, tail), 7)).unwrap();
    }
    let tails: Vec<u8> = std::iter::from_fn(|| rig.take(3)).map(|cell| cell[3] & 0b1111).collect();
    assert_eq!(tails, [0b0100, 0b1010, 0b0000]);
}
