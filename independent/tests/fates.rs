//! Each fate of arriving, hearing, sending and taking with exactly the counters it bumps.

mod common;

use common::{cell, frame, header, to_all, to_session, to_unit, Rig};
use independent::codec::{parity, routing_check};
use independent::{Arrival, Counters, Hearing};

/// Rows 0 to 2 are units 4, 0 and 2.
const TABLE: &str = "\
bus 16
unit 4 uni 9 1 four 2 1 1 0
unit 0 nni 9 2 one 0 0 2 0
unit 2 uni 0 3 one 0 0 123 0
vp 4 1 u0 1 300
vp 4 2 u7 1 1
vp 4 3 m9 1 1
vp 4 4 b 2 1
drop 4 5
page 4 6 10
vc 4 6 3 u4 3 1 1
vp 4 7 m8 1 1
vp 4 8 u2 1 256
mc 4 9
mc 2 9
";

fn rig() -> Rig {
    Rig::wide(TABLE)
}

#[test]
fn arrivals() {
    let cases = [
        (header(0, 0, 0), Arrival::Ignored, Some("ignored")),
        (header(0, 0, 0b1111), Arrival::Ignored, Some("ignored")),
        (header(0xF00, 0, 0), Arrival::Ignored, Some("ignored")),
        (header(0, 1, 0), Arrival::Misrouted, Some("misrouted")),
        (header(1, 0, 0), Arrival::Queued, None),
        (header(0xF01, 77, 0), Arrival::Queued, None),
        (header(5, 9, 0), Arrival::Ignored, Some("ignored")),
        (header(6, 3, 0), Arrival::Queued, None),
        (header(6, 4, 0), Arrival::Misrouted, Some("misrouted")),
        (header(6, 10, 0), Arrival::Misrouted, Some("misrouted")),
        (header(6, 11, 0), Arrival::Misrouted, Some("misrouted")),
        (header(9, 3, 0), Arrival::Misrouted, Some("misrouted")),
        (header(10, 3, 0), Arrival::Misrouted, Some("misrouted")),
        (header(255, 65_535, 0), Arrival::Misrouted, Some("misrouted")),
    ];
    for (bytes, fate, counter) in cases {
        let (found, bumped) = rig().bumps(|rig| rig.arrive_header(4, bytes));
        let mut expected = vec![(0, "arrived")];
        expected.extend(counter.map(|name| (0, name)));
        assert_eq!((found, bumped), (fate, expected), "{bytes:02X?}");
    }
}

#[test]
fn arrival_with_a_wrong_check() {
    for bit in 0..40 {
        let mut bytes = cell(header(1, 5, 0), 7);
        bytes[bit / 8] ^= 0x80 >> (bit % 8);
        let (fate, bumped) = rig().bumps(|rig| rig.arrive(4, &bytes));
        assert_eq!((fate, bumped), (Ok(Arrival::Hec), vec![(0, "arrived"), (0, "hec")]));
    }
    // The check goes before VPI 0 with VCI 0: 53 zeros have no right check.
    assert_eq!(rig().arrive(4, &[0; 53]), Ok(Arrival::Hec));
}

#[test]
fn arrival_at_a_full_inlet() {
    let mut rig = rig();
    for _ in 0..4 {
        rig.arrive_header(4, header(1, 5, 0));
    }
    let (fate, bumped) = rig.bumps(|rig| rig.arrive_header(4, header(1, 5, 0)));
    assert_eq!((fate, bumped), (Arrival::InletFull, vec![(0, "arrived"), (0, "inletfull")]));
    // The other fates go before; other units have inlets of their own.
    assert_eq!(rig.arrive_header(4, header(5, 5, 0)), Arrival::Ignored);
    assert_eq!(rig.arrive_header(4, header(9, 5, 0)), Arrival::Misrouted);
}

#[test]
fn nni_reads_twelve_bits_of_vpi() {
    assert_eq!(rig().arrive_header(0, header(0, 0, 0b1010)), Arrival::Ignored);
    assert_eq!(rig().arrive_header(0, header(0xF00, 0, 0)), Arrival::Misrouted);
}

/// A frame with this routing header, its check made right.
fn checked(upper: u16) -> [u8; 57] {
    frame(upper << 4 | routing_check(upper), header(1, 1, 0), 0)
}

#[test]
fn damaged_hearings() {
    let mut wrong_parity = frame(to_unit(4, 1), header(1, 1, 0), 0);
    wrong_parity[56] ^= 1;
    let mut other_unit = frame(to_unit(5, 1), header(1, 1, 0), 0);
    other_unit[30] ^= 0x80;
    let frames = [
        wrong_parity,
        other_unit,
        frame(to_unit(4, 1) ^ 1, header(1, 1, 0), 0),
        // Kind 3 of another class than 0 and 1, and to addresses above 31.
        checked(0xE04),
        checked(0xF04),
        checked(0xFFF),
        checked(0xC20),
        checked(0xC24),
        checked(0xD20),
        checked(0xDFF),
        checked(0x020),
        checked(0x024),
        checked(0x0FF),
        checked(0x801),
        checked(0x804),
        checked(0x880),
    ];
    for bytes in frames {
        let (fate, bumped) = rig().bumps(|rig| rig.hear(4, &bytes));
        assert_eq!((fate, bumped), (Ok(Hearing::Damaged), vec![(0, "damaged")]), "{bytes:02X?}");
    }
}

#[test]
fn other_hearings_are_uncounted() {
    for routing in [to_unit(5, 1), to_unit(0, 1), to_unit(20, 1), to_unit(31, 0), to_session(8, 1), to_session(4, 1)] {
        let bytes = frame(routing, header(300, 1, 1), 0);
        let (fate, bumped) = rig().bumps(|rig| rig.hear(4, &bytes));
        assert_eq!((fate, bumped), (Ok(Hearing::Other), vec![]), "{routing:04X}");
    }
}

#[test]
fn queued_hearings() {
    for routing in [to_unit(4, 0), to_unit(4, 3), to_session(9, 1), to_all(2)] {
        let bytes = frame(routing, header(255, 1, 1), 0);
        let (fate, bumped) = rig().bumps(|rig| rig.hear(4, &bytes));
        assert_eq!((fate, bumped), (Ok(Hearing::Queued), vec![(0, "queued")]), "{routing:04X}");
    }
}

#[test]
fn wide_goes_before_full_and_full_before_clp() {
    let mut rig = rig();
    let to = |vpi, tail| frame(to_unit(4, 1), header(vpi, 1, tail), 0);
    let hear = |rig: &mut Rig, bytes: [u8; 57]| rig.bumps(|rig| rig.hear(4, &bytes).unwrap());
    assert_eq!(hear(&mut rig, to(256, 0)), (Hearing::Wide, vec![(0, "wide")]));
    assert_eq!(hear(&mut rig, to(255, 1)), (Hearing::Queued, vec![(0, "queued")]));
    assert_eq!(hear(&mut rig, to(255, 1)), (Hearing::Clp, vec![(0, "clp")]));
    assert_eq!(hear(&mut rig, to(255, 0)), (Hearing::Queued, vec![(0, "queued")]));
    assert_eq!(hear(&mut rig, to(255, 0)), (Hearing::Full, vec![(0, "full")]));
    assert_eq!(hear(&mut rig, to(255, 1)), (Hearing::Full, vec![(0, "full")]));
    assert_eq!(hear(&mut rig, to(4_095, 1)), (Hearing::Wide, vec![(0, "wide")]));
}

#[test]
fn nni_unit_hears_any_vpi() {
    let mut rig = rig();
    let bytes = frame(to_unit(0, 1), header(4_095, 9, 0), 3);
    assert_eq!(rig.hear(0, &bytes), Ok(Hearing::Queued));
    let (taken, bumped) = rig.bumps(|rig| rig.take(0));
    assert_eq!((taken, bumped), (Some(cell(header(4_095, 9, 0), 3)), vec![(1, "taken")]));
    let (taken, bumped) = rig.bumps(|rig| rig.take(0));
    assert_eq!((taken, bumped), (None, vec![]));
}

#[test]
fn tandem_header_is_heard_as_anything() {
    let mut rig = rig();
    let mut bytes = frame(to_unit(4, 0), header(1, 1, 0), 6);
    bytes[2..4].copy_from_slice(&[0xDE, 0xAD]);
    assert_eq!(rig.hear(4, &bytes), Ok(Hearing::Damaged));
    bytes[56] = parity(&bytes[..56]);
    assert_eq!(rig.hear(4, &bytes), Ok(Hearing::Queued));
    assert_eq!(rig.take(4), Some(cell(header(1, 1, 0), 6)));
}

/// Sends one cell from unit 4 by VPI; gives the copies and the counters bumped.
fn send(rig: &mut Rig, vpi: u16, vci: u16) -> (usize, Vec<(usize, &'static str)>) {
    assert_eq!(rig.arrive_header(4, header(vpi, vci, 0)), Arrival::Queued);
    let (idle, bumped) = rig.bumps(|rig| rig.frame().0);
    assert_eq!((idle.sender, idle.granted, idle.copies, bumped), (None, Some(4), 0, vec![]));
    let (sent, bumped) = rig.bumps(|rig| rig.frame().0);
    assert_eq!((sent.sender, sent.granted), (Some(4), None));
    (sent.copies, bumped)
}

#[test]
fn sendings() {
    let sent = (0, "sent");
    // Unicast to an NNI unit, with a VPI above 255.
    assert_eq!(send(&mut rig(), 1, 5), (1, vec![sent, (1, "queued")]));
    // To a unit not declared, and to a session nobody hears.
    assert_eq!(send(&mut rig(), 2, 5), (0, vec![sent, (0, "unheard")]));
    assert_eq!(send(&mut rig(), 7, 5), (0, vec![sent, (0, "unheard")]));
    // Multicast and broadcast, the sender too.
    assert_eq!(send(&mut rig(), 3, 5), (2, vec![sent, (0, "queued"), (2, "queued")]));
    assert_eq!(send(&mut rig(), 4, 5), (3, vec![sent, (0, "queued"), (1, "queued"), (2, "queued")]));
    // To itself through a page.
    assert_eq!(send(&mut rig(), 6, 3), (1, vec![sent, (0, "queued")]));
    // Addressed but not queued is not unheard.
    assert_eq!(send(&mut rig(), 8, 5), (0, vec![sent, (2, "wide")]));
}

#[test]
fn sent_to_a_full_queue_is_not_unheard() {
    let mut rig = rig();
    let mut copies = Vec::new();
    for _ in 0..3 {
        copies.push(send(&mut rig, 3, 5));
    }
    let sent = (0, "sent");
    assert_eq!(copies[1], (2, vec![sent, (0, "queued"), (2, "queued")]));
    assert_eq!(copies[2], (1, vec![sent, (0, "full"), (2, "queued")]));
}

#[test]
fn sent_damaged_frame_is_damaged_everywhere_and_unheard() {
    let mut rig = rig();
    // Unit 4's record of VPI 1 gets a wrong check.
    rig.memory[8 + 2] ^= 1;
    let bumped = vec![(0, "sent"), (0, "unheard"), (0, "damaged"), (1, "damaged"), (2, "damaged")];
    assert_eq!(send(&mut rig, 1, 5), (0, bumped));
}

#[test]
fn uni_take_writes_gfc_0() {
    let mut rig = rig();
    rig.hear(4, &frame(to_unit(4, 3), header(255, 65_535, 0b1111), 1)).unwrap();
    assert_eq!(rig.take(4), Some(cell([0x0F, 0xFF, 0xFF, 0xFF], 1)));
}

#[test]
fn payload_is_carried_byte_by_byte() {
    let mut rig = rig();
    let mut bytes = cell(header(6, 3, 0), 0);
    for (index, byte) in bytes[5..].iter_mut().enumerate() {
        *byte = index as u8 * 5 + 3;
    }
    rig.arrive(4, &bytes).unwrap();
    rig.frame();
    rig.frame();
    let taken = rig.take(4).expect("a cell");
    assert_eq!(taken[..5], cell(header(1, 1, 0), 0)[..5]);
    assert_eq!(taken[5..], bytes[5..]);
}

#[test]
fn counters_wrap() {
    let mut rig = rig();
    let top = u32::MAX;
    rig.rows[0] = Counters { arrived: top, hec: top, ..Counters::default() };
    assert_eq!(rig.arrive(4, &[0; 53]), Ok(Arrival::Hec));
    assert_eq!(rig.rows[0], Counters::default());
}

#[test]
fn rows_beyond_the_units_are_untouched() {
    let mut rig = rig();
    let row = Counters { taken: 5, ..Counters::default() };
    rig.rows[3..].fill(row);
    send(&mut rig, 4, 5);
    rig.hear(2, &checked(0xE00)).unwrap();
    rig.take(2);
    assert!(rig.rows[3..].iter().all(|found| *found == row));
}

#[test]
fn count_lists_the_thirteen_in_order() {
    let mut rig = rig();
    rig.rows[1] = Counters {
        arrived: 1,
        hec: 2,
        ignored: 3,
        misrouted: 4,
        inletfull: 5,
        sent: 6,
        unheard: 7,
        damaged: 8,
        queued: 9,
        full: 10,
        clp: 11,
        wide: 12,
        taken: 13,
    };
    assert!(rig.count(0).list().into_iter().eq(1..=13));
}
