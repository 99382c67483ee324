//! Request W1: control and loopback cells, with values worked out by hand from its text and its answers.

mod common;

use common::{bus_cell, cell, frame, framed, header, hex, to_all, to_session, to_unit, Desk, Rig, LISTING_TABLE};
use independent::codec::{control_routing, loopback_routing, parity, routing_check};
use independent::{Arrival, Card, Hearing, Refused, Taking};

/// Rows 0 to 2 are units 0, 3 and 20, all UNI; 0 and 20 in mode one with limit 1 and mark, 3 in mode four.
const TABLE: &str = "\
bus 32
unit 0 uni 5 2 one 0 0 1 1
unit 3 uni 5 2 four 40 1 1 1
unit 20 uni 5 2 one 0 0 1 1
vp 0 1 u3 2 9
vp 3 1 u0 1 9
mc 3 17
mc 20 17
";

/// Rows 0 and 1 are units 0 and 3 on a 16 bus, where every unit's request is renewed in every frame.
const TABLE_16: &str = "\
bus 16
unit 0 uni 5 2 one 0 0 100 0
unit 3 uni 5 2 four 40 30 20 0
vp 0 1 u3 2 9
vp 3 1 u0 1 9
";

// Kind 3, class 0: upper 12 bits C00 and the unit; x^15 + x^14 leave 1 + 9 = 8, each bit of the unit its own.
const CONTROL_0: u16 = 0xC008;
const CONTROL_3: u16 = 0xC03D;
const LOOPBACK_0: u16 = 0xD007;
const LOOPBACK_3: u16 = 0xD032;

/// A cell for a processor, told apart by its payload.
fn numbered(routing: u16, tandem: u8, payload: u8) -> [u8; 56] {
    bus_cell(routing, [tandem, 0xB7], [0xFF, 0xFF, 0xFF, 0xFF], payload)
}

/// The cell that a loopback cell with this tandem byte becomes.
fn looped(tandem: u8, routing: u16, payload: u8) -> [u8; 56] {
    numbered(routing, tandem, payload)
}

/// Sender, unit granted and copies of the next frame, -1 for none; and the cell sent.
fn next(rig: &mut Rig) -> ((i32, i32, usize), Option<[u8; 56]>) {
    let number = |unit: Option<u8>| unit.map_or(-1, i32::from);
    let (sent, buffer) = rig.frame();
    let cell: [u8; 56] = buffer[..56].try_into().unwrap();
    if sent.sender.is_some() {
        assert_eq!(buffer[56], parity(&cell));
    } else {
        assert_eq!(buffer, [0xEE; 57]);
    }
    ((number(sent.sender), number(sent.granted), sent.copies), sent.sender.map(|_| cell))
}

fn frames(rig: &mut Rig, count: usize) -> Vec<(i32, i32, usize)> {
    (0..count).map(|_| next(rig).0).collect()
}

/// Unit 3 hears four control cells.
fn fill_control_outlet(rig: &mut Rig) {
    for payload in 1..=4 {
        assert_eq!(rig.hear(3, &framed(&numbered(CONTROL_3, 0, payload))), Ok(Hearing::Queued));
    }
}

#[test]
fn routing_headers() {
    for (unit, control, loopback) in [(0, CONTROL_0, LOOPBACK_0), (3, CONTROL_3, LOOPBACK_3), (31, 0xC1FF, 0xD1F0)] {
        assert_eq!(control_routing(unit), control);
        assert_eq!(loopback_routing(unit), loopback);
    }
    // Above 31 they are made too, as a poked store may ask; they make a frame damaged.
    assert_eq!((control_routing(32), control_routing(255)), (0xC202, 0xCFFC));
}

#[test]
fn heard_by_the_unit_addressed() {
    let rig = Rig::wide(TABLE);
    for (routing, own, other) in [(CONTROL_3, 3, 0), (LOOPBACK_3, 3, 20), (CONTROL_0, 0, 3), (LOOPBACK_0, 0, 20)] {
        let bytes = framed(&numbered(routing, 0, 1));
        let row = if own == 0 { 0 } else { 1 };
        let (fate, bumped) = rig.clone().bumps(|rig| rig.hear(own, &bytes));
        assert_eq!((fate, bumped), (Ok(Hearing::Queued), vec![(row, "queued")]), "{routing:04X}");
        let (fate, bumped) = rig.clone().bumps(|rig| rig.hear(other, &bytes));
        assert_eq!((fate, bumped), (Ok(Hearing::Other), vec![]), "{routing:04X}");
    }
    // 16 to 31 are units of no 16 bus, but no damage.
    let mut rig = Rig::wide(TABLE_16);
    for unit in 16..32 {
        assert_eq!(rig.hear(3, &framed(&numbered(control_routing(unit), 0, 1))), Ok(Hearing::Other));
        assert_eq!(rig.hear(3, &framed(&numbered(loopback_routing(unit), 0, 1))), Ok(Hearing::Other));
    }
}

#[test]
fn damaged() {
    let rig = Rig::wide(TABLE);
    // Classes 2 and 3 to unit 3; addresses above 31; one bit of check or address off.
    for routing in [0xE030, 0xF03F, 0xC202, 0xCFFC, 0xC03C, 0xC035, 0xC13D, 0xD033, 0xD022] {
        for (row, unit) in [0, 3, 20].into_iter().enumerate() {
            let (fate, bumped) = rig.clone().bumps(|rig| rig.hear(unit, &framed(&numbered(routing, 0, 1))));
            assert_eq!((fate, bumped), (Ok(Hearing::Damaged), vec![(row, "damaged")]), "{routing:04X}");
        }
    }
    for address in 0..=255_u16 {
        for class in 0..4 {
            let upper = 0xC00 | class << 8 | address;
            let fate = rig.clone().hear(3, &framed(&numbered(upper << 4 | routing_check(upper), 0, 1)));
            let expected = match (class, address) {
                (0 | 1, 3) => Hearing::Queued,
                (0 | 1, 0..=31) => Hearing::Other,
                _ => Hearing::Damaged,
            };
            assert_eq!(fate, Ok(expected), "{upper:03X}");
        }
    }
    for routing in [CONTROL_3, LOOPBACK_3, CONTROL_0] {
        let mut bytes = framed(&numbered(routing, 0, 1));
        bytes[56] ^= 0x10;
        assert_eq!(rig.clone().hear(3, &bytes), Ok(Hearing::Damaged));
    }
}

#[test]
fn tandem_byte_above_31() {
    for table in [TABLE, TABLE_16] {
        let rig = Rig::wide(table);
        for tandem in 0..=255 {
            let hear = |routing: u16, unit: u32| rig.clone().hear(unit, &framed(&numbered(routing, tandem, 1)));
            // Judged of a loopback cell, before the address; 16 to 31 are no damage on a 16 bus either.
            let [own, other] = if tandem <= 31 { [Hearing::Queued, Hearing::Other] } else { [Hearing::Damaged; 2] };
            assert_eq!((hear(LOOPBACK_3, 3), hear(LOOPBACK_3, 0)), (Ok(own), Ok(other)), "{tandem}");
            // Never judged of a control cell, nor of data.
            assert_eq!((hear(CONTROL_3, 3), hear(CONTROL_3, 0)), (Ok(Hearing::Queued), Ok(Hearing::Other)));
            let data = bus_cell(to_unit(3, 1), [tandem, tandem], header(1, 1, 0), 1);
            assert_eq!(rig.clone().hear(3, &framed(&data)), Ok(Hearing::Queued));
        }
        // Nor is the second tandem byte.
        let mut rig = Rig::wide(table);
        assert_eq!(rig.hear(3, &framed(&bus_cell(LOOPBACK_3, [31, 255], [0; 4], 1))), Ok(Hearing::Queued));
    }
}

#[test]
fn neither_wide_nor_clp_nor_any_part_in_the_mark() {
    for (card, table) in [(Card::Wide, TABLE), (Card::Wide, TABLE_16), (Card::Narrow, TABLE_16)] {
        let mut rig = Rig::new(card, table);
        // VPI 4,095 and CLP 1, at UNI units of which one has limit 1.
        for unit in [0, 3] {
            for _ in 0..4 {
                let control = numbered(control_routing(unit), 255, 1);
                assert_eq!(rig.hear(unit.into(), &framed(&control)), Ok(Hearing::Queued));
            }
            let loopback = numbered(loopback_routing(unit), 0, 1);
            assert_eq!(rig.hear(unit.into(), &framed(&loopback)), Ok(Hearing::Queued));
            // Nothing of it is for the line.
            assert_eq!(rig.take(unit.into()), None);
        }
    }
    // One data cell is below a limit of 2, however many control cells wait beside it.
    let mut rig = Rig::wide("bus 16\nunit 3 uni 5 2 one 0 0 2 1\n");
    fill_control_outlet(&mut rig);
    rig.hear(3, &frame(to_unit(3, 1), header(1, 1, 1), 7)).unwrap();
    assert_eq!(rig.take(3), Some(cell(header(1, 1, 1), 7)));
}

#[test]
fn outlets_that_are_full() {
    let mut rig = Rig::wide(TABLE_16);
    fill_control_outlet(&mut rig);
    let (fate, bumped) = rig.bumps(|rig| rig.hear(3, &framed(&numbered(CONTROL_3, 0, 5))));
    assert_eq!((fate, bumped), (Ok(Hearing::Full), vec![(1, "full")]));
    // Class 0 of the data has a queue of its own, and so has the loopback cell.
    assert_eq!(rig.hear(3, &frame(to_unit(3, 0), header(1, 1, 0), 6)), Ok(Hearing::Queued));
    let (fate, bumped) = rig.bumps(|rig| rig.hear(3, &framed(&numbered(LOOPBACK_3, 0, 7))));
    assert_eq!((fate, bumped), (Ok(Hearing::Queued), vec![(1, "queued")]));
    let (fate, bumped) = rig.bumps(|rig| rig.hear(3, &framed(&numbered(LOOPBACK_3, 0, 8))));
    assert_eq!((fate, bumped), (Ok(Hearing::Full), vec![(1, "full")]));
    // The oldest leaves first; the place it leaves is free.
    let (collected, bumped) = rig.bumps(|rig| rig.collect(3));
    assert_eq!((collected, bumped), (Some(numbered(CONTROL_3, 0, 1)), vec![(1, "taken")]));
    assert_eq!(rig.hear(3, &framed(&numbered(CONTROL_3, 0, 9))), Ok(Hearing::Queued));
    let rest: Vec<_> = (0..5).map(|_| rig.collect(3).map(|cell| cell[55])).collect();
    assert_eq!(rest, [Some(2), Some(3), Some(4), Some(9), None]);
    let (collected, bumped) = rig.bumps(|rig| rig.collect(3));
    assert_eq!((collected, bumped), (None, vec![]));
}

#[test]
fn a_hand_in_counts_nothing_and_busy_changes_nothing() {
    let mut rig = Rig::wide(TABLE_16);
    let (handed, bumped) = rig.bumps(|rig| rig.hand(0, &numbered(CONTROL_3, 0, 1)));
    assert_eq!((handed, bumped), (Ok(()), vec![]));
    let before = rig.clone();
    assert_eq!(rig.hand(0, &numbered(CONTROL_3, 0, 2)), Err(Refused::Busy));
    assert_eq!(rig, before);
    // The other unit has a place of its own; granted is still taken; sent is free again.
    assert_eq!(rig.hand(3, &numbered(CONTROL_0, 0, 3)), Ok(()));
    assert_eq!(frames(&mut rig, 1), [(-1, 0, 0)]);
    assert_eq!(rig.hand(0, &numbered(CONTROL_3, 0, 2)), Err(Refused::Busy));
    assert_eq!(frames(&mut rig, 1), [(0, 3, 1)]);
    assert_eq!(rig.hand(0, &numbered(CONTROL_3, 0, 2)), Ok(()));
    assert_eq!(rig.hand(3, &numbered(CONTROL_0, 0, 4)), Err(Refused::Busy));
}

#[test]
fn refusals_of_hand_in_their_order() {
    let mut rig = Rig::wide(TABLE_16);
    rig.hand(3, &numbered(CONTROL_0, 0, 1)).unwrap();
    let before = rig.clone();
    for length in [0, 53, 55, 57, 1_000] {
        let bytes = vec![0; length];
        // Length goes before Busy, Unit before both.
        assert_eq!(rig.hand(3, &bytes), Err(Refused::Length), "{length}");
        assert_eq!(rig.hand(7, &bytes), Err(Refused::Unit), "{length}");
        let mut buffer = bytes.clone();
        let collected = rig.shelf.collect(3, &mut buffer, &rig.store, &mut rig.rows);
        assert_eq!((collected, buffer), (Err(Refused::Length), bytes));
    }
    assert_eq!(rig, before);
    rig.shelf.state.bytes_mut()[804] = 17;
    let before = rig.clone();
    for (unit, length) in [(3, 56), (3, 0), (7, 56), (7, 0)] {
        assert_eq!(rig.hand(unit, &vec![0; length]), Err(Refused::State));
        let collected = rig.shelf.collect(unit, &mut vec![0; length], &rig.store, &mut rig.rows);
        assert_eq!(collected, Err(Refused::State));
    }
    assert_eq!(rig, before);
    // Store or rows too small are State as well.
    let Rig { mut shelf, mut store, mut rows, .. } = Rig::wide(TABLE_16);
    assert_eq!(shelf.hand(0, &[0; 56], &mut store[..16_383], 2), Err(Refused::State));
    assert_eq!(shelf.hand(0, &[0; 56], &mut store[..16_384], 1), Err(Refused::State));
    assert_eq!(shelf.collect(0, &mut [0; 56], &store[..16_383], &mut rows), Err(Refused::State));
    assert_eq!(shelf.collect(0, &mut [0; 56], &store[..16_384], &mut rows[..1]), Err(Refused::State));
    assert_eq!(shelf.hand(0, &[0; 56], &mut store[..16_384], 2), Ok(()));
    assert_eq!(shelf.collect(0, &mut [0; 56], &store[..16_384], &mut rows[..2]), Ok(Taking::Empty));
}

#[test]
fn an_update_from_one_processor_to_another() {
    let mut rig = Rig::wide(LISTING_TABLE);
    for payload in 1..=3 {
        rig.hand(0, &numbered(CONTROL_3, payload, payload)).unwrap();
        let (idle, bumped) = rig.bumps(next);
        assert_eq!((idle, bumped), (((-1, 0, 0), None), vec![]));
        let (sent, bumped) = rig.bumps(next);
        let cell = numbered(CONTROL_3, payload, payload);
        assert_eq!((sent, bumped), (((0, -1, 1), Some(cell)), vec![(0, "sent"), (1, "queued")]));
    }
    for payload in 1..=3 {
        assert_eq!(rig.collect(3), Some(numbered(CONTROL_3, payload, payload)));
    }
    assert_eq!((rig.collect(3), rig.collect(0)), (None, None));
}

#[test]
fn a_loopback_test_of_another_unit() {
    let mut rig = Rig::wide(LISTING_TABLE);
    rig.hand(0, &numbered(LOOPBACK_3, 0, 0x5A)).unwrap();
    let frames: Vec<_> = (0..4).map(|_| rig.bumps(next)).collect();
    let back = looped(0, CONTROL_0, 0x5A);
    let expected = [
        (((-1, 0, 0), None), vec![]),
        (((0, -1, 1), Some(numbered(LOOPBACK_3, 0, 0x5A))), vec![(0, "sent"), (1, "queued")]),
        // It moves and asks in this frame; the move counts, though the frame is idle, and is no copy.
        (((-1, 3, 0), None), vec![(1, "taken")]),
        (((3, -1, 1), Some(back)), vec![(0, "queued"), (1, "sent")]),
    ];
    assert_eq!(frames, expected);
    let (collected, bumped) = rig.bumps(|rig| rig.collect(0));
    assert_eq!((collected, bumped), (Some(back), vec![(0, "taken")]));
    assert_eq!(rig.collect(3), None);
}

#[test]
fn a_loopback_test_of_itself() {
    let mut rig = Rig::wide(TABLE_16);
    rig.hand(3, &numbered(LOOPBACK_3, 3, 1)).unwrap();
    assert_eq!(frames(&mut rig, 4), [(-1, 3, 0), (3, -1, 1), (-1, 3, 0), (3, -1, 1)]);
    assert_eq!(rig.collect(3), Some(looped(3, CONTROL_3, 1)));
    assert_eq!((rig.count(3).sent, rig.count(3).queued, rig.count(3).taken), (2, 2, 2));
}

#[test]
fn data_then_control_then_loopback() {
    let mut rig = Rig::wide(TABLE_16);
    rig.hear(3, &framed(&numbered(LOOPBACK_3, 0, 1))).unwrap();
    assert_eq!(frames(&mut rig, 1), [(-1, 3, 0)]);
    rig.hand(3, &numbered(CONTROL_0, 0, 2)).unwrap();
    // The grant was given for the loopback cell; what is sent is chosen now.
    for payload in [3, 4] {
        assert_eq!(rig.arrive(3, &cell(header(1, 1, 0), payload)), Ok(Arrival::Queued));
    }
    let sent: Vec<_> = (0..5).map(|_| next(&mut rig)).map(|(frame, cell)| (frame, cell.map(|cell| cell[55]))).collect();
    let expected =
        [((3, 3, 1), Some(3)), ((3, 3, 1), Some(4)), ((3, 3, 1), Some(2)), ((3, -1, 1), Some(1)), ((-1, -1, 0), None)];
    assert_eq!(sent, expected);
    // A cell that arrives while only the control cell is left goes before it too.
    rig.hand(3, &numbered(CONTROL_0, 0, 5)).unwrap();
    assert_eq!(frames(&mut rig, 1), [(-1, 3, 0)]);
    rig.arrive(3, &cell(header(1, 1, 0), 6)).unwrap();
    let sent: Vec<_> = (0..2).map(|_| next(&mut rig).1.map(|cell| cell[55])).collect();
    assert_eq!(sent, [Some(6), Some(5)]);
}

#[test]
fn a_moved_cell_waits_for_its_inlet() {
    let mut rig = Rig::wide(TABLE_16);
    let hear = |rig: &mut Rig, payload| rig.hear(3, &framed(&numbered(LOOPBACK_3, 0, payload))).unwrap();
    assert_eq!(hear(&mut rig, 1), Hearing::Queued);
    assert_eq!(hear(&mut rig, 2), Hearing::Full);
    let (moved, bumped) = rig.bumps(|rig| next(rig).0);
    assert_eq!((moved, bumped), ((-1, 3, 0), vec![(1, "taken")]));
    assert_eq!(hear(&mut rig, 3), Hearing::Queued);
    // Its inlet is sent from in this very frame, but was taken when the frame began: no move, and nothing asks.
    let (sent, bumped) = rig.bumps(next);
    assert_eq!(sent, ((3, -1, 1), Some(looped(0, CONTROL_0, 1))));
    assert_eq!(bumped, [(0, "queued"), (1, "sent")]);
    assert_eq!(hear(&mut rig, 4), Hearing::Full);
    let (moved, bumped) = rig.bumps(|rig| next(rig).0);
    assert_eq!((moved, bumped), ((-1, 3, 0), vec![(1, "taken")]));
    assert_eq!(next(&mut rig), ((3, -1, 1), Some(looped(0, CONTROL_0, 3))));
    // Data before it keeps it in the inlet, and the next one in the outlet, for as long.
    assert_eq!(hear(&mut rig, 5), Hearing::Queued);
    for _ in 0..3 {
        assert_eq!(rig.arrive(3, &cell(header(1, 1, 0), 6)), Ok(Arrival::Queued));
    }
    frames(&mut rig, 1);
    assert_eq!(hear(&mut rig, 7), Hearing::Queued);
    for _ in 0..3 {
        assert_eq!(next(&mut rig).1.map(|cell| cell[55]), Some(6));
        assert_eq!(hear(&mut rig, 8), Hearing::Full);
    }
    assert_eq!(next(&mut rig), ((3, -1, 1), Some(looped(0, CONTROL_0, 5))));
    assert_eq!(frames(&mut rig, 1), [(-1, 3, 0)]);
    assert_eq!(next(&mut rig), ((3, -1, 1), Some(looped(0, CONTROL_0, 7))));
    let collected: Vec<_> = (0..5).map(|_| rig.collect(0).map(|cell| cell[55])).collect();
    assert_eq!(collected, [Some(1), Some(3), Some(5), Some(7), None]);
}

#[test]
fn a_refused_frame_moves_nothing() {
    let mut rig = Rig::wide(TABLE_16);
    rig.hear(3, &framed(&numbered(LOOPBACK_3, 0, 1))).unwrap();
    let before = rig.clone();
    for length in [0, 56, 58] {
        let refused = rig.shelf.frame(&mut vec![0; length], &mut rig.store, &mut rig.rows);
        assert_eq!(refused, Err(Refused::Length));
    }
    assert_eq!(rig, before);
}

#[test]
fn on_a_32_bus_it_asks_where_its_request_is_renewed() {
    let mut rig = Rig::wide(TABLE);
    // Unit 20 moves in frame 0 and asks in frame 1; unit 3 moves and asks in frame 2.
    rig.hear(20, &framed(&numbered(loopback_routing(20), 3, 1))).unwrap();
    assert_eq!(rig.bumps(|rig| next(rig).0), ((-1, -1, 0), vec![(2, "taken")]));
    rig.hear(3, &framed(&numbered(LOOPBACK_3, 20, 2))).unwrap();
    assert_eq!(rig.bumps(|rig| next(rig).0), ((-1, 20, 0), vec![(1, "taken")]));
    assert_eq!(frames(&mut rig, 2), [(20, 3, 1), (3, -1, 1)]);
    assert_eq!((rig.collect(3), rig.collect(20)), (Some(looped(3, CONTROL_3, 1)), Some(looped(20, 0xC141, 2))));
}

#[test]
fn all_units_move_in_one_frame() {
    let mut rig = Rig::wide(TABLE);
    for unit in [0, 3, 20] {
        rig.hear(unit.into(), &framed(&numbered(loopback_routing(unit), 9, unit))).unwrap();
    }
    let (_, bumped) = rig.bumps(next);
    assert_eq!(bumped, [(0, "taken"), (1, "taken"), (2, "taken")]);
}

#[test]
fn a_control_cell_for_nobody_is_unheard() {
    let mut rig = Rig::wide(TABLE_16);
    for (routing, damaged) in [(control_routing(7), false), (loopback_routing(31), false), (0xE030, true)] {
        rig.hand(0, &numbered(routing, 0, 1)).unwrap();
        next(&mut rig);
        let (sent, bumped) = rig.bumps(|rig| next(rig).0);
        assert_eq!(sent, (0, -1, 0));
        let mut expected = vec![(0, "sent"), (0, "unheard")];
        if damaged {
            expected.extend([(0, "damaged"), (1, "damaged")]);
        }
        assert_eq!(bumped, expected, "{routing:04X}");
    }
    // A loopback cell with tandem byte 32 is damaged everywhere; addressed but full is heard.
    rig.hand(0, &numbered(LOOPBACK_3, 32, 1)).unwrap();
    next(&mut rig);
    let (_, bumped) = rig.bumps(next);
    assert_eq!(bumped, [(0, "sent"), (0, "unheard"), (0, "damaged"), (1, "damaged")]);
    fill_control_outlet(&mut rig);
    rig.hand(0, &numbered(CONTROL_3, 0, 1)).unwrap();
    next(&mut rig);
    let (sent, bumped) = rig.bumps(|rig| next(rig).0);
    assert_eq!((sent, bumped), ((0, -1, 0), vec![(0, "sent"), (1, "full")]));
}

/// Hands a cell in at unit 0 and lets it be sent; gives the copies, the counters bumped, and the bytes.
fn send(rig: &mut Rig, cell: &[u8; 56]) -> (usize, Vec<(usize, &'static str)>) {
    rig.hand(0, cell).unwrap();
    next(rig);
    let (sent, bumped) = rig.bumps(next);
    assert_eq!(sent.1, Some(*cell), "nothing is repaired");
    let ((sender, _, copies), _) = sent;
    assert_eq!((sender, bumped[0]), (0, (0, "sent")));
    (copies, bumped[1..].to_vec())
}

#[test]
fn kinds_0_to_2_from_the_processor_are_heard_as_data() {
    // Frames 0 and 1, 2 and 3 and so on: unit 0 is renewed in the even ones.
    let mut rig = Rig::wide(TABLE);
    let with = |routing: u16, vpi: u16, tail: u8| bus_cell(routing, [0xDE, 0xAD], header(vpi, 1, tail), 9);
    assert_eq!(send(&mut rig, &with(to_unit(3, 1), 255, 0)), (1, vec![(1, "queued")]));
    assert_eq!(send(&mut rig, &with(to_unit(3, 1), 256, 0)), (0, vec![(1, "wide")]));
    assert_eq!(send(&mut rig, &with(to_unit(3, 1), 255, 1)), (0, vec![(1, "clp")]));
    assert_eq!(send(&mut rig, &with(to_unit(7, 1), 255, 1)), (0, vec![(0, "unheard")]));
    assert_eq!(send(&mut rig, &with(to_session(17, 3), 1, 0)), (2, vec![(1, "queued"), (2, "queued")]));
    assert_eq!(send(&mut rig, &with(to_session(18, 3), 1, 0)), (0, vec![(0, "unheard")]));
    assert_eq!(send(&mut rig, &with(to_all(0), 1, 0)), (3, vec![(0, "queued"), (1, "queued"), (2, "queued")]));
    (0..2).for_each(|_| drop(send(&mut rig, &with(to_unit(3, 0), 1, 0))));
    assert_eq!(send(&mut rig, &with(to_unit(3, 0), 1, 0)), (0, vec![(1, "full")]));
    // A bad check is damaged everywhere, and unheard.
    let damaged = vec![(0, "unheard"), (0, "damaged"), (1, "damaged"), (2, "damaged")];
    for routing in [to_unit(3, 1) ^ 1, to_all(1) ^ 8, to_session(17, 1) ^ 2, CONTROL_3 ^ 4, 0x0200] {
        assert_eq!(send(&mut rig, &with(routing, 1, 0)), (0, damaged.clone()), "{routing:04X}");
    }
    // It goes to the line as a data cell does; collect has none of it.
    assert_eq!(rig.take(20), Some(cell(header(1, 1, 0b0100), 9)));
    assert_eq!((rig.collect(0), rig.collect(3), rig.collect(20)), (None, None, None));
}

#[test]
fn a_memory_that_holds_a_kind_3_route() {
    for (routing, unit, outlet) in [(CONTROL_3, 3, 928), (LOOPBACK_3, 3, 960)] {
        let mut rig = Rig::wide(TABLE_16);
        // Unit 0's record of VPI 1: bytes 1 and 2 are the routing header.
        rig.memory[9..11].copy_from_slice(&routing.to_be_bytes());
        rig.arrive(0, &cell(header(1, 0x1234, 0b1011), 0x77)).unwrap();
        next(&mut rig);
        let left = bus_cell(routing, [0, 0], header(9, 0x1234, 0b1011), 0x77);
        assert_eq!(next(&mut rig), ((0, -1, 1), Some(left)));
        assert_eq!(rig.shelf.state.bytes()[outlet + 1], 1);
        frames(&mut rig, 2);
        // Tandem byte 0 sends the loopback cell back to unit 0.
        let back = if outlet == 928 { unit } else { 0 };
        assert_eq!(rig.collect(back).map(|cell| cell[8]), Some(0x77));
    }
}

/// Puts a cell into a slot of a unit's place in the store.
fn poke(desk: &mut Desk, place: usize, slot: usize, cell: &[u8]) {
    let at = 8_192 * place + 56 * slot;
    assert_eq!(desk.ask(&format!("poke store {at} {}", hex(cell))), "poke ok");
}

/// Asserts that a slot holds this cell: to poke it there changes nothing.
fn assert_slot(desk: &mut Desk, place: usize, slot: usize, cell: &[u8]) {
    let shown = desk.ask("show store");
    poke(desk, place, slot, cell);
    assert_eq!(desk.ask("show store"), shown, "slot {slot}");
}

#[test]
fn slots_of_the_store() {
    let mut desk = Desk::new("wide", TABLE_16);
    let control = |payload| numbered(CONTROL_3, 0xC5, payload);
    desk.ask(&format!("hand 3 {}", hex(&control(1))));
    assert_slot(&mut desk, 1, 127, &control(1));
    // A ring of four from slot 129: its place 2 is slot 131, its place 0 comes after its place 3.
    desk.set("controlhead 1 2");
    for (slot, payload) in [(131, 2), (132, 3), (129, 4), (130, 5)] {
        desk.ask(&format!("hear 3 {}", hex(&framed(&control(payload)))));
        assert_slot(&mut desk, 1, slot, &control(payload));
    }
    let loopback = numbered(LOOPBACK_3, 0, 6);
    desk.ask(&format!("hear 3 {}", hex(&framed(&loopback))));
    assert_slot(&mut desk, 1, 133, &loopback);
    desk.ask("frame 57");
    // Copied, not taken away; 127 and what was heard stay as well.
    assert_slot(&mut desk, 1, 133, &loopback);
    assert_slot(&mut desk, 1, 128, &looped(0, CONTROL_0, 6));
    assert_slot(&mut desk, 1, 127, &control(1));
    // Collected in order, and the slots keep their bytes.
    for payload in [2, 3, 4, 5] {
        assert_eq!(desk.ask("collect 3 56"), format!("collect 3 cell {}", hex(&control(payload))));
    }
    assert_slot(&mut desk, 1, 131, &control(2));
}

#[test]
fn a_poked_store_is_sent_moved_and_collected_as_it_is() {
    let mut desk = Desk::new("wide", TABLE_16);
    // Nonsense in the loopback outlet with byte 2 at 255: it moves, is sent and is damaged.
    let mut nonsense = [0x11; 56];
    nonsense[2] = 255;
    poke(&mut desk, 1, 133, &nonsense);
    desk.set("loopbackout 1 1");
    desk.ask("frame 57");
    let mut moved = nonsense;
    moved[..2].copy_from_slice(&[0xCF, 0xFC]);
    assert_slot(&mut desk, 1, 128, &moved);
    assert_eq!(desk.ask("frame 57"), format!("frame 1 3 - 0 {}", hex(&framed(&moved))));
    assert_eq!(desk.ask("count 3"), "count 3 0 0 0 0 0 1 1 1 0 0 0 0 1");
    assert_eq!(desk.ask("count 0"), "count 0 0 0 0 0 0 0 0 1 0 0 0 0 0");
    // Anything in the control outlet is collected as it is.
    poke(&mut desk, 0, 132, &[0x22; 56]);
    desk.set("controlhead 0 3");
    desk.set("controlcount 0 1");
    assert_eq!(desk.ask("collect 0 56"), format!("collect 0 cell {}", "22".repeat(56)));
    // Anything in the inlet places is sent as it is, control first; a loopback inlet is not made anew.
    poke(&mut desk, 0, 127, &[0x33; 56]);
    poke(&mut desk, 0, 128, &[0x44; 56]);
    for setting in ["controlin 0 1", "loopbackin 0 1", "granted 0 0"] {
        desk.set(setting);
    }
    assert_eq!(desk.ask("frame 57"), format!("frame 2 0 0 0 {}00", "33".repeat(56)));
    assert_eq!(desk.ask("frame 57"), format!("frame 3 0 - 0 {}00", "44".repeat(56)));
}

#[test]
fn places_that_are_not_declared_move_nothing() {
    let mut desk = Desk::new("wide", TABLE_16);
    for setting in ["loopbackout 2 1", "loopbackout 31 1", "loopbackin 3 1", "controlin 4 1"] {
        desk.set(setting);
    }
    let before = [desk.ask("show store"), desk.ask("show rows"), desk.ask("show state")];
    assert_eq!(desk.ask("frame 57"), format!("frame 0 - - 0 {}", "EE".repeat(57)));
    desk.set("frame 0 0");
    assert_eq!([desk.ask("show store"), desk.ask("show rows"), desk.ask("show state")], before);
}

#[test]
fn counters_of_moves_and_collects_wrap() {
    let mut rig = Rig::wide(TABLE_16);
    rig.rows[1].taken = u32::MAX;
    rig.hear(3, &framed(&numbered(LOOPBACK_3, 0, 1))).unwrap();
    next(&mut rig);
    assert_eq!(rig.count(3).taken, 0);
    rig.rows[1].taken = u32::MAX;
    rig.hear(3, &framed(&numbered(CONTROL_3, 0, 1))).unwrap();
    rig.collect(3);
    assert_eq!(rig.count(3).taken, 0);
}
