//! Requests and grants on a 16 and on a 32 bus.

mod common;

use common::{cell, frame, header, to_unit, Rig};
use independent::Arrival;

/// A shelf of units with priorities, each routing VPI 1 to the undeclared unit 15.
fn rig(bus: u8, units: &[(u8, u8)]) -> Rig {
    let mut table = format!("bus {bus}\n");
    for (unit, priority) in units {
        table += &format!("unit {unit} nni 1 {priority} one 0 0 1 0\nvp {unit} 1 u15 1 1\n");
    }
    Rig::wide(&table)
}

/// Puts this many cells into each unit's inlet.
fn fill(rig: &mut Rig, units: &[u32], cells: usize) {
    for unit in units {
        for _ in 0..cells {
            assert_eq!(rig.arrive_header(*unit, header(1, 1, 0)), Arrival::Queued);
        }
    }
}

/// Senders and units granted of the next frames; -1 for none.
fn frames(rig: &mut Rig, count: usize) -> Vec<(i32, i32)> {
    let number = |unit: Option<u8>| unit.map_or(-1, i32::from);
    (0..count).map(|_| rig.frame().0).map(|sent| (number(sent.sender), number(sent.granted))).collect()
}

fn grants(rig: &mut Rig, count: usize) -> Vec<i32> {
    frames(rig, count).into_iter().map(|(_, granted)| granted).collect()
}

#[test]
fn cyclic_order_from_unit_0() {
    // Declared in another order than they are numbered.
    let mut rig = rig(16, &[(9, 2), (2, 2), (5, 2)]);
    fill(&mut rig, &[2, 5, 9], 2);
    let expected = [(-1, 2), (2, 5), (5, 9), (9, 2), (2, 5), (5, 9), (9, -1), (-1, -1)];
    assert_eq!(frames(&mut rig, 8), expected);
    // After 9 the turn comes to those below, 9 itself last.
    fill(&mut rig, &[9, 5], 1);
    assert_eq!(frames(&mut rig, 3), [(-1, 5), (5, 9), (9, -1)]);
    fill(&mut rig, &[9], 1);
    assert_eq!(frames(&mut rig, 2), [(-1, 9), (9, -1)]);
}

#[test]
fn highest_priority_first() {
    let mut rig = rig(16, &[(0, 1), (1, 2), (2, 3)]);
    fill(&mut rig, &[0, 1, 2], 2);
    assert_eq!(grants(&mut rig, 7), [2, 2, 1, 1, 0, 0, -1]);
}

#[test]
fn each_priority_keeps_its_own_last_unit() {
    let mut rig = rig(16, &[(1, 3), (4, 3), (0, 1), (8, 1)]);
    fill(&mut rig, &[0, 8], 3);
    assert_eq!(grants(&mut rig, 1), [0]);
    // Priority 3 begins at unit 0 still, and leaves the turn of priority 1 alone.
    fill(&mut rig, &[4], 1);
    assert_eq!(grants(&mut rig, 2), [4, 8]);
    fill(&mut rig, &[1, 4], 1);
    assert_eq!(grants(&mut rig, 3), [1, 4, 0]);
    assert_eq!(grants(&mut rig, 4), [8, 0, 8, -1]);
}

#[test]
fn last_unit_stays_over_idle_frames() {
    let mut rig = rig(16, &[(3, 2), (7, 2)]);
    fill(&mut rig, &[3], 1);
    assert_eq!(grants(&mut rig, 5), [3, -1, -1, -1, -1]);
    fill(&mut rig, &[3, 7], 1);
    assert_eq!(grants(&mut rig, 3), [7, 3, -1]);
}

#[test]
fn a_lone_unit_sends_in_every_frame_of_a_16_bus() {
    let mut rig = rig(16, &[(3, 2)]);
    fill(&mut rig, &[3], 3);
    assert_eq!(frames(&mut rig, 5), [(-1, 3), (3, 3), (3, 3), (3, -1), (-1, -1)]);
}

#[test]
fn a_lone_unit_sends_in_every_other_frame_of_a_32_bus() {
    let mut low = rig(32, &[(3, 2)]);
    fill(&mut low, &[3], 3);
    assert_eq!(frames(&mut low, 6), [(-1, 3), (3, -1), (-1, 3), (3, -1), (-1, 3), (3, -1)]);
    let mut high = rig(32, &[(16, 2)]);
    fill(&mut high, &[16], 2);
    assert_eq!(frames(&mut high, 6), [(-1, -1), (-1, 16), (16, -1), (-1, 16), (16, -1), (-1, -1)]);
}

#[test]
fn halves_of_a_32_bus() {
    for unit in 0..32 {
        let mut rig = rig(32, &[(unit, 1)]);
        fill(&mut rig, &[u32::from(unit)], 1);
        let first = if unit < 16 { 0 } else { 1 };
        let granted = grants(&mut rig, 2);
        assert_eq!(granted.iter().position(|granted| *granted == i32::from(unit)), Some(first), "unit {unit}");
    }
}

#[test]
fn requests_of_the_other_half_stand() {
    // In frame 0 units 2 and 4 ask; 4 is not granted and its request stands in frame 1.
    let mut rig = rig(32, &[(2, 1), (4, 1), (20, 1)]);
    fill(&mut rig, &[2, 4, 20], 1);
    assert_eq!(frames(&mut rig, 4), [(-1, 2), (2, 4), (4, 20), (20, -1)]);
}

#[test]
fn a_cell_coming_after_the_renewal_waits_for_the_next() {
    let mut rig = rig(32, &[(2, 3), (20, 1)]);
    assert_eq!(grants(&mut rig, 1), [-1]);
    fill(&mut rig, &[2, 20], 1);
    // Frame 1 renews only the upper half, so the lower priority goes first.
    assert_eq!(frames(&mut rig, 3), [(-1, 20), (20, 2), (2, -1)]);
}

#[test]
fn a_grant_clears_the_request_until_it_is_renewed() {
    let mut rig = rig(32, &[(2, 3), (20, 1)]);
    fill(&mut rig, &[2, 20], 2);
    // Unit 2 has a second cell in frame 1, but its request was cleared.
    let expected = [(-1, 2), (2, 20), (20, 2), (2, 20), (20, -1), (-1, -1)];
    assert_eq!(frames(&mut rig, 6), expected);
}

#[test]
fn granted_cell_does_not_ask_again_on_a_32_bus() {
    // Unit 20 is granted in frame 2 by a standing request and has but this cell in frame 3.
    let mut rig = rig(32, &[(19, 1), (20, 1)]);
    fill(&mut rig, &[19, 20], 1);
    assert_eq!(frames(&mut rig, 6), [(-1, -1), (-1, 19), (19, 20), (20, -1), (-1, -1), (-1, -1)]);
}

#[test]
fn second_cell_beside_a_granted_one_asks() {
    let mut rig = rig(16, &[(3, 1)]);
    fill(&mut rig, &[3], 1);
    assert_eq!(frames(&mut rig, 1), [(-1, 3)]);
    fill(&mut rig, &[3], 1);
    assert_eq!(frames(&mut rig, 3), [(3, 3), (3, -1), (-1, -1)]);
}

#[test]
fn frames_are_numbered_modulo_65536() {
    let mut rig = rig(32, &[(20, 1)]);
    for number in 0..=u16::MAX {
        assert_eq!(rig.frame().0.number, number);
    }
    fill(&mut rig, &[20], 1);
    let (first, second) = (rig.frame().0, rig.frame().0);
    assert_eq!((first.number, first.granted), (0, None));
    assert_eq!((second.number, second.granted), (1, Some(20)));
}

#[test]
fn bytes_of_a_sent_frame_and_of_an_idle_one() {
    let mut rig = Rig::wide("bus 16\nunit 0 nni 1 1 one 0 0 1 0\nvp 0 1 u5 1 4095\n");
    rig.arrive(0, &cell(header(1, 0x1234, 0b1011), 0x5A)).unwrap();
    rig.arrive(0, &cell(header(1, 0x4321, 0b0100), 0x5B)).unwrap();
    assert_eq!(rig.frame().1, [0xEE; 57]);
    // 10 50, tandem 00 00, header FF F1 23 4B; the even payload falls out of the parity.
    let mut first = [0x5A; 57];
    first[..8].copy_from_slice(&[0x10, 0x50, 0, 0, 0xFF, 0xF1, 0x23, 0x4B]);
    first[56] = 0x10 ^ 0x50 ^ 0xFF ^ 0xF1 ^ 0x23 ^ 0x4B;
    assert_eq!(rig.frame().1, first);
    assert_eq!(rig.frame().1, frame(to_unit(5, 1), header(4_095, 0x4321, 0b0100), 0x5B));
    assert_eq!(rig.frame().1, [0xEE; 57]);
}
