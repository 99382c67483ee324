//! Each item of "Ways to get it nearly right".

mod common;

use common::{cell, frame, header, Rig, LISTING_TABLE};
use independent::codec::routing_check;
use independent::{Arrival, Hearing};

#[test]
fn vpi_is_not_indexed_by_its_low_eight_bits() {
    // VPI 261 has the low bits of VPI 5.
    let low = "bus 16\nunit 0 nni 5 2 one 0 0 100 0\nvp 0 5 u0 1 9\n";
    assert_eq!(Rig::wide(low).arrive_header(0, header(261, 33, 0)), Arrival::Misrouted);
    assert_eq!(Rig::wide(low).arrive_header(0, header(5, 33, 0)), Arrival::Queued);
    let high = "bus 16\nunit 0 nni 261 2 one 0 0 100 0\nvp 0 5 u0 1 9\nvp 0 261 u0 1 1000\n";
    let mut rig = Rig::wide(high);
    assert_eq!(rig.arrive_header(0, header(261, 33, 0)), Arrival::Queued);
    rig.frame();
    rig.frame();
    assert_eq!(rig.take(0), Some(cell(header(1_000, 33, 0), 0xA5)));
}

#[test]
fn bus_address_is_not_compared_by_its_low_five_bits() {
    let mut rig = Rig::wide("bus 32\nunit 3 uni 0 1 one 0 0 1 0\nunit 19 uni 0 1 one 0 0 1 0\n");
    // Unit 35 with a right check is damaged; 19 is another unit than 3.
    let unit_35 = 35 << 4 | routing_check(35);
    assert_eq!(unit_35, 0x023F);
    assert_eq!(rig.hear(3, &frame(unit_35, header(1, 1, 0), 0)), Ok(Hearing::Damaged));
    let unit_19 = frame(common::to_unit(19, 0), header(1, 1, 0), 0);
    assert_eq!(rig.hear(3, &unit_19), Ok(Hearing::Other));
    assert_eq!(rig.hear(19, &unit_19), Ok(Hearing::Queued));
}

#[test]
fn unicast_from_16_to_31_on_a_16_bus_is_other() {
    let mut rig = Rig::wide("bus 16\nunit 3 uni 0 1 one 0 0 1 0\n");
    for unit in 16..32 {
        assert_eq!(rig.hear(3, &frame(common::to_unit(unit, 0), header(1, 1, 0), 0)), Ok(Hearing::Other));
    }
}

#[test]
fn top_nibble_of_a_uni_header_is_no_vpi() {
    let mut rig = Rig::wide(LISTING_TABLE);
    for gfc in 0..16 {
        let bytes = [gfc << 4, 0x50, 0x02, 0x10];
        let mut fresh = rig.clone();
        assert_eq!(fresh.arrive_header(0, bytes), Arrival::Queued);
        assert_eq!(rig.arrive_header(0, [gfc << 4, 0, 0, 0]), Arrival::Ignored);
    }
}

#[test]
fn granted_cell_does_not_ask_again() {
    let mut rig = Rig::wide(LISTING_TABLE);
    rig.arrive_header(0, [0x00, 0x50, 0x02, 0x10]);
    let frames: Vec<_> = (0..4).map(|_| rig.frame().0).map(|sent| (sent.sender, sent.granted)).collect();
    assert_eq!(frames, [(None, Some(0)), (Some(0), None), (None, None), (None, None)]);
}

#[test]
fn zeros_are_a_sound_frame_to_unit_0() {
    let mut rig = Rig::wide(LISTING_TABLE);
    assert_eq!(rig.hear(0, &[0; 57]), Ok(Hearing::Queued));
    assert_eq!(rig.hear(3, &[0; 57]), Ok(Hearing::Other));
    assert_eq!(rig.take(0), Some(cell([0; 4], 0)));
}

#[test]
fn queue_is_counted_before_the_cell_leaves() {
    let mut rig = Rig::wide("bus 16\nunit 0 uni 0 1 one 0 0 1 1\n");
    rig.hear(0, &[0; 57]).unwrap();
    assert_eq!(rig.take(0), Some(cell([0, 0, 0, 4], 0)));
}
