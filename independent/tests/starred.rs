//! Every starred value of document 01.

mod common;

use common::{cell, try_load, Rig};
use independent::codec::{header_check, Header, Link, Routing, Target};
use independent::{Arrival, Card};

#[test]
fn header_checks() {
    assert_eq!(header_check([0x00, 0x00, 0x00, 0x00]), 0x55);
    assert_eq!(header_check([0x00, 0x00, 0x00, 0x01]), 0x52);
    assert_eq!(header_check([0x00, 0x50, 0x02, 0x10]), 0x2B);
    assert_eq!(header_check([0x00, 0x90, 0x02, 0x80]), 0x5F);
    assert_eq!(header_check([0x10, 0x50, 0x02, 0x10]), 0x4C);
}

#[test]
fn one_header_on_two_links() {
    let bytes = [0x10, 0x50, 0x02, 0x10];
    assert_eq!(Header::read(Link::Nni, bytes), Header { vpi: 261, vci: 33, tail: 0 });
    assert_eq!(Header::read(Link::Uni, bytes), Header { vpi: 5, vci: 33, tail: 0 });
}

#[test]
fn routing_headers() {
    let routing = |target, class| Routing { target, class };
    let cases = [
        (routing(Target::Unit(5), 1), 0x1050),
        (routing(Target::Unit(3), 2), 0x2038),
        (routing(Target::Session(17), 3), 0x711D),
    ];
    for (routing, header) in cases {
        assert_eq!(routing.encode(), header);
        assert_eq!(Routing::decode(header), Some(routing));
    }
}

#[test]
fn outgoing_vpi_255_and_256_on_the_narrow_card() {
    let vp = |vpi: u16| format!("bus\t16\nunit\t0\tuni\t5\t2\tone\t0\t0\t100\t0\nvp\t0\t5\tu3\t1\t{vpi}\n");
    assert_eq!(try_load(Card::Narrow, vp(255).as_bytes(), 4_096), Ok(48));
    assert_eq!(try_load(Card::Narrow, vp(256).as_bytes(), 4_096), Err((5, 3)));
    assert_eq!(try_load(Card::Wide, vp(256).as_bytes(), 4_096), Ok(48));
    let vc = |vpi: u16| {
        let head = "bus\t16\nunit\t0\tuni\t5\t2\tone\t0\t0\t100\t0\npage\t0\t5\t1\n";
        format!("{head}vc\t0\t5\t1\tu3\t1\t{vpi}\t7\n")
    };
    assert_eq!(try_load(Card::Narrow, vc(255).as_bytes(), 4_096), Ok(64));
    assert_eq!(try_load(Card::Narrow, vc(256).as_bytes(), 4_096), Err((5, 4)));
}

#[test]
fn outgoing_vpi_255_leaves_the_narrow_card_as_255() {
    let mut rig = Rig::new(Card::Narrow, "bus 16\nunit 0 uni 5 2 one 0 0 100 0\nvp 0 5 u0 1 255\n");
    assert_eq!(rig.arrive_header(0, [0x00, 0x50, 0x02, 0x10]), Arrival::Queued);
    rig.frame();
    rig.frame();
    assert_eq!(rig.take(0), Some(cell([0x0F, 0xF0, 0x02, 0x10], 0xA5)));
}
