//! Headers, checks and parity.

use crate::FRAME_BYTES;

/// How a link reads the top of a cell header; the value of each is its byte in the state.
#[derive(Clone, Copy, Debug, PartialEq, Eq)]
pub enum Link {
    Uni = 0,
    Nni = 1,
}

impl Link {
    /// The highest VPI that its cells can carry.
    pub fn highest_vpi(self) -> u16 {
        match self {
            Link::Uni => 255,
            Link::Nni => 4_095,
        }
    }
}

/// A bus frame before its parity: routing 2, tandem 2, header 4, payload 48.
pub type BusCell = [u8; 56];

/// The byte of a bus cell that is its first tandem byte.
const TANDEM: usize = 2;

/// Where a routed cell goes.
#[derive(Clone, Copy, Debug, PartialEq, Eq)]
pub enum Target {
    Unit(u8),
    Session(u8),
    Broadcast,
    /// A unit's control outlet; no table routes to it, nor to the next.
    Control(u8),
    /// A unit's loopback outlet.
    Loopback(u8),
}

/// What a sound routing header says.
#[derive(Clone, Copy, Debug, PartialEq, Eq)]
pub struct Routing {
    pub target: Target,
    pub class: u8,
}

/// A cell header without GFC; `tail` is PT and CLP in its low four bits.
#[derive(Clone, Copy, Debug, PartialEq, Eq)]
pub struct Header {
    pub vpi: u16,
    pub vci: u16,
    pub tail: u8,
}

/// The bit of `Header::tail` that is the top bit of PT, 0 in user data.
pub const TOP_PT_BIT: u8 = 0b1000;
/// The bit of `Header::tail` that is the middle bit of PT.
pub const CONGESTION_BIT: u8 = 0b0100;
/// The bit of `Header::tail` that is CLP.
pub const CLP_BIT: u8 = 0b0001;

/// Remainder of `value` times x^degree by `generator`, a polynomial of that degree.
const fn remainder(value: u32, generator: u32, degree: u32) -> u32 {
    let mut rest = value << degree;
    while rest >> degree != 0 {
        let top = rest.ilog2();
        rest ^= generator << (top - degree);
    }
    rest
}

/// Remainders of single bytes by x^8+x^2+x+1, so that a header is checked byte by byte.
const BYTE_REMAINDERS: [u8; 256] = {
    let mut remainders = [0; 256];
    let mut byte = 0;
    while byte < 256 {
        remainders[byte] = remainder(byte as u32, 0b1_0000_0111, 8) as u8;
        byte += 1;
    }
    remainders
};

/// The header check of a line cell.
pub fn header_check(header: [u8; 4]) -> u8 {
    let rest = header.iter().fold(0, |rest, byte| BYTE_REMAINDERS[usize::from(rest ^ byte)]);
    rest ^ 0x55
}

/// The check nibble over the upper 12 bits of a routing header.
pub fn routing_check(upper: u16) -> u16 {
    remainder(u32::from(upper), 0b1_0011, 4) as u16
}

/// Exclusive-or of all bytes given.
pub fn parity(bytes: &[u8]) -> u8 {
    bytes.iter().fold(0, |sum, byte| sum ^ byte)
}

/// The kind of routing header that is control or loopback to one unit, by its class.
const TO_PROCESSOR: u16 = 3;
const CONTROL: u16 = 0;
const LOOPBACK: u16 = 1;
/// The highest address that a unit can have on any bus.
const HIGHEST_UNIT: u8 = 31;

/// A routing header of these upper 12 bits.
fn with_check(upper: u16) -> u16 {
    upper << 4 | routing_check(upper)
}

/// The routing header of a control cell; an address above 31 makes its frame damaged.
pub fn control_routing(address: u8) -> u16 {
    with_check(TO_PROCESSOR << 10 | CONTROL << 8 | u16::from(address))
}

/// The routing header of a loopback cell.
pub fn loopback_routing(address: u8) -> u16 {
    with_check(TO_PROCESSOR << 10 | LOOPBACK << 8 | u16::from(address))
}

impl Routing {
    pub fn encode(self) -> u16 {
        let (kind, address) = match self.target {
            Target::Unit(unit) => (0, unit),
            Target::Session(session) => (1, session),
            Target::Broadcast => (2, 0),
            Target::Control(unit) => return control_routing(unit),
            Target::Loopback(unit) => return loopback_routing(unit),
        };
        with_check(kind << 10 | u16::from(self.class) << 8 | u16::from(address))
    }

    /// None for a header that makes its frame damaged.
    pub fn decode(header: u16) -> Option<Routing> {
        let upper = header >> 4;
        if routing_check(upper) != header & 0xF {
            return None;
        }
        let (address, class) = ((upper & 0xFF) as u8, upper >> 8 & 3);
        let target = match upper >> 10 {
            0 if address <= HIGHEST_UNIT => Target::Unit(address),
            1 => Target::Session(address),
            2 if address == 0 => Target::Broadcast,
            TO_PROCESSOR if class == CONTROL && address <= HIGHEST_UNIT => Target::Control(address),
            TO_PROCESSOR if class == LOOPBACK && address <= HIGHEST_UNIT => Target::Loopback(address),
            _ => return None,
        };
        Some(Routing { target, class: class as u8 })
    }
}

impl Header {
    /// Reads four bytes as the link does; the bus reads as an NNI link.
    pub fn read(link: Link, bytes: [u8; 4]) -> Header {
        let word = u32::from_be_bytes(bytes);
        let top = (word >> 20) as u16;
        Header {
            vpi: match link {
                Link::Uni => top & 0xFF,
                Link::Nni => top,
            },
            vci: (word >> 4) as u16,
            tail: (word & 0xF) as u8,
        }
    }

    /// Writes a header for the link: a UNI one gets GFC 0 whatever the VPI is.
    pub fn write(self, link: Link) -> [u8; 4] {
        let vpi = match link {
            Link::Uni => self.vpi & 0xFF,
            Link::Nni => self.vpi & 0xFFF,
        };
        let word = u32::from(vpi) << 20 | u32::from(self.vci) << 4 | u32::from(self.tail & 0xF);
        word.to_be_bytes()
    }
}

/// What a sound frame says to those who hear it.
#[derive(Clone, Copy, Debug, PartialEq, Eq)]
pub struct Heard {
    pub routing: Routing,
    pub header: Header,
}

impl Heard {
    /// The frame without its parity, and what it says; None for a damaged one.
    pub fn read(frame: &[u8; FRAME_BYTES]) -> (&BusCell, Option<Heard>) {
        let cell: &BusCell = frame.first_chunk().expect("a frame is longer");
        let whole = parity(cell) == frame[56];
        let routing = Routing::decode(routing_of(cell)).filter(|routing| whole && returns(*routing, cell));
        (cell, routing.map(|routing| Heard { routing, header: header_of(cell) }))
    }
}

/// False for a loopback cell whose tandem byte names no unit of any bus; that of others is not judged.
fn returns(routing: Routing, cell: &BusCell) -> bool {
    !matches!(routing.target, Target::Loopback(_)) || cell[TANDEM] <= HIGHEST_UNIT
}

/// Puts a routed cell together as it waits in an inlet; the tandem header is zero.
pub fn bus_cell(routing: u16, header: Header, payload: &[u8]) -> BusCell {
    let mut cell = [0; 56];
    cell[0..2].copy_from_slice(&routing.to_be_bytes());
    cell[4..8].copy_from_slice(&header.write(Link::Nni));
    cell[8..56].copy_from_slice(payload);
    cell
}

/// A loopback cell as it goes on: a control cell for the unit named in its first tandem byte, otherwise as it was.
pub fn looped_back(mut cell: BusCell) -> BusCell {
    let routing = control_routing(cell[TANDEM]);
    cell[..2].copy_from_slice(&routing.to_be_bytes());
    cell
}

/// The routing header's two bytes of a bus cell as a number.
pub fn routing_of(cell: &BusCell) -> u16 {
    u16::from_be_bytes([cell[0], cell[1]])
}

/// The cell header of a bus cell; it always has a twelve-bit VPI.
pub fn header_of(cell: &BusCell) -> Header {
    Header::read(Link::Nni, [cell[4], cell[5], cell[6], cell[7]])
}
