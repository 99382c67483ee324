//! One line of the route table: what it says, or that its form is wrong.

use std::ops::RangeInclusive;

use crate::codec::{Link, Routing, Target};
use crate::outlet::{Mode, Settings};
use crate::text::number;

/// A `unit` line.
#[derive(Clone, Copy, Debug, PartialEq, Eq)]
pub struct UnitLine {
    pub unit: u8,
    pub link: Link,
    pub top_vpi: u16,
    pub priority: u8,
    pub settings: Settings,
    pub mark: bool,
}

/// What `vp` and `vc` have in common.
#[derive(Clone, Copy, Debug, PartialEq, Eq)]
pub struct Route {
    pub routing: Routing,
    pub vpi: u16,
}

/// A well formed line.
#[derive(Clone, Copy, Debug, PartialEq, Eq)]
pub enum Line {
    Bus(u8),
    Unit(UnitLine),
    Vp { unit: u8, vpi: u16, route: Route },
    Drop { unit: u8, vpi: u16 },
    Page { unit: u8, vpi: u16, top_vci: u16 },
    Vc { unit: u8, vpi: u16, vci: u16, route: Route, out_vci: u16 },
    Mc { unit: u8, session: u8 },
}

/// Fields of the longest line, the `unit` line, with its word.
const FIELDS_MAX: usize = 10;

/// Reads a line without its newline; None is a fault of form.
pub fn parse_line(line: &[u8]) -> Option<Line> {
    let mut fields = [&[][..]; FIELDS_MAX];
    let mut count = 0;
    for field in line.split(|byte| *byte == b'\t') {
        *fields.get_mut(count)? = field;
        count += 1;
    }
    match fields[..count] {
        [b"bus", number] => bus(number),
        [b"unit", ref rest @ ..] => unit_line(rest).map(Line::Unit),
        [b"vp", unit, vpi, target, class, out_vpi] => {
            Some(Line::Vp { unit: unit_number(unit)?, vpi: vpi_number(vpi)?, route: route(target, class, out_vpi)? })
        }
        [b"drop", unit, vpi] => Some(Line::Drop { unit: unit_number(unit)?, vpi: vpi_number(vpi)? }),
        [b"page", unit, vpi, top_vci] => {
            Some(Line::Page { unit: unit_number(unit)?, vpi: vpi_number(vpi)?, top_vci: vci_number(top_vci)? })
        }
        [b"vc", unit, vpi, vci, target, class, out_vpi, out_vci] => Some(Line::Vc {
            unit: unit_number(unit)?,
            vpi: vpi_number(vpi)?,
            vci: vci_number(vci)?,
            route: route(target, class, out_vpi)?,
            out_vci: vci_number(out_vci)?,
        }),
        [b"mc", unit, session] => Some(Line::Mc { unit: unit_number(unit)?, session: session_number(session)? }),
        _ => None,
    }
}

fn bus(number: &[u8]) -> Option<Line> {
    match number {
        b"16" => Some(Line::Bus(16)),
        b"32" => Some(Line::Bus(32)),
        _ => None,
    }
}

fn unit_line(fields: &[&[u8]]) -> Option<UnitLine> {
    let [unit, link, top_vpi, priority, mode, length, cbr_limit, vbr_limit, mark] = *fields else {
        return None;
    };
    let link = match link {
        b"uni" => Link::Uni,
        b"nni" => Link::Nni,
        _ => return None,
    };
    Some(UnitLine {
        unit: unit_number(unit)?,
        link,
        top_vpi: within(top_vpi, 0..=u64::from(link.highest_vpi()))? as u16,
        priority: within(priority, 1..=3)? as u8,
        settings: settings(mode, length, cbr_limit, vbr_limit)?,
        mark: within(mark, 0..=1)? == 1,
    })
}

fn settings(mode: &[u8], length: &[u8], cbr_limit: &[u8], vbr_limit: &[u8]) -> Option<Settings> {
    let mode = match mode {
        b"one" => Mode::One,
        b"four" => Mode::Four,
        _ => return None,
    };
    let byte = |field: &[u8]| within(field, 0..=255).map(|value| value as u8);
    let settings =
        Settings { mode, cbr_length: byte(length)?, cbr_limit: byte(cbr_limit)?, vbr_limit: byte(vbr_limit)? };
    settings.are_good().then_some(settings)
}

fn route(target_field: &[u8], class: &[u8], out_vpi: &[u8]) -> Option<Route> {
    let routing = Routing { target: target(target_field)?, class: within(class, 0..=3)? as u8 };
    let vpi = vpi_number(out_vpi)?;
    Some(Route { routing, vpi })
}

fn target(field: &[u8]) -> Option<Target> {
    match field {
        [b'u', unit @ ..] => unit_number(unit).map(Target::Unit),
        [b'm', session @ ..] => session_number(session).map(Target::Session),
        b"b" => Some(Target::Broadcast),
        _ => None,
    }
}

fn unit_number(field: &[u8]) -> Option<u8> {
    within(field, 0..=31).map(|unit| unit as u8)
}

fn session_number(field: &[u8]) -> Option<u8> {
    within(field, 0..=255).map(|session| session as u8)
}

fn vpi_number(field: &[u8]) -> Option<u16> {
    within(field, 0..=4_095).map(|vpi| vpi as u16)
}

fn vci_number(field: &[u8]) -> Option<u16> {
    within(field, 0..=65_535).map(|vci| vci as u16)
}

fn within(field: &[u8], range: RangeInclusive<u64>) -> Option<u64> {
    number(field).filter(|value| range.contains(value))
}
