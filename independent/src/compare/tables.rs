//! Random route tables: good, nearly good and spoiled.

use super::dice::Dice;
use crate::codec::Link;

/// Few sessions, so that cells often find a hearer.
pub const SESSIONS: [u8; 8] = [0, 1, 17, 63, 64, 127, 200, 255];

/// What a good table shall be like.
#[derive(Clone, Copy)]
pub struct Wish {
    pub bus: u8,
    pub units: usize,
    /// Whether lines may be too wide for the narrow card.
    pub wide: bool,
    /// How many VPIs each unit has about.
    pub vpis: u64,
}

/// A unit of a good table with what its cells may carry.
#[derive(Clone)]
pub struct DraftUnit {
    pub number: u8,
    pub link: Link,
    pub top: u16,
    pub priority: u8,
    pub four: bool,
    pub cbr_length: u8,
    pub cbr_limit: u8,
    pub vbr_limit: u8,
    pub mark: bool,
    /// VPIs that are routed, with the VCI where one is needed.
    pub routes: Vec<(u16, Option<u16>)>,
}

/// A good table.
pub struct Draft {
    pub bus: u8,
    pub units: Vec<DraftUnit>,
    /// With their newlines.
    pub lines: Vec<String>,
    /// Bytes of memory that its records take.
    pub used: usize,
}

impl Draft {
    pub fn new(dice: &mut Dice, wish: Wish) -> Draft {
        let units: Vec<DraftUnit> = numbers(dice, wish).into_iter().map(|number| unit(dice, wish, number)).collect();
        let mut draft =
            Draft { bus: wish.bus, units: Vec::new(), lines: vec![format!("bus\t{}\n", wish.bus)], used: 0 };
        let mut waiting: Vec<Vec<String>> = Vec::new();
        for mut unit in units {
            draft.lines.push(unit_line(&unit));
            draft.used += 8 * (usize::from(unit.top) + 1);
            waiting.push(draft.entries(dice, wish, &mut unit));
            draft.units.push(unit);
            while dice.chance(40) {
                draft.give_one(dice, &mut waiting);
            }
        }
        while draft.give_one(dice, &mut waiting) {}
        draft
    }

    pub fn text(&self) -> Vec<u8> {
        self.lines.concat().into_bytes()
    }

    /// Writes the next line of a unit that has one; false if none is left.
    fn give_one(&mut self, dice: &mut Dice, waiting: &mut Vec<Vec<String>>) -> bool {
        waiting.retain(|lines| !lines.is_empty());
        if waiting.is_empty() {
            return false;
        }
        let unit = dice.index(waiting.len());
        self.lines.push(waiting[unit].remove(0));
        true
    }

    /// The lines that follow a unit's own, in their order.
    fn entries(&mut self, dice: &mut Dice, wish: Wish, unit: &mut DraftUnit) -> Vec<String> {
        let mut lines = Vec::new();
        let mut vpis: Vec<u16> = (0..=unit.top).collect();
        for _ in 0..dice.between(1, wish.vpis.max(1)).min(vpis.len() as u64) {
            let vpi = vpis.swap_remove(dice.index(vpis.len()));
            match dice.roll(10) {
                0 => lines.push(format!("drop\t{}\t{vpi}\n", unit.number)),
                1..=3 => self.page(dice, wish, unit, vpi, &mut lines),
                _ => {
                    lines.push(format!("vp\t{}\t{vpi}\t{}\n", unit.number, route(dice, wish)));
                    unit.routes.push((vpi, None));
                }
            }
        }
        for session in SESSIONS {
            if dice.chance(25) {
                lines.insert(dice.index(lines.len() + 1), format!("mc\t{}\t{session}\n", unit.number));
            }
        }
        lines
    }

    fn page(&mut self, dice: &mut Dice, wish: Wish, unit: &mut DraftUnit, vpi: u16, lines: &mut Vec<String>) {
        let top = match dice.roll(12) {
            0 => dice.between(100, 300),
            _ => dice.roll(40),
        };
        self.used += 8 * (top as usize + 1);
        lines.push(format!("page\t{}\t{vpi}\t{top}\n", unit.number));
        let mut vcis: Vec<u16> = (0..=top as u16).collect();
        for _ in 0..dice.between(1, 3).min(vcis.len() as u64) {
            let vci = vcis.swap_remove(dice.index(vcis.len()));
            let out_vci = [dice.roll(64), dice.roll(65_536), 65_535][dice.index(3)];
            lines.push(format!("vc\t{}\t{vpi}\t{vci}\t{}\t{out_vci}\n", unit.number, route(dice, wish)));
            unit.routes.push((vpi, Some(vci)));
        }
    }
}

/// Different unit numbers below the bus number, in any order.
fn numbers(dice: &mut Dice, wish: Wish) -> Vec<u8> {
    let mut left: Vec<u8> = (0..wish.bus).collect();
    (0..wish.units.min(left.len())).map(|_| left.swap_remove(dice.index(left.len()))).collect()
}

fn unit(dice: &mut Dice, wish: Wish, number: u8) -> DraftUnit {
    let link = if wish.wide && dice.chance(40) { Link::Nni } else { Link::Uni };
    let four = dice.chance(55);
    let cbr_length = if four { dice.pick(&[1, 2, 5, 40, 87, 88]) } else { 0 };
    let highest = if four { 89 - cbr_length } else { 123 };
    let high = u64::from(highest);
    DraftUnit {
        number,
        link,
        top: top(dice, link),
        priority: dice.between(1, 3) as u8,
        four,
        cbr_length,
        cbr_limit: if four { dice.between(1, u64::from(cbr_length)) as u8 } else { 0 },
        vbr_limit: [1, highest, dice.between(1, high) as u8, dice.between(1, high.min(6)) as u8][dice.index(4)],
        mark: dice.chance(50),
        routes: Vec::new(),
    }
}

fn top(dice: &mut Dice, link: Link) -> u16 {
    match (dice.roll(60), link) {
        (0, Link::Uni) => 255,
        (0, Link::Nni) => 4_095,
        (1..=4, Link::Nni) => dice.between(250, 300) as u16,
        (1..=3, Link::Uni) => 0,
        _ => dice.between(1, 12) as u16,
    }
}

fn unit_line(unit: &DraftUnit) -> String {
    let link = if unit.link == Link::Nni { "nni" } else { "uni" };
    let mode = if unit.four { "four" } else { "one" };
    let DraftUnit { number, top, priority, cbr_length, cbr_limit, vbr_limit, .. } = unit;
    let mark = u8::from(unit.mark);
    format!("unit\t{number}\t{link}\t{top}\t{priority}\t{mode}\t{cbr_length}\t{cbr_limit}\t{vbr_limit}\t{mark}\n")
}

/// Target, class and outgoing VPI.
fn route(dice: &mut Dice, wish: Wish) -> String {
    let target = match dice.roll(10) {
        0..=5 => format!("u{}", dice.roll(u64::from(wish.bus))),
        6..=7 => format!("m{}", dice.pick(&SESSIONS)),
        _ => "b".to_string(),
    };
    let vpi = match dice.roll(20) {
        0 if wish.wide => dice.between(256, 4_095),
        1 => 255,
        _ => dice.roll(256),
    };
    format!("{target}\t{}\t{vpi}", dice.roll(4))
}

#[rustfmt::skip]
const FIELDS: [&str; 44] = [
    "0", "1", "2", "3", "4", "5", "15", "16", "17", "31", "32", "33", "88", "89", "90", "123", "124", "255", "256",
    "4095", "4096", "65535", "65536", "00", "01", "-1", "+1", "", " ", "b", "b0", "u", "m", "u3", "u16", "u32",
    "m7", "m256", "uni", "nni", "one", "four", "4294967296", "18446744073709551616",
];

#[rustfmt::skip]
const WORDS: [&str; 12] = [
    "bus\t16", "bus\t32", "unit", "unit\t1\tuni\t3\t1\tone\t0\t0\t1\t0", "vp", "drop\t1\t1", "page\t1\t2\t3", "vc",
    "mc\t1\t1", "b", "\u{FF}", "",
];

/// A good table with some faults planted, which may still be good.
pub fn nearly_good(dice: &mut Dice, draft: &Draft) -> Vec<u8> {
    let mut lines: Vec<Vec<u8>> = draft.lines.iter().map(|line| line.clone().into_bytes()).collect();
    for _ in 0..dice.between(1, 2) {
        change_lines(dice, &mut lines);
    }
    lines.concat()
}

fn change_lines(dice: &mut Dice, lines: &mut Vec<Vec<u8>>) {
    let at = dice.index(lines.len());
    match dice.roll(12) {
        0..=1 => {
            let line = lines[at].clone();
            lines.insert(dice.between(at as u64, lines.len() as u64) as usize, line);
        }
        2 if lines.len() > 1 => {
            lines.remove(at);
        }
        3 => {
            let other = dice.index(lines.len());
            lines.swap(at, other);
        }
        4 => {
            lines.last_mut().expect("some lines").pop();
        }
        5 => change_byte(dice, &mut lines[at]),
        _ => change_field(dice, &mut lines[at]),
    }
}

/// Changes, adds or removes a byte of a line.
fn change_byte(dice: &mut Dice, line: &mut Vec<u8>) {
    let byte = dice.pick(b"\t\n 09bumx\r\xFF");
    let at = dice.index(line.len().max(1));
    match dice.roll(3) {
        0 if !line.is_empty() => line[at] = byte,
        1 if !line.is_empty() => {
            line.remove(at);
        }
        _ => line.insert(at, byte),
    }
}

/// Puts another value in one field, at the edge of a range or one off.
fn change_field(dice: &mut Dice, line: &mut Vec<u8>) {
    let text = String::from_utf8_lossy(line).into_owned();
    let mut fields: Vec<String> = text.trim_end_matches('\n').split('\t').map(String::from).collect();
    let at = dice.index(fields.len());
    let near = fields[at].parse::<i64>().map(|value| value + dice.pick(&[-1, 1, 16, 256]));
    fields[at] = match near {
        Ok(value) if dice.chance(50) => value.to_string(),
        _ => dice.pick(&FIELDS).to_string(),
    };
    *line = (fields.join("\t") + "\n").into_bytes();
}

/// A text that is hardly a table.
pub fn spoiled(dice: &mut Dice, draft: &Draft) -> Vec<u8> {
    let mut text = draft.text();
    match dice.roll(4) {
        0 => text.truncate(dice.index(text.len())),
        1 => {
            let length = dice.index(60);
            text = dice.bytes(length);
        }
        2 => {
            for _ in 0..dice.between(1, 4) {
                change_byte(dice, &mut text);
            }
        }
        _ => text = words(dice),
    }
    text
}

fn words(dice: &mut Dice) -> Vec<u8> {
    let mut text = if dice.chance(70) { "bus\t32\n".to_string() } else { String::new() };
    for _ in 0..dice.roll(8) {
        text += if dice.chance(60) { dice.pick(&WORDS) } else { dice.pick(&FIELDS) };
        text += dice.pick(&["\t", "\n", "\n"]);
    }
    text.into_bytes()
}

/// The number of the first line that is too wide for the narrow card, in a table that the wide one takes.
pub fn first_wide_line(text: &[u8]) -> Option<usize> {
    let is_wide = |line: &[u8]| {
        let fields: Vec<&[u8]> = line.split(|byte| *byte == b'\t').collect();
        let above =
            |field: &[u8]| std::str::from_utf8(field).is_ok_and(|text| text.parse().is_ok_and(|vpi: u32| vpi > 255));
        match fields[..] {
            [b"bus", bus] => bus == b"32",
            [b"unit", _, link, ..] => link == b"nni",
            [b"vp", _, _, _, _, vpi] => above(vpi),
            [b"vc", _, _, _, _, _, vpi, _] => above(vpi),
            _ => false,
        }
    };
    let mut lines = text.split(|byte| *byte == b'\n');
    lines.position(is_wide).map(|index| index + 1)
}
