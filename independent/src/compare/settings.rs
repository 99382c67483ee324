//! Bytes of the state by name, so that scripts say what they set.

use super::script::Script;
use crate::state::{
    ASKS, BUS, CBR_LENGTH, CBR_LIMIT, CONTROL_COUNT, CONTROL_HEAD, CONTROL_IN, COUNT, FRAME, GRANTED, INLET_COUNT,
    INLET_HEAD, LAST, LINK, LOOPBACK_IN, LOOPBACK_OUT, MARK, MODE, NUMBER, PRIORITY, QUEUE_COUNT, QUEUE_HEAD, RECORDS,
    SESSIONS, SHELF, STATE_BYTES, TOP_HIGH, TOP_LOW, VBR_LIMIT,
};
use crate::UNITS_MAX;

/// Every name that stands for one byte of each place.
const COLUMNS: [(&str, usize); 16] = [
    ("number", NUMBER),
    ("link", LINK),
    ("priority", PRIORITY),
    ("mode", MODE),
    ("cbrlength", CBR_LENGTH),
    ("cbrlimit", CBR_LIMIT),
    ("vbrlimit", VBR_LIMIT),
    ("mark", MARK),
    ("inlethead", INLET_HEAD),
    ("inletcount", INLET_COUNT),
    ("asks", ASKS),
    ("controlin", CONTROL_IN),
    ("loopbackin", LOOPBACK_IN),
    ("controlhead", CONTROL_HEAD),
    ("controlcount", CONTROL_COUNT),
    ("loopbackout", LOOPBACK_OUT),
];

/// The byte of a place in a column.
pub fn byte_of(column: usize, place: usize) -> usize {
    UNITS_MAX * column + place
}

/// The bytes with a name, the highest first. Queues are counted through: queue q of place p is 4 p + q.
fn bytes_of(name: &str, place: usize) -> Vec<usize> {
    let shelf = |at: usize| byte_of(SHELF, at);
    match name {
        "byte" => vec![place],
        "top" => vec![byte_of(TOP_HIGH, place), byte_of(TOP_LOW, place)],
        "place" => (0..4).map(|byte| byte_of(RECORDS + byte, place)).collect(),
        "queuehead" => vec![byte_of(QUEUE_HEAD + place % 4, place / 4)],
        "queuecount" => vec![byte_of(QUEUE_COUNT + place % 4, place / 4)],
        "last" => vec![shelf(LAST + place)],
        "granted" => vec![shelf(GRANTED)],
        "bus" => vec![shelf(BUS)],
        "count" => vec![shelf(COUNT)],
        "frame" => vec![shelf(FRAME), shelf(FRAME + 1)],
        _ => COLUMNS.iter().filter(|(column, _)| *column == name).map(|(_, column)| byte_of(*column, place)).collect(),
    }
}

/// Adds the pokes of a setting: a name, a place and a value, such as `top 0 4095`.
pub fn set(script: &mut Script, setting: &str) {
    let mut words = setting.split(' ');
    let (Some(name), Some(Ok(place)), Some(Ok(value))) =
        (words.next(), words.next().map(str::parse), words.next().map(str::parse::<u32>))
    else {
        panic!("{setting} is no setting");
    };
    let places = bytes_of(name, place);
    assert!(!places.is_empty(), "{setting} has no such name");
    let bytes = &value.to_be_bytes()[4 - places.len()..];
    match places[..] {
        [high, low] if low == high + 1 => script.poke(high, bytes),
        _ => places.iter().zip(bytes).for_each(|(at, byte)| script.poke(*at, &[*byte])),
    }
}

/// What a byte of the state is, for the tally.
pub fn name_of(at: usize) -> &'static str {
    #[rustfmt::skip]
    const NAMES: [&str; 25] = [
        "number", "link", "top high", "top low", "priority", "mode", "cbrlength", "cbrlimit", "vbrlimit", "mark",
        "place 0", "place 1", "place 2", "place 3", "inlethead", "inletcount", "queuehead 0", "queuehead 1",
        "queuehead 2", "queuehead 3", "queuecount 0", "queuecount 1", "queuecount 2", "queuecount 3", "asks",
    ];
    const SHELF_NAMES: [&str; 8] = ["last 1", "last 2", "last 3", "granted", "bus", "count", "frame high", "frame low"];
    const CONTROL_NAMES: [&str; 5] = ["controlin", "loopbackin", "controlhead", "controlcount", "loopbackout"];
    let column = at / UNITS_MAX;
    match (NAMES.get(column), at.checked_sub(byte_of(SHELF, 0))) {
        (Some(name), _) => name,
        (_, Some(place)) if place < SHELF_NAMES.len() => SHELF_NAMES[place],
        _ if (CONTROL_IN..=LOOPBACK_OUT).contains(&column) => CONTROL_NAMES[column - CONTROL_IN],
        _ if column < SESSIONS => "free",
        _ if at < STATE_BYTES => "sessions",
        _ => "nothing",
    }
}

/// Names of bytes that State judges, by themselves or with others.
#[rustfmt::skip]
pub const JUDGED: [&str; 31] = [
    "number", "link", "top high", "priority", "mode", "cbrlength", "cbrlimit", "vbrlimit", "mark", "inlethead",
    "inletcount", "queuehead 0", "queuehead 1", "queuehead 2", "queuehead 3", "queuecount 0", "queuecount 1",
    "queuecount 2", "queuecount 3", "asks", "last 1", "last 2", "last 3", "granted", "bus", "count", "controlin",
    "loopbackin", "controlhead", "controlcount", "loopbackout",
];

/// Names of bytes that State leaves alone.
#[rustfmt::skip]
pub const NOT_JUDGED: [&str; 9] = [
    "top low", "place 0", "place 1", "place 2", "place 3", "frame high", "frame low", "free", "sessions",
];
