//! `show unit`: one unit for a person to read, its fields by name. It tests nothing.

use std::io::{self, Write};

use crate::state::{
    CBR_LENGTH, CBR_LIMIT, CONTROL_COUNT, CONTROL_HEAD, CONTROL_IN, INLET_COUNT, INLET_HEAD, LINK, LOOPBACK_IN,
    LOOPBACK_OUT, MARK, MODE, NUMBER, PRIORITY, QUEUE_COUNT, QUEUE_HEAD, VBR_LIMIT,
};
use crate::{State, UNITS_MAX};

/// The first declared place with this unit, however many the state says are declared.
pub fn find(state: &State, unit: u32) -> Option<usize> {
    let unit = u8::try_from(unit).unwrap_or(255);
    let declared = usize::from(state.count()).min(UNITS_MAX);
    state.columns[NUMBER][..declared].iter().position(|number| *number == unit)
}

/// Writes the unit's number and then every field, each with its name before it.
pub fn write(state: &State, place: usize, out: &mut Vec<u8>) -> io::Result<()> {
    let byte = |column: usize| state.columns[column][place];
    write!(out, "{}\tlink\t", byte(NUMBER))?;
    write_word(["uni", "nni"], byte(LINK), out)?;
    write!(out, "\ttop\t{}\tpriority\t{}\tmode\t", state.top(place), byte(PRIORITY))?;
    write_word(["one", "four"], byte(MODE), out)?;
    let settings = [("cbrlength", CBR_LENGTH), ("cbrlimit", CBR_LIMIT), ("vbrlimit", VBR_LIMIT), ("mark", MARK)];
    settings.iter().try_for_each(|(name, column)| write!(out, "\t{name}\t{}", byte(*column)))?;
    write!(out, "\tplace\t{}", state.records(place))?;
    write!(out, "\tinlethead\t{}\tinletcount\t{}", byte(INLET_HEAD), byte(INLET_COUNT))?;
    for (name, first) in [("queueheads", QUEUE_HEAD), ("queuecounts", QUEUE_COUNT)] {
        write!(out, "\t{name}")?;
        (0..4).try_for_each(|queue| write!(out, "\t{}", byte(first + queue)))?;
    }
    let cells = [
        ("controlin", CONTROL_IN),
        ("loopbackin", LOOPBACK_IN),
        ("controlhead", CONTROL_HEAD),
        ("controlcount", CONTROL_COUNT),
        ("loopbackout", LOOPBACK_OUT),
    ];
    cells.iter().try_for_each(|(name, column)| write!(out, "\t{name}\t{}", byte(*column)))?;
    write!(out, "\tsessions")?;
    let mut heard = (0..=255).filter(|session| state.hears_session(place, *session));
    heard.try_for_each(|session| write!(out, "\t{session}"))
}

/// The word of a byte that has one, any other byte as its number.
fn write_word(words: [&str; 2], byte: u8, out: &mut Vec<u8>) -> io::Result<()> {
    match words.get(usize::from(byte)) {
        Some(word) => write!(out, "{word}"),
        None => write!(out, "{byte}"),
    }
}
