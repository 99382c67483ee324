//! What the independent program answers, as the library has to say it: by the numbers of its header.

use crate::header;
use independent::{Arrival, Hearing, Refusal, Refused, SentFrame, Taking};

fn refusal_number(refused: Refused) -> u64 {
    match refused {
        Refused::Long => header::REFUSAL_LONG,
        Refused::Form => header::REFUSAL_FORM,
        Refused::Order => header::REFUSAL_ORDER,
        Refused::Twice => header::REFUSAL_TWICE,
        Refused::Wide => header::REFUSAL_WIDE,
        Refused::Room => header::REFUSAL_ROOM,
        Refused::Store => header::REFUSAL_STORE,
        Refused::State => header::REFUSAL_STATE,
        Refused::Unit => header::REFUSAL_UNIT,
        Refused::Length => header::REFUSAL_LENGTH,
        Refused::Busy => header::REFUSAL_BUSY,
    }
}

/// A kind with its second byte.
fn two(kind: u64, second: u64) -> u64 {
    kind | second << 8
}

fn refused(refused: Refused) -> u64 {
    two(header::REFUSED, refusal_number(refused))
}

pub fn loaded(outcome: Result<usize, Refusal>) -> u64 {
    match outcome {
        Ok(used) => header::LOADED | (used as u64) << 32,
        Err(refusal) => two(header::UNLOADED, refusal_number(refusal.refused)) | (refusal.line as u64) << 32,
    }
}

pub fn arrived(outcome: Result<Arrival, Refused>) -> u64 {
    let fate = |fate| match fate {
        Arrival::Hec => header::ARRIVAL_HEC,
        Arrival::Ignored => header::ARRIVAL_IGNORED,
        Arrival::Misrouted => header::ARRIVAL_MISROUTED,
        Arrival::InletFull => header::ARRIVAL_INLETFULL,
        Arrival::Queued => header::ARRIVAL_QUEUED,
    };
    outcome.map_or_else(refused, |arrival| two(header::ARRIVED, fate(arrival)))
}

pub fn framed(outcome: Result<SentFrame, Refused>) -> u64 {
    let unit = |unit: Option<u8>| unit.map_or(header::NOBODY, u64::from);
    outcome.map_or_else(refused, |frame| {
        let SentFrame { number, sender, granted, copies } = frame;
        two(header::FRAMED, copies as u64) | unit(sender) << 16 | unit(granted) << 24 | u64::from(number) << 32
    })
}

pub fn heard(outcome: Result<Hearing, Refused>) -> u64 {
    let fate = |fate| match fate {
        Hearing::Damaged => header::HEARING_DAMAGED,
        Hearing::Other => header::HEARING_OTHER,
        Hearing::Wide => header::HEARING_WIDE,
        Hearing::Full => header::HEARING_FULL,
        Hearing::Clp => header::HEARING_CLP,
        Hearing::Queued => header::HEARING_QUEUED,
    };
    outcome.map_or_else(refused, |hearing| two(header::HEARD, fate(hearing)))
}

pub fn taken(outcome: Result<Taking, Refused>) -> u64 {
    outcome.map_or_else(refused, |taking| match taking {
        Taking::Taken => header::TAKEN,
        Taking::Empty => header::EMPTY,
    })
}

pub fn handed(outcome: Result<(), Refused>) -> u64 {
    outcome.map_or_else(refused, |()| header::HANDED)
}

pub fn counted(outcome: Result<usize, Refused>) -> u64 {
    outcome.map_or_else(refused, |place| header::COUNTED | (place as u64) << 32)
}
