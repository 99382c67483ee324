//! The numbers given back.

/// The eleven refusals; the value of each is its number in document 01 or in request W1.
#[derive(Clone, Copy, Debug, PartialEq, Eq, PartialOrd, Ord)]
pub enum Refused {
    Long = 1,
    Form = 2,
    Order = 3,
    Twice = 4,
    Wide = 5,
    Room = 6,
    Store = 7,
    State = 8,
    Unit = 9,
    Length = 10,
    Busy = 11,
}

impl Refused {
    pub fn number(self) -> u8 {
        self as u8
    }
}

/// A refused table: which number, and the line counted from 1 (0 for none).
#[derive(Clone, Copy, Debug, PartialEq, Eq)]
pub struct Refusal {
    pub refused: Refused,
    pub line: usize,
}

impl Refusal {
    pub fn new(refused: Refused, line: usize) -> Self {
        Refusal { refused, line }
    }

    pub fn number(self) -> u8 {
        self.refused.number()
    }
}
