//! What a `unit` line says of the outlet queues: where they stand and how much they hold.

use crate::ring::Slots;

/// One queue for all classes, or one for each; the value of each is its byte in the state.
#[derive(Clone, Copy, Debug, PartialEq, Eq)]
pub enum Mode {
    One = 0,
    Four = 1,
}

/// What a `unit` line says of the queues.
#[derive(Clone, Copy, Debug, PartialEq, Eq)]
pub struct Settings {
    pub mode: Mode,
    pub cbr_length: u8,
    pub cbr_limit: u8,
    pub vbr_limit: u8,
}

const CBR: usize = 1;
const VBR: usize = 2;

/// Cells that mode `one` holds.
const ONE_CELLS: u8 = 123;
/// Cells that CBR and VBR of mode `four` hold together.
const CBR_AND_VBR_CELLS: u8 = 89;

impl Settings {
    /// Whether a `unit` line could give them. Without branches, as many units are judged side by side.
    pub fn are_good(self) -> bool {
        let Settings { mode, cbr_length, cbr_limit, vbr_limit } = self;
        let within = |value: u8, highest: u8| (value >= 1) & (value <= highest);
        let good_for_one = (cbr_length == 0) & (cbr_limit == 0) & within(vbr_limit, ONE_CELLS);
        let good_for_four = within(cbr_length, CBR_AND_VBR_CELLS - 1)
            & within(cbr_limit, cbr_length)
            & within(vbr_limit, self.vbr_length());
        match mode {
            Mode::One => good_for_one,
            Mode::Four => good_for_four,
        }
    }

    /// What the CBR length leaves to VBR in mode `four`.
    fn vbr_length(self) -> u8 {
        CBR_AND_VBR_CELLS.saturating_sub(self.cbr_length)
    }

    /// The queue that a class goes to; mode `one` uses the first for all.
    pub fn queue_of(self, class: u8) -> usize {
        match self.mode {
            Mode::One => 0,
            Mode::Four => usize::from(class),
        }
    }

    /// How many cells each queue holds; for good settings.
    pub fn capacities(self) -> [u8; 4] {
        match self.mode {
            Mode::One => [ONE_CELLS, 0, 0, 0],
            Mode::Four => [2, self.cbr_length, self.vbr_length(), 32],
        }
    }

    /// Where a queue stands; for good settings.
    pub fn slots(self, queue: usize) -> Slots {
        let first = match self.mode {
            Mode::One => 0,
            Mode::Four => [0, 2, 2 + self.cbr_length, 91][queue],
        };
        Slots { first, capacity: self.capacities()[queue] }
    }

    /// The congestion limit of a queue, where it has one.
    pub fn limit(self, queue: usize) -> Option<u8> {
        match (self.mode, queue) {
            (Mode::One, 0) => Some(self.vbr_limit),
            (Mode::Four, CBR) => Some(self.cbr_limit),
            (Mode::Four, VBR) => Some(self.vbr_limit),
            _ => None,
        }
    }

    /// Whether so many cells in a queue are at its limit or above.
    pub fn reaches_limit(self, queue: usize, cells: u8) -> bool {
        self.limit(queue).is_some_and(|limit| cells >= limit)
    }
}
