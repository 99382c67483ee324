//! The thirteen counters of a unit.

/// One row of the lent counter records; each counts modulo 4,294,967,296.
#[derive(Clone, Copy, Debug, Default, PartialEq, Eq)]
pub struct Counters {
    pub arrived: u32,
    pub hec: u32,
    pub ignored: u32,
    pub misrouted: u32,
    pub inletfull: u32,
    pub sent: u32,
    pub unheard: u32,
    pub damaged: u32,
    /// Queued at the outlet; cells queued in the inlet have no counter.
    pub queued: u32,
    pub full: u32,
    pub clp: u32,
    pub wide: u32,
    pub taken: u32,
}

impl Counters {
    /// A row with this value in every counter.
    pub fn all(value: u32) -> Self {
        let [arrived, hec, ignored, misrouted, inletfull, sent, unheard] = [value; 7];
        let [damaged, queued, full, clp, wide, taken] = [value; 6];
        Counters { arrived, hec, ignored, misrouted, inletfull, sent, unheard, damaged, queued, full, clp, wide, taken }
    }

    /// The thirteen in the order in which `count` lists them.
    pub fn list(&self) -> [u32; 13] {
        [
            self.arrived,
            self.hec,
            self.ignored,
            self.misrouted,
            self.inletfull,
            self.sent,
            self.unheard,
            self.damaged,
            self.queued,
            self.full,
            self.clp,
            self.wide,
            self.taken,
        ]
    }
}

/// Adds one, wrapping at the top.
pub fn bump(counter: &mut u32) {
    *counter = counter.wrapping_add(1);
}
