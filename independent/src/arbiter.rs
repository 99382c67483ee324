//! Requests and grants, in a sound state.

use crate::state::{State, ASKS, GRANTED, LAST, NOBODY, NUMBER, PRIORITY, SHELF};
use crate::UNITS_MAX;

impl State {
    /// Renews the requests of the units that this frame renews; the others stand.
    pub fn renew(&mut self, frame: u16) {
        let (bus, granted, waiting) = (self.bus(), self.granted(), self.waiting());
        for (place, waiting) in waiting.iter().enumerate().take(self.count().into()) {
            let unit = self.columns[NUMBER][place];
            if is_renewed(bus, frame, unit) {
                // A granted cell has not left yet, but must not ask again.
                let asks = *waiting > u8::from(granted == unit);
                let asks_at = if asks { self.columns[PRIORITY][place] } else { 0 };
                // Below 32 already: the remainder spares a test of each.
                self.columns[ASKS][usize::from(unit) % UNITS_MAX] = asks_at;
            }
        }
    }

    /// The unit granted in the frame before, which sends now: its grant is used up.
    pub fn close(&mut self) -> Option<u8> {
        let granted = std::mem::replace(&mut self.columns[SHELF][GRANTED], NOBODY);
        (granted != NOBODY).then_some(granted)
    }

    /// Grants one asking unit of the highest priority asking.
    pub fn grant(&mut self) -> Option<u8> {
        let asks = &self.columns[ASKS];
        let priority = asks.iter().copied().max().filter(|priority| *priority > 0)?;
        let last = LAST + usize::from(priority - 1);
        let first = match self.columns[SHELF][last] {
            NOBODY => 0,
            last => last + 1,
        };
        let unit = (first..self.bus()).chain(0..first).find(|unit| asks[usize::from(*unit)] == priority)?;
        self.columns[ASKS][usize::from(unit)] = 0;
        self.columns[SHELF][last] = unit;
        self.columns[SHELF][GRANTED] = unit;
        Some(unit)
    }
}

/// On a 32 bus the lower half is renewed in even frames, the upper in odd ones.
fn is_renewed(bus: u8, frame: u16, unit: u8) -> bool {
    let lower_half = unit < 16;
    let even_frame = frame & 1 == 0;
    bus == 16 || lower_half == even_frame
}
