//! Which bytes are a state that a table and events could have left.

use crate::state::{
    State, ASKS, CONTROL_IN, LAST, LINK, LOOPBACK_IN, LOOPBACK_OUT, MARK, MODE, NOBODY, NUMBER, PRIORITY, SHELF,
    TOP_HIGH,
};
use crate::{Card, CONTROL_CELLS, INLET_CELLS, STORE_PER_UNIT, UNITS_MAX};

/// Whether store and counter rows are as large as Store asks.
pub fn store_suffices(units: usize, store_len: usize, rows: usize) -> bool {
    store_len >= units * STORE_PER_UNIT && rows >= units
}

/// The places as the bytes they are compared with.
const PLACES: [u8; UNITS_MAX] = {
    let mut places = [0; UNITS_MAX];
    let mut place = 0;
    while place < UNITS_MAX {
        places[place] = place as u8;
        place += 1;
    }
    places
};

impl State {
    /// False is refused as State.
    pub fn is_sound(&self, card: Card, store_len: usize, rows: usize) -> bool {
        let count = usize::from(self.count());
        let bus_fits = self.bus() == 16 || self.bus() == 32;
        bus_fits
            && count <= UNITS_MAX
            && store_suffices(count, store_len, rows)
            && self.units_fit(card)
            && self.grants_fit()
    }

    /// Whether each declared unit is good by itself.
    fn units_fit(&self, card: Card) -> bool {
        let highest_link = match card {
            Card::Narrow => 0,
            Card::Wide => 1,
        };
        // All places, none skipped: so the compiler judges sixteen of them at once.
        (0..UNITS_MAX).fold(true, |fit, place| {
            let declared = PLACES[place] < self.count();
            fit & (!declared | self.unit_fits(place, highest_link))
        })
    }

    fn unit_fits(&self, place: usize, highest_link: u8) -> bool {
        let byte = |column: usize| self.columns[column][place];
        let settings = self.settings(place);
        // A top VPI to 255 has 0 in its high byte, one to 4,095 at most 15.
        let highest_top = if byte(LINK) == 0 { 0 } else { 15 };
        let mut fits = byte(NUMBER) < self.bus();
        fits &= byte(LINK) <= highest_link;
        fits &= byte(TOP_HIGH) <= highest_top;
        fits &= (byte(PRIORITY) >= 1) & (byte(PRIORITY) <= 3);
        fits &= byte(MODE) <= 1;
        fits &= byte(MARK) <= 1;
        fits &= settings.are_good();
        fits &= self.inlet(place).fits(INLET_CELLS);
        fits &= self.control_outlet(place).fits(CONTROL_CELLS);
        // None of the three single places holds more than 1 if their bits together do not.
        fits &= (byte(CONTROL_IN) | byte(LOOPBACK_IN) | byte(LOOPBACK_OUT)) <= 1;
        for (queue, capacity) in settings.capacities().into_iter().enumerate() {
            fits &= self.queue(place, queue).fits(capacity);
        }
        fits
    }

    /// Whether no unit is repeated, and the declared units could have the open grant, the last grants and the
    /// requests; each must be good by itself.
    fn grants_fit(&self) -> bool {
        // By number: a unit's priority, and four times the cells waiting in its inlet; 0 where none is declared.
        let mut units = [0; UNITS_MAX];
        let waiting = self.waiting();
        for (place, number) in self.numbers().iter().enumerate() {
            // Below 32 already: the remainder spares a test of each.
            units[usize::from(*number) % UNITS_MAX] = waiting[place] << 2 | self.columns[PRIORITY][place];
        }
        let granted = self.granted();
        if granted != NOBODY {
            match units.get_mut(usize::from(granted)) {
                // The granted cell has not left yet, but must not ask again.
                Some(unit) if *unit >= 4 => *unit -= 4,
                _ => return false,
            }
        }
        let asks = &self.columns[ASKS];
        let (mut declared, mut asks_fit) = (0_u8, true);
        for number in 0..UNITS_MAX {
            let may_ask = (asks[number] == units[number] & 3) & (units[number] >= 4);
            asks_fit &= (asks[number] == 0) | may_ask;
            // At most 32, so nothing wraps; but looking for it would judge them one by one.
            declared = declared.wrapping_add(u8::from(units[number] != 0));
        }
        let is_declared = |unit: u8| units.get(usize::from(unit)).is_some_and(|unit| *unit != 0);
        let last = &self.columns[SHELF][LAST..LAST + 3];
        // Repeated units have fewer numbers than places.
        declared == self.count() && asks_fit && last.iter().all(|last| *last == NOBODY || is_declared(*last))
    }
}
