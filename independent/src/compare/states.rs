//! Random states that 01 knows, made byte by byte, so that they need no traffic to be reached.

use super::dice::Dice;
use super::tables::{Draft, SESSIONS};
use crate::ring::Ring;
use crate::state::{self, State, ASKS, CONTROL_IN, GRANTED, LAST, LOOPBACK_IN, LOOPBACK_OUT, NOBODY, PRIORITY, SHELF};
use crate::{load, Card, Counters, CONTROL_CELLS, INLET_CELLS, STORE_PER_UNIT, UNITS_MAX};

/// The state that the draft's table leaves on the wide card.
pub fn loaded(draft: &Draft) -> State {
    let (mut memory, mut rows) = (vec![0; draft.used], [Counters::default(); UNITS_MAX]);
    let store = UNITS_MAX * STORE_PER_UNIT;
    load(Card::Wide, &draft.text(), &mut memory, store, &mut rows).0.state
}

/// A state of the draft's units with any cells, requests and grants, and anything where nothing is judged.
pub fn made(dice: &mut Dice, draft: &Draft) -> State {
    let mut state = loaded(draft);
    let places = state.numbers().len();
    for place in 0..places {
        let (inlet, outlet) = (ring(dice, INLET_CELLS), ring(dice, CONTROL_CELLS));
        state.set_inlet(place, inlet);
        state.set_control_outlet(place, outlet);
        for column in [CONTROL_IN, LOOPBACK_IN, LOOPBACK_OUT] {
            state.columns[column][place] = u8::from(dice.chance(35));
        }
        for (queue, capacity) in state.settings(place).capacities().into_iter().enumerate() {
            let ring = ring(dice, capacity);
            state.set_queue(place, queue, ring);
        }
    }
    grants(dice, &mut state);
    state.set_frame(dice.pick(&[0, 1, 2, 15, 255, 256, 65_534, 65_535]));
    if dice.chance(50) {
        for place in 0..places {
            let session = dice.pick(&SESSIONS);
            state.columns[state::SESSIONS + place][usize::from(session / 8)] = dice.byte();
        }
    }
    if dice.chance(50) {
        spoil_the_rest(dice, &mut state);
    }
    state
}

/// Head and count of a queue; mostly none or few cells, or nearly full.
fn ring(dice: &mut Dice, capacity: u8) -> Ring {
    if capacity == 0 {
        return Ring { head: 0, count: 0 };
    }
    let near = capacity - dice.roll(3).min(u64::from(capacity)) as u8;
    let few = dice.roll(3).min(u64::from(capacity)) as u8;
    let any = dice.between(0, capacity.into()) as u8;
    let last = capacity - 1;
    let head = [0, 0, last, dice.roll(capacity.into()) as u8][dice.index(4)];
    Ring { head, count: [0, 0, few, few, any, near][dice.index(6)] }
}

/// An open grant, last grants and requests that the units could have.
fn grants(dice: &mut Dice, state: &mut State) {
    let numbers = state.numbers().to_vec();
    if numbers.is_empty() {
        return;
    }
    let (place, waiting) = (dice.index(numbers.len()), state.waiting());
    if dice.chance(60) && waiting[place] > 0 {
        state.columns[SHELF][GRANTED] = numbers[place];
    }
    for priority in 0..3 {
        let unit = dice.pick(&numbers);
        state.columns[SHELF][LAST + priority] = dice.pick(&[NOBODY, unit]);
    }
    for (place, number) in numbers.iter().enumerate() {
        let granted = u8::from(state.granted() == *number);
        if dice.chance(60) && waiting[place] > granted {
            state.columns[ASKS][usize::from(*number)] = state.columns[PRIORITY][place];
        }
    }
}

/// Other bytes in places that are not declared, and in the free ones.
fn spoil_the_rest(dice: &mut Dice, state: &mut State) {
    let places = state.numbers().len();
    let byte = dice.pick(&[1, 2, 255]);
    let any = dice.chance(50);
    let mut fill = |bytes: &mut [u8]| bytes.fill_with(|| if any { dice.byte() } else { byte });
    for column in (0..ASKS).chain(CONTROL_IN..=LOOPBACK_OUT) {
        fill(&mut state.columns[column][places..]);
    }
    for place in places..UNITS_MAX {
        fill(&mut state.columns[state::SESSIONS + place]);
    }
    fill(&mut state.bytes_mut()[808..832]);
    fill(&mut state.bytes_mut()[992..1_024]);
}
