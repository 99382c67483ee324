//! What a take finds before its cell leaves, so that a run shows every PT at outlets with and without congestion.

use crate::codec::header_of;
use crate::console::Console;
use crate::outlet::Mode;
use crate::state::{MARK, QUEUE_COUNT};
use crate::STORE_PER_UNIT;

/// The kind of a take at a unit with mark 1.
fn name(pt: u8, congested: bool, mode: Mode) -> String {
    let crowd = if congested { "congested" } else { "idle" };
    let mode = if mode == Mode::One { "one" } else { "four" };
    format!("take PT {pt} {crowd} mode {mode}")
}

/// Every such kind.
pub fn kinds() -> impl Iterator<Item = String> {
    let outlets = [Mode::One, Mode::Four].into_iter().flat_map(|mode| [true, false].map(|congested| (mode, congested)));
    outlets.flat_map(|(mode, congested)| (0..8).map(move |pt| name(pt, congested, mode)))
}

/// The kind of a line that takes a cell from a unit with mark 1; None of any other.
pub fn kind_of(console: &Console, line: &[u8]) -> Option<String> {
    let unit = std::str::from_utf8(line).ok()?.strip_prefix("take\t")?.strip_suffix("\t53")?.parse().ok()?;
    let Console { shelf, store, rows, .. } = console;
    if !shelf.state.is_sound(shelf.card, store.len(), rows.len()) {
        return None;
    }
    let place = shelf.state.place_of(unit).filter(|place| shelf.state.columns[MARK][*place] == 1)?;
    let settings = shelf.state.settings(place);
    let counts = [0, 1, 2, 3].map(|queue| shelf.state.columns[QUEUE_COUNT + queue][place]);
    let queue = counts.iter().position(|count| *count > 0)?;
    let cell = shelf.state.queue(place, queue).pop(settings.slots(queue), &store[place * STORE_PER_UNIT..]);
    let congested = (0..4).any(|queue| settings.reaches_limit(queue, counts[queue]));
    Some(name(header_of(&cell).tail >> 1, congested, settings.mode))
}
