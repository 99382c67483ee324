//! Which bytes are a state: each phrase of document 01's State over all values of the bytes it speaks of, and
//! docs/STATE.md's list, read byte by byte, on many states.

mod common;

use common::{bytes_of, tabs};
use independent::compare::dice::Dice;
use independent::compare::states::{loaded, made};
use independent::compare::tables::{Draft, Wish};
use independent::{load, Card, Counters, Refused, Shelf};

const CARDS: [Card; 2] = [Card::Narrow, Card::Wide];

/// docs/STATE.md's "Which bytes are a state", bullet by bullet.
fn is_state(bytes: &[u8], card: Card, store: usize, rows: usize) -> bool {
    let (bus, count) = (bytes[804], usize::from(bytes[805]));
    if (bus != 16 && bus != 32) || count > 32 {
        return false;
    }
    if store < 8_192 * count || rows < count {
        return false;
    }
    let granted = bytes[803];
    for place in 0..count {
        let column = |column: usize| bytes[32 * column + place];
        let number = column(0);
        if number >= bus || (0..count).any(|other| other != place && bytes[other] == number) {
            return false;
        }
        let (link, top, priority, mark) =
            (column(1), 256 * u32::from(column(2)) + u32::from(column(3)), column(4), column(9));
        let top_fits = match link {
            0 => top <= 255,
            1 => top <= 4_095 && card == Card::Wide,
            _ => false,
        };
        if !top_fits || ![1, 2, 3].contains(&priority) || mark > 1 {
            return false;
        }
        let [mode, length, cbr, vbr] = [5, 6, 7, 8].map(|index| i32::from(column(index)));
        let capacities = match mode {
            0 if length == 0 && cbr == 0 && (1..=123).contains(&vbr) => [123, 0, 0, 0],
            1 if (1..=88).contains(&length) && (1..=length).contains(&cbr) && (1..=89 - length).contains(&vbr) => {
                [2, length, 89 - length, 32]
            }
            _ => return false,
        };
        if column(14) >= 4 || column(15) > 4 {
            return false;
        }
        if column(28) >= 4 || column(29) > 4 || [26, 27, 30].iter().any(|single| column(*single) > 1) {
            return false;
        }
        for (queue, capacity) in capacities.into_iter().enumerate() {
            let (head, cells) = (i32::from(column(16 + queue)), i32::from(column(20 + queue)));
            let fits = if capacity == 0 { head == 0 && cells == 0 } else { head < capacity && cells <= capacity };
            if !fits {
                return false;
            }
        }
        let asks = bytes[768 + usize::from(number)];
        let needed = if granted == number { 2 } else { 1 };
        if asks != 0 && (asks != priority || column(15) + column(26) + column(27) < needed) {
            return false;
        }
    }
    let place_of = |unit: u8| (0..count).find(|place| bytes[*place] == unit);
    let waits = |place: usize| [480, 832, 864].iter().any(|column| bytes[column + place] > 0);
    if granted != 255 && !place_of(granted).is_some_and(waits) {
        return false;
    }
    let last_fits = |last: &u8| *last == 255 || place_of(*last).is_some();
    bytes[800..803].iter().all(last_fits)
        && (0..32).all(|number| place_of(number).is_some() || bytes[768 + usize::from(number)] == 0)
}

/// A shelf, and whether its bytes are taken for a state, with just as much store and rows as they ask.
struct Judge(Shelf);

impl Judge {
    fn new(card: Card, table: &str) -> Judge {
        let (shelf, outcome) =
            load(card, tabs(table).as_bytes(), &mut vec![0; 262_144], 262_144, &mut [Counters::default(); 32]);
        outcome.expect("a good table");
        Judge(shelf)
    }

    fn set(&mut self, name: &str, place: usize, value: u32) -> &mut Judge {
        let places = bytes_of(name, place);
        for (at, byte) in places.iter().zip(&value.to_be_bytes()[4 - places.len()..]) {
            self.0.state.bytes_mut()[*at] = *byte;
        }
        self
    }

    /// Every event and `count` must say the same; none may change anything where it is refused.
    fn is_sound(&self) -> bool {
        let units = usize::from(self.0.state.bytes()[805]).min(32);
        let (mut store, mut rows) = (vec![0xDD; 8_192 * units], vec![Counters::all(7); units]);
        let said = self.said(&mut store, &mut rows);
        let sound = self.0.count(99, store.len(), &rows) != Err(Refused::State);
        assert_eq!(said, [!sound; 6]);
        assert_eq!(is_state(self.0.state.bytes(), self.0.card, store.len(), rows.len()), sound);
        sound
    }

    /// Whether arrive, hear, take, hand, collect and frame refuse with State.
    fn said(&self, store: &mut [u8], rows: &mut [Counters]) -> [bool; 6] {
        let mut shelf = self.0;
        let said = [
            shelf.arrive(99, &[], &[], store, rows) == Err(Refused::State),
            shelf.hear(99, &[], store, rows) == Err(Refused::State),
            shelf.take(99, &mut [], store, rows) == Err(Refused::State),
            shelf.hand(99, &[], store, rows.len()) == Err(Refused::State),
            shelf.collect(99, &mut [], store, rows) == Err(Refused::State),
            shelf.frame(&mut [], store, rows) == Err(Refused::State),
        ];
        let touched = store.iter().fold(0, |touched, byte| touched | (byte ^ 0xDD));
        assert!(shelf == self.0 && touched == 0 && rows.iter().all(|row| *row == Counters::all(7)));
        said
    }

    /// The values of a byte that are a state.
    fn values(&mut self, name: &str, place: usize) -> Vec<u32> {
        let at = bytes_of(name, place)[0];
        let before = self.0.state.bytes()[at];
        let sound = (0..=255).filter(|value| self.set(name, place, *value).is_sound()).collect();
        self.0.state.bytes_mut()[at] = before;
        sound
    }
}

/// Place 0 is unit 4 in mode one, place 1 unit 9 in mode four.
const TABLE: &str = "\
bus 16
unit 4 uni 5 2 one 0 0 100 0
unit 9 uni 7 3 four 40 30 20 0
";

fn judge() -> Judge {
    Judge::new(Card::Wide, TABLE)
}

fn range(values: std::ops::RangeInclusive<u32>) -> Vec<u32> {
    values.collect()
}

#[test]
fn bus_not_16_or_32() {
    assert_eq!(judge().values("bus", 0), [16, 32]);
    assert_eq!(Judge::new(Card::Narrow, TABLE).values("bus", 0), [16, 32]);
    assert_eq!(judge().set("number", 0, 31).values("bus", 0), [32]);
}

#[test]
fn a_unit_repeated_or_not_below_the_bus_number() {
    let others =
        |bus: u32, other: u32| range(0..=bus - 1).into_iter().filter(|number| *number != other).collect::<Vec<_>>();
    assert_eq!(judge().values("number", 0), others(16, 9));
    assert_eq!(judge().values("number", 1), others(16, 4));
    assert_eq!(judge().set("bus", 0, 32).values("number", 0), others(32, 9));
    // Not declared, so it may be repeated.
    assert_eq!(judge().values("number", 2), range(0..=255));
    // Repeated at any distance.
    let mut table = "bus 32\n".to_string();
    (0..32).for_each(|unit| table += &format!("unit {unit} uni 0 1 one 0 0 1 0\n"));
    for place in 0..32 {
        assert_eq!(Judge::new(Card::Wide, &table).values("number", place), [place as u32]);
    }
}

#[test]
fn as_many_units_as_are_declared() {
    assert_eq!(judge().values("count", 0), [0, 1, 2]);
    let mut all = judge();
    all.set("bus", 0, 32);
    for place in 2..32 {
        let number = [0, 1, 2, 3, 5, 6, 7, 8].get(place - 2).copied().unwrap_or(place as u32);
        all.set("number", place, number).set("priority", place, 1).set("vbrlimit", place, 1);
    }
    assert_eq!(all.values("count", 0), range(0..=32));
}

#[test]
fn a_link_or_top_that_no_unit_line_gives() {
    for (card, links) in [(Card::Narrow, &[0][..]), (Card::Wide, &[0, 1])] {
        let mut judge = Judge::new(card, TABLE);
        assert_eq!(judge.values("link", 0), links);
        assert_eq!(judge.values("link", 1), links);
        assert_eq!(judge.values("link", 2), range(0..=255));
    }
    for (link, highest) in [(0, 255), (1, 4_095)] {
        let mut judge = judge();
        judge.set("link", 0, link);
        for top in 0..=65_535 {
            let near = top % 256 < 2 || top % 256 == 255 || top < 600;
            assert!(!near || judge.set("top", 0, top).is_sound() == (top <= highest), "{top}");
        }
    }
}

#[test]
fn a_priority_or_mark_that_no_unit_line_gives() {
    for place in [0, 1] {
        assert_eq!(judge().values("priority", place), [1, 2, 3]);
        assert_eq!(judge().values("mark", place), [0, 1]);
    }
    assert_eq!(judge().values("priority", 2), range(0..=255));
    assert_eq!(judge().values("mark", 2), range(0..=255));
}

#[test]
fn a_mode_length_or_limit_that_no_unit_line_gives() {
    // What a `unit` line of these fields says decides; on either card.
    let edges = [0_u32, 1, 2, 30, 40, 44, 45, 86, 87, 88, 89, 90, 122, 123, 124, 127, 128, 200, 254, 255];
    let mut good = 0;
    for (mode, word) in [(0, "one"), (1, "four"), (2, "none"), (255, "none")] {
        for (length, cbr) in edges.iter().flat_map(|length| edges.iter().map(move |cbr| (*length, *cbr))) {
            for vbr in edges {
                let line = format!("bus 16\nunit 4 uni 5 2 {word} {length} {cbr} {vbr} 0\n");
                let text = tabs(&line);
                let (shelf, outcome) =
                    load(Card::Wide, text.as_bytes(), &mut [0; 48], 8_192, &mut [Counters::default()]);
                let mut judge = Judge(shelf);
                if outcome.is_err() {
                    judge = Judge::new(Card::Wide, "bus 16\nunit 4 uni 5 2 one 0 0 1 0\n");
                    judge
                        .set("mode", 0, mode)
                        .set("cbrlength", 0, length)
                        .set("cbrlimit", 0, cbr)
                        .set("vbrlimit", 0, vbr);
                }
                good += usize::from(outcome.is_ok());
                let sound = judge.0.count(4, 8_192, &[Counters::default()]).is_ok();
                assert_eq!(sound, outcome.is_ok(), "{line}");
                assert_eq!(is_state(judge.0.state.bytes(), Card::Wide, 8_192, 1), sound, "{line}");
            }
        }
    }
    assert!(good > 100);
}

#[test]
fn a_count_or_queue_position_past_its_capacity() {
    for place in [0, 1] {
        assert_eq!(judge().values("inlethead", place), range(0..=3));
        assert_eq!(judge().values("inletcount", place), range(0..=4));
    }
    let assert_queues = |mode: &str, capacities: [u32; 4]| {
        for (queue, capacity) in capacities.into_iter().enumerate() {
            let mut judge = Judge::new(Card::Wide, &format!("bus 16\nunit 4 uni 5 2 {mode} 0\n"));
            assert_eq!(judge.values("queuehead", queue), range(0..=capacity.max(1) - 1), "{mode} {queue}");
            assert_eq!(judge.values("queuecount", queue), range(0..=capacity), "{mode} {queue}");
        }
    };
    assert_queues("one 0 0 100", [123, 0, 0, 0]);
    for length in 1..=88 {
        assert_queues(&format!("four {length} 1 1"), [2, length, 89 - length, 32]);
    }
}

#[test]
fn control_and_loopback_places_past_their_capacity() {
    for (card, place) in CARDS.into_iter().flat_map(|card| [(card, 0), (card, 1)]) {
        let mut judge = Judge::new(card, TABLE);
        for name in ["controlin", "loopbackin", "loopbackout"] {
            assert_eq!(judge.values(name, place), [0, 1], "{name}");
        }
        assert_eq!(judge.values("controlhead", place), range(0..=3));
        assert_eq!(judge.values("controlcount", place), range(0..=4));
        // Full and at the last place is sound too, and each is judged by itself.
        judge.set("controlhead", place, 3).set("controlcount", place, 4);
        assert_eq!(judge.values("controlhead", place), range(0..=3));
        assert_eq!(judge.values("controlcount", place), range(0..=4));
    }
    for name in ["controlin", "loopbackin", "controlhead", "controlcount", "loopbackout"] {
        assert_eq!(judge().values(name, 2), range(0..=255), "{name}");
        assert_eq!(judge().values(name, 31), range(0..=255), "{name}");
    }
}

#[test]
fn a_control_or_loopback_cell_in_the_inlet_bears_a_grant() {
    for name in ["controlin", "loopbackin"] {
        assert_eq!(judge().set(name, 0, 1).values("granted", 0), [4, 255]);
        assert_eq!(judge().set(name, 0, 1).set(name, 1, 1).values("granted", 0), [4, 9, 255]);
        assert_eq!(judge().set(name, 0, 1).set("granted", 0, 4).values(name, 0), [1]);
        assert_eq!(judge().set(name, 2, 1).set("number", 2, 5).values("granted", 0), [255]);
    }
    // What waits in an outlet bears none.
    for name in ["loopbackout", "controlcount"] {
        assert_eq!(judge().set(name, 0, 1).values("granted", 0), [255]);
        assert_eq!(judge().set(name, 0, 1).values("asks", 4), [0]);
    }
    // One of the three is enough, each may go while another stays.
    let mut both = judge();
    both.set("controlin", 0, 1).set("loopbackin", 0, 1).set("granted", 0, 4);
    assert_eq!(both.values("controlin", 0), [0, 1]);
    assert_eq!(both.values("loopbackin", 0), [0, 1]);
    assert_eq!(both.values("inletcount", 0), range(0..=4));
}

#[test]
fn cells_of_the_three_inlet_places_ask_together() {
    for cells in 0..=4 {
        for (control, loopback) in [(0, 0), (0, 1), (1, 0), (1, 1)] {
            let mut judge = judge();
            judge.set("inletcount", 0, cells).set("controlin", 0, control).set("loopbackin", 0, loopback);
            let waiting = cells + control + loopback;
            let asks = |needed: u32| if waiting >= needed { vec![0, 2] } else { vec![0] };
            assert_eq!(judge.values("asks", 4), asks(1));
            if waiting > 0 {
                assert_eq!(judge.set("granted", 0, 4).values("asks", 4), asks(2));
            }
        }
    }
}

#[test]
fn an_open_grant_at_a_unit_without_a_cell() {
    assert_eq!(judge().values("granted", 0), [255]);
    assert_eq!(judge().set("inletcount", 0, 1).values("granted", 0), [4, 255]);
    assert_eq!(judge().set("inletcount", 1, 4).values("granted", 0), [9, 255]);
    assert_eq!(judge().set("inletcount", 0, 1).set("inletcount", 1, 1).values("granted", 0), [4, 9, 255]);
    // A place that is not declared has no unit, whatever it holds.
    assert_eq!(judge().set("number", 2, 5).set("inletcount", 2, 1).values("granted", 0), [255]);
    assert_eq!(judge().set("inletcount", 1, 1).set("granted", 0, 9).values("inletcount", 1), [1, 2, 3, 4]);
}

#[test]
fn a_request_at_a_unit_without_a_cell_besides_a_granted_one() {
    for number in 0..32 {
        let expected = |asks: &[u32]| asks.to_vec();
        assert_eq!(judge().values("asks", number), [0]);
        for cells in 1..=4 {
            let mut judge = judge();
            judge.set("inletcount", 0, cells);
            // Unit 4 may ask, at its own priority.
            assert_eq!(judge.values("asks", number), if number == 4 { expected(&[0, 2]) } else { expected(&[0]) });
            judge.set("granted", 0, 4);
            let may_ask = number == 4 && cells > 1;
            assert_eq!(judge.values("asks", number), if may_ask { expected(&[0, 2]) } else { expected(&[0]) });
            // With the grant at the other unit, one cell is enough for it.
            judge.set("inletcount", 1, 1).set("granted", 0, 9);
            assert_eq!(judge.values("asks", number), if number == 4 { expected(&[0, 2]) } else { expected(&[0]) });
        }
    }
    // Numbers above the bus number are nobody's.
    assert_eq!(judge().set("number", 2, 31).set("inletcount", 2, 1).values("asks", 31), [0]);
    assert_eq!(judge().set("inletcount", 0, 1).set("asks", 4, 2).values("priority", 0), [2]);
    assert_eq!(judge().set("inletcount", 0, 1).set("asks", 4, 2).values("number", 0), [4]);
}

#[test]
fn a_last_granted_unit_not_declared() {
    for priority in 0..3 {
        assert_eq!(judge().values("last", priority), [4, 9, 255]);
        assert_eq!(judge().set("number", 2, 5).values("last", priority), [4, 9, 255]);
        assert_eq!(judge().set("count", 0, 1).values("last", priority), [4, 255]);
        assert_eq!(judge().set("last", priority, 4).values("number", 0), [4]);
    }
    assert_eq!(Judge::new(Card::Wide, "bus 32\n").values("last", 1), [255]);
}

#[test]
fn store_or_counter_rows_smaller_than_store_asks() {
    let shelf = judge().0;
    for (store, rows, sound) in [
        (16_384, 2, true),
        (16_383, 2, false),
        (16_384, 1, false),
        (0, 0, false),
        (300_000, 40, true),
        (8_192, 2, false),
    ] {
        let (mut bytes, mut counters) = (vec![0; store], vec![Counters::default(); rows]);
        assert_eq!(shelf.count(4, store, &counters).is_ok(), sound, "{store} {rows}");
        let mut tried = shelf;
        assert_eq!(tried.frame(&mut [0; 57], &mut bytes, &mut counters).is_ok(), sound);
        assert_eq!(is_state(shelf.state.bytes(), Card::Wide, store, rows), sound);
    }
    assert_eq!(Shelf::fresh(Card::Wide).count(0, 0, &[]), Err(Refused::Unit));
}

#[test]
fn what_is_not_judged() {
    for card in CARDS {
        let mut judge = Judge::new(card, TABLE);
        let free = [808, 831, 992, 1_023];
        let others = [320, 321, 352, 384, 416, 417, 806, 807, 1_024, 1_055, 1_056, 1_087, 1_088, 2_047];
        for at in free.into_iter().chain(others) {
            assert_eq!(judge.values("byte", at), range(0..=255), "{at}");
        }
        // Every byte of a place that is not declared.
        for (column, place) in (0..24).chain(26..31).flat_map(|column| [2, 17, 31].map(|place| (column, place))) {
            for value in [1, 127, 128, 255] {
                assert!(judge.set("byte", 32 * column + place, value).is_sound());
            }
        }
    }
}

/// A random good table of this many units.
fn draft(dice: &mut Dice, units: usize) -> Draft {
    let wide = dice.chance(60);
    let bus = if wide && (units > 16 || dice.chance(50)) { 32 } else { 16 };
    Draft::new(dice, Wish { bus, units, wide, vpis: 1 })
}

#[test]
fn made_states_are_states() {
    let dice = &mut Dice::new(1, 1);
    for _ in 0..3_000 {
        let units = dice.index(33);
        let draft = draft(dice, units);
        for state in [loaded(&draft), made(dice, &draft), made(dice, &draft)] {
            assert!(state.is_sound(Card::Wide, 262_144, 32));
            assert!(is_state(state.bytes(), Card::Wide, 262_144, 32));
        }
    }
}

#[test]
fn states_with_some_bytes_changed_are_judged_as_the_list_says() {
    let dice = &mut Dice::new(2, 2);
    let (mut sound, mut not) = (0, 0);
    for _ in 0..10_000 {
        let units = dice.index(33);
        let draft = draft(dice, units);
        let good = made(dice, &draft);
        let count = good.numbers().len();
        for _ in 0..40 {
            let mut state = good;
            for _ in 0..dice.between(1, 3) {
                let place = dice.index((count + 1).min(32));
                let at = match dice.roll(12) {
                    0..=5 => 32 * dice.index(24) + place,
                    10..=11 => 32 * (26 + dice.index(5)) + place,
                    6..=7 => 768 + dice.index(32),
                    8 => 800 + dice.index(8),
                    _ => dice.index(2_048),
                };
                let near = state.bytes()[at].wrapping_add(dice.pick(&[1, 255, 2]));
                let small = dice.roll(6) as u8;
                let number = dice.pick(&[state.bytes()[place], 255]);
                state.bytes_mut()[at] = [near, near, small, number, dice.byte()][dice.index(5)];
            }
            for card in CARDS {
                let (store, rows) = (8_192 * dice.index(34), dice.index(34));
                for (store, rows) in [(262_144, 32), (store, rows)] {
                    let said = state.is_sound(card, store, rows);
                    assert_eq!(said, is_state(state.bytes(), card, store, rows), "{card:?} {:?}", state.bytes());
                    *(if said { &mut sound } else { &mut not }) += 1;
                }
            }
        }
    }
    assert!(sound > 200_000 && not > 200_000, "{sound} {not}");
}

#[test]
fn any_bytes_are_judged_as_the_list_says() {
    let dice = &mut Dice::new(3, 3);
    for _ in 0..100_000 {
        let mut state = Shelf::fresh(Card::Wide).state;
        let few = dice.pick(&[1, 2, 4, 16, 256]);
        state.bytes_mut()[..808].fill_with(|| dice.roll(few) as u8);
        state.bytes_mut()[808..1_024].fill_with(|| dice.roll(few) as u8);
        if dice.chance(90) {
            state.bytes_mut()[804] = dice.pick(&[16, 32]);
            state.bytes_mut()[805] = dice.roll(4) as u8;
        }
        let said = state.is_sound(Card::Wide, 262_144, 32);
        assert_eq!(said, is_state(state.bytes(), Card::Wide, 262_144, 32), "{:?}", state.bytes());
    }
}
