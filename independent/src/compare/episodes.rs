//! The plan: which script comes as which number under a seed.

use super::dice::Dice;
use super::fixed;
use super::script::{Line, Script};
use super::settings::set;
use super::spoil::{mend, no_command, spoil, spoil_alike};
use super::tables::{first_wide_line, nearly_good, spoiled, Draft, Wish};
use super::traffic::Traffic;

/// Episodes of a round: ten of tables, three of traffic, two of spoiling, one on both cards, two of processors.
pub const ROUND: u64 = 18;
/// Tables in an episode of tables.
const TABLES: usize = 11;
/// Things spoiled in an episode of spoiling.
const SPOILINGS: usize = 28;

/// What a body finds on either card, also one that was cut short: nothing lent, a fresh 16 bus.
const FRESH: [&[u8]; 4] = [b"lend\tmemory\t0\t00", b"lend\tstore\t0\t00", b"lend\trows\t0\t0", b"load\t"];
/// Lines before the body on either card: the card, and what makes it fresh.
pub const BEFORE: usize = 1 + FRESH.len();

/// A script that stands alone.
#[derive(Clone)]
pub struct Episode {
    pub body: Vec<Line>,
    /// Whether the body runs on the wide card and again on the narrow one.
    pub twin: bool,
}

impl Episode {
    /// All lines in their order.
    pub fn lines(&self) -> Vec<Line> {
        if !self.twin {
            return self.body.clone();
        }
        let fresh = FRESH.map(<[u8]>::to_vec);
        let [wide, narrow] = [b"card\twide".to_vec(), b"card\tnarrow".to_vec()];
        [&[wide], &fresh[..], &self.body, &[narrow], &fresh, &self.body].concat()
    }
}

/// How many episodes so many rounds have, the fixed ones first.
pub fn count(rounds: u64) -> u64 {
    fixed::count() + rounds * ROUND
}

/// The episode of a number under a seed.
pub fn episode(seed: u64, number: u64) -> Episode {
    let Some(random) = number.checked_sub(fixed::count()) else {
        return Episode { body: fixed::script(number).lines, twin: false };
    };
    let dice = &mut Dice::new(seed, random);
    let mut script = Script::default();
    match random % ROUND {
        0..=9 => tables(dice, &mut script),
        10..=11 => traffic(dice, &mut script),
        12 => busy(dice, &mut script),
        13..=14 => spoiling(dice, &mut script),
        15 => twin(dice, &mut script),
        _ => processors(dice, &mut script),
    }
    Episode { body: script.lines, twin: random % ROUND == 15 }
}

/// A small table; `wide` of a hundred may have lines for the wide card alone.
fn wish(dice: &mut Dice, wide: u64) -> Wish {
    let wide = dice.chance(wide);
    let bus = if wide { dice.pick(&[16, 32]) } else { 16 };
    if dice.roll(300) == 0 {
        // Now and then a long one.
        return Wish { bus, units: bus.into(), wide, vpis: 40 };
    }
    let units = dice.pick(&[0, 1, 1, 2, 2, 3, 3, 4, 5, 8]);
    Wish { bus, units, wide, vpis: dice.between(1, 6) }
}

/// Gives whether it is the wide card.
fn choose_card(dice: &mut Dice, script: &mut Script) -> bool {
    let wide = dice.chance(60);
    script.say(if wide { "card wide" } else { "card narrow" });
    wide
}

/// Lends around what the table needs, mostly enough.
fn lend_around(dice: &mut Dice, script: &mut Script, draft: &Draft) {
    let (units, store) = (draft.units.len(), 8_192 * draft.units.len());
    let memory = match dice.roll(40) {
        0..=2 => draft.used.saturating_sub(dice.pick(&[1, 8, 9])),
        3..=4 => dice.index(draft.used + 1),
        5..=12 => draft.used,
        13 => dice.pick(&[262_143, 262_144, 262_145, 300_000]),
        _ => draft.used + dice.index(100),
    };
    let store = match dice.roll(20) {
        0 => store.saturating_sub(1),
        1 => 0,
        2..=9 => store,
        _ => store + dice.index(9_000),
    };
    let rows = match dice.roll(20) {
        0 => units.saturating_sub(1),
        1..=5 => units,
        6..=12 => 40,
        _ => dice.between(units as u64, 40) as usize,
    };
    script.lend(memory, store, rows);
}

/// Many short tables, each loaded and looked at.
fn tables(dice: &mut Dice, script: &mut Script) {
    let mut wide = choose_card(dice, script);
    for _ in 0..TABLES {
        if dice.chance(10) {
            wide = choose_card(dice, script);
        }
        let wish = wish(dice, if wide { 70 } else { 15 });
        let draft = Draft::new(dice, wish);
        lend_around(dice, script, &draft);
        let text = match dice.roll(10) {
            0..=4 => draft.text(),
            5..=8 => nearly_good(dice, &draft),
            _ => spoiled(dice, &draft),
        };
        script.load(&text);
        after_table(dice, script, &draft);
    }
}

/// Looks at what a load left, and at times tries it.
fn after_table(dice: &mut Dice, script: &mut Script, draft: &Draft) {
    if dice.chance(70) {
        script.say("show memory");
    }
    if dice.chance(20) {
        script.say("show state");
    }
    if dice.chance(10) {
        let unit = draft.units.first().map_or(0, |unit| unit.number);
        script.say(&format!("show unit {unit}"));
    }
    if dice.chance(20) {
        let events = dice.between(1, 12);
        Traffic { dice, draft, script, faults: 4 }.phases(events);
    }
    if dice.chance(10) {
        script.show_all();
    }
    if dice.chance(8) {
        no_command(dice, script);
    }
}

/// Loads a table with all that it needs. With all 40 rows lent the console calls the public entry points.
fn stage(dice: &mut Dice, script: &mut Script, draft: &Draft) {
    let units = draft.units.len();
    let rows = if dice.chance(70) { 40 } else { units + 1 };
    script.lend(draft.used + 40, 8_192 * units, rows);
    script.load(&draft.text());
}

/// A few units with much to do.
fn traffic(dice: &mut Dice, script: &mut Script) {
    let mut wish = wish(dice, 60);
    wish.units = wish.units.max(1);
    script.say(if wish.wide { "card wide" } else { "card narrow" });
    let draft = Draft::new(dice, wish);
    stage(dice, script, &draft);
    if dice.chance(25) {
        set(script, &format!("frame 0 {}", dice.between(65_400, 65_535)));
    }
    let events = dice.between(100, 350);
    let flood = dice.chance(50);
    let mut traffic = Traffic { dice, draft: &draft, script, faults: 1 };
    traffic.phases(events);
    if flood {
        let events = traffic.dice.between(20, 150);
        traffic.flood(events);
        traffic.phases(60);
    }
    traffic.count_all();
    script.show_all();
}

/// A few units, or all of a bus, whose processors have much to say.
fn processors(dice: &mut Dice, script: &mut Script) {
    let (bus, wide) = dice.pick(&[(16, false), (16, false), (16, true), (32, true), (32, true)]);
    let units = dice.pick(&[1, 2, 2, 3, 3, 4, 6, bus.into()]);
    script.say(if wide { "card wide" } else { "card narrow" });
    let draft = Draft::new(dice, Wish { bus, units, wide, vpis: 3 });
    stage(dice, script, &draft);
    if dice.chance(25) {
        set(script, &format!("frame 0 {}", dice.between(65_400, 65_535)));
    }
    let mut traffic = Traffic { dice, draft: &draft, script, faults: 2 };
    for _ in 0..4 {
        let events = traffic.dice.between(60, 120);
        traffic.processor_phases(events);
        if traffic.dice.chance(30) {
            mend(&mut traffic);
        }
        traffic.trip();
        traffic.look();
    }
    traffic.count_all();
    script.show_all();
}

/// Every unit of the bus, for long.
fn busy(dice: &mut Dice, script: &mut Script) {
    let (bus, wide) = dice.pick(&[(16, false), (16, true), (32, true), (32, true)]);
    let wish = Wish { bus, units: bus.into(), wide, vpis: 3 };
    script.say(if wide { "card wide" } else { "card narrow" });
    let draft = Draft::new(dice, wish);
    stage(dice, script, &draft);
    if dice.chance(30) {
        set(script, &format!("frame 0 {}", dice.between(65_300, 65_535)));
    }
    let events = if dice.chance(8) { 4_000 } else { dice.between(300, 800) };
    let mut traffic = Traffic { dice, draft: &draft, script, faults: 0 };
    traffic.phases(events);
    traffic.count_all();
    script.show_all();
}

/// Some traffic, then one thing spoiled after the other.
fn spoiling(dice: &mut Dice, script: &mut Script) {
    let mut wish = wish(dice, 60);
    wish.units = wish.units.max(1);
    script.say("card wide");
    let draft = Draft::new(dice, wish);
    stage(dice, script, &draft);
    let mut traffic = Traffic { dice, draft: &draft, script, faults: 3 };
    traffic.phases(30);
    for number in 1..=SPOILINGS {
        spoil(&mut traffic);
        // Most states do not mend by themselves.
        if number % 7 == 0 {
            traffic.script.show_all();
            traffic.script.say("card wide");
            stage(traffic.dice, traffic.script, &draft);
            traffic.phases(20);
        } else if number % 7 == 4 {
            mend(&mut traffic);
        }
    }
    script.show_all();
}

/// A table and events for both cards; their records differ, so the memory is not looked at.
fn twin(dice: &mut Dice, script: &mut Script) {
    let wish = wish(dice, 30);
    let draft = Draft::new(dice, wish);
    lend_around(dice, script, &draft);
    script.load(&draft.text());
    if dice.chance(30) {
        set(script, "frame 0 65500");
    }
    let events = if first_wide_line(&draft.text()).is_some() { 5 } else { dice.between(30, 150) };
    let mut traffic = Traffic { dice, draft: &draft, script, faults: 2 };
    traffic.phases(events);
    let control = if events > 5 { 60 } else { 0 };
    traffic.processor_phases(control);
    for _ in 0..4 {
        spoil_alike(&mut traffic);
        traffic.phases(6);
        traffic.processor_phases(6);
    }
    for part in ["store", "rows", "state"] {
        script.say(&format!("show {part}"));
    }
    script.lines.retain(|line| line != b"show\tmemory");
}
