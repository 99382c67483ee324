//! Medians of the runs, and the table.

use super::clock::Counted;
use super::plan::{Plan, LOADS};

/// Frames a second on the bus itself.
const BUS: f64 = 2_375_000.0;

/// Nanoseconds for one event of each kind.
#[derive(Clone, Copy, Debug, PartialEq)]
pub struct Pace {
    pub load: f64,
    pub arrive: f64,
    pub frame: f64,
    pub take: f64,
    pub hear: f64,
    pub count: f64,
    /// A frame with its arrival and the takes of its copies.
    pub whole: f64,
}

impl Pace {
    /// What a run says of one event, without the reading of the clock in each batch.
    pub fn of(plan: Plan, counted: Counted) -> Pace {
        let reading = counted.thousand_readings as f64 / 1000.0;
        let one = |total: u64, batches: u64, events: u64| (total as f64 / batches as f64 - reading) / events as f64;
        let each = |total: u64, events: u64| one(total, plan.rounds, events);
        let arrive = each(counted.arrive, plan.cells());
        let frame = each(counted.frame, plan.cells());
        let take = each(counted.take, plan.takes());
        let copies = plan.takes() as f64 / plan.cells() as f64;
        Pace {
            load: one(counted.load, 1, LOADS),
            arrive,
            frame,
            take,
            hear: each(counted.hear, plan.cells()),
            count: each(counted.count, plan.cells()),
            whole: arrive + frame + copies * take,
        }
    }
}

/// What one program needs for one event, over all runs.
struct Spread {
    median: f64,
    lowest: f64,
}

impl Spread {
    fn of(paces: &[Pace], event: fn(&Pace) -> f64) -> Spread {
        let mut values: Vec<f64> = paces.iter().map(event).collect();
        values.sort_by(f64::total_cmp);
        let half = values.len() / 2;
        let median = match values.len() % 2 {
            1 => values[half],
            _ => (values[half - 1] + values[half]) / 2.0,
        };
        Spread { median, lowest: values[0] }
    }
}

/// The words above the columns of `lines`.
pub fn heading() -> String {
    let start = format!("{:>5} {:<4} {:<9} {:<6}", "units", "mode", "traffic", "event");
    let ns = format!("{:>8} {:>8} {:>5}", "proved", "Rust", "ratio");
    let above = format!("{:>27} {:>27} {:>26}", "median ns", "lowest ns", "frames a second");
    format!("{:27} {above}\n{start}     {ns}     {ns}     {:>9}{:>17}\n", "", "proved", "Rust")
}

/// The lines of a plan: a line for each kind of event.
pub fn lines(plan: Plan, proved: &[Pace], rust: &[Pace]) -> String {
    type Event = (&'static str, fn(&Pace) -> f64, bool);
    let events: [Event; 7] = [
        ("load", |pace| pace.load, false),
        ("arrive", |pace| pace.arrive, false),
        ("frame", |pace| pace.frame, true),
        ("take", |pace| pace.take, false),
        ("hear", |pace| pace.hear, false),
        ("count", |pace| pace.count, false),
        ("whole", |pace| pace.whole, true),
    ];
    let mut text = String::new();
    for (word, event, is_frame) in events {
        let (proved, rust) = (Spread::of(proved, event), Spread::of(rust, event));
        let start = format!("{:>5} {:<4} {:<9} {word:<6}", plan.units, plan.mode_word(), plan.traffic.word());
        let (medians, lowest) = (beside(proved.median, rust.median), beside(proved.lowest, rust.lowest));
        text += &format!("{start}     {medians}     {lowest}");
        if is_frame {
            text += &format!("     {} {}", rate(proved.median), rate(rust.median));
        }
        text += "\n";
    }
    text
}

/// The proved shelf's nanoseconds, the Rust program's, and the ratio.
fn beside(proved: f64, rust: f64) -> String {
    format!("{proved:>8.1} {rust:>8.1} {:>5.2}", proved / rust)
}

/// Frames a second, and in brackets how many of the bus's.
fn rate(ns: f64) -> String {
    let rate = 1e9 / ns;
    format!("{rate:>9.0} ({:.2})", rate / BUS)
}
