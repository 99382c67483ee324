//! The traffic that is timed keeps every unit busy and loses no cell.

use independent::pace::clock::Counted;
use independent::pace::plan::{Plan, Traffic, EACH, LOADS};
use independent::pace::report::Pace;
use independent::pace::rust::{counters_after, run};

#[test]
fn all_units_are_busy_and_no_cell_is_lost() {
    for plan in Plan::all() {
        let plan = Plan { rounds: 5, ..plan };
        let sent = 5 * u32::from(EACH);
        for (unit, row) in (0..plan.units).zip(&counters_after(plan)[0]) {
            let held = 5 * u32::from(plan.held(unit));
            assert_eq!((row.arrived, row.sent), (sent + 1, sent), "{plan:?}");
            assert_eq!((row.queued, row.taken), (held, held), "{plan:?}");
            assert_eq!((row.inletfull, row.full, row.clp, row.unheard), (0, 0, 0, 0), "{plan:?}");
        }
    }
}

#[test]
fn what_is_heard_is_queued_where_it_is_addressed_and_taken() {
    for plan in Plan::all() {
        let plan = Plan { rounds: 5, ..plan };
        let heard = 5 * u32::from(EACH);
        let [before, after] = counters_after(plan);
        let queued = before.iter().zip(&after).map(|(before, after)| after.queued - before.queued);
        let hearers = match plan.traffic {
            Traffic::Unicast => 1,
            Traffic::Multicast => plan.units / 2,
            Traffic::Broadcast => plan.units,
        };
        assert_eq!(queued.filter(|queued| *queued == heard).count(), usize::from(hearers), "{plan:?}");
        for (before, after) in before.iter().zip(&after) {
            assert_eq!(after.queued, after.taken, "{plan:?}");
            assert_eq!((after.damaged, after.full, after.clp, after.wide), (0, 0, 0, 0), "{plan:?}");
            assert_eq!((after.arrived, after.sent), (before.arrived, before.sent), "{plan:?}");
        }
    }
}

#[test]
fn the_sum_shows_each_plan_and_every_round() {
    let sum = |plan| run(plan, || 0).sum;
    let mut sums = Vec::new();
    for plan in Plan::all() {
        let short = [1, 2].map(|rounds| Plan { rounds, ..plan });
        assert_eq!(sum(short[0]), sum(short[0]));
        sums.extend(short.map(sum));
    }
    sums.sort_unstable();
    sums.dedup();
    assert_eq!(sums.len(), 2 * Plan::all().len());
}

#[test]
fn plans_take_about_as_long() {
    for plan in Plan::all() {
        let events = plan.rounds * (2 * plan.cells() + plan.takes());
        assert!((110_000..=120_000).contains(&events), "{plan:?} has {events}");
    }
}

#[test]
fn an_event_has_its_share_of_the_time_without_the_clock() {
    let plan = Plan { rounds: 10, ..Plan::all()[0] };
    let counted = Counted {
        load: LOADS * 9_000 + 250,
        arrive: 10 * (48 * 100 + 250),
        frame: 10 * (48 * 400 + 250),
        take: 10 * (48 * 70 + 250),
        hear: 10 * (48 * 80 + 250),
        count: 10 * (48 * 60 + 250),
        thousand_readings: 250_000,
        ..Counted::default()
    };
    let pace = Pace { load: 9_000.0, arrive: 100.0, frame: 400.0, take: 70.0, hear: 80.0, count: 60.0, whole: 570.0 };
    assert_eq!(Pace::of(plan, counted), pace);
}
