//! The broken orders find every wrong test 9 that we could think of.

use second::chart::Chart;
use second::cycles::cycles;
use second::drawing::rings;
use second::order::{Break, Ordered, Place, comes_back};
use second::rng::Rng;

/// The darts of each event that has any, ascending.
fn darts_by_event(chart: &Chart) -> Vec<Vec<usize>> {
    let mut darts = vec![Vec::new(); chart.events];
    for dart in 0..chart.darts() {
        darts[chart.at(dart)].push(dart);
    }
    darts.retain(|darts| !darts.is_empty());
    darts
}

fn in_range(chart: &Chart) -> bool {
    chart.next.iter().all(|&dart| dart < chart.darts())
}

fn stays(chart: &Chart) -> bool {
    in_range(chart) && (0..chart.darts()).all(|dart| chart.at(chart.next[dart]) == chart.at(dart))
}

fn sum_fits(chart: &Chart) -> bool {
    chart.next.iter().sum::<usize>() == (0..chart.darts()).sum()
}

/// Whether the walk from the highest dart of each of these events comes back after all darts of the event.
fn whole<'a>(chart: &Chart, events: impl IntoIterator<Item = &'a Vec<usize>>) -> bool {
    events.into_iter().all(|darts| comes_back(chart, darts[darts.len() - 1]) == Some(darts.len()))
}

/// The walk ends where it should, but nobody looks on the way whether it came by there before.
fn back_at_the_end(chart: &Chart, darts: &[usize], start: usize) -> bool {
    stays(chart) && (0..darts.len()).fold(start, |here, _| chart.next[here]) == start
}

/// After how many steps the walk comes back, wherever it goes; 0 if it doesn't.
fn back_anywhere(chart: &Chart, start: usize) -> usize {
    let mut here = start;
    for steps in 1..=chart.darts() {
        here = chart.next[here];
        if here == start {
            return steps;
        }
    }
    0
}

/// How many steps all walks take together, each given up after as many steps as the event has darts.
fn steps(chart: &Chart) -> usize {
    darts_by_event(chart).iter().map(|d| comes_back(chart, d[d.len() - 1]).unwrap_or(d.len())).sum()
}

/// The same, each given up only when there is no step left for it.
fn steps_without_limit(chart: &Chart) -> usize {
    let mut left = chart.darts();
    for darts in darts_by_event(chart) {
        left -= comes_back(chart, darts[darts.len() - 1]).unwrap_or(left).min(left);
    }
    chart.darts() - left
}

/// What a wrong test 9 is called and what it accepts.
type Wrong = (&'static str, fn(&Chart) -> bool);

const WRONGS: &[Wrong] = &[
    ("only the range", in_range),
    ("only the events", stays),
    ("only the sum", |c| in_range(c) && sum_fits(c)),
    ("the events and the sum", |c| stays(c) && sum_fits(c)),
    ("only each dart once", |c| cycles(&c.next).is_some()),
    ("each dart once, the right number of rings", |c| {
        cycles(&c.next).is_some_and(|rings| rings.len() == darts_by_event(c).len())
    }),
    ("each dart once, within its event", |c| stays(c) && cycles(&c.next).is_some()),
    ("walks come back, not counted", |c| darts_by_event(c).iter().all(|d| comes_back(c, d[d.len() - 1]).is_some())),
    ("come back or given up, not told apart", |c| stays(c) && steps(c) == c.darts()),
    ("come back or given up, with the sum", |c| stays(c) && sum_fits(c) && steps(c) == c.darts()),
    ("given up when no step is left", |c| stays(c) && steps_without_limit(c) == c.darts()),
    ("given up when no step is left, with the sum", |c| stays(c) && sum_fits(c) && steps_without_limit(c) == c.darts()),
    ("counted, the events not looked at", |c| {
        in_range(c) && darts_by_event(c).iter().all(|darts| back_anywhere(c, darts[darts.len() - 1]) == darts.len())
    }),
    ("back at the end, from the highest", |c| {
        darts_by_event(c).iter().all(|darts| back_at_the_end(c, darts, darts[darts.len() - 1]))
    }),
    ("back at the end, from every dart", |c| {
        darts_by_event(c).iter().all(|darts| darts.iter().all(|&dart| back_at_the_end(c, darts, dart)))
    }),
    ("without the first event", |c| in_range(c) && whole(c, &darts_by_event(c)[1..])),
    ("without the last event", |c| {
        let events = darts_by_event(c);
        in_range(c) && whole(c, &events[..events.len() - 1])
    }),
    ("without events of one dart", |c| in_range(c) && whole(c, darts_by_event(c).iter().filter(|d| d.len() > 1))),
    ("without events of two darts", |c| in_range(c) && whole(c, darts_by_event(c).iter().filter(|d| d.len() != 2))),
    ("without hubs", |c| in_range(c) && whole(c, darts_by_event(c).iter().filter(|d| d.len() < 256))),
];

#[test]
fn every_wrong_test_9_is_found() {
    let mut rng = Rng::new(71);
    let mut found = vec![None; WRONGS.len()];
    for _ in 0..1000 {
        let ordered = Ordered::random(&mut rng);
        for &kind in Break::ALL {
            let place = Place::random(&mut rng);
            let Some(broken) = ordered.broken(&mut rng, kind, place) else {
                continue;
            };
            assert!(rings(&broken).is_none());
            for ((_, accepts), found) in WRONGS.iter().zip(&mut found) {
                if found.is_none() && accepts(&broken) {
                    *found = Some(kind);
                }
            }
        }
    }
    for ((name, _), found) in WRONGS.iter().zip(&found) {
        assert!(found.is_some(), "{name}");
    }
}
