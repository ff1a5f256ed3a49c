//! The second program's quick ways against brute force, on many small charts.

use second::brute;
use second::chart::Chart;
use second::drawing::{Drawing, joined, rings};
use second::examine::{examine, survey};
use second::make::{NUMBERS, Size, aimed, exactly};
use second::report::Evidence;
use second::rng::Rng;
use second::sketch::Sketch;
use second::spoil::damage;
use second::unique::{Unique, unique};
use second::upward::{Plan, upward};
use second::{circle, holds, small};
use std::convert::Infallible;

/// How many labellings and sets we try.
const MOST: usize = 1 << 14;

/// Holds the outcome for one chart against brute force; says whether test 14 was among it.
fn check(bytes: &[u8]) -> bool {
    let Ok(chart) = Chart::read(bytes) else {
        return false;
    };
    assert_eq!(rings(&chart).is_some(), brute::is_ordered(&chart));
    if rings(&chart).is_none() {
        return false;
    }
    assert_eq!(joined(&chart), brute::is_joined(&chart));
    assert_eq!(circle::find(&chart).is_some(), brute::has_circle(&chart));
    let Ok(drawing) = survey(bytes) else {
        return false;
    };
    let rooms = drawing.rooms();
    assert_eq!(
        rooms.iter().sum::<i64>(),
        drawing.sources_and_sinks().len() as i64,
        "rooms total the sources and sinks"
    );
    assert!(rooms.iter().all(|&room| room >= 0), "past test 13 no room is negative");
    let drawable = examine(bytes).number() == 0;
    if let Some(count) = brute::count_all_labellings(&drawing, 3usize.pow(8)) {
        assert_eq!(count > 0, drawable, "every corner with every label");
        assert_eq!(brute::count_fitting_labellings(&drawing, MOST), Some(count));
    }
    if let Some(count) = brute::count_fitting_labellings(&drawing, MOST) {
        assert_eq!(count > 0, drawable, "every switch corner with 0 and 2");
        if drawable {
            let only = if count == 1 { Unique::Yes } else { Unique::No };
            assert_eq!(unique(bytes, &examine(bytes)), only);
        }
    }
    if let Some(count) = brute::count_cuts(&drawing, MOST) {
        assert_eq!(count == 0, drawable, "a labelling or a cut, never both");
    }
    true
}

#[test]
fn flow_and_brute_force_agree_on_random_charts() {
    let mut rng = Rng::new(3);
    let mut placed = 0;
    for round in 0..6000 {
        let number = NUMBERS[round % NUMBERS.len()];
        let mut bytes = aimed(&mut rng, number, Size::Small);
        placed += usize::from(check(&bytes));
        damage(&mut rng, &mut bytes);
        placed += usize::from(check(&bytes));
    }
    assert!(placed > 1000, "{placed} charts reached test 14");
}

#[test]
fn flow_and_brute_force_agree_on_every_small_chart() {
    let mut placed = 0;
    for (events, arrows) in [(2, 1), (3, 2), (2, 3), (3, 3), (4, 3)] {
        small::every_ringed(events, arrows, true, |bytes| {
            placed += usize::from(check(bytes));
            Ok::<(), Infallible>(())
        })
        .expect("nothing stops it");
    }
    assert!(placed > 1000, "{placed} charts reached test 14");
}

#[test]
fn circles_are_found_and_counted() {
    let mut rng = Rng::new(4);
    for _ in 0..300 {
        let bytes = exactly(&mut rng, 13, Size::Small);
        let drawing = Drawing::read(&bytes).expect("past test 11");
        let Some(all) = brute::circles(&drawing.chart, 50, 100_000) else {
            continue;
        };
        assert!(!all.is_empty() && all.iter().all(|list| holds::circle_holds(&drawing.chart, list)));
        let found = circle::find(&drawing.chart).expect("there is a circle");
        assert!(all.len() == 50 || all.contains(&found));
        let only = if all.len() == 1 { Unique::Yes } else { Unique::No };
        assert_eq!(unique(&bytes, &examine(&bytes)), only);
    }
}

#[test]
fn what_is_no_circle() {
    let chart = second::table::c(7);
    assert!(holds::circle_holds(&chart, &[0, 1, 2]));
    for list in [&[][..], &[0], &[0, 1], &[1, 2, 0], &[0, 2, 1], &[0, 1, 2, 0, 1, 2], &[0, 1, 3]] {
        assert!(!holds::circle_holds(&chart, list), "{list:?}");
    }
}

#[test]
fn drawn_charts_are_drawable() {
    let mut rng = Rng::new(5);
    for round in 0..200 {
        let events = if round < 190 { rng.between(2, 60) } else { 1024 };
        let arrows = events - 1 + rng.below(2 * events);
        let most_sources_and_sinks = rng.between(2, events);
        let mut sketch = upward(&mut rng, Plan { events, arrows, most_sources_and_sinks });
        for _ in 0..rng.below(4) {
            sketch.double(rng.below(sketch.darts()));
        }
        assert_eq!(examine(&sketch.shuffled(&mut rng).bytes()).number(), 0);
    }
}

#[test]
fn renumbering_keeps_the_number() {
    let mut rng = Rng::new(6);
    for _ in 0..200 {
        let number = *rng.pick(&[0, 12, 13, 14]);
        let chart = Chart::read(&exactly(&mut rng, number, Size::Small)).expect("past test 8");
        let sketch = sketch_of(&chart);
        assert_eq!(examine(&sketch.shuffled(&mut rng).bytes()).number(), number);
    }
}

fn sketch_of(chart: &Chart) -> Sketch {
    let darts = chart.darts();
    let mut prev = vec![0; darts];
    for dart in 0..darts {
        prev[chart.next[dart]] = dart;
    }
    Sketch {
        events: chart.events,
        at: (0..darts).map(|dart| chart.at(dart)).collect(),
        next: chart.next.clone(),
        prev,
        leaves: (0..darts).map(second::chart::leaves).collect(),
        changes: vec![0; chart.events],
        outer: chart.outer,
    }
}

#[test]
fn makers_hit_their_numbers() {
    for size in [Size::Small, Size::Middle, Size::Large] {
        let rounds = if size == Size::Large { 24 } else { 100 };
        for number in NUMBERS {
            let mut rng = Rng::new(u64::from(number));
            let hit = (0..rounds).filter(|_| examine(&aimed(&mut rng, number, size)).number() == number).count();
            assert!(6 * hit >= rounds, "{size:?} {number}: {hit} of {rounds}");
        }
    }
}

#[test]
fn makers_reach_the_limits() {
    let mut rng = Rng::new(8);
    for number in [0, 12, 13, 14] {
        let charts: Vec<Chart> = (0..60)
            .map(|_| exactly(&mut rng, number, Size::Large))
            .map(|bytes| Chart::read(&bytes).expect("past test 8"))
            .collect();
        assert!(charts.iter().any(|chart| chart.events == 1024), "{number}: 1,024 events");
        assert!(charts.iter().any(|chart| chart.arrows.len() >= 3000), "{number}: 3,000 arrows");
    }
}

#[test]
fn large_charts_have_evidence() {
    let mut rng = Rng::new(9);
    for number in [0, 14] {
        for _ in 0..10 {
            let bytes = exactly(&mut rng, number, Size::Large);
            let drawing = survey(&bytes).unwrap_or_else(|outcome| panic!("{outcome:?}"));
            match examine(&bytes) {
                second::examine::Outcome::Found(Evidence::Labels(labels)) => {
                    assert!(holds::labels_hold(&drawing, &labels));
                }
                second::examine::Outcome::Found(Evidence::Cut(cut)) => assert!(holds::cut_holds(&drawing, &cut)),
                other => panic!("{other:?}"),
            }
        }
    }
}
