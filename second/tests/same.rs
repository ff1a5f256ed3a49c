//! The program that the library's time is measured against gives the right answers.

use second::comparison::Comparison;
use second::desk::{Desk, pack_test};
use second::make::{NUMBERS, Size, aimed};
use second::order::{Break, Ordered, Place};
use second::rng::Rng;
use second::spoil::{damage, limits};
use second::stand_in::StandIn;
use second::{grow, kinds, same, slow, small, table};

/// The right stand-in, but for the test.
struct Same;

const RIGHT: StandIn = StandIn { wrong: None };

impl Desk for Same {
    fn test(&self, chart: &[u8], report: &mut [u8]) -> u32 {
        let (number, written) = same::test(chart, report);
        pack_test(number, written)
    }

    fn form(&self, report: &[u8]) -> u32 {
        RIGHT.form(report)
    }

    fn body(&self, report: &[u8]) -> u64 {
        RIGHT.body(report)
    }

    fn judge(&self, chart: &[u8], report: &[u8]) -> u32 {
        RIGHT.judge(chart, report)
    }
}

#[test]
fn same_agrees_on_random_charts() {
    let mut rng = Rng::new(31);
    let mut comparison = Comparison::new(&Same, 32);
    comparison.reports = 0;
    let mut charts: Vec<Vec<u8>> = table::charts().iter().map(|chart| chart.bytes()).collect();
    charts.extend(limits(&mut rng));
    for round in 0..3000 {
        let size = if round % 100 == 0 { Size::Large } else { [Size::Small, Size::Middle][round % 2] };
        let number = *rng.pick(&NUMBERS);
        let mut chart = aimed(&mut rng, number, size);
        charts.push(chart.clone());
        damage(&mut rng, &mut chart);
        charts.push(chart);
    }
    for chart in charts {
        comparison.chart(&chart).unwrap_or_else(|difference| panic!("{difference:?}"));
    }
}

#[test]
fn same_agrees_on_every_small_chart() {
    let mut comparison = Comparison::new(&Same, 33);
    comparison.reports = 0;
    for (events, arrows) in [(2, 1), (3, 2), (2, 3), (3, 3)] {
        small::every_ringed(events, arrows, true, |chart| comparison.chart(chart))
            .unwrap_or_else(|difference| panic!("{difference:?}"));
    }
}

#[test]
fn same_agrees_on_broken_orders() {
    let mut rng = Rng::new(34);
    let mut comparison = Comparison::new(&Same, 35);
    comparison.reports = 0;
    for _ in 0..300 {
        let ordered = Ordered::random(&mut rng);
        for &kind in Break::ALL {
            let place = Place::random(&mut rng);
            if let Some(broken) = ordered.broken(&mut rng, kind, place) {
                comparison.chart(&broken.bytes()).unwrap_or_else(|difference| panic!("{kind:?}: {difference:?}"));
            }
        }
    }
}

/// Charts where many are left over and moved, of every size of tables and just beyond.
#[test]
fn same_agrees_where_it_searches() {
    let mut rng = Rng::new(36);
    let mut comparison = Comparison::new(&Same, 37);
    comparison.reports = 0;
    let mut searched = 0;
    for round in 0..3000 {
        let events = *rng.pick(&[8, 31, 32, 33, 34, 63, 64, 65, 66]);
        let events = if round % 100 == 0 { *rng.pick(&[255, 256, 257, 258, 1023, 1024]) } else { events };
        let mut sketch = match rng.below(5) {
            0 => kinds::zigzags(rng.between(2, 4), events / 4 - 1),
            1 => kinds::board(2, events / 2),
            2 => kinds::blocks(&mut rng, events, true),
            3 => kinds::tree(&mut rng, events),
            _ => {
                let (arrows, dead_ends) = (events + rng.below(events), rng.below(10));
                let aim = grow::Aim { numbered: true, unmixed: true };
                grow::grow(&mut rng, grow::Plan { events, arrows, dead_ends, doubles: true, aim })
            }
        };
        sketch.outer = rng.below(sketch.darts());
        let chart = sketch.shuffled(&mut rng).bytes();
        searched += usize::from(same::steps(&chart).1 > 0);
        comparison.chart(&chart).unwrap_or_else(|difference| panic!("{difference:?}"));
    }
    assert!(searched > 1000, "{searched}");
    for events in [30, 64, 65, 256, 257, 1024] {
        for trial in [slow::arms_of(&mut rng, events), slow::layers_of(&mut rng, 2, events)] {
            let chart = trial.chart().bytes();
            comparison.chart(&chart).unwrap_or_else(|difference| panic!("{difference:?}"));
        }
    }
}

#[test]
fn counting_changes_nothing() {
    let mut rng = Rng::new(38);
    let mut room = vec![0; second::report::FULL_ROOM];
    for _ in 0..500 {
        let number = *rng.pick(&NUMBERS);
        let chart = aimed(&mut rng, number, Size::Middle);
        assert_eq!(same::steps(&chart).0, same::test(&chart, &mut room).0);
    }
}
