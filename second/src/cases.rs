//! The cases of the benchmark: groups of charts of one kind, the same ones each time.

use crate::chart::{Chart, HEADER, MOST_ARROWS};
use crate::drawing::Drawing;
use crate::examine::examine;
use crate::hubs;
use crate::kinds;
use crate::make::{self, Size};
use crate::order::{Break, Ordered, Place};
use crate::rng::Rng;
use crate::sketch::Sketch;
use crate::slow;
use crate::spoil::fan;
use crate::upward::{Plan, upward};
use crate::words::word;
use std::ops::RangeInclusive;

/// How many charts of a kind take turns, so that no program learns one by heart.
pub const CHARTS: usize = 16;

pub struct Case {
    pub name: String,
    /// The number that each of the charts gets.
    pub number: u16,
    /// The charts as files.
    pub charts: Vec<Vec<u8>>,
    /// Whether document 02 asks for this kind by name.
    pub listed: bool,
}

impl Case {
    fn new(name: impl Into<String>, number: u16, charts: &[Chart]) -> Case {
        Case::of_files(name, number, charts.iter().map(Chart::bytes).collect())
    }

    fn of_files(name: impl Into<String>, number: u16, charts: Vec<Vec<u8>>) -> Case {
        let name = name.into();
        assert_eq!(charts.len(), CHARTS, "{name}");
        for chart in &charts {
            assert_eq!(examine(chart).number(), number, "{name}");
        }
        Case { name, number, charts, listed: false }
    }

    /// The events of the first chart; most cases have the same for all.
    pub fn events(&self) -> usize {
        word(&self.charts[0], 5)
    }

    /// The arrows of a chart, on average.
    pub fn arrows(&self) -> usize {
        self.charts.iter().map(|chart| word(chart, 7)).sum::<usize>() / self.charts.len()
    }

    /// The sources and sinks of the first chart, the same for all in most cases; none before test 12.
    pub fn sources_and_sinks(&self) -> Option<usize> {
        Some(Drawing::read(&self.charts[0]).ok()?.sources_and_sinks().len())
    }
}

/// All cases.
pub fn cases() -> Vec<Case> {
    let mut cases = listed();
    cases.push(Case::new("zigzags", 0, &shuffles(&mut Rng::new(1), &kinds::zigzags(6, 165))));
    cases.extend(broken());
    cases.extend(with_hubs());
    for events in SIZES {
        cases.extend(of_every_kind(events));
    }
    for events in SIZES {
        cases.extend(refused_early(events));
    }
    for events in SIZES {
        cases.extend(slow(events));
    }
    cases.extend(tiny());
    cases
}

const SIZES: [usize; 3] = [100, 400, 1000];

/// The list of document 02.
fn listed() -> Vec<Case> {
    let mut cases = Vec::new();
    for events in SIZES {
        for (name, sources_and_sinks) in [("few", 10), ("many", 3 * events / 10)] {
            for (result, number) in [("accepted", 0), ("refused", 14)] {
                let name = format!("{events} {result} {name}");
                cases.push(Case { listed: true, ..case(name, number, events, sources_and_sinks) });
            }
        }
    }
    cases
}

/// Charts with the given number of sources and sinks: drawn for 0, with another outer face for 14.
fn case(name: String, number: u16, events: usize, sources_and_sinks: usize) -> Case {
    let mut rng = Rng::new(events as u64);
    let plan = Plan { events, arrows: events - 1, most_sources_and_sinks: sources_and_sinks };
    let fits = |chart: &Chart| {
        let drawing = Drawing::new(chart.clone()).expect("a drawing");
        drawing.sources_and_sinks().len() == sources_and_sinks && examine(&chart.bytes()).number() == number
    };
    let chart = |rng: &mut Rng| upward(rng, plan);
    Case::new(name, number, &fitting(&mut rng, chart, fits))
}

/// Charts that fit, each from a sketch of its own, and with another outer face where the sketch's own does not do.
fn fitting(rng: &mut Rng, make: impl Fn(&mut Rng) -> Sketch, fits: impl Fn(&Chart) -> bool) -> Vec<Chart> {
    let mut charts = Vec::new();
    while charts.len() < CHARTS {
        let mut sketch = make(rng);
        for _ in 0..20 {
            let chart = sketch.shuffled(rng);
            if fits(&chart) {
                charts.push(chart);
                break;
            }
            sketch.outer = rng.below(sketch.darts());
        }
    }
    charts
}

/// Trees, grids and so on, of about so many events.
fn of_every_kind(events: usize) -> Vec<Case> {
    let mut rng = Rng::new(events as u64 + 1);
    let columns = [10, 20, 25][SIZES.iter().position(|&size| size == events).expect("one of the sizes")];
    let rows = events / columns;
    let mut cases = Vec::new();
    let mut add = |name: &str, results: &[u16], make: &dyn Fn(&mut Rng) -> Sketch| {
        for &number in results {
            let name = format!("{name} {events} {}", if number == 0 { "accepted" } else { "refused" });
            let charts = fitting(&mut rng, make, |chart| examine(&chart.bytes()).number() == number);
            cases.push(Case::new(name, number, &charts));
        }
    };
    add("tree", &[0], &|rng| kinds::tree(rng, events));
    add("grid", &[0, 14], &|_| kinds::grid(columns, rows));
    add("board", &[0], &|_| kinds::board(columns, rows));
    add("ladder", &[0, 14], &|_| kinds::ladder(events / 2));
    add("cage", &[0], &|_| kinds::cage(columns, rows - 1, false));
    add("cage", &[14], &|_| kinds::cage(columns, rows - 1, true));
    add("zigzags", &[0], &|_| kinds::zigzags(6, events / 6 - 1));
    add("blocks", &[0], &|rng| kinds::blocks(rng, events, true));
    add("blocks", &[14], &|rng| kinds::blocks(rng, events, false));
    add("dense", &[0, 14], &|rng| kinds::dense(rng, events));
    cases
}

/// Charts of so many events that get the numbers 10 to 13.
fn refused_early(events: usize) -> Vec<Case> {
    let mut rng = Rng::new(events as u64 + 2);
    let drawn = |rng: &mut Rng, events: usize| {
        upward(rng, Plan { events, arrows: events - 1, most_sources_and_sinks: 3 * events / 10 })
    };
    let chart = |rng: &mut Rng, number: u16| match number {
        10 => {
            let (mut chart, other) = (drawn(rng, events / 2).shuffled(rng), drawn(rng, events / 2).shuffled(rng));
            make::lay_beside(&mut chart, &other);
            chart
        }
        11 => {
            let mut chart = drawn(rng, events).shuffled(rng);
            make::reorder_some(rng, &mut chart);
            chart
        }
        12 => {
            let mut sketch = drawn(rng, events);
            let arrow = rng.below(sketch.arrows());
            sketch.turn(arrow);
            sketch.shuffled(rng)
        }
        _ => {
            let mut sketch = drawn(rng, events);
            make::turn_some(rng, &mut sketch);
            sketch.shuffled(rng)
        }
    };
    let mut case = |(name, number): (&str, u16)| {
        let mut charts = Vec::new();
        while charts.len() < CHARTS {
            let chart = chart(&mut rng, number);
            if examine(&chart.bytes()).number() == number {
                charts.push(chart);
            }
        }
        Case::new(format!("{number} {name} {events}"), number, &charts)
    };
    [("parted", 10), ("crossing", 11), ("mixed", 12), ("circle", 13)].into_iter().map(&mut case).collect()
}

/// The charts with the longest searches that are known, and the hubs with leaves in their gaps.
fn slow(events: usize) -> Vec<Case> {
    let mut rng = Rng::new(events as u64 + 3);
    let arms: Vec<Chart> = (0..CHARTS).map(|_| slow::arms_of(&mut rng, events).chart()).collect();
    let mut cases = vec![Case::new(format!("slow arms {events}"), 0, &arms)];
    for layers in [1, 2] {
        let charts: Vec<Chart> = (0..CHARTS).map(|_| slow::layers_of(&mut rng, layers, events).chart()).collect();
        cases.push(Case::new(format!("slow {layers} layers {events}"), 0, &charts));
    }
    let gaps: Vec<Chart> = (0..CHARTS).map(|_| slow::gaps_of(&mut rng, events).chart()).collect();
    cases.push(Case::new(format!("slow gaps {events}"), 0, &gaps));
    cases
}

/// Charts of 1 to 10 arrows.
fn tiny() -> Vec<Case> {
    let mut rng = Rng::new(11);
    let mut case = |(name, number, arrows): (&str, u16, RangeInclusive<usize>)| {
        let mut charts = Vec::new();
        while charts.len() < CHARTS {
            let chart = make::exactly(&mut rng, number, Size::Small);
            if arrows.contains(&word(&chart, 7)) {
                charts.push(chart);
            }
        }
        Case::of_files(name, number, charts)
    };
    let kinds = [
        ("tiny 1 arrow", 0, 1..=1),
        ("tiny 2 to 4 arrows", 0, 2..=4),
        ("tiny 5 to 10 arrows", 0, 5..=10),
        ("tiny refused", 14, 4..=10),
        ("tiny 9 order", 9, 4..=10),
        ("tiny 10 parted", 10, 4..=10),
        ("tiny 11 crossing", 11, 4..=10),
        ("tiny 12 mixed", 12, 4..=10),
        ("tiny 13 circle", 13, 4..=10),
    ];
    kinds.into_iter().map(&mut case).collect()
}

/// The sketch with its events and arrows numbered in several ways.
fn shuffles(rng: &mut Rng, sketch: &Sketch) -> Vec<Chart> {
    (0..CHARTS).map(|_| sketch.shuffled(rng)).collect()
}

/// Charts with a broken order: large ones without a hub, with a hub of some 2,000 darts, and fans.
fn broken() -> Vec<Case> {
    let mut rng = Rng::new(9);
    let plain: Vec<Chart> = (0..CHARTS).map(|_| plain(&mut rng)).collect();
    let thick = hubs::thick_wheel(&mut rng, 999, MOST_ARROWS);
    let hub = shuffles(&mut rng, &thick);
    let fan = shuffles(&mut rng, &hubs::fan(MOST_ARROWS));
    let kinds = [
        ("9 tail at first event", &plain, Break::AnyTail, Place::First),
        ("9 tail at last event", &plain, Break::AnyTail, Place::Last),
        ("9 long tail at a hub", &hub, Break::LongTail, Place::Busiest),
        ("9 long ring at a hub", &hub, Break::LongRing, Place::Busiest),
        ("9 short tail at a hub", &hub, Break::ShortTail, Place::Busiest),
        ("9 long tail in a fan", &fan, Break::LongTail, Place::Any),
        ("9 long ring in a fan", &fan, Break::LongRing, Place::Any),
        ("9 two rings", &plain, Break::TwoRings, Place::Any),
        ("9 out of range", &plain, Break::OutOfRange, Place::Any),
        ("9 leaves its event", &plain, Break::Leaves, Place::Any),
        ("9 exchanged", &plain, Break::Exchanged, Place::Any),
        ("9 balanced", &plain, Break::BalancedElsewhere, Place::First),
        ("9 balanced in a fan", &fan, Break::BalancedHere, Place::Any),
    ];
    let mut case = |(name, charts, kind, place): (&str, &Vec<Chart>, Break, Place)| {
        let broken = |chart: &Chart| Ordered::new(chart.clone())?.broken(&mut rng, kind, place);
        let charts: Vec<Chart> = charts.iter().filter_map(broken).collect();
        Case::new(name, 9, &charts)
    };
    kinds.into_iter().map(&mut case).collect()
}

/// A drawn chart of 1,000 events and 2,000 to 3,072 arrows.
fn plain(rng: &mut Rng) -> Chart {
    let arrows = rng.between(2000, MOST_ARROWS);
    let plan = Plan { events: 1000, arrows, most_sources_and_sinks: 1000 };
    let mut sketch = upward(rng, plan);
    while sketch.arrows() < arrows {
        let dart = rng.below(sketch.darts());
        sketch.double(dart);
    }
    sketch.shuffled(rng)
}

/// Charts with hubs and good order.
fn with_hubs() -> Vec<Case> {
    let mut rng = Rng::new(10);
    let wheel = hubs::wheel(1022);
    vec![
        fan_in_order(&mut rng),
        Case::new("fan 3072 shuffled", 0, &shuffles(&mut rng, &hubs::fan(MOST_ARROWS))),
        Case::new("wheel accepted", 0, &shuffles(&mut rng, &wheel)),
        Case::new("wheel refused", 14, &shuffles(&mut rng, &with_outer_rim(wheel))),
    ]
}

/// The longest charts there may be, their arrows in the order in which they stand.
fn fan_in_order(rng: &mut Rng) -> Case {
    let mut chart = || {
        let outer = rng.below(2 * MOST_ARROWS);
        Chart::read(&fan(2, MOST_ARROWS, outer, HEADER + 8 * MOST_ARROWS)).expect("past test 8")
    };
    let charts: Vec<Chart> = (0..CHARTS).map(|_| chart()).collect();
    Case::new("fan 3072", 0, &charts)
}

/// The wheel with its longest face, which the hub doesn't touch, as the outer one.
fn with_outer_rim(mut wheel: Sketch) -> Sketch {
    let longest = (0..wheel.darts()).max_by_key(|&corner| wheel.face(corner).len()).expect("corners");
    wheel.outer = wheel.next[longest];
    wheel
}

#[cfg(test)]
mod tests {
    use super::*;
    use crate::report::FULL_ROOM;
    use crate::same;

    #[test]
    fn both_programs_give_the_case_its_number() {
        let mut room = vec![0; FULL_ROOM];
        for case in cases() {
            assert_eq!(case.charts.len(), CHARTS);
            for chart in &case.charts {
                assert_eq!(examine(chart).number(), case.number, "{}", case.name);
                assert_eq!(same::test(chart, &mut room).0, case.number, "{}", case.name);
            }
        }
    }

    #[test]
    fn names_are_short_and_different() {
        let names: Vec<String> = cases().into_iter().map(|case| case.name).collect();
        for (at, name) in names.iter().enumerate() {
            assert!(name.len() <= 22 && !names[..at].contains(name), "{name}");
        }
    }
}
