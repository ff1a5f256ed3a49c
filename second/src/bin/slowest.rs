//! `slowest SEED EVENTS CHANGES [FILE]`: looks for charts of so many events, and three times as many arrows, on which
//! the searches for places take long. Each kind is changed at random so many times, and what takes more steps is kept.
//! Then the times are measured. The slowest chart goes into the file. At the end it shows how the time of the slow
//! kinds grows with their size.

use second::chart::{Chart, MOST_EVENTS};
use second::clock;
use second::desk::{self, Desk};
use second::report::FULL_ROOM;
use second::rng::Rng;
use second::same;
use second::slow::{Trial, arms_of, beginnings, climb, gaps, layers_of};
use std::hint::black_box;
use std::process::ExitCode;
use std::{env, fs};

/// How often a chart is measured; the least time counts.
const TIMES: usize = 20;

fn main() -> ExitCode {
    let words: Vec<String> = env::args().skip(1).collect();
    let numbers: Vec<usize> = words.iter().map_while(|word| word.parse().ok()).collect();
    let (&[seed, events @ 30..=MOST_EVENTS, changes], true) = (&numbers[..], words.len() <= 4) else {
        eprintln!("slowest: usage: slowest SEED EVENTS CHANGES [FILE], with 30 to {MOST_EVENTS} events");
        return ExitCode::from(2);
    };
    let library = desk::library().ok();
    let slowest = search(library.as_deref(), seed as u64, events, changes);
    if let Some(file) = words.get(3)
        && let Err(why) = fs::write(file, slowest.chart().bytes())
    {
        eprintln!("slowest: {file}: {why}");
        return ExitCode::from(2);
    }
    print_growth(library.as_deref());
    ExitCode::SUCCESS
}

/// Climbs from each beginning, and answers the best of all.
fn search(library: Option<&dyn Desk>, seed: u64, events: usize, changes: usize) -> Trial {
    println!("steps before and after {changes} changes; microseconds of {} for one call of the test", clock::NAME);
    println!("{:<16} {:>9} {:>9}  {}", "begun from", "before", "after", heading());
    let mut rng = Rng::new(seed);
    let mut slowest: Option<(u64, Trial)> = None;
    for (name, begin) in beginnings(&mut rng, events) {
        let before = begin.cost().unwrap_or(0);
        let end = climb(&mut rng, begin, events, changes);
        let after = end.cost().unwrap_or(0);
        println!("{name:<16} {before:>9} {after:>9}  {}", measured(library, &end.chart()));
        if slowest.as_ref().is_none_or(|(most, _)| after > *most) {
            slowest = Some((after, end));
        }
    }
    slowest.expect("there are beginnings").1
}

fn print_growth(library: Option<&dyn Desk>) {
    let mut rng = Rng::new(1);
    println!();
    println!("how it grows");
    println!("{:<16} {:>9}  {}", "kind", "steps", heading());
    let print = |name: &str, chart: Chart| {
        let steps = same::steps(&chart.bytes()).1;
        println!("{name:<16} {steps:>9}  {}", measured(library, &chart));
    };
    for events in [100, 200, 400, 800, MOST_EVENTS] {
        print("arms", arms_of(&mut rng, events).chart());
    }
    for events in [100, 200, 400, 800, MOST_EVENTS] {
        print("2 layers", layers_of(&mut rng, 2, events).chart());
    }
    for leaves in [100, 200, 400, 800, 1022] {
        print("gaps", gaps(&mut rng, 2 * leaves + 6, leaves).chart());
    }
}

fn heading() -> String {
    format!("{:>6} {:>6} {:>6}  {:>9}  {:>9}", "events", "arrows", "number", "library", "Rust")
}

/// The counts of a chart, the number that it gets and its times.
fn measured(library: Option<&dyn Desk>, chart: &Chart) -> String {
    let bytes = chart.bytes();
    let mut report = vec![0; FULL_ROOM];
    let number = same::test(&bytes, &mut report).0;
    let rust = least(|| _ = black_box(same::test(black_box(&bytes), &mut report)));
    let by_library = match library {
        Some(library) => {
            let time = least(|| _ = black_box(library.test(black_box(&bytes), &mut report)));
            format!("{time:.1}")
        }
        None => "-".into(),
    };
    format!("{:>6} {:>6} {number:>6}  {by_library:>9}  {rust:>9.1}", chart.events, chart.arrows.len())
}

/// The least microseconds of a call.
fn least(mut call: impl FnMut()) -> f64 {
    (0..TIMES).map(|_| clock::microseconds(1, &mut call)).fold(f64::INFINITY, f64::min)
}
