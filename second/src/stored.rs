//! The fixed set of charts that the charts program runs, and the lines expected of it.

use crate::chart::{LEAST_EVENTS, MOST_ARROWS, MOST_BYTES};
use crate::examine::{Outcome, examine};
use crate::judge::judge;
use crate::make::{NUMBERS, Size, exactly};
use crate::rng::Rng;
use crate::spoil::{damage, fan};
use crate::table;
use crate::unique::{Unique, unique};
use crate::words::push_word;
use std::fmt::Write;

const SEED: u64 = 20_240_117;

/// The charts in their order: C1 to C10, small and middle-sized ones for every number, damaged files, large ones.
pub fn charts() -> Vec<Vec<u8>> {
    let mut rng = Rng::new(SEED);
    let mut charts: Vec<Vec<u8>> = table::charts().iter().map(|chart| chart.bytes()).collect();
    for number in NUMBERS {
        for _ in 0..4 {
            charts.push(exactly(&mut rng, number, Size::Small));
        }
        for _ in 0..2 {
            charts.push(exactly(&mut rng, number, Size::Middle));
        }
    }
    // Where evidence can be a choice, more charts where it is none.
    for number in [0, 13, 14] {
        for _ in 0..8 {
            charts.push(determined(&mut rng, number));
        }
    }
    for _ in 0..26 {
        let number = *rng.pick(&NUMBERS);
        let mut chart = exactly(&mut rng, number, Size::Small);
        damage(&mut rng, &mut chart);
        charts.push(chart);
    }
    for number in [0, 12, 13, 14] {
        charts.push(exactly(&mut rng, number, Size::Large));
    }
    // The longest chart there is, and the same with one byte more.
    charts.push(fan(LEAST_EVENTS, MOST_ARROWS, 2 * MOST_ARROWS - 1, MOST_BYTES));
    charts.push(fan(LEAST_EVENTS, MOST_ARROWS, 2 * MOST_ARROWS - 1, MOST_BYTES + 1));
    charts
}

/// A small chart that gets the number with evidence that is the only one.
fn determined(rng: &mut Rng, number: u16) -> Vec<u8> {
    loop {
        let chart = exactly(rng, number, Size::Small);
        if unique(&chart, &examine(&chart)) == Unique::Yes {
            return chart;
        }
    }
}

/// The input: for each chart a flag, its length in 16 bits, its bytes. The flag is 1 where the report is determined.
pub fn input(charts: &[Vec<u8>]) -> Vec<u8> {
    let mut bytes = Vec::new();
    for chart in charts {
        bytes.push(u8::from(unique(chart, &examine(chart)) == Unique::Yes));
        push_word(&mut bytes, chart.len());
        bytes.extend_from_slice(chart);
    }
    bytes
}

/// The expected output, a line for each chart.
pub fn expected(charts: &[Vec<u8>]) -> String {
    charts.iter().enumerate().map(|(k, chart)| line(k, chart)).collect()
}

fn line(k: usize, chart: &[u8]) -> String {
    let outcome = examine(chart);
    let report = outcome.report();
    let mut line = format!("chart {k} result {} judge {}", outcome.number(), judge(chart, &report));
    if unique(chart, &outcome) == Unique::Yes {
        write!(line, " written {} entries", report.len()).expect("a string takes all");
        if let Outcome::Found(evidence) = &outcome {
            for entry in evidence.entries() {
                write!(line, " {entry}").expect("a string takes all");
            }
        }
    }
    line.push('\n');
    line
}
