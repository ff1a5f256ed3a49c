//! The text that the listing program prints for a chart.

use crate::drawing::Drawing;
use crate::examine::{Outcome, examine, words};
use crate::report::Evidence;
use std::fmt::Write;

/// The listing of a chart, cut off after 24,588 bytes as the program reads no more.
pub fn listing(chart: &[u8]) -> String {
    let chart = &chart[..chart.len().min(crate::chart::MOST_BYTES + 1)];
    listing_of(chart, &examine(chart))
}

/// The listing of a given outcome.
pub fn listing_of(chart: &[u8], outcome: &Outcome) -> String {
    let mut text = format!("result {} {}\n", outcome.number(), words(outcome.number()));
    let mut line = |words: std::fmt::Arguments| writeln!(text, "{words}").expect("a string takes all");
    match outcome {
        Outcome::Refused(_) => {}
        Outcome::Found(Evidence::Labels(labels)) => {
            let drawing = Drawing::read(chart).expect("an accepted chart");
            for event in drawing.sources_and_sinks() {
                for &corner in drawing.rings[event].iter().filter(|&&corner| labels[corner] == 2) {
                    line(format_args!("event {event} corner {corner}"));
                }
            }
        }
        Outcome::Found(Evidence::Mixed(event)) => line(format_args!("event {event}")),
        Outcome::Found(Evidence::Circle(list)) => list.iter().for_each(|arrow| line(format_args!("arrow {arrow}"))),
        Outcome::Found(Evidence::Cut(list)) => list.iter().for_each(|event| line(format_args!("event {event}"))),
    }
    text
}
