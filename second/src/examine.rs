//! The test: the number given and the report, tests 1 to 14 in the document's order.

use crate::circle;
use crate::drawing::Drawing;
use crate::holds;
use crate::place::{Placing, place};
use crate::report::{Evidence, FULL_ROOM};

/// What the test finds out about a chart with a full report room.
#[derive(Clone, Debug, PartialEq, Eq)]
pub enum Outcome {
    /// 2 to 11: nothing is written.
    Refused(u16),
    /// 0 and 12 to 14: a report is written.
    Found(Evidence),
}

impl Outcome {
    pub fn number(&self) -> u16 {
        match self {
            Outcome::Refused(number) => *number,
            Outcome::Found(evidence) => evidence.number(),
        }
    }

    /// The bytes of the report, none for 2 to 11.
    pub fn report(&self) -> Vec<u8> {
        match self {
            Outcome::Refused(_) => Vec::new(),
            Outcome::Found(evidence) => evidence.bytes(),
        }
    }
}

/// Tests 2 to 13: the drawing, or what refuses it.
pub fn survey(chart: &[u8]) -> Result<Drawing, Outcome> {
    let drawing = Drawing::read(chart).map_err(Outcome::Refused)?;
    if let Some(event) = drawing.lowest_mixed() {
        return Err(Outcome::Found(Evidence::Mixed(event)));
    }
    if let Some(circle) = circle::find(&drawing.chart) {
        assert!(holds::circle_holds(&drawing.chart, &circle), "the circle found is one");
        return Err(Outcome::Found(Evidence::Circle(circle)));
    }
    Ok(drawing)
}

/// Tests 2 to 14.
pub fn examine(chart: &[u8]) -> Outcome {
    conclude(&survey(chart))
}

/// Test 14 after the others. Whatever the flow finds is held against the definitions before it is given out.
pub fn conclude(survey: &Result<Drawing, Outcome>) -> Outcome {
    let drawing = match survey {
        Ok(drawing) => drawing,
        Err(outcome) => return outcome.clone(),
    };
    match place(drawing) {
        Placing::Labels(labels) => {
            assert!(holds::labels_hold(drawing, &labels), "the labels found hold");
            Outcome::Found(Evidence::Labels(labels))
        }
        Placing::Cut(cut) => {
            assert!(holds::cut_holds(drawing, &cut), "the cut found is one");
            Outcome::Found(Evidence::Cut(cut))
        }
    }
}

/// The test with a lent report: the number given and the bytes written.
pub fn test(chart: &[u8], report: &mut [u8]) -> (u16, usize) {
    if report.len() < FULL_ROOM {
        return (1, 0);
    }
    let outcome = examine(chart);
    let bytes = outcome.report();
    report[..bytes.len()].copy_from_slice(&bytes);
    (outcome.number(), bytes.len())
}

/// The words of a number.
pub fn words(number: u16) -> &'static str {
    match number {
        0 => "drawable",
        1 => "short report",
        2 => "mark",
        3 => "version",
        4 => "counts",
        5 => "length",
        6 => "unknown event",
        7 => "own arrow",
        8 => "outer dart",
        9 => "order",
        10 => "parted",
        11 => "crossing",
        12 => "mixed",
        13 => "circle",
        14 => "no room",
        _ => unreachable!("no such number"),
    }
}
