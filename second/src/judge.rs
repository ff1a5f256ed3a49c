//! The judge: what a report is worth for a chart.

use crate::drawing::Drawing;
use crate::examine::{Outcome, survey};
use crate::holds::{cut_holds, labels_hold};
use crate::report::{body, entries, form};
use std::fmt;

#[derive(Clone, Copy, Debug, PartialEq, Eq, PartialOrd, Ord)]
pub enum Verdict {
    /// J0: labels hold.
    LabelsHold,
    /// J1: the cut holds.
    CutHolds,
    /// J2: bad form, or a result other than 0 or 14, or result 0 with a count other than 2A.
    BadForm,
    /// J3: labels break a condition.
    LabelsBroken,
    /// J4: the list isn't strictly ascending, names something else than a source or sink, or is no cut.
    NoCut,
    /// The chart's own fault, 2 to 13.
    Chart(u16),
}

impl fmt::Display for Verdict {
    fn fmt(&self, out: &mut fmt::Formatter) -> fmt::Result {
        match self {
            Verdict::LabelsHold => write!(out, "J0"),
            Verdict::CutHolds => write!(out, "J1"),
            Verdict::BadForm => write!(out, "J2"),
            Verdict::LabelsBroken => write!(out, "J3"),
            Verdict::NoCut => write!(out, "J4"),
            Verdict::Chart(number) => write!(out, "{number}"),
        }
    }
}

/// The verdict of one report on one chart.
pub fn judge(chart: &[u8], report: &[u8]) -> Verdict {
    judge_past_13(&survey(chart), report)
}

/// The same where tests 2 to 13 are known already.
pub fn judge_past_13(survey: &Result<Drawing, Outcome>, report: &[u8]) -> Verdict {
    let drawing = match survey {
        Ok(drawing) => drawing,
        Err(outcome) => return Verdict::Chart(outcome.number()),
    };
    match form(report) {
        Some((0, count)) if count == drawing.chart.darts() => {
            if labels_hold(drawing, &report[body(report)]) {
                Verdict::LabelsHold
            } else {
                Verdict::LabelsBroken
            }
        }
        Some((14, _)) => {
            let list = entries(report).expect("the form is good");
            if cut_holds(drawing, &list) { Verdict::CutHolds } else { Verdict::NoCut }
        }
        _ => Verdict::BadForm,
    }
}
