//! The judge: what a report is worth for a chart.

use crate::{Refusal, excluded, raw};
use std::error::Error;
use std::fmt;

/// The report's own fault, on a chart that has none of the refusals 2 to 13.
#[derive(Clone, Copy, Debug, PartialEq, Eq, PartialOrd, Ord, Hash)]
pub enum Fault {
    /// J2: bad form, or a result other than 0 or 14, or labels whose count isn't that of the chart's corners.
    Form = 2,
    /// J3: the labels break a condition.
    Labels = 3,
    /// J4: the list isn't strictly ascending, names something other than a source or sink of the chart, or is no cut.
    Cut = 4,
}

impl Fault {
    /// The number after the J: 2, 3 or 4.
    pub fn number(self) -> u16 {
        self as u16
    }

    /// What is wrong, in a few words.
    pub fn words(self) -> &'static str {
        match self {
            Fault::Form => "bad form, result or count",
            Fault::Labels => "labels break a condition",
            Fault::Cut => "no cut",
        }
    }
}

/// The number and its words, as in `J4 no cut`.
impl fmt::Display for Fault {
    fn fmt(&self, out: &mut fmt::Formatter) -> fmt::Result {
        write!(out, "J{} {}", self.number(), self.words())
    }
}

impl Error for Fault {}

/// What the judge says of a chart and a report.
#[derive(Clone, Copy, Debug, PartialEq, Eq, Hash)]
#[must_use]
pub enum Verdict {
    /// J0: the report's labels are a labelling of the chart. It is drawable.
    LabelsHold,
    /// J1: the report's list is a cut of the chart. No labelling exists.
    CutHolds,
    /// The chart's own refusal, [`Refusal::Mark`] to [`Refusal::Circle`]: 2 to 13, whatever the report.
    Chart(Refusal),
    /// J2, J3 or J4: the report's own fault.
    Report(Fault),
}

impl Verdict {
    /// Takes a packed answer apart.
    fn unpack(packed: u32) -> Option<Verdict> {
        Some(match packed {
            0 => Verdict::LabelsHold,
            1 => Verdict::CutHolds,
            2 => Verdict::Report(Fault::Form),
            3 => Verdict::Report(Fault::Labels),
            4 => Verdict::Report(Fault::Cut),
            65538..=65549 => Verdict::Chart(Refusal::from_number(u16::try_from(packed - 65536).ok()?)?),
            _ => return None,
        })
    }
}

/// `J0 labels hold`, `J1 cut holds`, the report's fault, or `chart` and the refusal.
impl fmt::Display for Verdict {
    fn fmt(&self, out: &mut fmt::Formatter) -> fmt::Result {
        match self {
            Verdict::LabelsHold => write!(out, "J0 labels hold"),
            Verdict::CutHolds => write!(out, "J1 cut holds"),
            Verdict::Chart(refusal) => write!(out, "chart {refusal}"),
            Verdict::Report(fault) => write!(out, "{fault}"),
        }
    }
}

/// Judges a report on a chart. A fault of the chart comes before any of the report.
///
/// The report is the stretch written, not the whole room lent to the test: a byte too many is bad form.
///
/// ```
/// use rinsholupe::{Fault, Refusal, Verdict, judge};
///
/// // One arrow, from event 0 to event 1.
/// let chart = b"EVC\x01\0\x02\0\x01\0\0\0\0\0\x01\0\0\0\x01\0";
/// assert_eq!(judge(chart, b"EVR\x01\0\0\x02\0\x02\x02"), Verdict::LabelsHold);
/// assert_eq!(judge(chart, b"EVR\x01\0\0\x02\0\x02\x01"), Verdict::Report(Fault::Labels));
/// assert_eq!(judge(chart, b""), Verdict::Report(Fault::Form));
/// assert_eq!(judge(b"", b""), Verdict::Chart(Refusal::Mark));
/// ```
pub fn judge(chart: &[u8], report: &[u8]) -> Verdict {
    let packed = raw::judge(chart, report);
    Verdict::unpack(packed).unwrap_or_else(|| excluded("judge", packed.into()))
}

#[cfg(test)]
mod tests {
    use super::*;

    #[test]
    fn every_verdict_of_the_contract_unpacks() {
        assert_eq!(Verdict::unpack(0), Some(Verdict::LabelsHold));
        assert_eq!(Verdict::unpack(1), Some(Verdict::CutHolds));
        for (packed, fault) in [(2, Fault::Form), (3, Fault::Labels), (4, Fault::Cut)] {
            assert_eq!(u32::from(fault.number()), packed);
            assert_eq!(Verdict::unpack(packed), Some(Verdict::Report(fault)));
        }
        for refusal in &Refusal::ALL[1..13] {
            assert_eq!(Verdict::unpack(65536 + u32::from(refusal.number())), Some(Verdict::Chart(*refusal)));
        }
    }

    #[test]
    fn other_verdicts_are_excluded() {
        for packed in [5, 65535, 65536, 65536 + 1, 65536 + 14, 2 * 65536 + 2, u32::MAX] {
            assert_eq!(Verdict::unpack(packed), None);
        }
    }

    #[test]
    fn a_verdict_prints_its_number_and_words() {
        assert_eq!(Verdict::CutHolds.to_string(), "J1 cut holds");
        assert_eq!(Verdict::Report(Fault::Cut).to_string(), "J4 no cut");
        assert_eq!(Verdict::Chart(Refusal::OwnArrow).to_string(), "chart 7 own arrow");
    }
}
