//! The test of a chart: its numbers, and its answer.

use crate::{excluded, raw};
use std::error::Error;
use std::fmt;

/// The least room of a report that [`test()`] takes: the header and a label for each of 6,144 corners.
pub const REPORT_ROOM: usize = 6152;

/// The length of the longest chart, with 3,072 arrows. A longer one is refused.
pub const CHART_LIMIT: usize = 24_587;

/// Why the test refuses a chart, in the order of its tests: the first that fails is given.
#[derive(Clone, Copy, Debug, PartialEq, Eq, PartialOrd, Ord, Hash)]
pub enum Refusal {
    /// 1: the lent report has less than [`REPORT_ROOM`] bytes.
    ShortReport = 1,
    /// 2: the chart has less than 11 bytes, or doesn't begin with `EVC`.
    Mark,
    /// 3: the version isn't 1.
    Version,
    /// 4: the number of events isn't 2 to 1,024, or that of arrows isn't 1 to 3,072.
    Counts,
    /// 5: the length isn't 11 + 8 x arrows.
    Length,
    /// 6: a tail or head is no event.
    UnknownEvent,
    /// 7: a tail equals its head.
    OwnArrow,
    /// 8: the outer dart is no dart.
    OuterDart,
    /// 9: the successors aren't one ring for each event that has darts, holding exactly its darts.
    Order,
    /// 10: the arrows, direction ignored, don't join all events.
    Parted,
    /// 11: events - arrows + faces isn't 2.
    Crossing,
    /// 12: some event is mixed. The report names the lowest: [`mixed_event`](crate::mixed_event).
    Mixed,
    /// 13: some arrows form a circle. The report lists one: [`circle`](crate::circle).
    Circle,
    /// 14: no labelling exists. The report lists a cut: [`cut`](crate::cut).
    NoRoom,
}

impl Refusal {
    /// Every refusal, by number: 1 to 14.
    pub const ALL: [Refusal; 14] = [
        Refusal::ShortReport,
        Refusal::Mark,
        Refusal::Version,
        Refusal::Counts,
        Refusal::Length,
        Refusal::UnknownEvent,
        Refusal::OwnArrow,
        Refusal::OuterDart,
        Refusal::Order,
        Refusal::Parted,
        Refusal::Crossing,
        Refusal::Mixed,
        Refusal::Circle,
        Refusal::NoRoom,
    ];

    /// The number given, 1 to 14.
    pub fn number(self) -> u16 {
        self as u16
    }

    /// The refusal with a number, if there is one.
    pub fn from_number(number: u16) -> Option<Refusal> {
        Refusal::ALL.into_iter().find(|refusal| refusal.number() == number)
    }

    /// The words of the number.
    pub fn words(self) -> &'static str {
        match self {
            Refusal::ShortReport => "short report",
            Refusal::Mark => "mark",
            Refusal::Version => "version",
            Refusal::Counts => "counts",
            Refusal::Length => "length",
            Refusal::UnknownEvent => "unknown event",
            Refusal::OwnArrow => "own arrow",
            Refusal::OuterDart => "outer dart",
            Refusal::Order => "order",
            Refusal::Parted => "parted",
            Refusal::Crossing => "crossing",
            Refusal::Mixed => "mixed",
            Refusal::Circle => "circle",
            Refusal::NoRoom => "no room",
        }
    }
}

/// The number and its words, as in `14 no room`.
impl fmt::Display for Refusal {
    fn fmt(&self, out: &mut fmt::Formatter) -> fmt::Result {
        write!(out, "{} {}", self.number(), self.words())
    }
}

impl Error for Refusal {}

/// What the test says of a chart.
#[derive(Clone, Copy, Debug, PartialEq, Eq, Hash)]
#[must_use]
pub enum Outcome {
    /// 0: a labelling exists. The report holds one: [`labels`](crate::labels).
    Drawable,
    /// 1 to 14.
    Refused(Refusal),
}

impl Outcome {
    /// The number given, 0 to 14.
    pub fn number(self) -> u16 {
        match self {
            Outcome::Drawable => 0,
            Outcome::Refused(refusal) => refusal.number(),
        }
    }

    /// The words of the number.
    pub fn words(self) -> &'static str {
        match self {
            Outcome::Drawable => "drawable",
            Outcome::Refused(refusal) => refusal.words(),
        }
    }

    /// The refusal as an error, for use with `?`.
    pub fn result(self) -> Result<(), Refusal> {
        match self {
            Outcome::Drawable => Ok(()),
            Outcome::Refused(refusal) => Err(refusal),
        }
    }
}

/// The number and its words, as in `0 drawable`.
impl fmt::Display for Outcome {
    fn fmt(&self, out: &mut fmt::Formatter) -> fmt::Result {
        write!(out, "{} {}", self.number(), self.words())
    }
}

/// The answer of the test.
#[derive(Clone, Copy, Debug, PartialEq, Eq, Hash)]
#[must_use]
pub struct Answer {
    /// Drawable, or why not.
    pub outcome: Outcome,
    /// The length of the stretch written, at the start of the lent report: 0 for the numbers 1 to 11.
    pub written: usize,
}

impl Answer {
    /// Takes a packed answer apart. The stretch written lies in the room lent, so that a caller may slice with it.
    fn unpack(packed: u32, room: usize) -> Option<Answer> {
        let [low, high, number, 0] = packed.to_le_bytes() else { return None };
        let written = usize::from(u16::from_le_bytes([low, high]));
        let outcome = match number {
            0 => Outcome::Drawable,
            _ => Outcome::Refused(Refusal::from_number(number.into())?),
        };
        (written <= room).then_some(Answer { outcome, written })
    }
}

/// Tests a chart and writes the report into the room lent.
///
/// For the numbers 1 to 11 nothing is written and the report keeps its bytes. Otherwise it begins with the stretch
/// written, and the bytes beyond stay.
///
/// ```
/// use rinsholupe::{Outcome, REPORT_ROOM, Refusal};
///
/// // One arrow, from event 0 to event 1: both have their one corner, a large one.
/// let chart = b"EVC\x01\0\x02\0\x01\0\0\0\0\0\x01\0\0\0\x01\0";
/// let mut report = [0; REPORT_ROOM];
/// let answer = rinsholupe::test(chart, &mut report);
/// assert_eq!(answer.outcome, Outcome::Drawable);
/// assert_eq!(report[..answer.written], *b"EVR\x01\0\0\x02\0\x02\x02");
///
/// let answer = rinsholupe::test(chart, &mut report[1..]);
/// assert_eq!(answer.outcome, Outcome::Refused(Refusal::ShortReport));
/// assert_eq!(answer.written, 0);
/// ```
pub fn test(chart: &[u8], report: &mut [u8]) -> Answer {
    let packed = raw::test(chart, report);
    Answer::unpack(packed, report.len()).unwrap_or_else(|| excluded("test", packed.into()))
}

/// Tests a chart in a full room, and hands back the outcome with the stretch written: empty for the numbers 2 to 11.
///
/// ```
/// use rinsholupe::{Outcome, Refusal};
///
/// let (outcome, report) = rinsholupe::test_owned(b"no chart");
/// assert_eq!(outcome, Outcome::Refused(Refusal::Mark));
/// assert_eq!(outcome.to_string(), "2 mark");
/// assert!(report.is_empty());
/// ```
pub fn test_owned(chart: &[u8]) -> (Outcome, Vec<u8>) {
    let mut report = [0; REPORT_ROOM];
    let answer = test(chart, &mut report);
    (answer.outcome, report[..answer.written].to_vec())
}

#[cfg(test)]
mod tests {
    use super::*;

    #[test]
    fn refusals_are_numbered_1_to_14() {
        assert_eq!(Refusal::ALL.map(Refusal::number), std::array::from_fn(|i| i as u16 + 1));
        for refusal in Refusal::ALL {
            assert_eq!(Refusal::from_number(refusal.number()), Some(refusal));
        }
        for number in [0, 15, 65535] {
            assert_eq!(Refusal::from_number(number), None);
        }
    }

    #[test]
    fn an_outcome_has_number_words_and_result() {
        let no_room = Outcome::Refused(Refusal::NoRoom);
        assert_eq!((no_room.number(), no_room.words()), (14, "no room"));
        assert_eq!(no_room.result(), Err(Refusal::NoRoom));
        assert_eq!((Outcome::Drawable.number(), Outcome::Drawable.words()), (0, "drawable"));
        assert_eq!(Outcome::Drawable.result(), Ok(()));
    }

    #[test]
    fn every_answer_of_the_contract_unpacks() {
        for number in 0..=14 {
            for written in [0, 10, REPORT_ROOM] {
                let answer = Answer::unpack(number * 65536 + written as u32, REPORT_ROOM).expect("allowed");
                assert_eq!((u32::from(answer.outcome.number()), answer.written), (number, written));
            }
        }
    }

    #[test]
    fn other_answers_are_excluded() {
        assert_eq!(Answer::unpack(15 * 65536, REPORT_ROOM), None);
        assert_eq!(Answer::unpack(256 * 65536, REPORT_ROOM), None);
        assert_eq!(Answer::unpack(REPORT_ROOM as u32 + 1, REPORT_ROOM), None);
        assert_eq!(Answer::unpack(u32::MAX, usize::MAX), None);
    }
}
