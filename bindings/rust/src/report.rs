//! The reader of a report: its form, its body, and the evidence in it.

use crate::{excluded, raw};
use std::error::Error;
use std::fmt;

/// What [`form`] answers in place of a form: the bytes are no report, or not exactly one.
#[derive(Clone, Copy, Debug, PartialEq, Eq, Hash)]
pub struct BadForm;

impl fmt::Display for BadForm {
    fn fmt(&self, out: &mut fmt::Formatter) -> fmt::Result {
        write!(out, "bad form")
    }
}

impl Error for BadForm {}

/// The result of a report, by what its body lists.
#[derive(Clone, Copy, Debug, PartialEq, Eq, Hash)]
pub enum Finding {
    /// 0: a label for each corner, in number order.
    Labels,
    /// 12: the lowest mixed event.
    Mixed,
    /// 13: the arrows of a circle in order, lowest first.
    Circle,
    /// 14: the events of a cut, ascending.
    Cut,
}

impl Finding {
    /// The result's number: 0, 12, 13 or 14.
    pub fn number(self) -> u16 {
        match self {
            Finding::Labels => 0,
            Finding::Mixed => 12,
            Finding::Circle => 13,
            Finding::Cut => 14,
        }
    }

    /// The result with a number, if there is one.
    pub fn from_number(number: u16) -> Option<Finding> {
        [Finding::Labels, Finding::Mixed, Finding::Circle, Finding::Cut].into_iter().find(|f| f.number() == number)
    }
}

/// The good form of a report.
#[derive(Clone, Copy, Debug, PartialEq, Eq, Hash)]
pub struct Form {
    /// What the body lists.
    pub result: Finding,
    /// How many labels, events or arrows it lists.
    pub count: u16,
}

impl Form {
    /// Takes a packed answer apart.
    fn unpack(packed: u32) -> Option<Result<Form, BadForm>> {
        if packed == 0xFFFF_FFFF {
            return Some(Err(BadForm));
        }
        let [low, high, result, 0] = packed.to_le_bytes() else { return None };
        Some(Ok(Form { result: Finding::from_number(result.into())?, count: u16::from_le_bytes([low, high]) }))
    }
}

/// The form of a report: the mark, the version, a result of 0, 12, 13 or 14 and the exact length are good.
///
/// A good form says nothing of the entries. A result 12 with a count other than 1, and an empty circle or cut, are of
/// good form as well.
///
/// ```
/// use rinsholupe::{BadForm, Finding, Form};
///
/// assert_eq!(rinsholupe::form(b"EVR\x01\0\x0e\x01\0\x03\0"), Ok(Form { result: Finding::Cut, count: 1 }));
/// // A byte too many.
/// assert_eq!(rinsholupe::form(b"EVR\x01\0\x0e\x01\0\x03\0\0"), Err(BadForm));
/// ```
pub fn form(report: &[u8]) -> Result<Form, BadForm> {
    let packed = raw::form(report);
    Form::unpack(packed).unwrap_or_else(|| excluded("form", packed.into()))
}

/// The part of a report that a packed answer names, if it is one.
fn stretch(report: &[u8], packed: u64) -> Option<&[u8]> {
    let start = usize::try_from(packed >> 32).ok()?;
    let length = usize::try_from(packed & 0xFFFF_FFFF).ok()?;
    report.get(start..)?.get(..length)
}

/// The body of a report, as that stretch of the caller's bytes: what follows the eight bytes of the header, or on bad
/// form the empty stretch at the start.
///
/// ```
/// let report = b"EVR\x01\0\x0e\x01\0\x03\0";
/// assert!(std::ptr::eq(rinsholupe::body(report), &report[8..]));
/// assert!(std::ptr::eq(rinsholupe::body(&report[1..]), &report[1..1]));
/// ```
pub fn body(report: &[u8]) -> &[u8] {
    let packed = raw::body(report);
    stretch(report, packed).unwrap_or_else(|| excluded("body", packed))
}

/// The label of a corner.
#[derive(Clone, Copy, Debug, PartialEq, Eq, PartialOrd, Ord, Hash)]
pub enum Label {
    /// 0, at a switch corner.
    Small = 0,
    /// 1, at a plain corner.
    Plain = 1,
    /// 2, at a switch corner: exactly one at each source and sink, none at any other event.
    Large = 2,
}

impl Label {
    /// The label's number: 0, 1 or 2.
    pub fn number(self) -> u8 {
        self as u8
    }

    /// The label that a byte stands for, or the byte itself where it stands for none.
    pub fn from_byte(byte: u8) -> Result<Label, u8> {
        match byte {
            0 => Ok(Label::Small),
            1 => Ok(Label::Plain),
            2 => Ok(Label::Large),
            _ => Err(byte),
        }
    }
}

/// The body of a report of good form with the result given.
fn listed(report: &[u8], result: Finding) -> Option<&[u8]> {
    form(report).is_ok_and(|form| form.result == result).then(|| body(report))
}

/// The 16-bit numbers of a body, low byte first.
fn entries(body: &[u8]) -> impl ExactSizeIterator<Item = u16> + DoubleEndedIterator + Clone {
    body.as_chunks().0.iter().map(|&pair| u16::from_le_bytes(pair))
}

/// The labels that a report of result 0 lists: corner 0 first, then every other in number order. None on bad form and
/// for any other result.
///
/// A byte above 2 is no label and comes as an error. A report that the test wrote has none, and the judge gives J3 to a
/// report that has.
///
/// ```
/// use rinsholupe::Label;
///
/// // One arrow, from event 0 to event 1.
/// let (_, report) = rinsholupe::test_owned(b"EVC\x01\0\x02\0\x01\0\0\0\0\0\x01\0\0\0\x01\0");
/// let labels = rinsholupe::labels(&report).expect("the chart is drawable");
/// assert!(labels.eq([Ok(Label::Large), Ok(Label::Large)]));
/// ```
pub fn labels(report: &[u8]) -> Option<impl ExactSizeIterator<Item = Result<Label, u8>> + DoubleEndedIterator + Clone> {
    listed(report, Finding::Labels).map(|body| body.iter().map(|&byte| Label::from_byte(byte)))
}

/// The event that a report of result 12 names. None on bad form, for any other result, and for a count other than 1.
///
/// ```
/// assert_eq!(rinsholupe::mixed_event(b"EVR\x01\0\x0c\x01\0\x07\x01"), Some(0x107));
/// ```
pub fn mixed_event(report: &[u8]) -> Option<u16> {
    let mut events = entries(listed(report, Finding::Mixed)?);
    events.next().filter(|_| events.len() == 0)
}

/// The arrows that a report of result 13 lists. None on bad form and for any other result.
///
/// In a report that the test wrote they are a circle: each head is the next tail, the last head the first tail.
///
/// ```
/// let arrows = rinsholupe::circle(b"EVR\x01\0\x0d\x03\0\0\0\x01\0\x02\0").expect("result 13");
/// assert!(arrows.eq([0, 1, 2]));
/// ```
pub fn circle(report: &[u8]) -> Option<impl ExactSizeIterator<Item = u16> + DoubleEndedIterator + Clone> {
    listed(report, Finding::Circle).map(entries)
}

/// The events that a report of result 14 lists. None on bad form and for any other result.
///
/// In a report that the test wrote they are a cut, ascending; of any other report the judge says whether they are.
///
/// ```
/// let events = rinsholupe::cut(b"EVR\x01\0\x0e\x01\0\x03\0").expect("result 14");
/// assert!(events.eq([3]));
/// ```
pub fn cut(report: &[u8]) -> Option<impl ExactSizeIterator<Item = u16> + DoubleEndedIterator + Clone> {
    listed(report, Finding::Cut).map(entries)
}

#[cfg(test)]
mod tests {
    use super::*;

    #[test]
    fn every_form_of_the_contract_unpacks() {
        for number in [0, 12, 13, 14] {
            for count in [0, 1, 65535] {
                let form = Form::unpack(number * 65536 + u32::from(count)).expect("allowed").expect("good form");
                assert_eq!((u32::from(form.result.number()), form.count), (number, count));
            }
        }
        assert_eq!(Form::unpack(0xFFFF_FFFF), Some(Err(BadForm)));
    }

    #[test]
    fn other_forms_are_excluded() {
        for packed in [1 << 16, 11 << 16, 15 << 16, 256 << 16, 0xFFFF_FFFE] {
            assert_eq!(Form::unpack(packed), None);
        }
    }

    #[test]
    fn a_stretch_lies_in_the_report() {
        let report = [7; 10];
        assert_eq!(stretch(&report, 0), Some(&report[..0]));
        assert_eq!(stretch(&report, (8 << 32) + 2), Some(&report[8..]));
        assert_eq!(stretch(&report, 10 << 32), Some(&report[10..]));
        assert_eq!(stretch(&report, (8 << 32) + 3), None);
        assert_eq!(stretch(&report, 11 << 32), None);
        assert_eq!(stretch(&report, u64::MAX), None);
    }

    #[test]
    fn a_label_is_its_number() {
        for byte in 0..=2 {
            assert_eq!(Label::from_byte(byte).map(Label::number), Ok(byte));
        }
        assert_eq!(Label::from_byte(3), Err(3));
    }
}
