//! The report: its layout, its form and its body.

use crate::words::{push_word, word};
use std::ops::Range;

pub const MARK: &[u8; 3] = b"EVR";
pub const VERSION: usize = 1;
/// The bytes before the body.
pub const HEADER: usize = 8;
/// The room a lent report must have: the header and a label for each of 6,144 corners.
pub const FULL_ROOM: usize = 6152;

/// What a report of the test holds.
#[derive(Clone, Debug, PartialEq, Eq)]
pub enum Evidence {
    /// 0: a label for each corner.
    Labels(Vec<u8>),
    /// 12: the lowest mixed event.
    Mixed(usize),
    /// 13: the arrows of a circle in order, lowest first.
    Circle(Vec<usize>),
    /// 14: the events of a cut, ascending.
    Cut(Vec<usize>),
}

impl Evidence {
    /// The number that the test gives with this evidence.
    pub fn number(&self) -> u16 {
        match self {
            Evidence::Labels(_) => 0,
            Evidence::Mixed(_) => 12,
            Evidence::Circle(_) => 13,
            Evidence::Cut(_) => 14,
        }
    }

    /// The labels, the event, the arrows or the events.
    pub fn entries(&self) -> Vec<usize> {
        match self {
            Evidence::Labels(labels) => labels.iter().map(|&label| usize::from(label)).collect(),
            Evidence::Mixed(event) => vec![*event],
            Evidence::Circle(list) | Evidence::Cut(list) => list.clone(),
        }
    }

    /// The bytes of the report.
    pub fn bytes(&self) -> Vec<u8> {
        match self {
            Evidence::Labels(labels) => {
                let mut bytes = header(0, labels.len());
                bytes.extend_from_slice(labels);
                bytes
            }
            _ => listed(self.number().try_into().expect("a small number"), &self.entries()),
        }
    }
}

/// A report with entries of 16 bits, whatever they are.
pub fn listed(result: u8, entries: &[usize]) -> Vec<u8> {
    let mut bytes = header(result, entries.len());
    for &entry in entries {
        push_word(&mut bytes, entry);
    }
    bytes
}

/// The eight bytes before the body.
pub fn header(result: u8, count: usize) -> Vec<u8> {
    let mut bytes = MARK.to_vec();
    push_word(&mut bytes, VERSION);
    bytes.push(result);
    push_word(&mut bytes, count);
    bytes
}

/// Result and count, or none on bad form.
pub fn form(report: &[u8]) -> Option<(u8, usize)> {
    if report.len() < HEADER || &report[..3] != MARK || word(report, 3) != VERSION {
        return None;
    }
    let (result, count) = (report[5], word(report, 6));
    let body = match result {
        0 => count,
        12..=14 => 2 * count,
        _ => return None,
    };
    (report.len() == HEADER + body).then_some((result, count))
}

/// Where the body stands: what follows the header, or the empty stretch at the start on bad form.
pub fn body(report: &[u8]) -> Range<usize> {
    match form(report) {
        Some(_) => HEADER..report.len(),
        None => 0..0,
    }
}

/// The entries of a report of good form.
pub fn entries(report: &[u8]) -> Option<Vec<usize>> {
    let (result, count) = form(report)?;
    let entry = |i: usize| if result == 0 { usize::from(report[HEADER + i]) } else { word(report, HEADER + 2 * i) };
    Some((0..count).map(entry).collect())
}
