//! The chart: events, arrows, darts and their clockwise successors; tests 2 to 8 and the way back to bytes.

use crate::words::{push_word, word};

pub const MARK: &[u8; 3] = b"EVC";
pub const VERSION: usize = 1;
/// The bytes before the arrows.
pub const HEADER: usize = 11;
pub const LEAST_EVENTS: usize = 2;
pub const MOST_EVENTS: usize = 1024;
pub const LEAST_ARROWS: usize = 1;
pub const MOST_ARROWS: usize = 3072;
/// The length of the longest chart.
pub const MOST_BYTES: usize = HEADER + 8 * MOST_ARROWS;

/// What a chart says, whether it makes sense or not.
#[derive(Clone, Debug, PartialEq, Eq)]
pub struct Chart {
    pub events: usize,
    pub outer: usize,
    /// Tail and head of each arrow.
    pub arrows: Vec<(usize, usize)>,
    /// The next dart clockwise round the event of each dart.
    pub next: Vec<usize>,
}

/// The other dart of its arrow.
pub fn twin(dart: usize) -> usize {
    dart ^ 1
}

/// Dart 2a leaves the tail of arrow a; dart 2a+1 stands at its head, where the arrow enters.
pub fn leaves(dart: usize) -> bool {
    dart.is_multiple_of(2)
}

impl Chart {
    pub fn darts(&self) -> usize {
        2 * self.arrows.len()
    }

    /// The event of a dart.
    pub fn at(&self, dart: usize) -> usize {
        let (tail, head) = self.arrows[dart / 2];
        if leaves(dart) { tail } else { head }
    }

    /// A corner is a switch if both sides leave or both enter its event.
    pub fn is_switch(&self, corner: usize) -> bool {
        leaves(corner) == leaves(self.next[corner])
    }

    /// The chart as a file of version 1.
    pub fn bytes(&self) -> Vec<u8> {
        let mut bytes = MARK.to_vec();
        push_word(&mut bytes, VERSION);
        push_word(&mut bytes, self.events);
        push_word(&mut bytes, self.arrows.len());
        push_word(&mut bytes, self.outer);
        for &(tail, head) in &self.arrows {
            push_word(&mut bytes, tail);
            push_word(&mut bytes, head);
        }
        for &dart in &self.next {
            push_word(&mut bytes, dart);
        }
        bytes
    }

    /// Tests 2 to 8: the chart, or the number of the first that fails.
    pub fn read(bytes: &[u8]) -> Result<Chart, u16> {
        if bytes.len() < HEADER || &bytes[..3] != MARK {
            return Err(2);
        }
        if word(bytes, 3) != VERSION {
            return Err(3);
        }
        let events = word(bytes, 5);
        let count = word(bytes, 7);
        if !(LEAST_EVENTS..=MOST_EVENTS).contains(&events) || !(LEAST_ARROWS..=MOST_ARROWS).contains(&count) {
            return Err(4);
        }
        if bytes.len() != HEADER + 8 * count {
            return Err(5);
        }
        let arrows: Vec<(usize, usize)> =
            (0..count).map(|a| (word(bytes, HEADER + 4 * a), word(bytes, HEADER + 4 * a + 2))).collect();
        // Number 6 is asked of every arrow before 7 is asked of any.
        if arrows.iter().any(|&(tail, head)| tail >= events || head >= events) {
            return Err(6);
        }
        if arrows.iter().any(|&(tail, head)| tail == head) {
            return Err(7);
        }
        let outer = word(bytes, 9);
        if outer >= 2 * count {
            return Err(8);
        }
        let next = (0..2 * count).map(|d| word(bytes, HEADER + 4 * count + 2 * d)).collect();
        Ok(Chart { events, outer, arrows, next })
    }
}
