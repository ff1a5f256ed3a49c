//! Damaged chart files: with one fault aimed at a number from 2 to 9, or damaged blindly.

use crate::chart::{HEADER, MARK, MOST_ARROWS, MOST_EVENTS};
use crate::rng::Rng;
use crate::words::{push_word, set_word, word};

/// The largest number of 16 bits.
const TOP: usize = 65535;

/// Where the arrows and the successors of a chart file stand, as far as its own count says.
struct Layout {
    events: usize,
    arrows: usize,
}

impl Layout {
    /// None if the file isn't as long as its count of arrows says.
    fn of(bytes: &[u8]) -> Option<Layout> {
        if bytes.len() < HEADER {
            return None;
        }
        let (events, arrows) = (word(bytes, 5), word(bytes, 7));
        (arrows > 0 && bytes.len() == HEADER + 8 * arrows).then_some(Layout { events, arrows })
    }

    fn end_of_arrow(&self, rng: &mut Rng) -> usize {
        HEADER + 2 * rng.below(2 * self.arrows)
    }

    fn entry(&self, rng: &mut Rng) -> usize {
        HEADER + 4 * self.arrows + 2 * rng.below(2 * self.arrows)
    }
}

/// A number that is `limit` or more.
fn at_least(rng: &mut Rng, limit: usize) -> usize {
    let over = [limit, limit + 1, TOP, rng.between(limit.min(TOP), TOP)];
    (*rng.pick(&over)).min(TOP)
}

/// Puts in a fault that gets the number, unless an earlier one is there already.
pub fn spoil(rng: &mut Rng, bytes: &mut Vec<u8>, number: u16) {
    match number {
        2 if rng.coin() => bytes.truncate(rng.below(HEADER)),
        2 => {
            let at = rng.below(3.min(bytes.len()).max(1));
            if let Some(byte) = bytes.get_mut(at) {
                let other = [rng.byte(), *byte ^ 1, *byte ^ 32, b'R', 0];
                *byte = *rng.pick(&other);
                if MARK[at] == *byte {
                    *byte = !*byte;
                }
            }
        }
        3 if bytes.len() >= HEADER => {
            let other = [0, 2, 3, 256, 257, TOP, rng.between(2, TOP)];
            set_word(bytes, 3, *rng.pick(&other));
        }
        4 if bytes.len() >= HEADER => spoil_counts(rng, bytes),
        5 => spoil_length(rng, bytes),
        6..=9 => {
            if let Some(layout) = Layout::of(bytes) {
                spoil_inside(rng, bytes, &layout, number);
            }
        }
        _ => {}
    }
}

fn spoil_counts(rng: &mut Rng, bytes: &mut Vec<u8>) {
    if rng.coin() {
        let wrong = [0, 1, MOST_EVENTS + 1, TOP, rng.between(MOST_EVENTS + 1, TOP)];
        set_word(bytes, 5, *rng.pick(&wrong));
    } else {
        let wrong = [0, MOST_ARROWS + 1, TOP, rng.between(MOST_ARROWS + 1, TOP)];
        let arrows = *rng.pick(&wrong);
        set_word(bytes, 7, arrows);
        // The length sometimes fits the wrong count.
        if arrows <= MOST_ARROWS + 1 && rng.coin() {
            bytes.resize(HEADER + 8 * arrows, 0);
        }
    }
}

fn spoil_length(rng: &mut Rng, bytes: &mut Vec<u8>) {
    if bytes.len() < HEADER {
        return;
    }
    match rng.below(5) {
        0 => bytes.truncate(bytes.len() - 1),
        1 => bytes.push(rng.byte()),
        2 => bytes.truncate(rng.between(HEADER, bytes.len())),
        3 => {
            let more = rng.between(1, 40);
            bytes.extend(rng.bytes(more));
        }
        _ => {
            let count = word(bytes, 7);
            let near = [1, (count + 1).min(TOP), count.saturating_sub(1), MOST_ARROWS, rng.between(1, MOST_ARROWS)];
            set_word(bytes, 7, *rng.pick(&near));
        }
    }
}

/// Faults 6 to 9 in a file of the right length.
fn spoil_inside(rng: &mut Rng, bytes: &mut [u8], layout: &Layout, number: u16) {
    match number {
        6 => {
            let at = layout.end_of_arrow(rng);
            set_word(bytes, at, at_least(rng, layout.events));
        }
        7 => {
            let arrow = HEADER + 4 * rng.below(layout.arrows);
            let (from, to) = if rng.coin() { (0, 2) } else { (2, 0) };
            set_word(bytes, arrow + to, word(bytes, arrow + from));
        }
        8 => set_word(bytes, 9, at_least(rng, 2 * layout.arrows)),
        _ => spoil_order(rng, bytes, layout),
    }
}

fn spoil_order(rng: &mut Rng, bytes: &mut [u8], layout: &Layout) {
    let (one, other) = (layout.entry(rng), layout.entry(rng));
    let (first, second) = (word(bytes, one), word(bytes, other));
    match rng.below(5) {
        0 => set_word(bytes, one, at_least(rng, 2 * layout.arrows)),
        1 => set_word(bytes, one, second),
        2 => set_word(bytes, one, rng.below(2 * layout.arrows)),
        3 => {
            // The dart follows itself.
            set_word(bytes, one, (one - HEADER - 4 * layout.arrows) / 2);
        }
        _ => {
            set_word(bytes, one, second);
            set_word(bytes, other, first);
        }
    }
}

/// Damages a file in some way, several times over now and then.
pub fn damage(rng: &mut Rng, bytes: &mut Vec<u8>) {
    loop {
        match rng.below(8) {
            0..=3 => {
                let number = rng.between(2, 9) as u16;
                spoil(rng, bytes, number);
            }
            4 | 5 => {
                // Some bits, mostly near the front where the header stands.
                for _ in 0..rng.between(1, 3) {
                    if !bytes.is_empty() {
                        let reach = if rng.coin() { bytes.len() } else { bytes.len().min(HEADER) };
                        let at = rng.below(reach);
                        bytes[at] ^= 1 << rng.below(8);
                    }
                }
            }
            6 => damage_inside(rng, bytes),
            _ => {
                let count = rng.below(60);
                let noise = rng.bytes(count);
                let kept = if rng.coin() { HEADER.min(bytes.len()) } else { 0 };
                bytes.truncate(kept);
                bytes.extend(noise);
            }
        }
        if !rng.one_in(3) {
            return;
        }
    }
}

/// Changes that keep all numbers in range: another arrow end, another outer dart, another count of events.
fn damage_inside(rng: &mut Rng, bytes: &mut [u8]) {
    let Some(layout) = Layout::of(bytes) else {
        return;
    };
    match rng.below(4) {
        0 => {
            let at = layout.end_of_arrow(rng);
            set_word(bytes, at, rng.below(layout.events.max(1)));
        }
        1 => set_word(bytes, 9, rng.below(2 * layout.arrows).min(TOP)),
        2 => set_word(bytes, 5, (layout.events + 1).min(TOP)),
        _ => {
            let arrow = HEADER + 4 * rng.below(layout.arrows);
            let (tail, head) = (word(bytes, arrow), word(bytes, arrow + 2));
            set_word(bytes, arrow, head);
            set_word(bytes, arrow + 2, tail);
        }
    }
}

/// Files whose counts, length, outer dart and entries stand at their limits or one beyond.
pub fn limits(rng: &mut Rng) -> Vec<Vec<u8>> {
    let mut files = vec![Vec::new(), MARK.to_vec(), rng.bytes(HEADER), rng.bytes(70_000)];
    for events in [0, 1, 2, 3, MOST_EVENTS, MOST_EVENTS + 1, TOP] {
        for arrows in [0, 1, 2, MOST_ARROWS, MOST_ARROWS + 1, TOP] {
            for change in [-1i64, 0, 1] {
                let length = i64::try_from(HEADER + 8 * arrows).expect("small") + change;
                files.push(fan(events, arrows, 0, usize::try_from(length).expect("positive")));
            }
        }
        let arrows = 4;
        for outer in [0, 1, 2 * arrows - 1, 2 * arrows, 2 * arrows + 1, TOP] {
            files.push(fan(events, arrows, outer, HEADER + 8 * arrows));
        }
    }
    for full in [fan(2, MOST_ARROWS, 2 * MOST_ARROWS - 1, 24_587), fan(2, MOST_ARROWS, 2 * MOST_ARROWS, 24_587)] {
        files.push(full);
    }
    files
}

/// Parallel arrows from event 0 to event 1, or to the last event if there are more; cut or filled to a length.
pub fn fan(events: usize, arrows: usize, outer: usize, length: usize) -> Vec<u8> {
    let mut bytes = MARK.to_vec();
    for header in [1, events, arrows, outer] {
        push_word(&mut bytes, header);
    }
    for _ in 0..arrows {
        push_word(&mut bytes, 0);
        push_word(&mut bytes, if events > 2 { events - 1 } else { 1 });
    }
    for arrow in 0..arrows {
        push_word(&mut bytes, (2 * ((arrow + 1) % arrows)) & TOP);
        push_word(&mut bytes, (2 * ((arrow + arrows - 1) % arrows) + 1) & TOP);
    }
    bytes.resize(length, 0);
    bytes
}
