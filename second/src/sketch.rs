//! A sketch: an embedding that grows by small steps, each of which keeps it planar and in one piece.
//! Darts d and d ^ 1 are one arrow; which of them leaves is kept apart, so that arrows can be turned.

use crate::chart::{Chart, twin};
use crate::rng::Rng;

#[derive(Clone)]
pub struct Sketch {
    pub events: usize,
    /// The event, clockwise successor and predecessor of each dart, and whether the arrow leaves there.
    pub at: Vec<usize>,
    pub next: Vec<usize>,
    pub prev: Vec<usize>,
    pub leaves: Vec<bool>,
    /// How often the direction changes round each event.
    pub changes: Vec<usize>,
    pub outer: usize,
}

impl Sketch {
    /// One arrow from event 0 to event 1.
    pub fn new() -> Sketch {
        Sketch {
            events: 2,
            at: vec![0, 1],
            next: vec![0, 1],
            prev: vec![0, 1],
            leaves: vec![true, false],
            changes: vec![0, 0],
            outer: 0,
        }
    }

    pub fn darts(&self) -> usize {
        self.at.len()
    }

    pub fn arrows(&self) -> usize {
        self.at.len() / 2
    }

    /// The changes round the corner's event after a dart is put into that corner.
    pub fn changes_with(&self, corner: usize, leaves: bool) -> usize {
        let (one, other) = (self.leaves[corner], self.leaves[self.next[corner]]);
        self.changes[self.at[corner]] + usize::from(one != leaves) + usize::from(leaves != other)
            - usize::from(one != other)
    }

    /// Puts a new dart into a corner.
    fn insert(&mut self, corner: usize, leaves: bool) {
        let event = self.at[corner];
        self.changes[event] = self.changes_with(corner, leaves);
        let (dart, after) = (self.at.len(), self.next[corner]);
        self.at.push(event);
        self.leaves.push(leaves);
        self.next.push(after);
        self.prev.push(corner);
        self.next[corner] = dart;
        self.prev[after] = dart;
    }

    /// A new event in the face of a corner, with an arrow from or to the corner's event.
    pub fn dead_end(&mut self, corner: usize, outward: bool) {
        self.insert(corner, outward);
        let dart = self.at.len();
        self.at.push(self.events);
        self.leaves.push(!outward);
        self.next.push(dart);
        self.prev.push(dart);
        self.changes.push(0);
        self.events += 1;
    }

    /// An arrow between two corners of one face, which it splits in two.
    pub fn chord(&mut self, from: usize, to: usize) {
        self.insert(from, true);
        self.insert(to, false);
    }

    /// A second arrow beside the arrow of a dart, in the same direction. The outer face doesn't become the gap.
    pub fn double(&mut self, dart: usize) {
        let (here, there) = (dart, self.prev[twin(dart)]);
        let (new_here, new_there) = if self.leaves[dart] {
            self.chord(here, there);
            (self.darts() - 2, self.darts() - 1)
        } else {
            self.chord(there, here);
            (self.darts() - 1, self.darts() - 2)
        };
        debug_assert_eq!(self.next[dart], new_here);
        if self.outer == twin(dart) {
            self.outer = new_there;
        }
    }

    /// A new event within the arrow of a dart: the dart's half stays, the other half keeps or turns its direction.
    pub fn split(&mut self, dart: usize, turn: bool) {
        let far = twin(dart);
        let event = self.at[far];
        let (near_half, far_half) = (self.at.len(), self.at.len() + 1);
        // The far half's own far dart takes the place of `far` round the old event.
        let (before, after) = (self.prev[far], self.next[far]);
        let alone = before == far;
        self.at.push(self.events);
        self.at.push(event);
        self.leaves.push(!self.leaves[far]);
        self.leaves.push(self.leaves[far]);
        self.next.push(far);
        self.next.push(if alone { far_half } else { after });
        self.prev.push(far);
        self.prev.push(if alone { far_half } else { before });
        if !alone {
            self.next[before] = far_half;
            self.prev[after] = far_half;
        }
        self.at[far] = self.events;
        self.next[far] = near_half;
        self.prev[far] = near_half;
        self.events += 1;
        self.changes.push(2);
        if turn {
            self.turn(near_half / 2);
        }
    }

    /// Takes away one of at least two arrows, and an end of it that has no other arrow; answers that event. The last
    /// arrow and the last event get the numbers that fall free.
    pub fn remove(&mut self, arrow: usize) -> Option<usize> {
        if self.outer / 2 == arrow {
            let far = twin(self.outer);
            let after = self.next[far];
            self.outer = if after == far { self.next[self.outer] } else { after };
        }
        let mut alone = None;
        for dart in [2 * arrow, 2 * arrow + 1] {
            let (before, after) = (self.prev[dart], self.next[dart]);
            if before == dart {
                alone = Some(self.at[dart]);
                continue;
            }
            self.next[before] = after;
            self.prev[after] = before;
            self.changes[self.at[dart]] = self.changes_round(before);
        }
        let last = self.darts() - 2;
        for side in [0, 1] {
            self.rename(last + side, 2 * arrow + side);
        }
        for row in [&mut self.at, &mut self.next, &mut self.prev] {
            row.truncate(last);
        }
        self.leaves.truncate(last);
        if let Some(event) = alone {
            self.events -= 1;
            self.changes.swap_remove(event);
            for at in self.at.iter_mut().filter(|at| **at == self.events) {
                *at = event;
            }
        }
        alone
    }

    /// Gives a dart the number of one that is in no ring any more.
    fn rename(&mut self, dart: usize, number: usize) {
        if dart == number {
            return;
        }
        self.at[number] = self.at[dart];
        self.leaves[number] = self.leaves[dart];
        let (before, after) = (self.prev[dart], self.next[dart]);
        let alone = before == dart;
        self.next[number] = if alone { number } else { after };
        self.prev[number] = if alone { number } else { before };
        if !alone {
            self.next[before] = number;
            self.prev[after] = number;
        }
        if self.outer == dart {
            self.outer = number;
        }
    }

    /// Turns an arrow round.
    pub fn turn(&mut self, arrow: usize) {
        for dart in [2 * arrow, 2 * arrow + 1] {
            self.leaves[dart] = !self.leaves[dart];
        }
        for dart in [2 * arrow, 2 * arrow + 1] {
            self.changes[self.at[dart]] = self.changes_round(dart);
        }
    }

    /// The changes round the event of a dart, counted afresh.
    pub fn changes_round(&self, dart: usize) -> usize {
        let mut changes = 0;
        let mut here = dart;
        loop {
            changes += usize::from(self.leaves[here] != self.leaves[self.next[here]]);
            here = self.next[here];
            if here == dart {
                return changes;
            }
        }
    }

    /// The corners of the face of a corner.
    pub fn face(&self, corner: usize) -> Vec<usize> {
        let mut corners = vec![corner];
        let mut here = twin(self.next[corner]);
        while here != corner {
            corners.push(here);
            here = twin(self.next[here]);
        }
        corners
    }

    /// The chart with events and arrows numbered as given: `event[v]` and `arrow[a]` are the new numbers.
    pub fn chart(&self, event: &[usize], arrow: &[usize]) -> Chart {
        let dart = |d: usize| 2 * arrow[d / 2] + usize::from(!self.leaves[d]);
        let mut arrows = vec![(0, 0); self.arrows()];
        let mut next = vec![0; self.darts()];
        for d in 0..self.darts() {
            next[dart(d)] = dart(self.next[d]);
            if self.leaves[d] {
                arrows[arrow[d / 2]] = (event[self.at[d]], event[self.at[twin(d)]]);
            }
        }
        Chart { events: self.events, outer: dart(self.outer), arrows, next }
    }

    /// The chart with events and arrows numbered at random.
    pub fn shuffled(&self, rng: &mut Rng) -> Chart {
        let (event, arrow) = (rng.order(self.events), rng.order(self.arrows()));
        self.chart(&event, &arrow)
    }
}

impl Default for Sketch {
    fn default() -> Self {
        Sketch::new()
    }
}
