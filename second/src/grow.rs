//! Charts grown at random from one arrow: dead ends, chords within faces, splits of arrows.

use crate::chart::{MOST_ARROWS, MOST_EVENTS};
use crate::rng::Rng;
use crate::sketch::Sketch;

/// How the directions of arrows are chosen.
#[derive(Clone, Copy, Debug, PartialEq, Eq)]
pub struct Aim {
    /// By heights of the events, so that no circle arises.
    pub numbered: bool,
    /// So that no event becomes mixed.
    pub unmixed: bool,
}

/// What a grown chart should be like.
#[derive(Clone, Copy, Debug)]
pub struct Plan {
    pub events: usize,
    pub arrows: usize,
    /// Of ten new events, how many hang on an arrow of their own; the others split an arrow.
    pub dead_ends: usize,
    /// Whether an arrow may be laid beside another one in one step.
    pub doubles: bool,
    pub aim: Aim,
}

struct Growth<'a> {
    sketch: Sketch,
    /// Heights of the events; arrows climb if the aim is numbered.
    height: Vec<f64>,
    plan: Plan,
    rng: &'a mut Rng,
}

/// Grows a sketch. It may end with fewer arrows than planned where the aim leaves no place.
pub fn grow(rng: &mut Rng, plan: Plan) -> Sketch {
    assert!(plan.events <= MOST_EVENTS && plan.arrows <= MOST_ARROWS);
    let mut growth = Growth { sketch: Sketch::new(), height: vec![0.0, 1.0], plan, rng };
    if growth.rng.coin() {
        // The second arrow beside the first: no dead end unless one is hung later.
        growth.chord_or_double();
    }
    let mut misses = 0;
    while misses < 200 {
        let events_wanted = plan.events.saturating_sub(growth.sketch.events);
        let arrows_wanted = plan.arrows.saturating_sub(growth.sketch.arrows());
        if arrows_wanted == 0 || (events_wanted == 0 && misses > 100) {
            break;
        }
        let done = if growth.rng.below(arrows_wanted) < events_wanted {
            if growth.rng.below(10) < plan.dead_ends { growth.dead_end() } else { growth.split() }
        } else {
            growth.chord_or_double()
        };
        misses = if done { 0 } else { misses + 1 };
    }
    let darts = growth.sketch.darts();
    growth.sketch.outer = growth.rng.below(darts);
    growth.sketch
}

impl Growth<'_> {
    fn corner(&mut self) -> usize {
        self.rng.below(self.sketch.darts())
    }

    fn mixes(&self, corner: usize, leaves: bool) -> bool {
        self.plan.aim.unmixed && self.sketch.changes_with(corner, leaves) > 2
    }

    fn dead_end(&mut self) -> bool {
        let corner = self.corner();
        let mut outward = self.rng.coin();
        if self.mixes(corner, outward) {
            outward = !outward;
        }
        if self.mixes(corner, outward) {
            return false;
        }
        let step = 0.01 + self.rng.below(1000) as f64 / 1000.0;
        let here = self.height[self.sketch.at[corner]];
        self.height.push(if outward { here + step } else { here - step });
        self.sketch.dead_end(corner, outward);
        true
    }

    fn chord_or_double(&mut self) -> bool {
        if self.plan.doubles && self.rng.one_in(3) {
            let dart = self.corner();
            self.sketch.double(dart);
            return true;
        }
        let corner = self.corner();
        let face = self.sketch.face(corner);
        let other = *self.rng.pick(&face);
        let (here, there) = (self.sketch.at[corner], self.sketch.at[other]);
        if here == there {
            return false;
        }
        let mut ends = (corner, other);
        if self.plan.aim.numbered && self.height[here] > self.height[there] {
            ends = (other, corner);
        }
        if self.plan.aim.numbered && self.height[here] == self.height[there] {
            return false;
        }
        let mixes = |growth: &Self, (from, to): (usize, usize)| growth.mixes(from, true) || growth.mixes(to, false);
        if !self.plan.aim.numbered && mixes(self, ends) {
            ends = (other, corner);
        }
        if mixes(self, ends) {
            return false;
        }
        self.sketch.chord(ends.0, ends.1);
        true
    }

    fn split(&mut self) -> bool {
        let dart = self.corner();
        let far = dart ^ 1;
        let (here, there) = (self.height[self.sketch.at[dart]], self.height[self.sketch.at[far]]);
        let turn = self.rng.one_in(3);
        if turn && self.plan.aim.unmixed {
            // A turned half changes the direction at the old event; only a dead end or a free ring bears that.
            let mut tried = self.sketch.clone();
            tried.leaves[far] = !tried.leaves[far];
            if tried.changes_round(far) > 2 {
                return false;
            }
        }
        let middle = if !turn {
            (here + there) / 2.0
        } else if self.sketch.leaves[dart] {
            here.max(there) + 0.5
        } else {
            here.min(there) - 0.5
        };
        if middle == here || middle == there {
            return false;
        }
        self.height.push(middle);
        self.sketch.split(dart, turn);
        true
    }
}
