//! Charts on which the searches for places take long: some made by hand, and better ones found by changing them.
//!
//! What counts is the number of steps (`same::steps`), which is the same on every machine.

use crate::chart::{Chart, twin};
use crate::hubs;
use crate::kinds;
use crate::rng::Rng;
use crate::same;
use crate::sketch::Sketch;
use std::ops::Range;

/// A sketch, and what its events and arrows are numbered by: the lowest key comes first.
#[derive(Clone)]
pub struct Trial {
    pub sketch: Sketch,
    pub events: Vec<u64>,
    pub arrows: Vec<u64>,
}

/// The numbers that keys stand for.
fn ranks(keys: &[u64]) -> Vec<usize> {
    let mut order: Vec<usize> = (0..keys.len()).collect();
    order.sort_by_key(|&i| keys[i]);
    let mut ranks = vec![0; keys.len()];
    for (rank, i) in order.into_iter().enumerate() {
        ranks[i] = rank;
    }
    ranks
}

/// The key of some number, the first or the last.
fn any_key(rng: &mut Rng) -> u64 {
    let keys = [0, rng.draw(), u64::MAX];
    *rng.pick(&keys)
}

impl Trial {
    fn shuffled(rng: &mut Rng, sketch: Sketch) -> Trial {
        let mut keys = |count: usize| (0..count).map(|_| rng.draw()).collect();
        Trial { events: keys(sketch.events), arrows: keys(sketch.arrows()), sketch }
    }

    /// Puts some events before all others.
    fn seat_first(&mut self, events: Range<usize>) {
        for key in &mut self.events[events] {
            *key >>= 32;
        }
    }

    pub fn chart(&self) -> Chart {
        self.sketch.chart(&ranks(&self.events), &ranks(&self.arrows))
    }

    /// Some small changes at once; none if they cannot be, or make more than so many events or three times as many
    /// arrows.
    fn changed(&self, rng: &mut Rng, events: usize) -> Option<Trial> {
        let mut trial = self.clone();
        for _ in 0..1 + rng.below(4) {
            trial.change(rng)?;
        }
        (trial.sketch.events <= events && trial.sketch.arrows() <= 3 * events).then_some(trial)
    }

    fn change(&mut self, rng: &mut Rng) -> Option<()> {
        let dart = rng.below(self.sketch.darts());
        match rng.below(12) {
            0 | 1 => return self.hang(rng, dart),
            2 => return self.remove(dart / 2),
            3 => {
                // A leaf moves, or a parallel arrow becomes a leaf.
                self.remove(dart / 2)?;
                let corner = rng.below(self.sketch.darts());
                return self.hang(rng, corner);
            }
            4 => {
                self.sketch.double(dart);
                self.arrows.push(rng.draw());
            }
            5 => {
                // A parallel arrow moves.
                self.remove(dart / 2)?;
                self.sketch.double(rng.below(self.sketch.darts()));
                self.arrows.push(rng.draw());
            }
            6 => {
                self.sketch.split(dart, rng.coin());
                self.events.push(rng.draw());
                self.arrows.push(rng.draw());
            }
            7 => self.sketch.turn(dart / 2),
            8 => {
                let (one, other) = (rng.below(self.events.len()), rng.below(self.events.len()));
                self.events.swap(one, other);
            }
            9 => {
                let event = rng.below(self.events.len());
                self.events[event] = any_key(rng);
            }
            10 => {
                let (one, other) = (rng.below(self.arrows.len()), rng.below(self.arrows.len()));
                self.arrows.swap(one, *rng.pick(&[0, other]));
            }
            _ => self.sketch.outer = dart,
        }
        Some(())
    }

    /// A new leaf in a corner, unless that mixes the event.
    fn hang(&mut self, rng: &mut Rng, corner: usize) -> Option<()> {
        let outward = rng.coin();
        let outward = if self.sketch.changes_with(corner, outward) > 2 { !outward } else { outward };
        if self.sketch.changes_with(corner, outward) > 2 {
            return None;
        }
        self.sketch.dead_end(corner, outward);
        self.events.push(any_key(rng));
        self.arrows.push(rng.draw());
        Some(())
    }

    fn remove(&mut self, arrow: usize) -> Option<()> {
        if self.arrows.len() < 2 {
            return None;
        }
        self.arrows.swap_remove(arrow);
        if let Some(event) = self.sketch.remove(arrow) {
            self.events.swap_remove(event);
        }
        Some(())
    }

    /// The steps of the searches; none if the chart doesn't come to them.
    pub fn cost(&self) -> Option<u64> {
        let (number, steps) = same::steps(&self.chart().bytes());
        matches!(number, 0 | 14).then_some(steps)
    }
}

/// Changes a trial at random so many times, within so many events, and keeps what takes no fewer steps.
pub fn climb(rng: &mut Rng, mut best: Trial, events: usize, changes: usize) -> Trial {
    let mut most = best.cost().unwrap_or(0);
    for _ in 0..changes {
        let Some(trial) = best.changed(rng, events) else { continue };
        if let Some(cost) = trial.cost()
            && cost >= most
        {
            (best, most) = (trial, cost);
        }
    }
    best
}

/// Where to begin, with at most so many events, at least 30: kinds that are slow by design, and others.
pub fn beginnings(rng: &mut Rng, events: usize) -> Vec<(String, Trial)> {
    let mut all = vec![("arms".into(), arms_of(rng, events)), ("gaps".into(), gaps_of(rng, events))];
    all.extend((1..=3).map(|count| (format!("{count} layers"), layers_of(rng, count, events))));
    let side = events.isqrt();
    let sketches = [
        ("zigzags", kinds::zigzags(6, events / 6 - 1)),
        ("two zigzags", kinds::zigzags(2, events / 2 - 1)),
        ("wheel", hubs::wheel(events - 2)),
        ("board", kinds::board(side, side)),
        ("tree", kinds::tree(rng, events)),
        ("blocks", kinds::blocks(rng, events, false)),
        ("one arrow", Sketch::new()),
    ];
    all.extend(sketches.map(|(name, sketch)| (name.into(), Trial::shuffled(rng, sketch))));
    all
}

/// The slowest of the layers with so many events, at least 30, and three arrows for each.
pub fn layers_of(rng: &mut Rng, count: usize, events: usize) -> Trial {
    // Two ends, two hubs, and half as many leaves as a zigzag is long, and three more.
    let length = (events - 7) * 2 / (2 * count + 3) / 2 * 2;
    let leaves = events - 4 - (count + 1) * length;
    let bundle = 3 * events - (count + 1) * (length + 1) - 1 - leaves;
    layers(rng, count, length, leaves, bundle)
}

/// A long way for everyone. A plain way and some zigzags, the layers, all of `length` events, run from one event to
/// another, and whoever sits first takes the face on the right. In the last face hang leaves, whose room is gone then.
/// So each leaf searches from there, layer by layer, up to the first face, which has room. On its way it passes two
/// hubs with `bundle` arrows between them, and all the faces there.
fn layers(rng: &mut Rng, layers: usize, length: usize, leaves: usize, bundle: usize) -> Trial {
    let mut sketch = hubs::fan(1 + layers);
    for way in 0..=layers {
        let mut dart = 2 * way;
        for _ in 0..length {
            let further = sketch.darts();
            sketch.split(dart, way > 0);
            dart = further;
        }
    }
    // The last face follows arrow 1 round the event 0.
    let joint = sketch.darts() + 1;
    let hub = sketch.events;
    hang_hubs(&mut sketch, 2, bundle);
    for _ in 0..leaves {
        sketch.dead_end(joint, false);
    }
    let mut trial = Trial::shuffled(rng, sketch);
    // Arrow 0 comes first: the walk round the rings begins at its tail, and goes along all ways at once.
    trial.arrows[0] = 0;
    // The zigzags and the hubs sit before the rest.
    trial.seat_first(2 + length..hub + 2);
    trial
}

/// A ring of two arms, both zigzags of `length` events, an even number. The events of the left arm have a leaf outside,
/// and so they are no sources or sinks; those of the right arm sit outside, where the leaves' room is gone then. So
/// each leaf searches outside. It passes two hubs at the end of the left arm, with `bundle` arrows between them, before
/// it comes to someone who may go inside.
fn arms(rng: &mut Rng, length: usize, bundle: usize) -> Trial {
    let mut sketch = hubs::fan(2);
    for arm in [0, 1] {
        let mut dart = 2 * arm;
        for _ in 0..length {
            let further = sketch.darts();
            sketch.split(dart, true);
            dart = further;
        }
    }
    let mut back = 1;
    for _ in 0..length {
        let leaf = sketch.darts();
        let forward = sketch.next[back];
        sketch.dead_end(back, !sketch.leaves[back]);
        if sketch.at[twin(forward)] == 1 {
            hang_hubs(&mut sketch, leaf, bundle);
        }
        back = twin(forward);
    }
    let hub = sketch.events - 2;
    let mut trial = Trial::shuffled(rng, sketch);
    // The walk round the rings begins with the right arm.
    trial.arrows[1] = 0;
    trial.seat_first(2 + length..2 + 2 * length);
    trial.seat_first(hub..hub + 2);
    trial
}

/// A hub on an arrow from a corner's event, and a second hub with so many arrows to the first.
fn hang_hubs(sketch: &mut Sketch, corner: usize, bundle: usize) {
    sketch.dead_end(corner, true);
    let thick = sketch.darts();
    sketch.dead_end(thick - 1, false);
    for _ in 1..bundle {
        sketch.double(thick);
    }
}

/// The slowest arms with at most so many events, at least 30, and three arrows for each.
pub fn arms_of(rng: &mut Rng, events: usize) -> Trial {
    let length = (events - 4) / 6 * 2;
    arms(rng, length, 3 * events - (2 * length + 2) - length - 1)
}

/// Two hubs joined by parallel arrows, with leaves of one of them in the gaps. That hub comes first, then the leaves
/// clockwise, and the outer face is a gap without a leaf behind them. Where everyone is placed in turn, each leaf pushes
/// the hub on to the next gap: this was the slowest kind before everyone sat first who could.
pub fn gaps(rng: &mut Rng, arrows: usize, leaves: usize) -> Trial {
    let mut sketch = hubs::fan(arrows);
    for leaf in 0..leaves {
        sketch.dead_end(2 * leaf, true);
    }
    // Clockwise the arrows go down from the last to the first.
    sketch.outer = 2 * (arrows - 2);
    let mut trial = Trial::shuffled(rng, sketch);
    for (event, key) in trial.events.iter_mut().enumerate() {
        *key = if event < 2 { event } else { 2 * leaves - event } as u64;
    }
    trial
}

/// The gaps with so many events and three arrows for each.
pub fn gaps_of(rng: &mut Rng, events: usize) -> Trial {
    gaps(rng, 2 * events + 2, events - 2)
}

#[cfg(test)]
mod tests {
    use super::*;
    use crate::examine::examine;

    #[test]
    fn slow_kinds_are_slow_and_as_large_as_they_say() {
        let mut rng = Rng::new(80);
        for (events, steps) in [(100, 10_000), (300, 120_000), (1024, 1_500_000)] {
            let trial = arms_of(&mut rng, events);
            assert_eq!(trial.sketch.arrows(), 3 * events);
            assert_eq!(examine(&trial.chart().bytes()).number(), 0);
            assert!(trial.cost().expect("past test 13") > steps, "{events}");
        }
        for (count, events, steps) in [(1, 100, 5_000), (2, 300, 80_000), (2, 1024, 1_000_000), (3, 1024, 1_000_000)] {
            let trial = layers_of(&mut rng, count, events);
            assert_eq!((trial.sketch.events, trial.sketch.arrows()), (events, 3 * events));
            assert_eq!(examine(&trial.chart().bytes()).number(), 0);
            assert!(trial.cost().expect("past test 13") > steps, "{count} {events}");
        }
    }

    #[test]
    fn changes_keep_the_sketch_whole() {
        let mut rng = Rng::new(81);
        for _ in 0..50 {
            let mut trial = Trial::shuffled(&mut rng, Sketch::new());
            for _ in 0..100 {
                let Some(next) = trial.changed(&mut rng, 100) else { continue };
                // Nothing but an arrow that joined two parts may be missed.
                let number = examine(&next.chart().bytes()).number();
                assert!([0, 10, 12, 13, 14].contains(&number), "{number}");
                if number != 10 {
                    trial = next;
                }
            }
        }
    }

    #[test]
    fn a_climb_goes_up() {
        let mut rng = Rng::new(82);
        let begin = layers_of(&mut rng, 1, 40);
        let low = begin.cost().expect("past test 13");
        let high = climb(&mut rng, begin, 40, 500).cost().expect("past test 13");
        assert!(high > low, "{low} {high}");
    }
}
