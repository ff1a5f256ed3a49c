//! Charts of a few plain kinds, each in any size: trees, grids, ladders, cages, blocks, zigzags, dense ones.

use crate::chart::MOST_ARROWS;
use crate::hubs;
use crate::rng::Rng;
use crate::sketch::Sketch;
use crate::upward::{Plan, upward};

/// The sides of an event in a grid, clockwise; the fourth is the left.
const UP: usize = 0;
const RIGHT: usize = 1;
const DOWN: usize = 2;

/// Events whose darts stand on four sides. On each side they come clockwise.
struct Lattice {
    /// The darts of each event, side by side.
    sides: Vec<[Vec<usize>; 4]>,
    /// The event of each dart.
    at: Vec<usize>,
    leaves: Vec<bool>,
}

impl Lattice {
    fn new(events: usize) -> Lattice {
        Lattice { sides: vec![Default::default(); events], at: Vec::new(), leaves: Vec::new() }
    }

    /// An arrow between two events, from the side of the one to the opposite side of the other.
    fn join(&mut self, here: usize, side: usize, there: usize, forward: bool) {
        for (event, side, leaves) in [(here, side, forward), (there, (side + 2) % 4, !forward)] {
            self.sides[event][side].push(self.at.len());
            self.at.push(event);
            self.leaves.push(leaves);
        }
    }

    /// The outer dart is the first of event 0: the outer face lies before it.
    fn sketch(&self) -> Sketch {
        let rings: Vec<Vec<usize>> = self.sides.iter().map(|sides| sides.concat()).collect();
        let mut sketch = Sketch {
            events: rings.len(),
            at: self.at.clone(),
            next: vec![0; self.at.len()],
            prev: vec![0; self.at.len()],
            leaves: self.leaves.clone(),
            changes: vec![0; rings.len()],
            outer: rings[0][0],
        };
        for ring in &rings {
            for (i, &dart) in ring.iter().enumerate() {
                let after = ring[(i + 1) % ring.len()];
                sketch.next[dart] = after;
                sketch.prev[after] = dart;
            }
        }
        for (event, ring) in rings.iter().enumerate() {
            sketch.changes[event] = sketch.changes_round(ring[0]);
        }
        sketch
    }
}

/// A grid with the arrows of rows and columns directed by `forward`, which is asked with the place of their left or
/// lower end. Both numbers are at least 2.
fn grid_by(columns: usize, rows: usize, forward: impl Fn(usize, usize, usize) -> bool) -> Sketch {
    let mut lattice = Lattice::new(columns * rows);
    for y in 0..rows {
        for x in 0..columns {
            let here = y * columns + x;
            if x + 1 < columns {
                lattice.join(here, RIGHT, here + 1, forward(RIGHT, x, y));
            }
            if y + 1 < rows {
                lattice.join(here, UP, here + columns, forward(UP, x, y));
            }
        }
    }
    lattice.sketch()
}

/// All arrows go right and up.
pub fn grid(columns: usize, rows: usize) -> Sketch {
    grid_by(columns, rows, |_, _, _| true)
}

/// Sources and sinks in turn, as the black and white squares of a board.
pub fn board(columns: usize, rows: usize) -> Sketch {
    grid_by(columns, rows, |_, x, y| (x + y) % 2 == 0)
}

/// Two ways up with rungs, which go right and left in turn.
pub fn ladder(rungs: usize) -> Sketch {
    grid_by(2, rungs, |side, _, y| side == UP || y % 2 == 0)
}

/// A source and a sink joined by ways up, with rungs between neighbours. Closed, it has rungs between the last and the
/// first way as well, like a cylinder, so that no face touches both the source and the sink.
pub fn cage(ways: usize, rungs: usize, closed: bool) -> Sketch {
    let (source, sink) = (0, 1);
    let event = |way: usize, rung: usize| 2 + way * rungs + rung;
    let mut lattice = Lattice::new(2 + ways * rungs);
    for way in 0..ways {
        lattice.join(source, UP, event(way, 0), true);
        for rung in 1..rungs {
            lattice.join(event(way, rung - 1), UP, event(way, rung), true);
        }
    }
    for way in (0..ways).rev() {
        lattice.join(sink, DOWN, event(way, rungs - 1), false);
    }
    for rung in 0..rungs {
        for way in 1..ways {
            lattice.join(event(way - 1, rung), RIGHT, event(way, rung), rung % 2 == 0);
        }
        if closed {
            // Against the others, so that they make no circle.
            lattice.join(event(ways - 1, rung), RIGHT, event(0, rung), rung % 2 == 1);
        }
    }
    lattice.sketch()
}

/// Zigzags between two events, where every event is a source or a sink and most may go into either of two faces.
pub fn zigzags(count: usize, turns: usize) -> Sketch {
    let mut sketch = hubs::fan(count);
    for arrow in 0..count {
        let mut dart = 2 * arrow;
        for _ in 0..turns {
            let further = sketch.darts();
            sketch.split(dart, true);
            dart = further;
        }
    }
    sketch
}

/// A tree without mixed events.
pub fn tree(rng: &mut Rng, events: usize) -> Sketch {
    let mut sketch = Sketch::new();
    while sketch.events < events {
        let corner = rng.below(sketch.darts());
        hang(rng, &mut sketch, corner);
    }
    sketch
}

/// Hangs a dead end into a corner, unless that mixes its event. Answers the new dart there.
fn hang(rng: &mut Rng, sketch: &mut Sketch, corner: usize) -> Option<usize> {
    let outward = rng.coin();
    let outward = if sketch.changes_with(corner, outward) > 2 { !outward } else { outward };
    let dart = sketch.darts();
    (sketch.changes_with(corner, outward) <= 2).then(|| {
        sketch.dead_end(corner, outward);
        dart
    })
}

/// A tree of blocks of two or three ways from one event to another, each of up to three arrows. They hang in all faces,
/// or only in the outer one; then they can be drawn.
pub fn blocks(rng: &mut Rng, events: usize, outside: bool) -> Sketch {
    let mut sketch = Sketch::new();
    while sketch.events < events {
        let corner =
            if outside { *rng.pick(&sketch.face(sketch.prev[sketch.outer])) } else { rng.below(sketch.darts()) };
        let Some(dart) = hang(rng, &mut sketch, corner) else { continue };
        let mut ways = vec![dart];
        for _ in 0..rng.between(1, 2) {
            ways.push(sketch.darts());
            sketch.double(dart);
        }
        for way in ways {
            for _ in 0..rng.below(3) {
                if sketch.events < events {
                    sketch.split(way, false);
                }
            }
        }
    }
    sketch
}

/// A drawn chart with as many arrows as its points can be joined by, and then doubled ones, in the proportion of 1,000
/// events to the most arrows.
pub fn dense(rng: &mut Rng, events: usize) -> Sketch {
    let mut sketch = upward(rng, Plan { events, arrows: MOST_ARROWS, most_sources_and_sinks: events });
    while sketch.arrows() < MOST_ARROWS * events / 1000 {
        let dart = rng.below(sketch.darts());
        sketch.double(dart);
    }
    sketch
}

#[cfg(test)]
mod tests {
    use super::*;
    use crate::drawing::Drawing;

    #[test]
    fn every_kind_is_a_drawing_of_its_size() {
        let mut rng = Rng::new(71);
        for events in [100, 400, 1000] {
            let columns = if events == 400 { 20 } else { 10 };
            let sketches = [
                (grid(columns, events / columns), events),
                (board(columns, events / columns), events),
                (ladder(events / 2), events),
                (cage(7, events / 7, true), 2 + 7 * (events / 7)),
                (cage(7, events / 7, false), 2 + 7 * (events / 7)),
                (zigzags(6, events / 6), 2 + 6 * (events / 6)),
                (tree(&mut rng, events), events),
                (blocks(&mut rng, events, true), events),
                (blocks(&mut rng, events, false), events),
                (dense(&mut rng, events), events),
            ];
            for (kind, (sketch, events)) in sketches.into_iter().enumerate() {
                let drawing = Drawing::new(sketch.shuffled(&mut rng)).expect("past test 11");
                assert_eq!(drawing.chart.events, events, "{kind}");
                assert_eq!(drawing.lowest_mixed(), None, "{kind}");
            }
        }
    }
}
