//! Charts with hubs: events with very many darts.

use crate::chart::{MOST_ARROWS, MOST_EVENTS};
use crate::rng::Rng;
use crate::sketch::Sketch;

/// Two events joined by parallel arrows, all in one direction.
pub fn fan(arrows: usize) -> Sketch {
    let mut sketch = Sketch::new();
    while sketch.arrows() < arrows {
        sketch.double(0);
    }
    sketch
}

/// An event from which an arrow goes to each of the others.
pub fn star(arrows: usize) -> Sketch {
    let mut sketch = Sketch::new();
    while sketch.arrows() < arrows {
        let last = sketch.darts() - 2;
        sketch.dead_end(last, true);
    }
    sketch
}

/// A star of at least two arrows with a rim, whose arrows go forward and backward in turn. Its outer face is a gap
/// between two spokes. With an even number of spokes it can be drawn.
pub fn wheel(spokes: usize) -> Sketch {
    let mut sketch = star(spokes);
    for spoke in 0..spokes {
        // The corners on both sides of the gap that follows the spoke.
        let here = sketch.prev[2 * spoke + 1];
        let there = 2 * ((spoke + 1) % spokes) + 1;
        if spoke % 2 == 0 { sketch.chord(here, there) } else { sketch.chord(there, here) }
    }
    sketch
}

/// A wheel with spokes laid beside its spokes until there are so many arrows.
pub fn thick_wheel(rng: &mut Rng, spokes: usize, arrows: usize) -> Sketch {
    let mut sketch = wheel(spokes);
    while sketch.arrows() < arrows {
        let spoke = rng.below(spokes);
        sketch.double(2 * spoke);
    }
    sketch
}

/// One of these with at most so many arrows, which are at least four.
pub fn any(rng: &mut Rng, most: usize) -> Sketch {
    let arrows = rng.between(4, most.min(MOST_ARROWS));
    let spokes = rng.between(2, (arrows / 2).min(MOST_EVENTS - 1));
    match rng.below(4) {
        0 => fan(arrows),
        1 => star(arrows.min(MOST_EVENTS - 1)),
        2 => wheel(spokes),
        _ => thick_wheel(rng, spokes, arrows),
    }
}

#[cfg(test)]
mod tests {
    use super::*;
    use crate::chart::Chart;
    use crate::drawing::Drawing;
    use crate::examine::examine;

    fn number(chart: &Chart) -> u16 {
        examine(&chart.bytes()).number()
    }

    #[test]
    fn hubs_can_be_drawn() {
        let mut rng = Rng::new(61);
        for count in [2, 4, 10, 64, 500] {
            assert_eq!(number(&fan(count).shuffled(&mut rng)), 0);
            assert_eq!(number(&star(count).shuffled(&mut rng)), 0);
            let chart = wheel(count).shuffled(&mut rng);
            assert_eq!((chart.events, chart.arrows.len()), (count + 1, 2 * count));
            assert_eq!(number(&chart), 0);
        }
    }

    #[test]
    fn any_hub_is_a_drawing_within_the_limits() {
        let mut rng = Rng::new(62);
        for _ in 0..100 {
            let most = rng.between(4, MOST_ARROWS);
            let chart = any(&mut rng, most).shuffled(&mut rng);
            assert!(chart.events <= MOST_EVENTS && chart.arrows.len() <= most);
            let drawing = Drawing::new(chart).expect("past test 11");
            let darts = drawing.rings.iter().map(Vec::len).max().expect("events");
            assert!(2 * darts >= drawing.chart.arrows.len(), "there is a hub");
        }
    }
}
