//! Whether a report's evidence is the only one there is. Decided by trying all there is, so for small charts only.

use crate::brute;
use crate::drawing::Drawing;
use crate::examine::Outcome;
use crate::report::Evidence;

#[derive(Clone, Copy, Debug, PartialEq, Eq)]
pub enum Unique {
    Yes,
    No,
    NotKnown,
}

/// How many steps of trying we allow.
const BUDGET: usize = 200_000;
/// How many sets of events we try for a cut.
const MOST_SETS: usize = 1 << 12;

/// The evidence of an outcome is determined by the chart. Where nothing is written there is nothing to choose.
pub fn unique(chart: &[u8], outcome: &Outcome) -> Unique {
    let Outcome::Found(evidence) = outcome else {
        return Unique::Yes;
    };
    let drawing = Drawing::read(chart).expect("a chart past test 11");
    let found = match evidence {
        Evidence::Mixed(_) => Some(1),
        Evidence::Labels(_) => labellings(&drawing),
        Evidence::Circle(_) => brute::circles(&drawing.chart, 2, BUDGET).map(|all| all.len()),
        Evidence::Cut(_) => brute::count_cuts(&drawing, MOST_SETS),
    };
    match found {
        Some(1) => Unique::Yes,
        Some(more) => {
            assert!(more > 1, "the evidence found is one");
            Unique::No
        }
        None => Unique::NotKnown,
    }
}

/// The number of labellings, counted up to two; none if the budget ends first.
fn labellings(drawing: &Drawing) -> Option<usize> {
    let mut left = drawing.rooms();
    let mut budget = BUDGET;
    choose(drawing, &drawing.sources_and_sinks(), &mut left, &mut budget)
}

/// Each of the events takes each of its corners in turn, while the faces have room.
fn choose(drawing: &Drawing, events: &[usize], left: &mut [i64], budget: &mut usize) -> Option<usize> {
    *budget = budget.checked_sub(1)?;
    let Some((&event, rest)) = events.split_first() else {
        return Some(usize::from(left.iter().all(|&room| room == 0)));
    };
    let mut found = 0;
    for &corner in &drawing.rings[event] {
        let face = drawing.corner_face(corner);
        if left[face] > 0 && found < 2 {
            left[face] -= 1;
            found += choose(drawing, rest, left, budget)?;
            left[face] += 1;
        }
    }
    Some(found.min(2))
}
