//! Whether evidence holds, straight from the definitions and without any search.

use crate::chart::Chart;
use crate::drawing::Drawing;

/// The three conditions on labels.
pub fn labels_hold(drawing: &Drawing, labels: &[u8]) -> bool {
    let chart = &drawing.chart;
    if labels.len() != chart.darts() {
        return false;
    }
    let fits = |corner: usize| {
        if chart.is_switch(corner) { labels[corner] == 0 || labels[corner] == 2 } else { labels[corner] == 1 }
    };
    let large = |event: usize| drawing.rings[event].iter().filter(|&&c| labels[c] == 2).count();
    let one_large = |event: usize| large(event) == usize::from(drawing.is_source_or_sink(event));
    let corners = drawing.corners();
    let sums = |face: usize| {
        let sum: i64 = corners[face].iter().map(|&c| i64::from(labels[c])).sum();
        let count = i64::try_from(corners[face].len()).expect("a small number");
        sum == if face == drawing.outer_face() { count + 2 } else { count - 2 }
    };
    (0..chart.darts()).all(fits) && (0..chart.events).all(one_large) && (0..drawing.faces.len()).all(sums)
}

/// At least one arrow of the chart, none twice, each head the next tail and the last head the first tail.
pub fn is_circle(chart: &Chart, list: &[usize]) -> bool {
    let known = |&a: &usize| a < chart.arrows.len();
    let follows = |i: usize| chart.arrows[list[i]].1 == chart.arrows[list[(i + 1) % list.len()]].0;
    let twice = |i: usize| list[..i].contains(&list[i]);
    !list.is_empty() && list.iter().all(known) && (0..list.len()).all(follows) && !(0..list.len()).any(twice)
}

/// A circle as a report gives it: lowest arrow first.
pub fn circle_holds(chart: &Chart, list: &[usize]) -> bool {
    is_circle(chart, list) && list.iter().all(|&a| list[0] <= a)
}

/// A set of sources and sinks, larger than the sum of the rooms of the faces it touches, each face counted once.
pub fn is_cut(drawing: &Drawing, set: &[usize]) -> bool {
    let mut touched = vec![false; drawing.faces.len()];
    for &event in set {
        if event >= drawing.chart.events || !drawing.is_source_or_sink(event) {
            return false;
        }
        for face in drawing.touched(event) {
            touched[face] = true;
        }
    }
    let rooms = drawing.rooms();
    let sum: i64 = (0..rooms.len()).filter(|&face| touched[face]).map(|face| rooms[face]).sum();
    i64::try_from(set.len()).expect("a small number") > sum
}

/// A cut as a report gives it: strictly ascending, so that no event counts twice.
pub fn cut_holds(drawing: &Drawing, list: &[usize]) -> bool {
    list.is_sorted_by(|one, next| one < next) && is_cut(drawing, list)
}
