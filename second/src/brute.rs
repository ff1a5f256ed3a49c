//! Brute force for small charts: the second opinion on what the other modules find by cleverer means.
//! Everything here follows a definition's own words and tries all there is.

use crate::chart::Chart;
use crate::drawing::Drawing;
use crate::holds::{is_circle, is_cut, labels_hold};

/// Test 9 by its words: entries are darts, and from each dart the successors meet exactly the darts of its event.
pub fn is_ordered(chart: &Chart) -> bool {
    let darts = chart.darts();
    if chart.next.iter().any(|&dart| dart >= darts) {
        return false;
    }
    (0..darts).all(|start| {
        let mut met = vec![false; darts];
        let mut here = start;
        while !met[here] {
            met[here] = true;
            here = chart.next[here];
        }
        here == start && (0..darts).all(|dart| met[dart] == (chart.at(dart) == chart.at(start)))
    })
}

/// Which events arrows lead to from each event, in one step or more.
fn closure(events: usize, steps: impl Iterator<Item = (usize, usize)>) -> Vec<Vec<bool>> {
    let mut leads = vec![vec![false; events]; events];
    for (from, to) in steps {
        leads[from][to] = true;
    }
    for by in 0..events {
        for from in 0..events {
            for to in 0..events {
                leads[from][to] |= leads[from][by] && leads[by][to];
            }
        }
    }
    leads
}

/// Test 10 by its words.
pub fn is_joined(chart: &Chart) -> bool {
    let both_ways = chart.arrows.iter().flat_map(|&(tail, head)| [(tail, head), (head, tail)]);
    let leads = closure(chart.events, both_ways);
    (0..chart.events).all(|event| event == 0 || leads[0][event])
}

/// Some arrows form a circle exactly if arrows lead from some event back to it.
pub fn has_circle(chart: &Chart) -> bool {
    let leads = closure(chart.events, chart.arrows.iter().copied());
    (0..chart.events).any(|event| leads[event][event])
}

/// All circles with their lowest arrow first, up to `most` of them; none if there are too many lists to try.
pub fn circles(chart: &Chart, most: usize, mut budget: usize) -> Option<Vec<Vec<usize>>> {
    let mut found = Vec::new();
    for lowest in 0..chart.arrows.len() {
        let mut list = vec![lowest];
        extend_circle(chart, &mut list, most, &mut budget, &mut found)?;
    }
    Some(found)
}

/// Tries every arrow above the first that may come next.
fn extend_circle(
    chart: &Chart,
    list: &mut Vec<usize>,
    most: usize,
    budget: &mut usize,
    found: &mut Vec<Vec<usize>>,
) -> Option<()> {
    *budget = budget.checked_sub(1)?;
    if found.len() >= most {
        return Some(());
    }
    if is_circle(chart, list) {
        found.push(list.clone());
    }
    let here = chart.arrows[list[list.len() - 1]].1;
    for arrow in list[0] + 1..chart.arrows.len() {
        if chart.arrows[arrow].0 == here && !list.contains(&arrow) {
            list.push(arrow);
            extend_circle(chart, list, most, budget, found)?;
            list.pop();
        }
    }
    Some(())
}

/// The number of labellings, each corner trying all of its `choices`; none if there are too many to try.
pub fn count_labellings(drawing: &Drawing, choices: impl Fn(usize) -> &'static [u8], most: usize) -> Option<usize> {
    let choices: Vec<&[u8]> = (0..drawing.chart.darts()).map(choices).collect();
    let total = choices.iter().try_fold(1usize, |total, c| total.checked_mul(c.len()))?;
    if total > most {
        return None;
    }
    let labelling = |mut place: usize| {
        let pick = |c: &&[u8]| {
            let label = c[place % c.len()];
            place /= c.len();
            label
        };
        choices.iter().map(pick).collect::<Vec<u8>>()
    };
    Some((0..total).filter(|&place| labels_hold(drawing, &labelling(place))).count())
}

/// Labellings where every corner tries all three labels.
pub fn count_all_labellings(drawing: &Drawing, most: usize) -> Option<usize> {
    count_labellings(drawing, |_| &[0, 1, 2], most)
}

/// Labellings where a plain corner tries 1 and a switch corner 0 and 2.
pub fn count_fitting_labellings(drawing: &Drawing, most: usize) -> Option<usize> {
    let choices = |corner| -> &'static [u8] { if drawing.chart.is_switch(corner) { &[0, 2] } else { &[1] } };
    count_labellings(drawing, choices, most)
}

/// The number of cuts among all sets of sources and sinks; none if there are too many to try.
pub fn count_cuts(drawing: &Drawing, most: usize) -> Option<usize> {
    let events = drawing.sources_and_sinks();
    let total = 1usize.checked_shl(u32::try_from(events.len()).ok()?)?;
    if events.len() >= 60 || total > most {
        return None;
    }
    let set =
        |mask: usize| -> Vec<usize> { (0..events.len()).filter(|i| mask >> i & 1 == 1).map(|i| events[i]).collect() };
    Some((0..total).filter(|&mask| is_cut(drawing, &set(mask))).count())
}
