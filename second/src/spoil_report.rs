//! Reports that are wrong in form, for the chart, or in their evidence; and some that are right in another way.

use crate::drawing::Drawing;
use crate::report::{HEADER, entries, form, header, listed};
use crate::rng::Rng;
use crate::words::{set_word, word};

/// A report for a chart past test 11, right only by luck.
pub fn invented(rng: &mut Rng, drawing: &Drawing) -> Vec<u8> {
    let chart = &drawing.chart;
    match rng.below(6) {
        // Labels that place each source and sink somewhere.
        0 => {
            let mut report = header(0, chart.darts());
            report.extend((0..chart.darts()).map(|c| if chart.is_switch(c) { 0 } else { 1 }));
            for event in drawing.sources_and_sinks() {
                report[HEADER + rng.pick(&drawing.rings[event])] = 2;
            }
            report
        }
        // Labels at random.
        1 => {
            let most = *rng.pick(&[1, 2, 3, 255]);
            let mut report = header(0, chart.darts());
            report.extend((0..chart.darts()).map(|_| rng.between(0, most) as u8));
            report
        }
        // Some sources and sinks.
        2 => {
            let each = 1 + rng.below(6);
            let list: Vec<usize> = drawing.sources_and_sinks().into_iter().filter(|_| rng.one_in(each)).collect();
            listed(14, &list)
        }
        // All sources and sinks that touch only some faces: the likeliest cuts.
        3 => {
            let shut: Vec<bool> = (0..drawing.faces.len()).map(|_| rng.one_in(3)).collect();
            let inside = |&event: &usize| drawing.touched(event).iter().all(|&face| !shut[face]);
            listed(14, &drawing.sources_and_sinks().into_iter().filter(inside).collect::<Vec<usize>>())
        }
        // Some events or arrows.
        4 => {
            let each = 1 + rng.below(4);
            let result = *rng.pick(&[12, 13, 14]);
            listed(result, &(0..chart.events + 1).filter(|_| rng.one_in(each)).collect::<Vec<usize>>())
        }
        // One event, known or not.
        _ => {
            let events = [rng.below(chart.events), chart.events, 65535];
            let event = *rng.pick(&events);
            listed(14, &[event])
        }
    }
}

/// Changes a report in one place or in form.
pub fn damaged(rng: &mut Rng, report: &[u8], drawing: Option<&Drawing>) -> Vec<u8> {
    let mut report = report.to_vec();
    if rng.coin() {
        spoil_form(rng, &mut report);
        return report;
    }
    match form(&report) {
        Some((0, _)) => spoil_labels(rng, &mut report, drawing),
        Some((result, _)) => {
            let mut list = entries(&report).expect("the form is good");
            spoil_list(rng, &mut list, drawing);
            report = listed(result, &list);
        }
        None => spoil_form(rng, &mut report),
    }
    report
}

fn spoil_form(rng: &mut Rng, report: &mut Vec<u8>) {
    if report.len() < HEADER {
        let count = rng.below(12);
        report.extend(rng.bytes(count));
        return;
    }
    match rng.below(10) {
        0 => report.truncate(rng.below(report.len() + 1)),
        1 => report.truncate(report.len() - 1),
        2 => report.push(rng.byte()),
        3 => {
            let more = rng.between(1, 30);
            report.extend(rng.bytes(more));
        }
        4 => report[rng.below(3)] ^= 1 << rng.below(8),
        5 => {
            let version = *rng.pick(&[0, 2, 257, 256, 65535]);
            set_word(report, 3, version);
        }
        6 => report[5] = rng.below(18) as u8,
        7 => report[5] = rng.byte(),
        8 => {
            let near = word(report, 6);
            let count = *rng.pick(&[0, near.saturating_sub(1), (near + 1).min(65535), 65535, 1 << 15, 6144]);
            set_word(report, 6, count);
            if rng.coin() {
                fit(rng, report);
            }
        }
        _ => {
            let result = *rng.pick(&[0, 12, 13, 14]);
            report[5] = result;
            fit(rng, report);
        }
    }
}

/// Gives a report the length that its result and count say.
fn fit(rng: &mut Rng, report: &mut Vec<u8>) {
    let count = word(report, 6);
    let length = HEADER + if report[5] == 0 { count } else { 2 * count };
    report.truncate(length);
    let more = length - report.len();
    report.extend(rng.bytes(more));
}

fn spoil_labels(rng: &mut Rng, report: &mut Vec<u8>, drawing: Option<&Drawing>) {
    let corners = report.len() - HEADER;
    if corners == 0 {
        return;
    }
    let (one, other) = (HEADER + rng.below(corners), HEADER + rng.below(corners));
    match rng.below(6) {
        0 => report[one] = rng.below(3) as u8,
        1 => report[one] = rng.between(3, 255) as u8,
        2 => report.swap(one, other),
        // The sum over the face stays, the labels don't.
        3 => {
            report[one] = report[one].wrapping_add(1);
            report[other] = report[other].wrapping_sub(1);
        }
        4 => {
            report.truncate(HEADER + corners - 1);
            set_word(report, 6, corners - 1);
        }
        // The large label of an event goes to another of its corners, perhaps in the same face.
        _ => {
            let Some(drawing) = drawing.filter(|drawing| drawing.chart.darts() == corners) else {
                return;
            };
            let ring = &drawing.rings[drawing.chart.at(one - HEADER)];
            let to = *rng.pick(ring);
            if let Some(&from) = ring.iter().find(|&&corner| report[HEADER + corner] == 2) {
                report.swap(HEADER + from, HEADER + to);
            }
        }
    }
}

fn spoil_list(rng: &mut Rng, list: &mut Vec<usize>, drawing: Option<&Drawing>) {
    let known = drawing.map_or(10, |drawing| drawing.chart.events);
    if list.is_empty() {
        list.push(rng.below(known));
        return;
    }
    let (one, other) = (rng.below(list.len()), rng.below(list.len()));
    match rng.below(9) {
        0 => list.swap(one, other),
        1 => list.reverse(),
        2 => list.insert(one, list[one]),
        3 => {
            let far = *rng.pick(&[known, known + 1, 65535]);
            list.push(far);
        }
        4 => list[one] = rng.below(known),
        5 => {
            list.remove(one);
        }
        6 => list.clear(),
        // Some other event in its place, perhaps another source or sink.
        7 => {
            list.push(rng.below(known));
            list.sort_unstable();
            list.dedup();
        }
        _ => {
            let Some(drawing) = drawing else {
                return;
            };
            list.extend(drawing.sources_and_sinks().into_iter().filter(|_| rng.one_in(3)));
            list.sort_unstable();
            list.dedup();
        }
    }
}

/// Short and random reports, fit for no chart.
pub fn noise(rng: &mut Rng) -> Vec<u8> {
    match rng.below(3) {
        0 => {
            let count = rng.below(20);
            rng.bytes(count)
        }
        1 => {
            let mut report = header(*rng.pick(&[0, 12, 13, 14]), rng.below(4));
            let count = rng.below(9);
            report.extend(rng.bytes(count));
            report
        }
        _ => {
            let mut report = header(*rng.pick(&[0, 12, 13, 14]), rng.below(40));
            fit(rng, &mut report);
            report
        }
    }
}
