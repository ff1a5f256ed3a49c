//! Charts C1 to C11 of the rules, and the ends of what may be lent, through the safe calls.

use rinsholupe::{
    BadForm, Fault, Finding, Form, Label, Outcome, REPORT_ROOM, Refusal, Verdict, body, circle, cut, form, judge,
    labels, mixed_event, test, test_owned,
};
use std::thread;

const ARROWS_OF_C8: [(u16, u16); 4] = [(0, 1), (1, 2), (0, 2), (2, 3)];
const ORDER_OF_C8: [u16; 8] = [4, 2, 1, 5, 0, 6, 3, 7];
const ARROWS_OF_C5: [(u16, u16); 4] = [(1, 0), (0, 2), (3, 0), (0, 4)];

/// The bytes of a chart.
fn chart(events: u16, arrows: &[(u16, u16)], successors: &[u16], outer: u16) -> Vec<u8> {
    let count = u16::try_from(arrows.len()).expect("few arrows");
    let header = [1, events, count, outer];
    let ends = arrows.iter().flat_map(|&(tail, head)| [tail, head]);
    let numbers = header.into_iter().chain(ends).chain(successors.iter().copied());
    b"EVC".iter().copied().chain(numbers.flat_map(u16::to_le_bytes)).collect()
}

/// A report with entries of 16 bits.
fn listed(result: u8, entries: &[u16]) -> Vec<u8> {
    let count = u16::try_from(entries.len()).expect("few entries").to_le_bytes();
    let header = [b'E', b'V', b'R', 1, 0, result, count[0], count[1]];
    header.into_iter().chain(entries.iter().flat_map(|entry| entry.to_le_bytes())).collect()
}

fn c1() -> Vec<u8> {
    chart(2, &[(0, 1)], &[0, 1], 0)
}

fn c8() -> Vec<u8> {
    chart(4, &ARROWS_OF_C8, &ORDER_OF_C8, 0)
}

fn refused(chart: &[u8]) -> Refusal {
    test_owned(chart).0.result().expect_err("the chart is refused")
}

#[track_caller]
fn drawable_with(chart: &[u8], expected: &[u8]) {
    let (outcome, report) = test_owned(chart);
    assert_eq!(outcome, Outcome::Drawable);
    let found: Vec<u8> = labels(&report).expect("labels").map(|label| label.expect("a label").number()).collect();
    assert_eq!(found, expected);
    assert_eq!(judge(chart, &report), Verdict::LabelsHold);
}

#[test]
fn drawable_charts_have_their_labels() {
    drawable_with(&c1(), &[2, 2]);
    drawable_with(&chart(2, &[(0, 1); 2], &[2, 3, 0, 1], 0), &[0, 2, 2, 0]);
    drawable_with(&chart(2, &[(0, 1); 3], &[2, 5, 4, 1, 0, 3], 0), &[0, 2, 0, 0, 2, 0]);
    drawable_with(&chart(5, &ARROWS_OF_C5, &[0, 5, 6, 3, 4, 2, 1, 7], 0), &[2, 0, 0, 2, 2, 1, 1, 2]);
    drawable_with(&chart(4, &ARROWS_OF_C8, &ORDER_OF_C8, 1), &[2, 1, 1, 0, 0, 1, 1, 2]);
}

#[test]
fn a_mixed_event_is_named() {
    let c5 = chart(5, &ARROWS_OF_C5, &[0, 2, 5, 3, 4, 6, 1, 7], 0);
    let (outcome, report) = test_owned(&c5);
    assert_eq!(outcome, Outcome::Refused(Refusal::Mixed));
    assert_eq!(form(&report), Ok(Form { result: Finding::Mixed, count: 1 }));
    assert_eq!(mixed_event(&report), Some(0));
    assert_eq!(judge(&c5, &report), Verdict::Chart(Refusal::Mixed));
}

#[test]
fn a_circle_is_listed() {
    let c7 = chart(3, &[(0, 1), (1, 2), (2, 0)], &[5, 2, 1, 4, 3, 0], 0);
    let (outcome, report) = test_owned(&c7);
    assert_eq!(outcome, Outcome::Refused(Refusal::Circle));
    assert_eq!(form(&report), Ok(Form { result: Finding::Circle, count: 3 }));
    assert!(circle(&report).expect("a circle").eq([0, 1, 2]));
    assert_eq!(judge(&c7, &report), Verdict::Chart(Refusal::Circle));
}

#[test]
fn a_cut_is_listed_and_judged() {
    let (outcome, report) = test_owned(&c8());
    assert_eq!(outcome, Outcome::Refused(Refusal::NoRoom));
    assert_eq!(report, listed(14, &[3]));
    assert!(cut(&report).expect("a cut").eq([3]));
    assert_eq!(judge(&c8(), &report), Verdict::CutHolds);
    for no_cut in [&[0, 3][..], &[3, 3], &[1], &[4], &[]] {
        assert_eq!(judge(&c8(), &listed(14, no_cut)), Verdict::Report(Fault::Cut));
    }
}

#[test]
fn charts_are_refused_by_name() {
    assert_eq!(refused(&chart(2, &[(0, 1); 3], &[2, 3, 4, 5, 0, 1], 0)), Refusal::Crossing);
    assert_eq!(refused(&chart(3, &[(0, 1)], &[0, 1], 0)), Refusal::Parted);
    assert_eq!(refused(&chart(2, &[(0, 1)], &[1, 0], 0)), Refusal::Order);
    assert_eq!(refused(&chart(2, &[(0, 1)], &[0, 1], 2)), Refusal::OuterDart);
    assert_eq!(refused(&chart(2, &[(1, 1)], &[0, 1], 0)), Refusal::OwnArrow);
    assert_eq!(refused(&chart(2, &[(0, 2)], &[0, 1], 0)), Refusal::UnknownEvent);
    assert_eq!(refused(&c1()[..18]), Refusal::Length);
    assert_eq!(refused(&[c1(), vec![0]].concat()), Refusal::Length);
    assert_eq!(refused(&chart(1, &[(0, 1)], &[0, 1], 0)), Refusal::Counts);
    assert_eq!(refused(b"EVC\x02\0\x02\0\x01\0\0\0"), Refusal::Version);
    assert_eq!(refused(b"EVC"), Refusal::Mark);
}

#[test]
fn the_room_decides_first_and_bytes_beyond_stay() {
    let mut report = [7; REPORT_ROOM + 1];
    for (chart, room) in [(c1(), REPORT_ROOM - 1), (c1(), 0), (Vec::new(), 0)] {
        let answer = test(&chart, &mut report[..room]);
        assert_eq!((answer.outcome, answer.written), (Outcome::Refused(Refusal::ShortReport), 0));
    }
    let answer = test(&[], &mut report);
    assert_eq!((answer.outcome, answer.written), (Outcome::Refused(Refusal::Mark), 0));
    assert_eq!(report, [7; REPORT_ROOM + 1]);

    let answer = test(&c1(), &mut report);
    assert_eq!((answer.outcome, answer.written), (Outcome::Drawable, 10));
    assert!(report[10..].iter().all(|&byte| byte == 7));
    assert_eq!(judge(&c1(), &report[..10]), Verdict::LabelsHold);
    assert_eq!(judge(&c1(), &report), Verdict::Report(Fault::Form));
}

#[test]
fn a_bad_form_has_no_body_and_no_evidence() {
    let good = listed(14, &[3]);
    for bad in [&good[..0], &good[..7], &good[..9], &good[1..], &listed(11, &[3])[..]] {
        assert_eq!(form(bad), Err(BadForm));
        assert!(std::ptr::eq(body(bad), &bad[..0]));
        assert!(labels(bad).is_none() && circle(bad).is_none() && cut(bad).is_none());
        assert_eq!(mixed_event(bad), None);
    }
}

#[test]
fn a_good_form_has_the_evidence_of_its_result_alone() {
    for (number, lists) in [(12, [false, false]), (13, [true, false]), (14, [false, true])] {
        let report = listed(number, &[513, 2]);
        assert!(std::ptr::eq(body(&report), &report[8..]));
        assert_eq!([circle(&report).is_some(), cut(&report).is_some()], lists);
        assert!(labels(&report).is_none());
    }
    assert_eq!(mixed_event(&listed(12, &[513])), Some(513));
    for other in [listed(12, &[]), listed(12, &[513, 2]), listed(14, &[513])] {
        assert_eq!(mixed_event(&other), None);
    }
    let strange = b"EVR\x01\0\0\x04\0\0\x01\x02\x03";
    let found: Vec<_> = labels(strange).expect("labels").collect();
    assert_eq!(found, [Ok(Label::Small), Ok(Label::Plain), Ok(Label::Large), Err(3)]);
}

#[test]
fn the_longest_lists_are_read_whole() {
    let events: Vec<u16> = (0..65535).collect();
    let report = listed(14, &events);
    assert_eq!(form(&report), Ok(Form { result: Finding::Cut, count: 65535 }));
    assert!(cut(&report).expect("a cut").eq(events));
}

/// A ladder of arrows from event 0 to event 1, side by side: every inner face has two switch corners and no room.
#[test]
fn the_longest_chart_has_the_longest_report() {
    let (arrows, darts) = (3072, 6144);
    let successor = |dart: u16| if dart.is_multiple_of(2) { (dart + 2) % darts } else { (dart + darts - 2) % darts };
    let successors: Vec<u16> = (0..darts).map(successor).collect();
    let longest = chart(2, &vec![(0, 1); arrows], &successors, 0);
    assert_eq!(longest.len(), rinsholupe::CHART_LIMIT);
    let (outcome, report) = test_owned(&longest);
    assert_eq!(outcome, Outcome::Drawable);
    assert_eq!(report.len(), REPORT_ROOM);
    assert_eq!(labels(&report).expect("labels").filter(|label| *label == Ok(Label::Large)).count(), 2);
    assert_eq!(judge(&longest, &report), Verdict::LabelsHold);
}

#[test]
fn calls_run_side_by_side() {
    let work = || {
        for _ in 0..50 {
            assert_eq!(test_owned(&c8()).1, listed(14, &[3]));
            assert_eq!(test_owned(&c1()).0, Outcome::Drawable);
        }
    };
    thread::scope(|scope| {
        for _ in 0..4 {
            scope.spawn(work);
        }
    });
}
