//! The stand-in for the library: the second program's own answers, right or wrong in a chosen way.
//! The comparison has to find every one of the wrong ways; the tests see to that.

use crate::chart::{HEADER, MARK, MOST_EVENTS, leaves};
use crate::desk::{Desk, pack_body, pack_form, pack_test, pack_verdict};
use crate::drawing::Drawing;
use crate::examine::{Outcome, examine, survey, test};
use crate::judge::{Verdict, judge};
use crate::place::{Placing, place_in};
use crate::report::{self, Evidence, FULL_ROOM, body, entries, form};
use crate::words::{set_word, word};
use std::collections::BTreeSet;

macro_rules! wrongs {
    ($($(#[$doc:meta])* $name:ident,)*) => {
        /// The ways in which a stand-in can be wrong.
        #[derive(Clone, Copy, Debug, PartialEq, Eq)]
        pub enum Wrong { $($(#[$doc])* $name,)* }

        /// All of them.
        pub const WRONGS: &[Wrong] = &[$(Wrong::$name,)*];
    };
}

wrongs! {
    /// Gives 11 for 10.
    Number,
    /// Refuses every drawable chart with 14.
    NeverDrawable,
    /// Takes a report room of 6,151 bytes for a full one.
    ShortRoom,
    /// Looks at the chart before the report room.
    RoomLast,
    /// Mixes tests 6 and 7 in one pass over the arrows.
    OwnBeforeUnknown,
    /// Allows 1,025 events.
    OneEventMore,
    /// Takes the face across the outer dart's arrow for the outer one.
    WrongOuter,
    /// Leaves the corners of dead ends out of the switch corners.
    DeadEndLeftOut,
    /// Counts the events with switch corners in a face, not the corners.
    SwitchesByEvent,
    /// Takes the direction changes along a row and allows one.
    RowChanges,
    /// Tells one byte more than it wrote.
    Written,
    /// Changes the byte after the report.
    ByteBeyond,
    /// Changes the last byte of the room where nothing is written.
    ByteOnRefusal,
    /// Writes a label too large.
    Label,
    /// Moves a large label to another corner.
    LabelMoved,
    /// Writes a count one too large.
    Count,
    /// Names the highest mixed event.
    HighestMixed,
    /// Begins a circle at its last arrow.
    CircleTurned,
    /// Leaves the last arrow of a circle out.
    CircleOpen,
    /// Goes round a circle twice.
    CircleTwice,
    /// Gives the events of a cut in descending order.
    CutDescending,
    /// Names the lowest event of a cut twice.
    CutTwice,
    /// Leaves the lowest event of a cut out.
    CutShort,
    /// Adds all events up to the highest to a cut.
    CutNotSources,
    /// Calls a report with one byte too many well formed.
    FormLong,
    /// Calls result 1 well formed.
    FormResult,
    /// Reads the version from one byte only.
    FormVersion,
    /// Hands back the body with its header.
    BodyWhole,
    /// Hands back an empty body at 8 on bad form.
    BodyBad,
    /// Confirms all labels.
    JudgeYes,
    /// Confirms no labels.
    JudgeNo,
    /// Confirms labels above 2 in the place of 0.
    JudgeLabel,
    /// Confirms cuts in any order.
    JudgeOrder,
    /// Confirms no cut of more than one event.
    JudgeCut,
    /// Sums a cut's room by corner, so that a face counts more than once.
    JudgeByCorner,
    /// Calls a report of 12 or 13 broken instead of badly formed.
    JudgeResult,
    /// Asks for the report's form before the chart's faults.
    JudgeReportFirst,
    /// Judges a whole room as if it were the stretch written.
    JudgeRoom,
}

pub struct StandIn {
    pub wrong: Option<Wrong>,
}

impl StandIn {
    fn is(&self, wrong: Wrong) -> bool {
        self.wrong == Some(wrong)
    }

    /// The outcome with the evidence or the number falsified.
    fn outcome(&self, chart: &[u8]) -> Outcome {
        let outcome = match self.wrong {
            Some(Wrong::OwnBeforeUnknown) if own_comes_first(chart) => Outcome::Refused(7),
            Some(Wrong::OneEventMore) => examine(&with_an_event_less(chart)),
            Some(Wrong::WrongOuter) => examine(&with_outer_across(chart)),
            Some(Wrong::DeadEndLeftOut) => with_switches(chart, |drawing| {
                let counts = |corner: usize| drawing.chart.next[corner] != corner;
                (0..drawing.chart.darts()).filter(|&corner| counts(corner)).collect()
            }),
            Some(Wrong::SwitchesByEvent) => with_switches(chart, |drawing| {
                let mut seen = BTreeSet::new();
                let first = |&corner: &usize| seen.insert((drawing.chart.at(corner), drawing.corner_face(corner)));
                (0..drawing.chart.darts()).filter(first).collect()
            }),
            Some(Wrong::RowChanges) => mixed_by_rows(chart),
            _ => examine(chart),
        };
        match (self.wrong, outcome) {
            (Some(Wrong::Number), Outcome::Refused(10)) => Outcome::Refused(11),
            (Some(Wrong::NeverDrawable), Outcome::Found(Evidence::Labels(_))) => Outcome::Found(Evidence::Cut(vec![0])),
            (Some(wrong), Outcome::Found(evidence)) => Outcome::Found(falsified(wrong, chart, evidence)),
            (_, outcome) => outcome,
        }
    }
}

fn falsified(wrong: Wrong, chart: &[u8], evidence: Evidence) -> Evidence {
    match (wrong, evidence) {
        (Wrong::Label, Evidence::Labels(mut labels)) => {
            let last = labels.len() - 1;
            labels[last] += 1;
            Evidence::Labels(labels)
        }
        (Wrong::LabelMoved, Evidence::Labels(mut labels)) => {
            let large = labels.iter().position(|&label| label == 2).expect("an outer face has room");
            if let Some(small) = labels.iter().position(|&label| label == 0) {
                labels.swap(large, small);
            }
            Evidence::Labels(labels)
        }
        (Wrong::HighestMixed, Evidence::Mixed(_)) => {
            let drawing = Drawing::read(chart).expect("past test 11");
            let mixed = (0..drawing.chart.events).rfind(|&v| drawing.changes(v) > 2);
            Evidence::Mixed(mixed.expect("some event is mixed"))
        }
        (Wrong::CircleTurned, Evidence::Circle(mut list)) => {
            list.rotate_right(1);
            Evidence::Circle(list)
        }
        (Wrong::CircleOpen, Evidence::Circle(mut list)) => {
            list.pop();
            Evidence::Circle(list)
        }
        (Wrong::CircleTwice, Evidence::Circle(list)) => Evidence::Circle(list.repeat(2)),
        (Wrong::CutDescending, Evidence::Cut(mut list)) => {
            list.reverse();
            Evidence::Cut(list)
        }
        (Wrong::CutTwice, Evidence::Cut(mut list)) => {
            list.insert(0, list[0]);
            Evidence::Cut(list)
        }
        (Wrong::CutShort, Evidence::Cut(mut list)) => {
            list.remove(0);
            Evidence::Cut(list)
        }
        (Wrong::CutNotSources, Evidence::Cut(list)) => Evidence::Cut((0..=list[list.len() - 1]).collect()),
        (_, evidence) => evidence,
    }
}

/// Whether the file has the length that its count of arrows says, so that its fields can be looked at.
fn has_fields(chart: &[u8]) -> bool {
    chart.len() >= HEADER && &chart[..3] == MARK && chart.len() == HEADER + 8 * word(chart, 7) && word(chart, 7) > 0
}

/// The first arrow with fault 6 or 7 has fault 7 only, and the counts are in order.
fn own_comes_first(chart: &[u8]) -> bool {
    if !has_fields(chart) || examine(chart).number() != 6 {
        return false;
    }
    let events = word(chart, 5);
    let arrows = (0..word(chart, 7)).map(|a| (word(chart, HEADER + 4 * a), word(chart, HEADER + 4 * a + 2)));
    let mut faulty = arrows.filter(|&(tail, head)| tail >= events || head >= events || tail == head);
    faulty.next().is_some_and(|(tail, head)| tail < events && head < events)
}

/// The outcome where only some corners can be switches.
fn with_switches(chart: &[u8], corners: impl Fn(&Drawing) -> Vec<usize>) -> Outcome {
    let Ok(drawing) = survey(chart) else {
        return examine(chart);
    };
    let mut switches = vec![0; drawing.faces.len()];
    for corner in corners(&drawing).into_iter().filter(|&corner| drawing.chart.is_switch(corner)) {
        switches[drawing.corner_face(corner)] += 1;
    }
    match place_in(&drawing, &drawing.rooms_with(&switches)) {
        Placing::Labels(labels) => Outcome::Found(Evidence::Labels(labels)),
        Placing::Cut(cut) => Outcome::Found(Evidence::Cut(cut)),
    }
}

/// The outcome where leaving, entering, leaving along a row is called mixed.
fn mixed_by_rows(chart: &[u8]) -> Outcome {
    let Ok(drawing) = Drawing::read(chart) else {
        return examine(chart);
    };
    let row =
        |&event: &usize| drawing.rings[event].windows(2).filter(|pair| leaves(pair[0]) != leaves(pair[1])).count() > 1;
    match (0..drawing.chart.events).find(row) {
        Some(event) => Outcome::Found(Evidence::Mixed(event)),
        None => examine(chart),
    }
}

/// The rooms of all the corners' faces that a list of events has.
fn room_by_corner(chart: &[u8], list: &[usize]) -> i64 {
    let drawing = Drawing::read(chart).expect("past test 11");
    let rooms = drawing.rooms();
    list.iter().flat_map(|&event| &drawing.rings[event]).map(|&corner| rooms[drawing.corner_face(corner)]).sum()
}

fn with_an_event_less(chart: &[u8]) -> Vec<u8> {
    let mut chart = chart.to_vec();
    if has_fields(&chart) && word(&chart, 5) == MOST_EVENTS + 1 {
        set_word(&mut chart, 5, MOST_EVENTS);
    }
    chart
}

fn with_outer_across(chart: &[u8]) -> Vec<u8> {
    let mut chart = chart.to_vec();
    if has_fields(&chart) {
        chart[9] ^= 1;
    }
    chart
}

impl Desk for StandIn {
    fn test(&self, chart: &[u8], report: &mut [u8]) -> u32 {
        let least = if self.is(Wrong::ShortRoom) { FULL_ROOM - 1 } else { FULL_ROOM };
        if report.len() < least {
            if self.is(Wrong::ByteOnRefusal) && !report.is_empty() {
                report[0] ^= 1;
            }
            let number = if self.is(Wrong::RoomLast) && chart.len() < HEADER { 2 } else { 1 };
            return pack_test(number, 0);
        }
        if self.wrong.is_none() {
            let (number, written) = test(chart, report);
            return pack_test(number, written);
        }
        let outcome = self.outcome(chart);
        let mut bytes = outcome.report();
        if self.is(Wrong::Count) && !bytes.is_empty() {
            bytes[6] = bytes[6].wrapping_add(1);
        }
        report[..bytes.len()].copy_from_slice(&bytes);
        if self.is(Wrong::ByteBeyond) && !bytes.is_empty() && bytes.len() < report.len() {
            report[bytes.len()] ^= 0x80;
        }
        if self.is(Wrong::ByteOnRefusal) && bytes.is_empty() {
            let last = report.len() - 1;
            report[last] ^= 1;
        }
        let more = usize::from(self.is(Wrong::Written) && !bytes.is_empty());
        pack_test(outcome.number(), bytes.len() + more)
    }

    fn form(&self, report: &[u8]) -> u32 {
        let found = form(report);
        let repaired = |change: &dyn Fn(&mut Vec<u8>)| {
            let mut repaired = report.to_vec();
            change(&mut repaired);
            form(&repaired)
        };
        pack_form(match self.wrong {
            Some(Wrong::FormLong) if found.is_none() => repaired(&|bytes| {
                bytes.pop();
            }),
            Some(Wrong::FormResult) if found.is_none() && report.len() > 5 && report[5] == 1 => {
                repaired(&|bytes| bytes[5] = 14)
            }
            Some(Wrong::FormVersion) if found.is_none() && report.len() > 5 => repaired(&|bytes| bytes[4] = 0),
            _ => found,
        })
    }

    fn body(&self, report: &[u8]) -> u64 {
        let found = body(report);
        pack_body(match self.wrong {
            Some(Wrong::BodyWhole) if found.start > 0 => 0..report.len(),
            Some(Wrong::BodyBad) if found.start == 0 => 8..8,
            _ => found,
        })
    }

    fn judge(&self, chart: &[u8], report: &[u8]) -> u32 {
        let found = judge(chart, report);
        pack_verdict(match (self.wrong, found) {
            (Some(Wrong::JudgeYes), Verdict::LabelsBroken) => Verdict::LabelsHold,
            (Some(Wrong::JudgeNo), Verdict::LabelsHold) => Verdict::LabelsBroken,
            (Some(Wrong::JudgeLabel), Verdict::LabelsBroken) => {
                let lowered = |(at, &byte): (usize, &u8)| if at >= report::HEADER && byte > 2 { 0 } else { byte };
                judge(chart, &report.iter().enumerate().map(lowered).collect::<Vec<u8>>())
            }
            (Some(Wrong::JudgeOrder), Verdict::NoCut) => {
                let mut list = entries(report).expect("a list");
                list.sort_unstable();
                judge(chart, &report::listed(14, &list))
            }
            (Some(Wrong::JudgeCut), Verdict::CutHolds) if report.len() > report::HEADER + 2 => Verdict::NoCut,
            (Some(Wrong::JudgeByCorner), Verdict::CutHolds) => {
                let list = entries(report).expect("a list");
                if room_by_corner(chart, &list) < list.len() as i64 { Verdict::CutHolds } else { Verdict::NoCut }
            }
            (Some(Wrong::JudgeResult), Verdict::BadForm) if form(report).is_some_and(|(result, _)| result > 0) => {
                Verdict::NoCut
            }
            (Some(Wrong::JudgeReportFirst), Verdict::Chart(_)) if form(report).is_none() => Verdict::BadForm,
            (Some(Wrong::JudgeRoom), Verdict::BadForm) if report.len() >= FULL_ROOM => {
                judge(chart, &report[..report.len().min(report::HEADER + word(report, 6))])
            }
            _ => found,
        })
    }
}

/// The stand-in under the library's names, in builds with the feature `stub`.
/// The environment variable STAND_IN_WRONG chooses a wrong way by its name.
#[cfg(feature = "stub")]
mod exported {
    use super::{StandIn, WRONGS};
    use crate::desk::Desk;
    use std::slice::{from_raw_parts, from_raw_parts_mut};
    use std::sync::OnceLock;

    fn stand_in() -> &'static StandIn {
        static STAND_IN: OnceLock<StandIn> = OnceLock::new();
        STAND_IN.get_or_init(|| StandIn {
            wrong: std::env::var("STAND_IN_WRONG").ok().map(|name| {
                let named = WRONGS.iter().find(|wrong| format!("{wrong:?}") == name);
                *named.unwrap_or_else(|| panic!("STAND_IN_WRONG is one of {WRONGS:?}"))
            }),
        })
    }

    // Callers lend each pointer with its length for the time of the call.
    #[unsafe(no_mangle)]
    unsafe extern "C" fn rinsholupe_test(
        chart: *const u8,
        chart_len: usize,
        report: *mut u8,
        report_len: usize,
    ) -> u32 {
        let (chart, report) = unsafe { (from_raw_parts(chart, chart_len), from_raw_parts_mut(report, report_len)) };
        stand_in().test(chart, report)
    }

    #[unsafe(no_mangle)]
    unsafe extern "C" fn rinsholupe_form(report: *const u8, report_len: usize) -> u32 {
        stand_in().form(unsafe { from_raw_parts(report, report_len) })
    }

    #[unsafe(no_mangle)]
    unsafe extern "C" fn rinsholupe_body(report: *const u8, report_len: usize) -> u64 {
        stand_in().body(unsafe { from_raw_parts(report, report_len) })
    }

    #[unsafe(no_mangle)]
    unsafe extern "C" fn rinsholupe_judge(
        chart: *const u8,
        chart_len: usize,
        report: *const u8,
        report_len: usize,
    ) -> u32 {
        let (chart, report) = unsafe { (from_raw_parts(chart, chart_len), from_raw_parts(report, report_len)) };
        stand_in().judge(chart, report)
    }
}
