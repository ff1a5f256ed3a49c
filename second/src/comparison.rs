//! The comparison: one chart at a time, the library's answers held against the second program's.
//! Where the document leaves a choice (which labelling, which circle, which cut) the evidence is held against the
//! definitions instead; everything else has to be the same to the byte.

use crate::desk::{Desk, pack_body, pack_form, pack_test, pack_verdict};
use crate::drawing::Drawing;
use crate::examine::{Outcome, conclude, survey};
use crate::holds::{circle_holds, cut_holds, labels_hold};
use crate::judge::{Verdict, judge_past_13};
use crate::report::{FULL_ROOM, body, entries, form};
use crate::rng::Rng;
use crate::spoil_report::{damaged, invented, noise};
use std::collections::BTreeMap;
use std::time::{Duration, Instant};

/// What the library did otherwise, with the files that show it.
#[derive(Debug)]
pub struct Difference {
    pub message: String,
    pub chart: Vec<u8>,
    pub report: Option<Vec<u8>>,
}

/// What was compared so far.
#[derive(Default)]
pub struct Tally {
    /// Charts for each number with a full room.
    pub charts: BTreeMap<u16, usize>,
    /// Calls of the test with a short room.
    pub short_rooms: usize,
    /// Reports for each verdict.
    pub verdicts: BTreeMap<Verdict, usize>,
    pub good_forms: usize,
    pub bad_forms: usize,
    pub slowest: Duration,
    pub slowest_call: String,
}

pub struct Comparison<'a> {
    desk: &'a dyn Desk,
    rng: Rng,
    /// How many reports are made up for each chart.
    pub reports: usize,
    pub tally: Tally,
}

/// Bytes kept before and after every lent room.
const GUARD: usize = 24;

impl<'a> Comparison<'a> {
    pub fn new(desk: &'a dyn Desk, seed: u64) -> Comparison<'a> {
        Comparison { desk, rng: Rng::new(seed), reports: 8, tally: Tally::default() }
    }

    /// Compares every call on one chart.
    pub fn chart(&mut self, chart: &[u8]) -> Result<(), Difference> {
        let surveyed = survey(chart);
        let outcome = conclude(&surveyed);
        // Past test 11 the reports made up for a chart know it, even where it is refused with 12 or 13.
        let past_11 = match outcome {
            Outcome::Found(_) => Drawing::read(chart).ok(),
            Outcome::Refused(_) => None,
        };
        *self.tally.charts.entry(outcome.number()).or_default() += 1;
        let room = self.room();
        let written = self.test(chart, &outcome, past_11.as_ref(), FULL_ROOM)?;
        self.test(chart, &outcome, past_11.as_ref(), room)?;

        let own = outcome.report();
        for report in [&written, &own] {
            let verdict = self.report(chart, &surveyed, report)?;
            let wanted = match outcome.number() {
                0 => Verdict::LabelsHold,
                14 => Verdict::CutHolds,
                number => Verdict::Chart(number),
            };
            assert_eq!(verdict, wanted, "the judge confirms what the test wrote");
        }
        for _ in 0..self.reports {
            let report = match self.rng.below(8) {
                0 => noise(&mut self.rng),
                1 => self.whole_room(&own),
                2..=4 => damaged(&mut self.rng, &own, past_11.as_ref()),
                _ => match &past_11 {
                    Some(drawing) => {
                        let report = invented(&mut self.rng, drawing);
                        if self.rng.one_in(4) { damaged(&mut self.rng, &report, Some(drawing)) } else { report }
                    }
                    None => noise(&mut self.rng),
                },
            };
            self.report(chart, &surveyed, &report)?;
        }
        Ok(())
    }

    /// The size of a report room: short, full, or larger.
    fn room(&mut self) -> usize {
        let sizes = [
            0,
            1,
            FULL_ROOM - 1,
            FULL_ROOM,
            FULL_ROOM + 1,
            self.rng.below(FULL_ROOM),
            FULL_ROOM + self.rng.below(4000),
        ];
        *self.rng.pick(&sizes)
    }

    /// A report with all that stood in its room behind it.
    fn whole_room(&mut self, report: &[u8]) -> Vec<u8> {
        let mut room = report.to_vec();
        room.extend(self.rng.bytes(FULL_ROOM - report.len()));
        room
    }

    /// Calls, and keeps the time of the slowest call.
    fn timed<T>(&mut self, name: &str, chart: &[u8], call: impl FnOnce(&dyn Desk) -> T) -> T {
        let start = Instant::now();
        let answer = call(self.desk);
        let time = start.elapsed();
        if time > self.tally.slowest {
            self.tally.slowest = time;
            self.tally.slowest_call = format!("{name} on a chart of {} bytes", chart.len());
        }
        answer
    }

    /// Compares one call of the test with a room of the given size; hands back the stretch written.
    fn test(
        &mut self,
        chart: &[u8],
        outcome: &Outcome,
        drawing: Option<&Drawing>,
        room: usize,
    ) -> Result<Vec<u8>, Difference> {
        let differ = |message: String, report: &[u8]| {
            let message = format!("test with a report room of {room} bytes: {message}");
            Err(Difference { message, chart: chart.to_vec(), report: Some(report.to_vec()) })
        };
        let own = if room < FULL_ROOM { Vec::new() } else { outcome.report() };
        let number = if room < FULL_ROOM { 1 } else { outcome.number() };
        self.tally.short_rooms += usize::from(room < FULL_ROOM);

        // The chart is a copy of exactly its length, the room lies at any address within random bytes.
        let shift = self.rng.below(8);
        let lent_chart = chart.to_vec();
        let before = self.rng.bytes(shift + GUARD + room + GUARD);
        let mut after = before.clone();
        let lent = shift + GUARD..shift + GUARD + room;
        let answer = self.timed("test", chart, |desk| desk.test(&lent_chart, &mut after[lent.clone()]));

        let (given, written) = ((answer >> 16) as u16, (answer & 0xFFFF) as usize);
        if lent_chart != chart {
            return differ("the chart's bytes changed".into(), &after[lent]);
        }
        if given != number {
            return differ(format!("gives {given}, not {number}"), &after[lent]);
        }
        if written > room {
            return differ(format!("says it wrote {written} bytes"), &after[lent]);
        }
        let end = lent.start + written;
        let stretch = after[lent.start..end].to_vec();
        if before[..lent.start] != after[..lent.start] || before[lent.end..] != after[lent.end..] {
            return differ("bytes outside the room changed".into(), &after[lent]);
        }
        if let Some(at) = (end..lent.end).find(|&at| before[at] != after[at]) {
            return differ(format!("byte {} changed beyond {written} bytes written", at - lent.start), &after[lent]);
        }
        // What has no choice in it is the same to the byte.
        if matches!(number, 1..=12) {
            if answer != pack_test(number, own.len()) || stretch != own {
                return differ(format!("wrote {stretch:?}, not {own:?}"), &stretch);
            }
            return Ok(stretch);
        }
        let drawing = drawing.expect("a chart past test 11");
        if number == 0 && written != own.len() {
            return differ(format!("wrote {written} bytes, not {}", own.len()), &stretch);
        }
        if form(&stretch).is_none_or(|(result, _)| u16::from(result) != number) {
            return differ("the report written has bad form or another result".into(), &stretch);
        }
        let list = entries(&stretch).expect("the form is good");
        let holds = match number {
            0 => labels_hold(drawing, &stretch[body(&stretch)]),
            13 => circle_holds(&drawing.chart, &list),
            _ => cut_holds(drawing, &list),
        };
        if !holds {
            return differ(format!("the evidence for {number} does not hold: {list:?}"), &stretch);
        }
        Ok(stretch)
    }

    /// Compares form, body and verdict of one report; hands back the verdict.
    fn report(
        &mut self,
        chart: &[u8],
        surveyed: &Result<Drawing, Outcome>,
        report: &[u8],
    ) -> Result<Verdict, Difference> {
        let differ = |message: String| Difference { message, chart: chart.to_vec(), report: Some(report.to_vec()) };
        let lent = report.to_vec();
        let lent_chart = chart.to_vec();

        let (own, given) = (pack_form(form(report)), self.timed("form", chart, |desk| desk.form(&lent)));
        if own != given {
            return Err(differ(format!("form gives {given:#x}, not {own:#x}")));
        }
        let (own, given) = (pack_body(body(report)), self.timed("body", chart, |desk| desk.body(&lent)));
        if own != given {
            return Err(differ(format!("body gives {given:#x}, not {own:#x}")));
        }
        let verdict = judge_past_13(surveyed, report);
        let (own, given) = (pack_verdict(verdict), self.timed("judge", chart, |desk| desk.judge(&lent_chart, &lent)));
        if own != given {
            return Err(differ(format!("judge gives {given:#x}, not {own:#x} ({verdict})")));
        }
        if lent != report || lent_chart != chart {
            return Err(differ("form, body or judge changed what was lent".into()));
        }
        *self.tally.verdicts.entry(verdict).or_default() += 1;
        *(if form(report).is_some() { &mut self.tally.good_forms } else { &mut self.tally.bad_forms }) += 1;
        Ok(verdict)
    }
}
