//! Safe calls of the proved library Rinsholupe: the test of a chart, the reader of a report, the judge.
//!
//! - A *chart* is the bytes of a chart file, version 1: events, arrows, and the darts clockwise round each event.
//! - [`test()`] answers with an [`Outcome`], drawable or a [`Refusal`], and writes a *report* into the room lent to it.
//! - The *stretch written* is the part of that room that the test wrote. [`form`], [`body`], the evidence readers and
//!   the judge take the stretch alone.
//! - The evidence readers hand out what a report lists: [`labels`], [`mixed_event`], [`circle`], [`cut`].
//! - [`judge`] answers with a [`Verdict`]: the labels hold, the cut holds, or the fault of the chart or of the report.
//!
//! No call asks anything of its bytes: any chart and any report of any length have an answer. The library keeps no
//! state, so calls may run on several threads at once; one call needs less than 60 KB of stack.
//!
//! The library is proved, this crate isn't. A call panics if the library's packed answer is none that the declared
//! calls can give, as it may be where the archive linked is another one.
//!
//! ```
//! use rinsholupe::{Outcome, Verdict};
//!
//! // One arrow, from event 0 to event 1.
//! let chart = b"EVC\x01\0\x02\0\x01\0\0\0\0\0\x01\0\0\0\x01\0";
//! let (outcome, report) = rinsholupe::test_owned(chart);
//! assert_eq!(outcome, Outcome::Drawable);
//! assert_eq!(rinsholupe::judge(chart, &report), Verdict::LabelsHold);
//! ```

#![deny(missing_docs, unsafe_code)]

mod outcome;
#[allow(unsafe_code)]
mod raw;
mod report;
mod verdict;

pub use outcome::{Answer, CHART_LIMIT, Outcome, REPORT_ROOM, Refusal, test, test_owned};
pub use report::{BadForm, Finding, Form, Label, body, circle, cut, form, labels, mixed_event};
pub use verdict::{Fault, Verdict, judge};

/// Ends a call whose packed answer no contract of the library allows.
fn excluded(call: &str, packed: u64) -> ! {
    panic!("rinsholupe_{call} answered {packed:#x}, which its contract excludes: is the archive the declared library?")
}
