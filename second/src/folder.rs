//! The files of the folder `charts/`: C1 to C11 as document 01 gives them, and a chart at the limit of length.
//!
//! `cN.chart` is the text form, `cN.evc` the chart file, `cN.txt` its listing; `c11-a.evr` and `c11-b.evr` are the
//! reports that the judge reads on C8, `c11-a.verdict` and `c11-b.verdict` what it says. `longest.evc` is a chart as
//! long as one may be, `overlong.evc` the same with one byte more, `longest.txt` and `overlong.txt` their listings.

use crate::chart::{MOST_ARROWS, MOST_BYTES};
use crate::examine::examine;
use crate::judge::judge;
use crate::listing::listing;
use crate::rng::Rng;
use crate::sketch::Sketch;
use crate::table;
use crate::text::print;
use crate::unique::{Unique, unique};

/// What each chart shows, C1 to C10.
const SAYS: [&str; 10] = [
    "C1: one arrow, labels 2 2",
    "C2: two arrows side by side, labels 0 2 2 0",
    "C3: three arrows in rings that no plane shows, one face: 11",
    "C4: the same arrows, three faces: accepted",
    "C5: event 0 is mixed: 12",
    "C6: the same arrows in another order round event 0: accepted, outer room 4",
    "C7: three arrows in a circle: 13",
    "C8: event 3 hangs in a face of room 0: cut 3",
    "C9: C8 with the other face outside: labels 2 1 1 0 0 1 1 2",
    "C10: event 2 has no arrow: 10",
];

/// Name and content of each file.
pub fn files() -> Vec<(String, Vec<u8>)> {
    let mut files = Vec::new();
    for (n, chart) in (1..).zip(table::charts()) {
        let bytes = chart.bytes();
        let only = match unique(&bytes, &examine(&bytes)) {
            Unique::Yes => "",
            Unique::No | Unique::NotKnown => "# Its listing isn't the only right one.\n",
        };
        files.push((format!("c{n}.chart"), format!("# {}\n{only}{}", SAYS[n - 1], print(&chart)).into_bytes()));
        files.push((format!("c{n}.txt"), listing(&bytes).into_bytes()));
        files.push((format!("c{n}.evc"), bytes));
    }
    let c8 = table::c(8).bytes();
    let text = "# C11: the judge on C8; the list 3 gives J1, the list 0 3 gives J4\n";
    files.push(("c11.chart".into(), format!("{text}{}", print(&table::c(8))).into_bytes()));
    for (letter, report) in ["a", "b"].iter().zip(table::c11_reports()) {
        files.push((format!("c11-{letter}.verdict"), format!("{}\n", judge(&c8, &report)).into_bytes()));
        files.push((format!("c11-{letter}.evr"), report));
    }
    let longest = longest();
    let mut overlong = longest.clone();
    overlong.push(0);
    for (name, bytes) in [("longest", longest), ("overlong", overlong)] {
        files.push((format!("{name}.txt"), listing(&bytes).into_bytes()));
        files.push((format!("{name}.evc"), bytes));
    }
    files
}

/// How many arrows enter the middle of the longest chart, and how many leave it, before they are doubled.
const ENTERING: usize = 12;
const LEAVING: usize = 15;

/// A chart of 3,072 arrows that is accepted, with one listing only: sources and sinks round one event, each joined to
/// it by many arrows side by side, so that each has one corner outside of the gaps between them.
fn longest() -> Vec<u8> {
    let mut sketch = Sketch::new();
    for _ in 0..LEAVING {
        sketch.dead_end(1, true);
    }
    for _ in 1..ENTERING {
        sketch.dead_end(1, false);
    }
    for arrow in 0..MOST_ARROWS - sketch.arrows() {
        sketch.double(2 * (arrow % (ENTERING + LEAVING)));
    }
    let bytes = sketch.shuffled(&mut Rng::new(20_261_115)).bytes();
    let outcome = examine(&bytes);
    assert!(bytes.len() == MOST_BYTES && outcome.number() == 0 && unique(&bytes, &outcome) == Unique::Yes);
    bytes
}
