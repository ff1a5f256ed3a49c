//! `check [CHART]`: tests the chart in the file CHART, or on standard input, and lets the judge read the report.
//!
//! It prints the number and its words, the evidence of the report (the large corners of a labelling, the mixed event,
//! the arrows of a circle, the events of a cut), and the verdict. The exit status is 0 if there was a chart to test.

use rinsholupe::{CHART_LIMIT, Label};
use std::env;
use std::error::Error;
use std::ffi::OsString;
use std::fs::File;
use std::io::{self, BufWriter, Read, Write};
use std::process::ExitCode;

fn main() -> ExitCode {
    match run(env::args_os().skip(1).collect()) {
        Ok(()) => ExitCode::SUCCESS,
        Err(why) => {
            // Where standard error is closed too, the status alone has to do.
            let _ = writeln!(io::stderr(), "check: {why}");
            ExitCode::FAILURE
        }
    }
}

fn run(arguments: Vec<OsString>) -> Result<(), Box<dyn Error>> {
    let chart = match arguments.as_slice() {
        [] => read_chart(io::stdin().lock(), "standard input")?,
        [path] => {
            let name = path.display().to_string();
            let file = File::open(path).map_err(|why| format!("can't open {name}: {why}"))?;
            read_chart(file, &name)?
        }
        _ => return Err("usage: check [CHART]".into()),
    };
    print(&chart).map_err(|why| format!("can't write: {why}").into())
}

/// Reads one byte more than the longest chart has, so that a chart that is too long shows.
fn read_chart(file: impl Read, name: &str) -> Result<Vec<u8>, String> {
    let mut chart = Vec::new();
    let most = CHART_LIMIT as u64 + 1;
    file.take(most).read_to_end(&mut chart).map_err(|why| format!("can't read {name}: {why}"))?;
    if chart.len() > CHART_LIMIT {
        return Err(format!("{name} is too long: a chart has at most {CHART_LIMIT} bytes"));
    }
    Ok(chart)
}

fn print(chart: &[u8]) -> io::Result<()> {
    let mut out = BufWriter::new(io::stdout().lock());
    let (outcome, report) = rinsholupe::test_owned(chart);
    writeln!(out, "result {outcome}")?;
    // At most one of these finds something to print: a report has one result.
    for (corner, label) in rinsholupe::labels(&report).into_iter().flatten().enumerate() {
        if label == Ok(Label::Large) {
            writeln!(out, "large corner {corner}")?;
        }
    }
    for arrow in rinsholupe::circle(&report).into_iter().flatten() {
        writeln!(out, "arrow {arrow}")?;
    }
    for event in rinsholupe::mixed_event(&report).into_iter().chain(rinsholupe::cut(&report).into_iter().flatten()) {
        writeln!(out, "event {event}")?;
    }
    writeln!(out, "verdict {}", rinsholupe::judge(chart, &report))?;
    out.flush()
}
