//! A chart as a few lines of text, for people.
//!
//! ```text
//! events 4            the number of events
//! outer 0+            the outer dart; 0 if the line is left out
//! arrow 0 1           tail and head, one line for each arrow, numbered from 0
//! round 0 0+ 2+       an event and its darts clockwise
//! ```
//!
//! A dart is named by its number, or as `a+` where arrow a leaves and `a-` where it enters.
//! From `#` on a line is a remark.

use crate::chart::{Chart, LEAST_EVENTS, MOST_ARROWS, MOST_EVENTS, leaves};
use crate::cycles::cycles;
use crate::drawing::rings;
use crate::examine::words;
use std::fmt::Write;

/// What a line says, with names not yet looked up.
#[derive(Default)]
struct Lines {
    events: Option<usize>,
    /// The line and the name of the outer dart.
    outer: Option<(usize, String)>,
    /// The line, the tail and the head of each arrow.
    arrows: Vec<(usize, usize, usize)>,
    /// The line, the event and the names of its darts.
    rounds: Vec<(usize, usize, Vec<String>)>,
}

/// The chart that a text describes, or what is wrong with the text.
pub fn parse(text: &str) -> Result<Chart, String> {
    let lines = read_lines(text)?;
    let events = lines.events.ok_or("there is no line `events`")?;
    if lines.arrows.is_empty() {
        return Err("there is no line `arrow`".into());
    }
    let outer = match &lines.outer {
        Some((line, name)) => dart(name, lines.arrows.len()).map_err(|why| format!("line {line}: {why}"))?,
        None => 0,
    };
    let mut arrows = Vec::new();
    for &(line, tail, head) in &lines.arrows {
        if tail >= events || head >= events {
            return Err(format!("line {line}: event {}, but there are {events} events", tail.max(head)));
        }
        arrows.push((tail, head));
    }
    let mut chart = Chart { events, outer, arrows, next: Vec::new() };
    let mut next: Vec<Option<usize>> = vec![None; chart.darts()];
    for (line, event, names) in &lines.rounds {
        round(&chart, *event, names, &mut next).map_err(|why| format!("line {line}: {why}"))?;
    }
    let missing = |dart: usize| format!("dart {} at event {} stands in no line `round`", name(dart), chart.at(dart));
    chart.next = (0..next.len()).map(|d| next[d].ok_or_else(|| missing(d))).collect::<Result<_, String>>()?;
    if rings(&chart).is_none() {
        return Err("the darts of some event stand in more than one line `round`".into());
    }
    Ok(chart)
}

fn read_lines(text: &str) -> Result<Lines, String> {
    let mut lines = Lines::default();
    for (number, line) in (1..).zip(text.lines()) {
        let said: Vec<&str> = line.split('#').next().unwrap_or("").split_whitespace().collect();
        read_line(&said, number, &mut lines).map_err(|why| format!("line {number}: {why}"))?;
    }
    Ok(lines)
}

fn read_line(said: &[&str], number: usize, lines: &mut Lines) -> Result<(), String> {
    match *said {
        [] => {}
        ["events", count] => {
            let count = whole(count)?;
            if !(LEAST_EVENTS..=MOST_EVENTS).contains(&count) {
                return Err(format!("a chart has {LEAST_EVENTS} to {MOST_EVENTS} events, not {count}"));
            }
            if lines.events.replace(count).is_some() {
                return Err("a second line `events`".into());
            }
        }
        ["outer", dart] => {
            if lines.outer.replace((number, dart.to_string())).is_some() {
                return Err("a second line `outer`".into());
            }
        }
        ["arrow", tail, head] => {
            let (tail, head) = (whole(tail)?, whole(head)?);
            if tail == head {
                return Err(format!("an arrow from event {tail} to itself"));
            }
            if lines.arrows.len() == MOST_ARROWS {
                return Err(format!("a chart has at most {MOST_ARROWS} arrows"));
            }
            lines.arrows.push((number, tail, head));
        }
        ["round", event, ref darts @ ..] => {
            let names = darts.iter().map(|dart| dart.to_string()).collect();
            lines.rounds.push((number, whole(event)?, names));
        }
        [word, ..] => {
            return Err(format!(
                "`{word}` with {} more words; known are `events N`, `outer D`, `arrow T H` and `round E D ..`",
                said.len() - 1
            ));
        }
    }
    Ok(())
}

/// Enters the darts round one event.
fn round(chart: &Chart, event: usize, names: &[String], next: &mut [Option<usize>]) -> Result<(), String> {
    if event >= chart.events {
        return Err(format!("event {event}, but there are {} events", chart.events));
    }
    let darts = names.iter().map(|name| dart(name, chart.arrows.len())).collect::<Result<Vec<usize>, String>>()?;
    for (i, &dart) in darts.iter().enumerate() {
        if chart.at(dart) != event {
            return Err(format!("dart {} stands at event {}, not at event {event}", name(dart), chart.at(dart)));
        }
        if next[dart].replace(darts[(i + 1) % darts.len()]).is_some() {
            return Err(format!("dart {} is named a second time", name(dart)));
        }
    }
    Ok(())
}

fn whole(word: &str) -> Result<usize, String> {
    let digits = word.bytes().all(|byte| byte.is_ascii_digit());
    match word.parse::<u16>() {
        Ok(number) if digits => Ok(number.into()),
        _ => Err(format!("`{word}` is no number from 0 to 65535")),
    }
}

/// The dart of a name.
fn dart(name: &str, arrows: usize) -> Result<usize, String> {
    let dart = if let Some(arrow) = name.strip_suffix('+') {
        2 * whole(arrow)?
    } else if let Some(arrow) = name.strip_suffix('-') {
        2 * whole(arrow)? + 1
    } else {
        whole(name)?
    };
    if dart >= 2 * arrows {
        return Err(format!("there is no dart {name}, for the arrows are numbered below {arrows}"));
    }
    Ok(dart)
}

/// The name of a dart by its arrow.
fn name(dart: usize) -> String {
    format!("{}{}", dart / 2, if leaves(dart) { '+' } else { '-' })
}

/// The text of a chart file past test 9, or why it has none.
pub fn show(bytes: &[u8]) -> Result<String, String> {
    let refused = |number: u16| format!("this file gets {number} ({}) and has no text", words(number));
    let chart = Chart::read(bytes).map_err(refused)?;
    if rings(&chart).is_none() {
        return Err(refused(9));
    }
    Ok(print(&chart))
}

/// The text of a chart past test 9. Each ring begins at its lowest dart.
pub fn print(chart: &Chart) -> String {
    let mut text = format!("events {}\nouter {}\n", chart.events, name(chart.outer));
    let mut line = |words: std::fmt::Arguments| writeln!(text, "{words}").expect("a string takes all");
    for (arrow, (tail, head)) in chart.arrows.iter().enumerate() {
        line(format_args!("arrow {tail} {head}  # arrow {arrow}"));
    }
    let mut rings = cycles(&chart.next).expect("past test 9");
    rings.sort_by_key(|ring| chart.at(ring[0]));
    for ring in rings {
        let names: Vec<String> = ring.iter().map(|&dart| name(dart)).collect();
        line(format_args!("round {} {}", chart.at(ring[0]), names.join(" ")));
    }
    text
}
