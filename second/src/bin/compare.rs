//! `compare SEED COUNT`: the library against the second program on COUNT random charts, each with damaged variants.
//! `compare small`: on every chart of a few events and arrows.
//! `compare order SEED COUNT`: on COUNT random charts, each as it is and with its order broken in every way.
//! Ends with a non-zero status at the first difference and names the files that show it.

use second::comparison::{Comparison, Difference};
use second::desk;
use second::make::{NUMBERS, Size, aimed};
use second::order::{Break, Ordered, Place};
use second::rng::Rng;
use second::spoil::{damage, limits};
use second::{small, table};
use std::collections::BTreeMap;
use std::env;
use std::fs;
use std::process::ExitCode;
use std::time::Instant;

const USAGE: &str = "usage: compare SEED COUNT, or compare small, or compare order SEED COUNT";
/// Damaged variants of each random chart.
const VARIANTS: usize = 2;

/// How many charts were compared for each way to break the order.
type Kinds = BTreeMap<Break, usize>;

fn main() -> ExitCode {
    let words: Vec<String> = env::args().skip(1).collect();
    let order = words.first().is_some_and(|word| word == "order");
    let numbers: Option<Vec<u64>> = words[usize::from(order)..].iter().map(|word| word.parse().ok()).collect();
    let library = match desk::library() {
        Ok(library) => library,
        Err(why) => {
            eprintln!("compare: {why}");
            return ExitCode::from(2);
        }
    };
    let start = Instant::now();
    let mut comparison;
    let mut kinds = Kinds::new();
    let result = match (words.iter().map(String::as_str).collect::<Vec<&str>>().as_slice(), numbers.as_deref()) {
        (["small"], _) => {
            comparison = Comparison::new(library.as_ref(), 0);
            compare_small(&mut comparison)
        }
        (_, Some(&[seed, count])) => {
            comparison = Comparison::new(library.as_ref(), !seed);
            if order {
                compare_order(&mut comparison, &mut kinds, seed, count)
            } else {
                compare_random(&mut comparison, seed, count)
            }
        }
        _ => {
            eprintln!("{USAGE}");
            return ExitCode::from(2);
        }
    };
    if order {
        summary_of_kinds(&kinds);
    }
    summary(&comparison, start);
    match result {
        Ok(()) => {
            println!("no difference between {} and the second program", desk::NAME);
            ExitCode::SUCCESS
        }
        Err(difference) => {
            save(&words.join("-"), &difference);
            ExitCode::FAILURE
        }
    }
}

fn compare_small(comparison: &mut Comparison) -> Result<(), Difference> {
    comparison.reports = 2;
    for (events, arrows) in [(2, 1), (3, 1), (2, 2)] {
        small::every(events, arrows, |chart| comparison.chart(chart))?;
        println!("every chart of {events} events and {arrows} arrows, fields in range and one beyond");
    }
    for (events, arrows) in [(3, 2), (2, 3), (3, 3), (4, 3), (2, 4)] {
        small::every_ringed(events, arrows, false, |chart| comparison.chart(chart))?;
        println!("every chart of {events} events and {arrows} arrows past test 9");
    }
    for (events, arrows) in [(3, 4), (4, 4), (5, 4), (3, 5)] {
        small::every_ringed(events, arrows, true, |chart| comparison.chart(chart))?;
        println!("every chart of {events} events and {arrows} arrows past test 9, but for the arrows' numbers");
    }
    Ok(())
}

fn compare_random(comparison: &mut Comparison, seed: u64, count: u64) -> Result<(), Difference> {
    let mut rng = Rng::new(seed);
    for chart in table::charts() {
        comparison.chart(&chart.bytes())?;
    }
    for file in limits(&mut rng) {
        comparison.chart(&file)?;
    }
    for done in 0..count {
        let size = Size::random(&mut rng);
        // The later a test, the more charts should reach it.
        let number =
            if rng.one_in(3) { *rng.pick(&NUMBERS) } else { *rng.pick(&[0, 0, 0, 10, 11, 12, 13, 14, 14, 14]) };
        let chart = aimed(&mut rng, number, size);
        comparison.chart(&chart)?;
        for _ in 0..VARIANTS {
            let mut variant = chart.clone();
            damage(&mut rng, &mut variant);
            comparison.chart(&variant)?;
        }
        progress(done + 1, count);
    }
    Ok(())
}

fn compare_order(comparison: &mut Comparison, kinds: &mut Kinds, seed: u64, count: u64) -> Result<(), Difference> {
    // What a report says matters little where the chart is refused.
    comparison.reports = 1;
    let mut rng = Rng::new(seed);
    for done in 0..count {
        let ordered = Ordered::random(&mut rng);
        comparison.chart(&ordered.chart().bytes())?;
        for &kind in Break::ALL {
            let place = Place::random(&mut rng);
            if let Some(broken) = ordered.broken(&mut rng, kind, place) {
                comparison.chart(&broken.bytes())?;
                *kinds.entry(kind).or_default() += 1;
            }
        }
        progress(done + 1, count);
    }
    Ok(())
}

/// Tells ten times how far the comparison is.
fn progress(done: u64, count: u64) {
    if count >= 10 && done.is_multiple_of(count / 10) {
        println!("{done} of {count} charts");
    }
}

fn summary_of_kinds(kinds: &Kinds) {
    println!("charts by the way their order is broken:");
    for kind in Break::ALL {
        println!("  {:<30} {}", kind.name(), kinds.get(kind).unwrap_or(&0));
    }
}

fn summary(comparison: &Comparison, start: Instant) {
    let tally = &comparison.tally;
    println!("charts by number:");
    for (number, count) in &tally.charts {
        println!("  {number:>2} {:<14} {count}", second::examine::words(*number));
    }
    println!("calls with a short room: {}", tally.short_rooms);
    println!("reports by verdict:");
    for (verdict, count) in &tally.verdicts {
        println!("  {verdict:>2} {count}");
    }
    println!("reports of good form {}, of bad form {}", tally.good_forms, tally.bad_forms);
    println!("slowest call: {:?}, {}", tally.slowest, tally.slowest_call);
    println!("{:.1} s in all", start.elapsed().as_secs_f64());
}

/// Saves what shows the difference in the current folder.
fn save(run: &str, difference: &Difference) {
    println!("DIFFERENCE: {}", difference.message);
    let mut files = vec![(format!("difference-{run}.evc"), &difference.chart)];
    if let Some(report) = &difference.report {
        files.push((format!("difference-{run}.evr"), report));
    }
    for (name, bytes) in files {
        match fs::write(&name, bytes) {
            Ok(()) => println!("saved {name}, {} bytes", bytes.len()),
            Err(why) => println!("could not save {name}: {why}"),
        }
    }
}
