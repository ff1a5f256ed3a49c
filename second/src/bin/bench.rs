//! `bench`: the library's test against a Rust program of the same algorithm (`same.rs`), on the same charts, in turn;
//! and against the library's test before a change, where that is linked too.

use second::cases::{CHARTS, Case, cases};
use second::clock;
use second::desk;
use second::report::FULL_ROOM;
use second::same;
use std::hint::black_box;
use std::process::ExitCode;
use std::time::Duration;

/// How often each case is measured, and how long one measurement is at least. Where all its charts take longer than so
/// many of these, fewer do.
const ROUNDS: usize = 101;
const ROUND: Duration = Duration::from_micros(500);
const LONG: usize = 10;
const LONG_ROUNDS: usize = 21;

type Call<'a> = Box<dyn FnMut(&[u8]) + 'a>;

/// What a case showed.
struct Row {
    case: Case,
    /// The library's time, microseconds.
    library: f64,
    ratio: f64,
    to_before: Option<f64>,
}

fn main() -> ExitCode {
    let library = match desk::library() {
        Ok(library) => library,
        Err(why) => {
            eprintln!("bench: {why}");
            return ExitCode::from(2);
        }
    };
    let before = desk::test_before();
    let mut programs: Vec<Call> = vec![call(|chart, report| library.test(chart, report)), call(same::test)];
    programs.extend(before.map(call));
    print_head(before.is_some());
    let rows: Vec<Row> = cases().into_iter().map(|case| row(&mut programs, case)).collect();
    print_foot(&rows);
    ExitCode::SUCCESS
}

/// A program with a report room of its own, not cleared between calls.
fn call<'a, T>(test: impl Fn(&[u8], &mut [u8]) -> T + 'a) -> Call<'a> {
    let mut report = vec![0xA5; FULL_ROOM];
    Box::new(move |chart| {
        black_box(test(black_box(chart), &mut report));
    })
}

fn print_head(before: bool) {
    println!("{} against same.rs, microseconds of {} for one call of the test", desk::NAME, clock::NAME);
    println!(
        "{ROUNDS} rounds of each in turn, {LONG_ROUNDS} for long cases; median, then the range of the middle half;"
    );
    println!("ratio is library / Rust, median of the rounds; best is the ratio of the two quickest rounds");
    if before {
        println!("after is library / library before, in the same way");
    }
    println!("{CHARTS} charts of each kind take turns; one report room for each program, not cleared between calls");
    println!();
    print!(
        "{:<22} {:>6} {:>6} {:>7}  {:>27}  {:>27}  {}",
        "chart",
        "events",
        "arrows",
        "src+snk",
        "library",
        "Rust",
        heading("ratio")
    );
    println!("{}", if before { format!("  {}", heading("after")) } else { String::new() });
}

/// Measures a case and prints its line.
fn row(programs: &mut [Call], case: Case) -> Row {
    let times = measure(programs, &case.charts);
    let [library, rust, before @ ..] = &times[..] else { unreachable!("there are two programs") };
    let ratio = Ratio::new(library, rust);
    let to_before = before.first().map(|before| Ratio::new(library, before));
    print!(
        "{:<22} {:>6} {:>6} {:>7}  {}  {}  {}",
        case.name,
        case.events(),
        case.arrows(),
        case.sources_and_sinks().map_or("-".into(), |count| count.to_string()),
        spread(library),
        spread(rust),
        ratio.print()
    );
    println!("{}", to_before.as_ref().map_or(String::new(), |ratio| format!("  {}", ratio.print())));
    Row { case, library: quartiles(library).1, ratio: ratio.median, to_before: to_before.map(|ratio| ratio.median) }
}

fn print_foot<'a>(rows: &'a [Row]) {
    println!();
    let listed = |row: &&Row| row.case.listed;
    print_largest("ratio", "document 02's list", rows.iter().filter(listed).map(|row| (row, row.ratio)));
    print_largest("ratio", "all", rows.iter().map(|row| (row, row.ratio)));
    let to_before = |row: &'a Row| Some((row, row.to_before?));
    print_largest("after", "document 02's list", rows.iter().filter(listed).filter_map(to_before));
    print_largest("after", "all", rows.iter().filter_map(to_before));
    for result in ["accepted", "refused"] {
        let time = |few_or_many: &str| {
            let name = format!("1000 {result} {few_or_many}");
            let row = rows.iter().find(|row| row.case.name == name)?;
            Some((row.case.sources_and_sinks()?, row.library))
        };
        if let (Some((few, short)), Some((many, long))) = (time("few"), time("many")) {
            println!("1,000 events, {result}: {many} sources and sinks take {:.2} of the time of {few}", long / short);
        }
    }
}

fn print_largest<'a>(name: &str, of: &str, ratios: impl Iterator<Item = (&'a Row, f64)>) {
    if let Some((row, ratio)) = ratios.max_by(|(_, one), (_, other)| one.total_cmp(other)) {
        println!("the largest {name} of {of}: {ratio:.2}, {}", row.case.name);
    }
}

/// Microseconds for one call of each program, in each round.
fn measure(programs: &mut [Call], charts: &[Vec<u8>]) -> Vec<Vec<f64>> {
    // As many turns as fill a round, found on the slowest; the first calls warm up.
    let one = programs.iter_mut().map(|call| time(1, charts, call)).fold(1e-3, f64::max);
    let share = ROUND.as_secs_f64() * 1e6 / (one * charts.len() as f64);
    let turns = share.ceil() as usize;
    let rounds = if share * (LONG as f64) < 1.0 { LONG_ROUNDS } else { ROUNDS };
    let mut times = vec![Vec::new(); programs.len()];
    for round in 0..rounds {
        // Each begins in its turn.
        for step in 0..programs.len() {
            let program = (round + step) % programs.len();
            times[program].push(time(turns, charts, &mut programs[program]));
        }
    }
    times
}

/// Microseconds for one call, where every chart is called on in each turn.
fn time(turns: usize, charts: &[Vec<u8>], call: &mut Call) -> f64 {
    clock::microseconds(turns, || charts.iter().for_each(|chart| call(chart))) / charts.len() as f64
}

/// How the times of two programs compare.
struct Ratio {
    low: f64,
    median: f64,
    high: f64,
    best: f64,
}

impl Ratio {
    fn new(one: &[f64], other: &[f64]) -> Ratio {
        let ratios: Vec<f64> = one.iter().zip(other).map(|(one, other)| one / other).collect();
        let (low, median, high) = quartiles(&ratios);
        Ratio { low, median, high, best: least(one) / least(other) }
    }

    fn print(&self) -> String {
        format!("{:>6.2}  {:>5.2} - {:>5.2}  {:>6.2}", self.median, self.low, self.high, self.best)
    }
}

/// The heading over a ratio.
fn heading(name: &str) -> String {
    format!("{name:>6}  {:>13}  {:>6}", "middle half", "best")
}

/// The first quartile, the median and the third quartile.
fn quartiles(row: &[f64]) -> (f64, f64, f64) {
    let mut row = row.to_vec();
    row.sort_by(f64::total_cmp);
    (row[row.len() / 4], row[row.len() / 2], row[row.len() * 3 / 4])
}

fn least(row: &[f64]) -> f64 {
    row.iter().copied().fold(f64::INFINITY, f64::min)
}

fn spread(row: &[f64]) -> String {
    let (low, median, high) = quartiles(row);
    format!("{median:>9.2} ({low:>6.1} -{high:>7.1})")
}
