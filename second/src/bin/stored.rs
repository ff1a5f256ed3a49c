//! `stored INPUT EXPECTED`: writes the fixed set of charts and the lines expected of the charts program.

use second::stored::{charts, expected, input};
use std::process::ExitCode;
use std::{env, fs};

fn main() -> ExitCode {
    let words: Vec<String> = env::args().skip(1).collect();
    let [to_input, to_expected] = words.as_slice() else {
        eprintln!("usage: stored INPUT EXPECTED");
        return ExitCode::from(2);
    };
    let charts = charts();
    for (name, bytes) in [(to_input, input(&charts)), (to_expected, expected(&charts).into_bytes())] {
        if let Err(why) = fs::write(name, &bytes) {
            eprintln!("stored: {name}: {why}");
            return ExitCode::FAILURE;
        }
        println!("{name}: {} charts, {} bytes", charts.len(), bytes.len());
    }
    ExitCode::SUCCESS
}
