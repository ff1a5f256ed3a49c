//! `printouts INPUT EXPECTED`: writes C1 to C10, each with its length before it, and the listings expected of the
//! printouts program, each under the chart's name.

use second::listing::listing;
use second::table;
use second::words::push_word;
use std::process::ExitCode;
use std::{env, fs};

fn main() -> ExitCode {
    let words: Vec<String> = env::args().skip(1).collect();
    let [to_input, to_expected] = words.as_slice() else {
        eprintln!("usage: printouts INPUT EXPECTED");
        return ExitCode::from(2);
    };
    let mut input = Vec::new();
    let mut expected = String::new();
    for (n, chart) in (1..).zip(table::charts()) {
        let bytes = chart.bytes();
        push_word(&mut input, bytes.len());
        input.extend_from_slice(&bytes);
        expected.push_str(&format!("C{n}\n{}", listing(&bytes)));
    }
    for (name, bytes) in [(to_input, input), (to_expected, expected.into_bytes())] {
        if let Err(why) = fs::write(name, &bytes) {
            eprintln!("printouts: {name}: {why}");
            return ExitCode::FAILURE;
        }
    }
    ExitCode::SUCCESS
}
