//! `chart make < text > file` makes a chart file, `chart show < file > text` prints one back.

use second::text::{parse, show};
use std::env;
use std::io::{self, Read, Write};
use std::process::ExitCode;

fn main() -> ExitCode {
    match run() {
        Ok(()) => ExitCode::SUCCESS,
        Err(why) => {
            // Where even this can't be said the status still tells.
            let _ = writeln!(io::stderr(), "chart: {why}");
            ExitCode::FAILURE
        }
    }
}

fn run() -> Result<(), String> {
    let words: Vec<String> = env::args_os().skip(1).map(|word| word.to_string_lossy().into_owned()).collect();
    let command: fn(Vec<u8>) -> Result<Vec<u8>, String> =
        match words.iter().map(String::as_str).collect::<Vec<&str>>()[..] {
            ["make"] => make,
            ["show"] => |file| show(&file).map(String::into_bytes),
            _ => return Err("usage: chart make < text > file, or chart show < file > text".into()),
        };
    let mut given = Vec::new();
    io::stdin().read_to_end(&mut given).map_err(|why| format!("reading: {why}"))?;
    let made = command(given)?;
    io::stdout().write_all(&made).map_err(|why| format!("writing: {why}"))
}

fn make(text: Vec<u8>) -> Result<Vec<u8>, String> {
    let text = String::from_utf8(text).map_err(|_| "this is no text")?;
    Ok(parse(&text)?.bytes())
}
