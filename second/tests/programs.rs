//! The programs: their output, their messages, their status.

use second::desk;
use second::make::{NUMBERS, Size, aimed};
use second::rng::Rng;
use second::table;
use std::io::Write;
use std::process::{Command, Output, Stdio};

fn run(program: &str, words: &[&str], input: &[u8]) -> Output {
    let mut child = Command::new(program)
        .args(words)
        .current_dir(env!("CARGO_TARGET_TMPDIR"))
        .stdin(Stdio::piped())
        .stdout(Stdio::piped())
        .stderr(Stdio::piped())
        .spawn()
        .expect("the program starts");
    // A program that ends without reading leaves a broken pipe, which is no fault here.
    let _ = child.stdin.take().expect("a pipe").write_all(input);
    child.wait_with_output().expect("the program ends")
}

#[test]
fn chart_there_and_back() {
    let chart = env!("CARGO_BIN_EXE_chart");
    for c in table::charts() {
        let shown = run(chart, &["show"], &c.bytes());
        assert!(shown.status.success());
        let made = run(chart, &["make"], &shown.stdout);
        assert!(made.status.success());
        assert_eq!(made.stdout, c.bytes());
    }
}

#[test]
fn chart_says_what_is_wrong() {
    let chart = env!("CARGO_BIN_EXE_chart");
    let cases: [(&[&str], &[u8], &str); 6] = [
        (&[], b"", "chart: usage: chart make < text > file, or chart show < file > text\n"),
        (&["draw"], b"", "chart: usage: chart make < text > file, or chart show < file > text\n"),
        (&["make"], b"", "chart: there is no line `events`\n"),
        (&["make"], b"\xff\xfe", "chart: this is no text\n"),
        (&["make"], b"events 2\narrow 0 5\n", "chart: line 2: event 5, but there are 2 events\n"),
        (&["show"], b"EVC", "chart: this file gets 2 (mark) and has no text\n"),
    ];
    for (words, input, message) in cases {
        let output = run(chart, words, input);
        assert_eq!(output.status.code(), Some(1), "{words:?}");
        assert_eq!(String::from_utf8_lossy(&output.stderr), message);
        assert!(output.stdout.is_empty());
    }
}

/// A panic would end with status 101 and say so.
#[test]
fn chart_never_panics() {
    let chart = env!("CARGO_BIN_EXE_chart");
    let mut rng = Rng::new(41);
    let words = [
        "events",
        "arrow",
        "outer",
        "round",
        "#",
        "0",
        "1",
        "2",
        "3",
        "1+",
        "0-",
        "-",
        "65535",
        "65536",
        "99999999999",
        "x",
    ];
    for round in 0..60 {
        let output = if round % 2 == 0 {
            let mut text = String::new();
            for _ in 0..rng.below(30) {
                let word = words[rng.below(words.len())];
                text.push_str(word);
                text.push(*rng.pick(&[' ', ' ', ' ', '\n']));
            }
            run(chart, &["make"], text.as_bytes())
        } else {
            let number = *rng.pick(&NUMBERS);
            let mut file = aimed(&mut rng, number, Size::Small);
            second::spoil::damage(&mut rng, &mut file);
            run(chart, &["show"], &file)
        };
        assert!(matches!(output.status.code(), Some(0 | 1)), "{output:?}");
        assert_eq!(output.status.success(), output.stderr.is_empty());
    }
}

#[test]
fn listing_prints_the_listing() {
    let listing = env!("CARGO_BIN_EXE_listing");
    let output = run(listing, &[], &table::c(8).bytes());
    assert_eq!(output.stdout, b"result 14 no room\nevent 3\n");
    assert!(output.stderr.is_empty());
    let mut long = table::c(9).bytes();
    long.resize(1 << 17, 0);
    assert_eq!(run(listing, &[], &long).stdout, b"result 5 length\n");
}

#[test]
fn stored_writes_two_files() {
    let output = run(env!("CARGO_BIN_EXE_stored"), &["stored.in", "stored.out"], b"");
    assert!(output.status.success());
    let folder = std::path::Path::new(env!("CARGO_TARGET_TMPDIR"));
    let charts = second::stored::charts();
    assert_eq!(std::fs::read(folder.join("stored.in")).ok(), Some(second::stored::input(&charts)));
    assert_eq!(std::fs::read_to_string(folder.join("stored.out")).ok(), Some(second::stored::expected(&charts)));
    assert_eq!(run(env!("CARGO_BIN_EXE_stored"), &[], b"").status.code(), Some(2));
}

#[test]
fn compare_compares() {
    let compare = env!("CARGO_BIN_EXE_compare");
    let output = run(compare, &["1", "100"], b"");
    // Without an archive there is nothing to compare, and that is no success.
    let wanted = if desk::library().is_ok() { 0 } else { 2 };
    assert_eq!(output.status.code(), Some(wanted), "{}", String::from_utf8_lossy(&output.stdout));
    assert_eq!(run(compare, &["order", "1", "20"], b"").status.code(), Some(wanted));
    for words in [&["1"][..], &["order"], &["order", "1"], &["order", "small"], &["order", "1", "1", "1"]] {
        assert_eq!(run(compare, words, b"").status.code(), Some(2), "{words:?}");
    }
}

#[test]
fn slowest_climbs() {
    let slowest = env!("CARGO_BIN_EXE_slowest");
    let output = run(slowest, &["1", "30", "20", "slowest.evc"], b"");
    assert!(output.status.success(), "{}", String::from_utf8_lossy(&output.stderr));
    let file = std::path::Path::new(env!("CARGO_TARGET_TMPDIR")).join("slowest.evc");
    assert!(second::same::steps(&std::fs::read(file).expect("a chart")).1 > 0);
    for words in [&[][..], &["1"], &["1", "30"], &["1", "29", "20"], &["1", "1025", "20"], &["x", "30", "20"]] {
        assert_eq!(run(slowest, words, b"").status.code(), Some(2), "{words:?}");
    }
}

#[cfg(feature = "stub")]
#[test]
fn compare_stops_at_a_difference() {
    let runs: [&[&str]; 2] = [&["1", "2000"], &["order", "1", "2000"]];
    for words in runs {
        for wrong in ["Number", "ByteBeyond", "Label", "CutDescending", "CircleTurned", "JudgeYes"] {
            let output = Command::new(env!("CARGO_BIN_EXE_compare"))
                .args(words)
                .current_dir(env!("CARGO_TARGET_TMPDIR"))
                .env("STAND_IN_WRONG", wrong)
                .output()
                .expect("the program runs");
            let said = String::from_utf8_lossy(&output.stdout);
            let saved = format!("saved difference-{}.evc", words.join("-"));
            assert_eq!(output.status.code(), Some(1), "{wrong}: {said}");
            assert!(said.contains("DIFFERENCE") && said.contains(&saved), "{wrong}: {said}");
        }
    }
}
