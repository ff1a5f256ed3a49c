//! The stored charts and the lines expected of them.

use second::make::NUMBERS;
use second::stored::{charts, expected, input};
use second::words::word;

#[test]
fn every_number_is_there() {
    let charts = charts();
    let lines = expected(&charts);
    assert_eq!(lines.lines().count(), charts.len());
    for number in NUMBERS {
        let named = |line: &&str| line.split(' ').nth(3) == Some(&number.to_string());
        assert!(lines.lines().filter(named).count() >= 6, "{number}");
    }
    assert!(charts.iter().map(|chart| chart.len()).sum::<usize>() < 200_000);
}

#[test]
fn the_lines_begin_with_c1_to_c10() {
    let charts = charts();
    let ten = expected(&charts[..10]);
    let lines: Vec<&str> = ten.lines().collect();
    assert_eq!(lines[0], "chart 0 result 0 judge J0 written 10 entries 2 2");
    assert_eq!(lines[2], "chart 2 result 11 judge 11 written 0 entries");
    assert_eq!(lines[4], "chart 4 result 12 judge 12 written 10 entries 0");
    assert_eq!(lines[6], "chart 6 result 13 judge 13 written 14 entries 0 1 2");
    assert_eq!(lines[7], "chart 7 result 14 judge J1 written 10 entries 3");
}

#[test]
fn the_input_can_be_read_back() {
    let charts = charts();
    let bytes = input(&charts);
    let mut at = 0;
    for (chart, line) in charts.iter().zip(expected(&charts).lines()) {
        assert_eq!(bytes[at] == 1, line.contains("written"));
        let length = word(&bytes, at + 1);
        assert_eq!(bytes[at + 3..at + 3 + length], chart[..]);
        at += 3 + length;
    }
    assert_eq!(at, bytes.len());
}
