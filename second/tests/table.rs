//! C1 to C11 with all that document 01 says of them.

use second::chart::{Chart, MOST_BYTES};
use second::drawing::{Drawing, Kind};
use second::examine::{examine, test};
use second::folder::files;
use second::judge::{Verdict, judge};
use second::listing::listing;
use second::report::{Evidence, FULL_ROOM, body, entries, form};
use second::table::{c, c11_reports, charts};
use second::unique::{Unique, unique};
use second::{brute, holds};

fn number(chart: &Chart) -> u16 {
    examine(&chart.bytes()).number()
}

fn evidence(chart: &Chart) -> Evidence {
    match examine(&chart.bytes()) {
        second::examine::Outcome::Found(evidence) => evidence,
        refused => panic!("{refused:?}"),
    }
}

fn drawing(chart: Chart) -> Drawing {
    Drawing::new(chart).expect("past test 11")
}

#[test]
fn numbers() {
    let given: Vec<u16> = charts().iter().map(number).collect();
    assert_eq!(given, [0, 0, 11, 0, 12, 0, 13, 14, 0, 10]);
}

#[test]
fn evidence_is_the_only_one() {
    for chart in charts() {
        let bytes = chart.bytes();
        assert_eq!(unique(&bytes, &examine(&bytes)), Unique::Yes);
    }
}

#[test]
fn c1() {
    let mut bytes = c(1).bytes();
    assert_eq!(bytes.len(), 19);
    assert_eq!(evidence(&c(1)), Evidence::Labels(vec![2, 2]));
    let mut report = vec![7; FULL_ROOM];
    assert_eq!(test(&bytes, &mut report), (0, 10));
    assert_eq!(report[..10], *b"EVR\x01\x00\x00\x02\x00\x02\x02");
    assert!(report[10..].iter().all(|&byte| byte == 7));
    assert_eq!(examine(&bytes[..18]).number(), 5);
    bytes.push(0);
    assert_eq!(examine(&bytes).number(), 5);
}

#[test]
fn c2() {
    assert_eq!(evidence(&c(2)), Evidence::Labels(vec![0, 2, 2, 0]));
}

#[test]
fn c3_has_one_face() {
    let chart = c(3);
    let walk: Vec<usize> = (0..6).map(|dart| chart.next[dart ^ 1]).collect();
    assert_eq!(second::cycles::cycles(&walk).map(|faces| faces.len()), Some(1));
}

#[test]
fn c4_has_three_faces() {
    let drawing = drawing(c(4));
    assert_eq!(drawing.faces.len(), 3);
    assert_eq!(drawing.rooms().iter().sum::<i64>(), 2);
}

#[test]
fn c5() {
    assert_eq!(evidence(&c(5)), Evidence::Mixed(0));
    assert_eq!(drawing(c(5)).changes(0), 4);
}

#[test]
fn c6_has_outer_room_4() {
    let drawing = drawing(c(6));
    assert_eq!(drawing.rooms(), [4]);
    assert_eq!(drawing.changes(0), 2);
    assert_eq!(drawing.kind(0), Kind::Neither);
    assert_eq!(drawing.sources_and_sinks(), [1, 2, 3, 4]);
}

#[test]
fn c7() {
    assert_eq!(evidence(&c(7)), Evidence::Circle(vec![0, 1, 2]));
    let drawing = drawing(c(7));
    // An inner face with no switch corner has room -1.
    let rooms = drawing.rooms();
    assert_eq!(rooms.len(), 2);
    assert_eq!(rooms[drawing.outer_face()], 1);
    assert_eq!(rooms[1 - drawing.outer_face()], -1);
}

#[test]
fn c8() {
    assert_eq!(evidence(&c(8)), Evidence::Cut(vec![3]));
    let drawing = drawing(c(8));
    assert_eq!(drawing.outer_face(), 0);
    assert_eq!(drawing.rooms(), [2, 0]);
    assert_eq!(drawing.touched(3), [1]);
    assert_eq!(drawing.touched(0), [0, 1]);
    assert_eq!(brute::count_fitting_labellings(&drawing, 1 << 16), Some(0));
    assert_eq!(listing(&c(8).bytes()), "result 14 no room\nevent 3\n");
}

#[test]
fn c9() {
    assert_eq!(evidence(&c(9)), Evidence::Labels(vec![2, 1, 1, 0, 0, 1, 1, 2]));
    assert_eq!(c(9), Chart { outer: 1, ..c(8) });
    assert_eq!(listing(&c(9).bytes()), "result 0 drawable\nevent 0 corner 0\nevent 3 corner 7\n");
}

#[test]
fn c10() {
    assert_eq!(c(10), Chart { events: 3, ..c(1) });
}

#[test]
fn c11() {
    let chart = c(8).bytes();
    let [one, two] = c11_reports();
    assert_eq!(judge(&chart, &one), Verdict::CutHolds);
    assert_eq!(judge(&chart, &two), Verdict::NoCut);
    assert!(holds::cut_holds(&drawing(c(8)), &[3]));
    assert!(!holds::cut_holds(&drawing(c(8)), &[0, 3]));
}

#[test]
fn the_judge_reads_what_the_test_wrote() {
    for chart in charts() {
        let bytes = chart.bytes();
        let outcome = examine(&bytes);
        let verdict = match outcome.number() {
            0 => Verdict::LabelsHold,
            14 => Verdict::CutHolds,
            number => Verdict::Chart(number),
        };
        assert_eq!(judge(&bytes, &outcome.report()), verdict);
    }
}

#[test]
fn the_listing_names_every_number() {
    let words: Vec<String> =
        charts().iter().map(|chart| listing(&chart.bytes()).lines().next().unwrap_or_default().to_string()).collect();
    let (drawable, no_room) = ("result 0 drawable", "result 14 no room");
    assert_eq!(
        words,
        [
            drawable,
            drawable,
            "result 11 crossing",
            drawable,
            "result 12 mixed",
            drawable,
            "result 13 circle",
            no_room,
            drawable,
            "result 10 parted"
        ]
    );
    assert_eq!(listing(&c(7).bytes()), "result 13 circle\narrow 0\narrow 1\narrow 2\n");
    assert_eq!(listing(&c(5).bytes()), "result 12 mixed\nevent 0\n");
    assert_eq!(listing(b""), "result 2 mark\n");
    // However long a chart is, one byte over the limit is all that is read, and that is enough for 5.
    let mut long = c(1).bytes();
    long.resize(3 * MOST_BYTES, 0);
    assert_eq!(listing(&long), "result 5 length\n");
}

#[test]
fn form_and_body() {
    let good: [(&[u8], (u8, usize)); 4] = [
        (b"EVR\x01\x00\x00\x02\x00\x02\x02", (0, 2)),
        (b"EVR\x01\x00\x0c\x01\x00\x05\x00", (12, 1)),
        (b"EVR\x01\x00\x0d\x00\x00", (13, 0)),
        (b"EVR\x01\x00\x0e\x02\x00\x01\x00\x00\x01", (14, 2)),
    ];
    for (report, (result, count)) in good {
        assert_eq!(form(report), Some((result, count)));
        assert_eq!(body(report), 8..report.len());
        assert_eq!(entries(report).map(|list| list.len()), Some(count));
    }
    let bad: [&[u8]; 9] = [
        b"",
        b"EVR\x01\x00\x00\x00",
        b"EVC\x01\x00\x00\x00\x00",
        b"EVR\x02\x00\x00\x00\x00",
        b"EVR\x01\x01\x00\x00\x00",
        b"EVR\x01\x00\x01\x00\x00",
        b"EVR\x01\x00\x0f\x00\x00",
        b"EVR\x01\x00\x00\x01\x00",
        b"EVR\x01\x00\x0e\x01\x00\x01",
    ];
    for report in bad {
        assert_eq!(form(report), None);
        assert_eq!(body(report), 0..0);
    }
}

#[test]
fn the_folder_holds_these_charts() {
    for (name, bytes) in files() {
        let path = std::path::Path::new(env!("CARGO_MANIFEST_DIR")).join("charts").join(&name);
        assert_eq!(std::fs::read(path).ok(), Some(bytes), "{name}");
    }
}
