//! The text form of charts.

use second::chart::Chart;
use second::make::{Size, aimed};
use second::rng::Rng;
use second::table::charts;
use second::text::{parse, print, show};

#[test]
fn there_and_back() {
    for chart in charts() {
        assert_eq!(parse(&print(&chart)), Ok(chart.clone()));
        assert_eq!(show(&chart.bytes()), Ok(print(&chart)));
    }
    let mut rng = Rng::new(21);
    for number in [0, 10, 11, 12, 13, 14] {
        for _ in 0..50 {
            let bytes = aimed(&mut rng, number, Size::Middle);
            let text = show(&bytes).expect("past test 9");
            assert_eq!(parse(&text).map(|chart| chart.bytes()), Ok(bytes));
        }
    }
}

#[test]
fn both_names_of_a_dart() {
    let by_number = "events 2\narrow 0 1\narrow 0 1 # beside\n\nround 0 0 2\nround 1 1 3";
    let by_arrow = "round 1 0- 1-\nround 0 0+ 1+\nouter 0+\narrow 0 1\narrow 0 1\nevents 2\n";
    let two = charts().swap_remove(1);
    assert_eq!(parse(by_number), Ok(two.clone()));
    assert_eq!(parse(by_arrow), Ok(two));
}

#[test]
fn an_event_without_darts_needs_no_line() {
    let text = "events 3\narrow 0 1\nround 0 0\nround 1 1\n";
    assert_eq!(parse(text), Ok(charts().swap_remove(9)));
    assert_eq!(parse(&format!("{text}round 2\n")), Ok(charts().swap_remove(9)));
}

#[test]
fn what_is_wrong_is_said() {
    let good = "events 2\narrow 0 1\nround 0 0\nround 1 1\n";
    assert!(parse(good).is_ok());
    let wrong = [
        ("", "there is no line `events`"),
        ("events 2\n", "there is no line `arrow`"),
        ("events 1\n", "line 1: a chart has 2 to 1024 events, not 1"),
        ("events 1025\n", "line 1: a chart has 2 to 1024 events, not 1025"),
        ("events x\n", "line 1: `x` is no number from 0 to 65535"),
        ("events +3\n", "line 1: `+3` is no number from 0 to 65535"),
        ("events 70000\n", "line 1: `70000` is no number from 0 to 65535"),
        ("events 2\nevents 2\n", "line 2: a second line `events`"),
        ("events 2\narrow 0 0\n", "line 2: an arrow from event 0 to itself"),
        ("arrow 0 2\nevents 2\n", "line 1: event 2, but there are 2 events"),
        ("events 2\narrow 0 1\nround 0 0\n", "dart 0- at event 1 stands in no line `round`"),
        ("events 2\narrow 0 1\nround 0 0 1\n", "line 3: dart 0- stands at event 1, not at event 0"),
        ("events 2\narrow 0 1\nround 0 0 0\n", "line 3: dart 0+ is named a second time"),
        ("events 2\narrow 0 1\nround 0 2\n", "line 3: there is no dart 2, for the arrows are numbered below 1"),
        ("events 2\narrow 0 1\nround 0 1+\n", "line 3: there is no dart 1+, for the arrows are numbered below 1"),
        ("events 2\narrow 0 1\nround 0 +\n", "line 3: `` is no number from 0 to 65535"),
        ("events 2\narrow 0 1\nround 2 0\n", "line 3: event 2, but there are 2 events"),
        ("events 2\nouter 2\narrow 0 1\n", "line 2: there is no dart 2, for the arrows are numbered below 1"),
        (
            "events 2\narrow 0 1\narrow 0 1\nround 0 0\nround 0 2\nround 1 1 3\n",
            "the darts of some event stand in more than one line `round`",
        ),
        (
            "event 2\n",
            "line 1: `event` with 1 more words; known are `events N`, `outer D`, `arrow T H` and `round E D ..`",
        ),
    ];
    for (text, why) in wrong {
        assert_eq!(parse(text), Err(why.to_string()), "{text:?}");
    }
    assert_eq!(show(b""), Err("this file gets 2 (mark) and has no text".into()));
    let unordered = Chart { next: vec![1, 0], ..charts().swap_remove(0) };
    assert_eq!(show(&unordered.bytes()), Err("this file gets 9 (order) and has no text".into()));
}
