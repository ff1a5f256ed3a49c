//! The library over pipes, where it cannot be linked: with reports and charts of no bytes, and of more than a pipe holds.
#![cfg(served)]

use second::desk::{self, Desk};
use second::report::FULL_ROOM;
use second::stand_in::StandIn;
use second::table;

#[test]
fn every_length_comes_back() {
    // Without the program there is nothing to ask.
    let Ok(library) = desk::library() else { return };
    let right = StandIn { wrong: None };
    for chart in [Vec::new(), table::c(9).bytes(), vec![7; 70_000]] {
        for len in [0, 1, FULL_ROOM - 1, FULL_ROOM, 65_535, 65_536, 70_000, 200_000] {
            let before: Vec<u8> = (0..len).map(|at| (at % 251) as u8).collect();
            let (mut given, mut wanted) = (before.clone(), before.clone());
            assert_eq!(library.test(&chart, &mut given), right.test(&chart, &mut wanted), "{len}");
            // C9 has one labelling only, so the reports are the same, and so is what lies behind them.
            assert_eq!(given, wanted);
            assert_eq!(library.form(&before), right.form(&before));
            assert_eq!(library.body(&before), right.body(&before));
            assert_eq!(library.judge(&chart, &before), right.judge(&chart, &before));
        }
    }
}
