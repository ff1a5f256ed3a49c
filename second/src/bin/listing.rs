//! `listing < chart`: the listing of document 01, by the second program.
//! A remark on standard error says where another labelling, circle or cut could stand in its place.

use second::chart::MOST_BYTES;
use second::examine::examine;
use second::listing::listing_of;
use second::unique::{Unique, unique};
use std::io::{self, Read, Write};
use std::process::ExitCode;

fn main() -> ExitCode {
    let mut chart = Vec::new();
    let most = u64::try_from(MOST_BYTES + 1).expect("a small number");
    if let Err(why) = io::stdin().take(most).read_to_end(&mut chart) {
        let _ = writeln!(io::stderr(), "listing: {why}");
        return ExitCode::FAILURE;
    }
    let outcome = examine(&chart);
    if io::stdout().write_all(listing_of(&chart, &outcome).as_bytes()).is_err() {
        return ExitCode::FAILURE;
    }
    let _ = match unique(&chart, &outcome) {
        Unique::Yes => Ok(()),
        Unique::No => writeln!(io::stderr(), "another listing is right as well: the evidence isn't unique"),
        Unique::NotKnown => writeln!(io::stderr(), "another listing may be right as well: not known unique"),
    };
    ExitCode::SUCCESS
}
