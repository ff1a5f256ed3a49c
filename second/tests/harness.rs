//! The comparison passes a right desk and finds every wrong one.

use second::comparison::{Comparison, Difference};
use second::make::{NUMBERS, Size, aimed};
use second::rng::Rng;
use second::spoil::{damage, limits};
use second::stand_in::{StandIn, WRONGS};
use second::table;

/// As the program `compare` does, on fewer charts.
fn run(desk: &StandIn, charts: usize) -> Result<(), Difference> {
    let mut rng = Rng::new(11);
    let mut comparison = Comparison::new(desk, 12);
    for chart in table::charts() {
        comparison.chart(&chart.bytes())?;
    }
    for file in limits(&mut rng) {
        comparison.chart(&file)?;
    }
    for _ in 0..charts {
        let number = *rng.pick(&NUMBERS);
        let mut chart = aimed(&mut rng, number, Size::Small);
        comparison.chart(&chart)?;
        damage(&mut rng, &mut chart);
        comparison.chart(&chart)?;
    }
    Ok(())
}

#[test]
fn a_right_desk_passes() {
    if let Err(difference) = run(&StandIn { wrong: None }, 500) {
        panic!("{difference:?}");
    }
}

#[test]
fn every_wrong_desk_is_found() {
    for &wrong in WRONGS {
        let Err(difference) = run(&StandIn { wrong: Some(wrong) }, 2000) else {
            panic!("{wrong:?} was not found");
        };
        println!("{wrong:?}: {}", difference.message);
    }
}
