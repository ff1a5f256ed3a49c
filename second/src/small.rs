//! Every chart of a few events and arrows.

use crate::chart::Chart;

/// Counts rows of digits, the first digit fastest: `each` sees every row with digit i below `ranges[i]`.
fn count_up<E>(ranges: &[usize], mut each: impl FnMut(&[usize]) -> Result<(), E>) -> Result<(), E> {
    let mut row = vec![0; ranges.len()];
    loop {
        each(&row)?;
        let Some(place) = (0..row.len()).find(|&place| row[place] + 1 < ranges[place]) else {
            return Ok(());
        };
        row[place] += 1;
        row[..place].fill(0);
    }
}

/// Every chart of the given numbers of events and arrows. Tails and heads go up to V, the outer dart and the
/// successors up to 2A, so that each is also one too large.
pub fn every<E>(events: usize, arrows: usize, mut each: impl FnMut(&[u8]) -> Result<(), E>) -> Result<(), E> {
    let mut ranges = vec![2 * arrows + 1];
    ranges.extend(vec![events + 1; 2 * arrows]);
    ranges.extend(vec![2 * arrows + 1; 2 * arrows]);
    count_up(&ranges, |row| {
        let (ends, next) = row[1..].split_at(2 * arrows);
        let arrows = ends.chunks(2).map(|pair| (pair[0], pair[1])).collect();
        each(&Chart { events, outer: row[0], arrows, next: next.to_vec() }.bytes())
    })
}

/// Every chart past test 9 of the given numbers: all arrows, all rings, all outer darts.
/// With `sorted`, only charts whose arrows ascend; the others are the same but for the arrows' numbers.
pub fn every_ringed<E>(
    events: usize,
    arrows: usize,
    sorted: bool,
    mut each: impl FnMut(&[u8]) -> Result<(), E>,
) -> Result<(), E> {
    // An arrow's digit names its tail and which of the other events is its head.
    count_up(&vec![events * (events - 1); arrows], |row| {
        if sorted && !row.is_sorted() {
            return Ok(());
        }
        let arrow = |&digit: &usize| {
            let (tail, other) = (digit / (events - 1), digit % (events - 1));
            (tail, if other < tail { other } else { other + 1 })
        };
        let mut chart = Chart { events, outer: 0, arrows: row.iter().map(arrow).collect(), next: Vec::new() };
        // A ring of n darts comes from inserting its darts one by one: dart i has i places, the first has one.
        let place =
            |dart: usize| (0..dart).filter(|&earlier| chart.at(earlier) == chart.at(dart)).collect::<Vec<usize>>();
        let places: Vec<Vec<usize>> = (0..2 * arrows).map(place).collect();
        let ranges: Vec<usize> = places.iter().map(|places| places.len().max(1)).collect();
        count_up(&ranges, |row| {
            chart.next.clear();
            for (dart, places) in places.iter().enumerate() {
                chart.next.push(dart);
                if let Some(&before) = places.get(row[dart]) {
                    chart.next.swap(before, dart);
                }
            }
            for outer in 0..2 * arrows {
                chart.outer = outer;
                each(&chart.bytes())?;
            }
            Ok(())
        })
    })
}
