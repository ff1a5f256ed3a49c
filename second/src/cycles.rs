//! A permutation and its cycles: the rings are the cycles of the successors, the faces those of the face walk.

/// The cycles of a permutation, each from its lowest member on, ordered by these lowest members.
/// None if `step` is no permutation of the numbers below its length.
pub fn cycles(step: &[usize]) -> Option<Vec<Vec<usize>>> {
    let mut reached = vec![false; step.len()];
    for &to in step {
        if to >= step.len() || reached[to] {
            return None;
        }
        reached[to] = true;
    }
    let mut told = vec![false; step.len()];
    let mut all = Vec::new();
    for start in 0..step.len() {
        if told[start] {
            continue;
        }
        let mut cycle = Vec::new();
        let mut here = start;
        while !told[here] {
            told[here] = true;
            cycle.push(here);
            here = step[here];
        }
        all.push(cycle);
    }
    Some(all)
}
