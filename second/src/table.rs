//! Charts C1 to C10 of document 01 and the reports of C11.

use crate::chart::Chart;
use crate::report::listed;

fn chart(events: usize, arrows: &[(usize, usize)], next: &[usize], outer: usize) -> Chart {
    Chart { events, outer, arrows: arrows.to_vec(), next: next.to_vec() }
}

/// C1 to C10, in order.
pub fn charts() -> Vec<Chart> {
    let three = [(0, 1); 3];
    let star = [(1, 0), (0, 2), (3, 0), (0, 4)];
    let hung = [(0, 1), (1, 2), (0, 2), (2, 3)];
    vec![
        chart(2, &[(0, 1)], &[0, 1], 0),
        chart(2, &[(0, 1); 2], &[2, 3, 0, 1], 0),
        chart(2, &three, &[2, 3, 4, 5, 0, 1], 0),
        chart(2, &three, &[2, 5, 4, 1, 0, 3], 0),
        // Round event 0 stand darts 1, 2, 5 and 6, of arrows 0 to 3: in that order in C5, as 0, 2, 1, 3 in C6.
        chart(5, &star, &[0, 2, 5, 3, 4, 6, 1, 7], 0),
        chart(5, &star, &[0, 5, 6, 3, 4, 2, 1, 7], 0),
        chart(3, &[(0, 1), (1, 2), (2, 0)], &[5, 2, 1, 4, 3, 0], 0),
        chart(4, &hung, &[4, 2, 1, 5, 0, 6, 3, 7], 0),
        chart(4, &hung, &[4, 2, 1, 5, 0, 6, 3, 7], 1),
        chart(3, &[(0, 1)], &[0, 1], 0),
    ]
}

/// Chart Cn, n from 1 to 10.
pub fn c(n: usize) -> Chart {
    charts().swap_remove(n - 1)
}

/// C11: the two reports that the judge reads on C8, the lists 3 and 0 3.
pub fn c11_reports() -> [Vec<u8>; 2] {
    [listed(14, &[3]), listed(14, &[0, 3])]
}
