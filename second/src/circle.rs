//! Test 13: a circle of arrows, looked for depth first with three colours.

use crate::chart::Chart;

#[derive(Clone, Copy, PartialEq)]
enum Colour {
    /// Not reached yet.
    White,
    /// On the path walked at the moment.
    Grey,
    /// Done: no circle goes through it.
    Black,
}

/// Some circle, lowest arrow first, or none if there is none.
pub fn find(chart: &Chart) -> Option<Vec<usize>> {
    let mut leaving = vec![Vec::new(); chart.events];
    for (arrow, &(tail, _)) in chart.arrows.iter().enumerate() {
        leaving[tail].push(arrow);
    }
    let mut colour = vec![Colour::White; chart.events];
    for start in 0..chart.events {
        if colour[start] != Colour::White {
            continue;
        }
        colour[start] = Colour::Grey;
        // The grey events with the arrows still to try at each; `path` holds the arrows between them.
        let mut grey = vec![(start, 0)];
        let mut path: Vec<usize> = Vec::new();
        while let Some((event, tried)) = grey.last_mut() {
            let Some(&arrow) = leaving[*event].get(*tried) else {
                colour[*event] = Colour::Black;
                grey.pop();
                path.pop();
                continue;
            };
            *tried += 1;
            let head = chart.arrows[arrow].1;
            match colour[head] {
                Colour::Black => {}
                Colour::White => {
                    colour[head] = Colour::Grey;
                    grey.push((head, 0));
                    path.push(arrow);
                }
                Colour::Grey => {
                    path.push(arrow);
                    let from = path.iter().position(|&a| chart.arrows[a].0 == head);
                    return Some(lowest_first(path.split_off(from.expect("a grey event lies on the path"))));
                }
            }
        }
    }
    None
}

/// The same circle, begun at its lowest arrow.
pub fn lowest_first(mut circle: Vec<usize>) -> Vec<usize> {
    let lowest = (0..circle.len()).min_by_key(|&i| circle[i]).unwrap_or(0);
    circle.rotate_left(lowest);
    circle
}
