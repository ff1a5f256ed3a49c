//! Test 14: each source and sink sends one large corner into a face that it touches, each face takes its room.
//! If all arrive the flow is a labelling; if not, what the rest of the flow reaches is a cut.

use crate::drawing::Drawing;
use crate::flow::{Network, UNBOUNDED};

pub enum Placing {
    /// A label for each corner.
    Labels(Vec<u8>),
    /// The events of a cut, ascending.
    Cut(Vec<usize>),
}

/// For a drawing past test 13.
pub fn place(drawing: &Drawing) -> Placing {
    place_in(drawing, &drawing.rooms())
}

/// The same with given rooms, right or wrong; a face of negative room takes nothing.
pub fn place_in(drawing: &Drawing, rooms: &[i64]) -> Placing {
    let events = drawing.sources_and_sinks();
    let (start, end) = (0, 1);
    let station_of_face = |face: usize| 2 + face;
    let station_of = |i: usize| 2 + rooms.len() + i;

    let mut network = Network::new(2 + rooms.len() + events.len());
    for (face, &room) in rooms.iter().enumerate() {
        network.lay(station_of_face(face), end, room.max(0));
    }
    // For each source or sink the pipe to each corner's face, one for each corner.
    let mut pipes: Vec<Vec<(usize, usize)>> = Vec::new();
    for (i, &event) in events.iter().enumerate() {
        network.lay(start, station_of(i), 1);
        let to_face = |&corner: &usize| {
            let face = station_of_face(drawing.corner_face(corner));
            (corner, network.lay(station_of(i), face, UNBOUNDED))
        };
        pipes.push(drawing.rings[event].iter().map(to_face).collect());
    }

    if usize::try_from(network.fill(start, end)) == Ok(events.len()) {
        let mut labels: Vec<u8> =
            (0..drawing.chart.darts()).map(|corner| if drawing.chart.is_switch(corner) { 0 } else { 1 }).collect();
        for &(corner, pipe) in pipes.iter().flatten() {
            if network.carried(pipe) == 1 {
                labels[corner] = 2;
            }
        }
        Placing::Labels(labels)
    } else {
        let reached = network.reached(start);
        Placing::Cut((0..events.len()).filter(|&i| reached[station_of(i)]).map(|i| events[i]).collect())
    }
}
