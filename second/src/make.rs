//! Random charts aimed at a number. A maker may miss its aim; `exactly` tries until it hits.

use crate::chart::{Chart, MOST_ARROWS, MOST_EVENTS};
use crate::drawing::rings;
use crate::examine::examine;
use crate::grow::{self, Aim, grow};
use crate::rng::Rng;
use crate::sketch::Sketch;
use crate::spoil::spoil;
use crate::upward::{self, upward};

/// How large charts may become.
#[derive(Clone, Copy, Debug, PartialEq, Eq)]
pub enum Size {
    /// 2 to 8 events: brute force can follow.
    Small,
    /// 9 to 60 events.
    Middle,
    /// Up to 1,024 events and 3,072 arrows.
    Large,
}

impl Size {
    /// Mostly small: faults hide in small charts, and they are quick.
    pub fn random(rng: &mut Rng) -> Size {
        match rng.below(20) {
            0..=12 => Size::Small,
            13..=17 => Size::Middle,
            _ => Size::Large,
        }
    }

    fn events(self, rng: &mut Rng) -> usize {
        match self {
            Size::Small => rng.between(2, 8),
            Size::Middle => rng.between(9, 60),
            Size::Large if rng.one_in(4) => MOST_EVENTS,
            Size::Large => rng.between(61, MOST_EVENTS),
        }
    }

    /// At least as many arrows as join the events.
    fn arrows(self, rng: &mut Rng, events: usize) -> usize {
        let least = events - 1;
        let most = match self {
            Size::Large if rng.one_in(8) => MOST_ARROWS,
            _ => (3 * events).min(MOST_ARROWS),
        };
        match rng.below(4) {
            0 => least,
            1 => least + rng.below(1 + (most - least) / 4),
            2 => rng.between(least, most),
            _ => most,
        }
    }
}

/// Every number that the test gives with a full report room.
pub const NUMBERS: [u16; 14] = [0, 2, 3, 4, 5, 6, 7, 8, 9, 10, 11, 12, 13, 14];

/// A chart that is likely to get the number.
pub fn aimed(rng: &mut Rng, number: u16, size: Size) -> Vec<u8> {
    match number {
        0 => drawable(rng, size).bytes(),
        2..=9 => {
            let mut bytes = any(rng, size).bytes();
            spoil(rng, &mut bytes, number);
            bytes
        }
        10 => parted(rng, size).bytes(),
        11 => crossing(rng, size).bytes(),
        12 => {
            let numbered = rng.coin();
            grown(rng, size, Aim { numbered, unmixed: false }).shuffled(rng).bytes()
        }
        13 => circling(rng, size).bytes(),
        14 => no_room(rng, size).bytes(),
        _ => unreachable!("no maker aims at {number}"),
    }
}

/// A chart that gets the number.
pub fn exactly(rng: &mut Rng, number: u16, size: Size) -> Vec<u8> {
    loop {
        let bytes = aimed(rng, number, size);
        if examine(&bytes).number() == number {
            return bytes;
        }
    }
}

/// Some chart past test 11, in most cases.
fn any(rng: &mut Rng, size: Size) -> Chart {
    match rng.below(4) {
        0 => grown(rng, size, Aim { numbered: false, unmixed: false }).shuffled(rng),
        1 => circling(rng, size),
        2 => no_room(rng, size),
        _ => drawable(rng, size),
    }
}

fn grown(rng: &mut Rng, size: Size, aim: Aim) -> Sketch {
    let events = size.events(rng);
    let arrows = size.arrows(rng, events);
    let dead_ends = *rng.pick(&[0, 1, 5, 9, 10]);
    let doubles = rng.one_in(4);
    grow(rng, grow::Plan { events, arrows, dead_ends, doubles, aim })
}

/// A sketch of a true drawing with some arrows doubled.
fn drawn(rng: &mut Rng, size: Size) -> Sketch {
    let events = size.events(rng);
    let arrows = size.arrows(rng, events);
    let most_sources_and_sinks = *rng.pick(&[2, 2 + events / 10, 2 + events / 3, events]);
    let mut sketch = upward(rng, upward::Plan { events, arrows, most_sources_and_sinks });
    if rng.one_in(3) {
        let most = MOST_ARROWS - sketch.arrows();
        for _ in 0..rng.below(1 + most.min(events)) {
            let dart = rng.below(sketch.darts());
            sketch.double(dart);
        }
    }
    sketch
}

/// Aimed at 0.
fn drawable(rng: &mut Rng, size: Size) -> Chart {
    match rng.below(6) {
        // A large chart that grew freely is seldom drawable.
        0 => grown(rng, size, Aim { numbered: true, unmixed: true }).shuffled(rng),
        1 => tree(rng, size).shuffled(rng),
        _ => drawn(rng, size).shuffled(rng),
    }
}

/// A tree without mixed events: one face, so every labelling is forced to exist.
fn tree(rng: &mut Rng, size: Size) -> Sketch {
    let events = size.events(rng);
    let mut sketch = Sketch::new();
    while sketch.events < events {
        hang(rng, &mut sketch, 1);
    }
    sketch.outer = rng.below(sketch.darts());
    sketch
}

/// Hangs dead ends into random corners without mixing an event.
fn hang(rng: &mut Rng, sketch: &mut Sketch, times: usize) {
    for _ in 0..times {
        let corner = rng.below(sketch.darts());
        let outward = rng.coin();
        let outward = if sketch.changes_with(corner, outward) > 2 { !outward } else { outward };
        if sketch.changes_with(corner, outward) <= 2 && sketch.arrows() < MOST_ARROWS && sketch.events < MOST_EVENTS {
            sketch.dead_end(corner, outward);
        }
    }
}

/// Aimed at 14: past test 13, with an outer face elsewhere, or dead ends in faces of too little room.
fn no_room(rng: &mut Rng, size: Size) -> Chart {
    match rng.below(5) {
        0 => grown(rng, size, Aim { numbered: true, unmixed: true }).shuffled(rng),
        1 | 2 => {
            let mut sketch = drawn(rng, size);
            sketch.outer = rng.below(sketch.darts());
            sketch.shuffled(rng)
        }
        _ => {
            let mut sketch = drawn(rng, size);
            let times = 1 + rng.below(1 + sketch.events / 8);
            hang(rng, &mut sketch, times);
            sketch.shuffled(rng)
        }
    }
}

/// Aimed at 13.
fn circling(rng: &mut Rng, size: Size) -> Chart {
    if rng.one_in(3) {
        let mut sketch = drawn(rng, size);
        turn_some(rng, &mut sketch);
        sketch.shuffled(rng)
    } else {
        grown(rng, size, Aim { numbered: false, unmixed: true }).shuffled(rng)
    }
}

/// Turns some arrows round where that mixes no event.
pub fn turn_some(rng: &mut Rng, sketch: &mut Sketch) {
    for _ in 0..1 + rng.below(sketch.events) {
        let arrow = rng.below(sketch.arrows());
        sketch.turn(arrow);
        if [2 * arrow, 2 * arrow + 1].iter().any(|&dart| sketch.changes[sketch.at[dart]] > 2) {
            sketch.turn(arrow);
        }
    }
}

/// Aimed at 10: events without arrows, or two charts beside each other.
fn parted(rng: &mut Rng, size: Size) -> Chart {
    let mut chart = any(rng, size);
    if rng.coin() {
        let lone = 1 + rng.below(3);
        chart.events = (chart.events + lone).min(MOST_EVENTS);
    } else {
        let other = any(rng, Size::Small);
        if chart.events + other.events <= MOST_EVENTS && chart.arrows.len() + other.arrows.len() <= MOST_ARROWS {
            lay_beside(&mut chart, &other);
        }
    }
    let names = rng.order(chart.events);
    for arrow in &mut chart.arrows {
        *arrow = (names[arrow.0], names[arrow.1]);
    }
    chart
}

/// Lays another chart beside a chart, not joined with it.
pub fn lay_beside(chart: &mut Chart, other: &Chart) {
    let (events, darts) = (chart.events, chart.darts());
    chart.arrows.extend(other.arrows.iter().map(|&(tail, head)| (tail + events, head + events)));
    chart.next.extend(other.next.iter().map(|&dart| dart + darts));
    chart.events += other.events;
}

/// Aimed at 11: true rings in an order that no plane shows.
fn crossing(rng: &mut Rng, size: Size) -> Chart {
    let mut chart = if rng.one_in(3) { wild(rng, size) } else { any(rng, size) };
    reorder_some(rng, &mut chart);
    chart
}

/// Gives the rings of some events, if there are rings, another order.
pub fn reorder_some(rng: &mut Rng, chart: &mut Chart) {
    if let Some(rings) = rings(chart) {
        for _ in 0..1 + rng.below(3) {
            let mut ring = rings[rng.below(chart.events)].clone();
            rng.shuffle(&mut ring);
            set_ring(chart, &ring);
        }
    }
}

/// Makes the darts, all at one event, follow each other.
fn set_ring(chart: &mut Chart, ring: &[usize]) {
    for (i, &dart) in ring.iter().enumerate() {
        chart.next[dart] = ring[(i + 1) % ring.len()];
    }
}

/// Random arrows in random rings; past test 10 only by luck.
fn wild(rng: &mut Rng, size: Size) -> Chart {
    let events = size.events(rng);
    let count = size.arrows(rng, events);
    let mut rings = vec![Vec::new(); events];
    let mut arrows = Vec::new();
    for arrow in 0..count {
        // The first arrows join each event to an earlier one, now and then.
        let tail = if arrow + 1 < events && !rng.one_in(2 * events) { arrow + 1 } else { rng.below(events) };
        let mut head = if arrow + 1 < events { rng.below(arrow + 1) } else { rng.below(events) };
        if head == tail {
            head = (tail + 1) % events;
        }
        let turn = rng.coin();
        arrows.push(if turn { (head, tail) } else { (tail, head) });
        rings[arrows[arrow].0].push(2 * arrow);
        rings[arrows[arrow].1].push(2 * arrow + 1);
    }
    let outer = rng.below(2 * count);
    let mut chart = Chart { events, outer, arrows, next: vec![0; 2 * count] };
    for ring in &mut rings {
        rng.shuffle(ring);
        set_ring(&mut chart, ring);
    }
    chart
}
