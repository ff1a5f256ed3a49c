//! The drawing: a chart past test 11, with its rings, faces, rooms, sources and sinks.

use crate::chart::{Chart, leaves, twin};
use crate::cycles::cycles;
use crate::union::Union;

pub struct Drawing {
    pub chart: Chart,
    /// The darts of each event, clockwise.
    pub rings: Vec<Vec<usize>>,
    /// The darts of each face as the walk meets them; faces are numbered by their lowest darts.
    pub faces: Vec<Vec<usize>>,
    /// The face of each dart.
    pub face: Vec<usize>,
}

/// What an event is. Past test 10 no event is both a source and a sink.
#[derive(Clone, Copy, Debug, PartialEq, Eq)]
pub enum Kind {
    Source,
    Sink,
    Neither,
}

impl Drawing {
    /// Tests 2 to 11: the drawing, or the number of the first that fails.
    pub fn read(bytes: &[u8]) -> Result<Drawing, u16> {
        Drawing::new(Chart::read(bytes)?)
    }

    /// Tests 9 to 11 of a chart past test 8.
    pub fn new(chart: Chart) -> Result<Drawing, u16> {
        let rings = rings(&chart).ok_or(9u16)?;
        if !joined(&chart) {
            return Err(10);
        }
        let walk: Vec<usize> = (0..chart.darts()).map(|d| chart.next[twin(d)]).collect();
        let faces = cycles(&walk).expect("the walk is a permutation because the successors are");
        let count = |n: usize| i64::try_from(n).expect("a small number");
        if count(chart.events) - count(chart.arrows.len()) + count(faces.len()) != 2 {
            return Err(11);
        }
        let mut face = vec![0; chart.darts()];
        for (number, darts) in faces.iter().enumerate() {
            for &dart in darts {
                face[dart] = number;
            }
        }
        Ok(Drawing { chart, rings, faces, face })
    }

    /// The face of a corner is the one that holds the successor.
    pub fn corner_face(&self, corner: usize) -> usize {
        self.face[self.chart.next[corner]]
    }

    pub fn outer_face(&self) -> usize {
        self.face[self.chart.outer]
    }

    /// The corners of each face.
    pub fn corners(&self) -> Vec<Vec<usize>> {
        let mut corners = vec![Vec::new(); self.faces.len()];
        for corner in 0..self.chart.darts() {
            corners[self.corner_face(corner)].push(corner);
        }
        corners
    }

    /// The room of each face, signed: half its switch corners, less one, or plus one for the outer face.
    pub fn rooms(&self) -> Vec<i64> {
        let mut switches = vec![0i64; self.faces.len()];
        for corner in 0..self.chart.darts() {
            if self.chart.is_switch(corner) {
                switches[self.corner_face(corner)] += 1;
            }
        }
        assert!(switches.iter().all(|count| count % 2 == 0), "a face has an even number of switch corners");
        self.rooms_with(&switches)
    }

    /// The rooms that faces with these numbers of switch corners have.
    pub fn rooms_with(&self, switches: &[i64]) -> Vec<i64> {
        let outer = self.outer_face();
        let room = |(face, &count): (usize, &i64)| count / 2 + if face == outer { 1 } else { -1 };
        switches.iter().enumerate().map(room).collect()
    }

    /// A source has no entering arrow, a sink no leaving one.
    pub fn kind(&self, event: usize) -> Kind {
        let leaving = self.rings[event].iter().filter(|&&d| leaves(d)).count();
        if leaving == self.rings[event].len() {
            Kind::Source
        } else if leaving == 0 {
            Kind::Sink
        } else {
            Kind::Neither
        }
    }

    pub fn is_source_or_sink(&self, event: usize) -> bool {
        self.kind(event) != Kind::Neither
    }

    /// The sources and sinks, ascending.
    pub fn sources_and_sinks(&self) -> Vec<usize> {
        (0..self.chart.events).filter(|&v| self.is_source_or_sink(v)).collect()
    }

    /// The faces that an event touches, each once, ascending.
    pub fn touched(&self, event: usize) -> Vec<usize> {
        let mut faces: Vec<usize> = self.rings[event].iter().map(|&c| self.corner_face(c)).collect();
        faces.sort_unstable();
        faces.dedup();
        faces
    }

    /// How often the direction changes, going once round the event.
    pub fn changes(&self, event: usize) -> usize {
        let ring = &self.rings[event];
        (0..ring.len()).filter(|&i| leaves(ring[i]) != leaves(ring[(i + 1) % ring.len()])).count()
    }

    /// The lowest mixed event.
    pub fn lowest_mixed(&self) -> Option<usize> {
        (0..self.chart.events).find(|&v| self.changes(v) > 2)
    }
}

/// Test 9: the ring of each event (empty where the event has no darts), or none.
///
/// The successors are a permutation, each of its cycles stays at one event, and there are as many cycles as
/// events with darts: so each such event has one ring and it holds exactly its darts.
pub fn rings(chart: &Chart) -> Option<Vec<Vec<usize>>> {
    let all = cycles(&chart.next)?;
    let mut rings = vec![Vec::new(); chart.events];
    let mut with_darts = vec![false; chart.events];
    for dart in 0..chart.darts() {
        with_darts[chart.at(dart)] = true;
    }
    if all.len() != with_darts.iter().filter(|&&has| has).count() {
        return None;
    }
    for ring in all {
        let event = chart.at(ring[0]);
        if ring.iter().any(|&dart| chart.at(dart) != event) {
            return None;
        }
        rings[event] = ring;
    }
    Some(rings)
}

/// Test 10: the arrows, direction ignored, join all events.
pub fn joined(chart: &Chart) -> bool {
    let mut union = Union::new(chart.events);
    for &(tail, head) in &chart.arrows {
        union.join(tail, head);
    }
    union.parts() == 1
}
