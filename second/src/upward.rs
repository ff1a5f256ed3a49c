//! Charts that can be drawn, because they come from a drawing: points of the plane, joined by straight arrows that
//! climb. The points are triangulated by a sweep from left to right, then arrows are taken away.

use crate::rng::Rng;
use crate::sketch::Sketch;
use crate::union::Union;
use std::cmp::Ordering;

type Point = (i64, i64);

/// What a drawn chart should be like.
#[derive(Clone, Copy, Debug)]
pub struct Plan {
    pub events: usize,
    /// Arrows are taken away until this many are left, or no more than join all events.
    pub arrows: usize,
    /// No arrow is taken away where that would give more sources and sinks than this.
    pub most_sources_and_sinks: usize,
}

/// A sketch of the drawing; its outer dart lies in the true outer face.
pub fn upward(rng: &mut Rng, plan: Plan) -> Sketch {
    let points = scatter(rng, plan.events);
    let lines = thin(rng, &points, triangulate(&points), plan);
    let mut around: Vec<Vec<usize>> = vec![Vec::new(); points.len()];
    for (arrow, &(low, high)) in lines.iter().enumerate() {
        around[low].push(2 * arrow);
        around[high].push(2 * arrow + 1);
    }
    let ends = |dart: usize| {
        let (low, high) = lines[dart / 2];
        if dart.is_multiple_of(2) { (low, high) } else { (high, low) }
    };
    let mut sketch = Sketch {
        events: points.len(),
        at: (0..2 * lines.len()).map(|dart| ends(dart).0).collect(),
        next: vec![0; 2 * lines.len()],
        prev: vec![0; 2 * lines.len()],
        leaves: (0..2 * lines.len()).map(|dart| dart.is_multiple_of(2)).collect(),
        changes: vec![0; points.len()],
        outer: 0,
    };
    for ring in &mut around {
        ring.sort_by(|&one, &other| {
            let way = |dart| {
                let (from, to) = ends(dart);
                (points[to].0 - points[from].0, points[to].1 - points[from].1)
            };
            clockwise(way(one), way(other))
        });
        for (i, &dart) in ring.iter().enumerate() {
            let after = ring[(i + 1) % ring.len()];
            sketch.next[dart] = after;
            sketch.prev[after] = dart;
        }
    }
    for dart in 0..sketch.darts() {
        sketch.changes[sketch.at[dart]] = sketch.changes_round(dart);
    }
    // Below the lowest event lies the outer face; it holds that event's leftmost dart, the first of its ring.
    let lowest = (0..points.len()).min_by_key(|&v| points[v].1).expect("there are events");
    sketch.outer = around[lowest][0];
    sketch
}

/// Points no two of which have the same height or the same place from left to right.
fn scatter(rng: &mut Rng, count: usize) -> Vec<Point> {
    let heights = rng.order(count);
    let spread = |rng: &mut Rng, i: usize| (i as i64) * 1_000_000 + rng.below(1_000_000) as i64;
    (0..count).map(|i| (spread(rng, i), spread(rng, heights[i]))).collect()
}

/// Twice the area of the triangle, positive if it runs anticlockwise.
fn area((ax, ay): Point, (bx, by): Point, (cx, cy): Point) -> i64 {
    (bx - ax) * (cy - ay) - (by - ay) * (cx - ax)
}

/// All pairs of points that a triangulation joins. The points are ordered from left to right.
fn triangulate(points: &[Point]) -> Vec<(usize, usize)> {
    let mut lines = vec![(0, 1)];
    let (mut upper, mut lower) = (vec![0, 1], vec![0, 1]);
    for new in 2..points.len() {
        // The last point stands on both borders; the new one sees it, and further points while the border bends in.
        lines.push((new - 1, new));
        for (border, side) in [(&mut upper, 1), (&mut lower, -1)] {
            while border.len() >= 2 {
                let (last, before) = (border[border.len() - 1], border[border.len() - 2]);
                if side * area(points[before], points[last], points[new]) <= 0 {
                    break;
                }
                lines.push((before, new));
                border.pop();
            }
            border.push(new);
        }
    }
    lines
}

/// Takes lines away in random order and turns the rest to climb.
fn thin(rng: &mut Rng, points: &[Point], mut lines: Vec<(usize, usize)>, plan: Plan) -> Vec<(usize, usize)> {
    for line in &mut lines {
        if points[line.0].1 > points[line.1].1 {
            *line = (line.1, line.0);
        }
    }
    rng.shuffle(&mut lines);
    let mut union = Union::new(points.len());
    let needed: Vec<bool> = lines.iter().map(|&(low, high)| union.join(low, high)).collect();
    let (mut leaving, mut entering) = (vec![0usize; points.len()], vec![0usize; points.len()]);
    for &(low, high) in &lines {
        leaving[low] += 1;
        entering[high] += 1;
    }
    let mut bare = (0..points.len()).filter(|&v| leaving[v] == 0 || entering[v] == 0).count();
    let mut left = lines.len();
    let mut kept = Vec::new();
    for (&(low, high), needed) in lines.iter().zip(needed) {
        let more = usize::from(leaving[low] == 1) + usize::from(entering[high] == 1);
        if needed || left <= plan.arrows || bare + more > plan.most_sources_and_sinks {
            kept.push((low, high));
        } else {
            left -= 1;
            bare += more;
            leaving[low] -= 1;
            entering[high] -= 1;
        }
    }
    kept
}

/// Clockwise order of directions, beginning straight to the left.
fn clockwise(one: Point, other: Point) -> Ordering {
    // From the left over the top to the right come the climbing directions, then the falling ones.
    let falls = |(_, y): Point| y < 0;
    let turn = one.0 * other.1 - one.1 * other.0;
    falls(one).cmp(&falls(other)).then(turn.cmp(&0))
}
