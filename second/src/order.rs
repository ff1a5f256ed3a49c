//! Charts with a broken order: good rings damaged in one of many ways, each of which gets number 9.
//! What is done is a list of changed entries; the arrows stay as they are.

use crate::chart::Chart;
use crate::drawing::rings;
use crate::hubs;
use crate::make::{Size, aimed};
use crate::rng::Rng;
use std::cmp::Reverse;

/// The largest number of 16 bits.
const TOP: usize = 65535;

/// How often a kind that needs luck is tried at one event.
const TRIES: usize = 8;

/// Darts, each with its new successor.
type Changes = Vec<(usize, usize)>;

macro_rules! breaks {
    ($($(#[$doc:meta])* $kind:ident = $name:literal,)*) => {
        /// The ways in which an order can be broken. The walk is the one from the event's highest dart.
        #[derive(Clone, Copy, Debug, PartialEq, Eq, PartialOrd, Ord)]
        pub enum Break { $($(#[$doc])* $kind,)* }

        impl Break {
            /// All of them.
            pub const ALL: &[Break] = &[$(Break::$kind,)*];

            pub fn name(self) -> &'static str {
                match self { $(Break::$kind => $name,)* }
            }
        }
    };
}

breaks! {
    /// The entry of dart 0 is no dart.
    OutOfRangeFirst = "out of range at the first dart",
    /// The entry of the last dart is no dart.
    OutOfRangeLast = "out of range at the last dart",
    /// The entry of some dart of the event is no dart.
    OutOfRange = "out of range",
    /// A successor is a dart of another event.
    Leaves = "leaves its event",
    /// Two entries of different events have changed places, so that every dart is still an entry once.
    Exchanged = "exchanged",
    /// Two darts of different events have traded places in their rings, so that every ring is as long as before.
    Traded = "traded",
    /// Two entries of the event have changed places, which cuts its ring in two.
    TwoRings = "two rings",
    /// Every dart of the event is its own successor.
    OwnSuccessors = "own successors",
    /// One dart leads into a ring of all others.
    LongRing = "long ring",
    /// All darts but two or three lead one after another into the ring of these.
    LongTail = "long tail",
    /// Half of the darts lead into the ring of the other half.
    HalfTail = "half tail",
    /// All darts lead one after another to one that is its own successor.
    OwnEnd = "own end",
    /// One dart leads into a ring of one or two; the rest is as it comes.
    ShortTail = "short tail",
    /// Some darts lead one after another into a ring of all others.
    AnyTail = "any tail",
    /// Some darts lead into a ring; the rest has rings of its own or leads in as well.
    TailAndRest = "tail and rest",
    /// The walk is a true ring, and the rest leads into it from outside.
    OffTheWalk = "off the walk",
    /// Every successor is drawn from the darts of the event.
    Drawn = "drawn",
    /// A tail into a ring, and another entry of the event is changed so that the sum of all entries stays.
    BalancedHere = "balanced here",
    /// A tail into a ring, and another event's entry is changed, within that event, so that the sum stays.
    BalancedElsewhere = "balanced elsewhere",
    /// A tail into a ring, and another entry is changed, to a dart of another event, so that the sum stays.
    BalancedLeaving = "balanced by leaving",
    /// A tail into a ring, and another entry is changed, to no dart, so that the sum stays.
    BalancedOutOfRange = "balanced out of range",
    /// Two or three of the kinds above at different events.
    Several = "several",
}

impl Break {
    /// The fewest darts that an event needs for this kind.
    fn least(self) -> usize {
        match self {
            Break::OutOfRangeFirst | Break::OutOfRangeLast | Break::OutOfRange => 1,
            Break::Leaves | Break::Exchanged | Break::Several => 1,
            Break::LongTail | Break::ShortTail | Break::TailAndRest | Break::BalancedHere => 3,
            _ => 2,
        }
    }

    /// Whether this kind changes the entries of one event only, and so can stand beside others.
    fn is_single(self) -> bool {
        self < Break::BalancedHere && !matches!(self, Break::Exchanged | Break::Traded)
    }
}

/// Which of the events where a kind can be is taken.
#[derive(Clone, Copy, Debug, PartialEq, Eq)]
pub enum Place {
    /// The lowest.
    First,
    /// The highest.
    Last,
    /// The one with the most darts.
    Busiest,
    Any,
}

impl Place {
    /// Mostly any.
    pub fn random(rng: &mut Rng) -> Place {
        match rng.below(8) {
            0 => Place::First,
            1 => Place::Last,
            2 => Place::Busiest,
            _ => Place::Any,
        }
    }
}

/// A chart past test 9, ready to be broken.
pub struct Ordered {
    chart: Chart,
    /// The darts of each event, clockwise.
    rings: Vec<Vec<usize>>,
}

impl Ordered {
    /// None if the order is broken already.
    pub fn new(chart: Chart) -> Option<Ordered> {
        let rings = rings(&chart)?;
        Some(Ordered { chart, rings })
    }

    /// None if the file doesn't get past test 9.
    pub fn read(bytes: &[u8]) -> Option<Ordered> {
        Ordered::new(Chart::read(bytes).ok()?)
    }

    /// Mostly small and of any later number, some with events without darts; now and then one with a hub.
    pub fn random(rng: &mut Rng) -> Ordered {
        if rng.one_in(16) {
            let most = *rng.pick(&[8, 16, 60, 60, 300, 300, 1024, 3072]);
            let chart = hubs::any(rng, most).shuffled(rng);
            return Ordered::new(chart).expect("a hub has good rings");
        }
        let size = match rng.below(32) {
            0 => Size::Large,
            1..=10 => Size::Middle,
            _ => Size::Small,
        };
        let number = *rng.pick(&[0, 10, 11, 12, 13, 14]);
        Ordered::read(&aimed(rng, number, size)).expect("what is aimed past test 9 has good rings")
    }

    pub fn chart(&self) -> &Chart {
        &self.chart
    }

    /// The chart with its order broken at an event of the place; none if there is no such event.
    pub fn broken(&self, rng: &mut Rng, kind: Break, place: Place) -> Option<Chart> {
        let mut events: Vec<usize> = (0..self.chart.events).filter(|&event| self.fits(kind, event)).collect();
        match place {
            Place::First => {}
            Place::Last => events.reverse(),
            Place::Busiest => events.sort_by_key(|&event| Reverse(self.rings[event].len())),
            Place::Any => rng.shuffle(&mut events),
        }
        events.into_iter().find_map(|event| self.broken_at(rng, kind, event))
    }

    /// The chart with its order broken at the event; none if this kind cannot be there, or luck is out.
    pub fn broken_at(&self, rng: &mut Rng, kind: Break, event: usize) -> Option<Chart> {
        self.fits(kind, event).then(|| self.changes(rng, kind, event)).flatten().map(|changes| self.with(&changes))
    }

    /// The chart with a walk from the event's highest dart over `tail` darts into a ring of `ring` darts. Each is at
    /// least 1, and together they are no more than the event has.
    pub fn with_tail(&self, rng: &mut Rng, event: usize, tail: usize, ring: usize) -> Chart {
        self.with(&self.tail_into_ring(rng, event, tail, ring))
    }

    /// Whether the event has darts enough, and the right ones.
    fn fits(&self, kind: Break, event: usize) -> bool {
        let right = match kind {
            Break::OutOfRangeFirst => self.chart.at(0) == event,
            Break::OutOfRangeLast => self.chart.at(self.chart.darts() - 1) == event,
            _ => true,
        };
        right && self.rings[event].len() >= kind.least()
    }

    fn with(&self, changes: &Changes) -> Chart {
        let mut chart = self.chart.clone();
        for &(dart, successor) in changes {
            chart.next[dart] = successor;
        }
        chart
    }

    /// What a kind changes at an event where it fits.
    fn changes(&self, rng: &mut Rng, kind: Break, event: usize) -> Option<Changes> {
        let ring = &self.rings[event];
        let count = ring.len();
        Some(match kind {
            Break::OutOfRangeFirst => self.out_of_range(rng, 0),
            Break::OutOfRangeLast => self.out_of_range(rng, self.chart.darts() - 1),
            Break::OutOfRange => {
                let dart = *rng.pick(ring);
                self.out_of_range(rng, dart)
            }
            Break::Leaves => vec![(*rng.pick(ring), self.dart_elsewhere(rng, event))],
            Break::Exchanged => self.exchange(*rng.pick(ring), self.dart_elsewhere(rng, event)),
            Break::Traded => self.trade(*rng.pick(ring), self.dart_elsewhere(rng, event)),
            Break::TwoRings => {
                let one = rng.below(count);
                let other = (one + rng.between(1, count - 1)) % count;
                self.exchange(ring[one], ring[other])
            }
            Break::OwnSuccessors => ring.iter().map(|&dart| (dart, dart)).collect(),
            Break::LongRing => self.tail_into_ring(rng, event, 1, count - 1),
            Break::LongTail => {
                let short = rng.between(2, 3.min(count - 1));
                self.tail_into_ring(rng, event, count - short, short)
            }
            Break::HalfTail => self.tail_into_ring(rng, event, count / 2, count - count / 2),
            Break::OwnEnd => self.tail_into_ring(rng, event, count - 1, 1),
            Break::ShortTail => {
                let short = rng.between(1, 2.min(count - 2));
                self.tail_into_ring(rng, event, 1, short)
            }
            Break::AnyTail => {
                let tail = rng.between(1, count - 1);
                self.tail_into_ring(rng, event, tail, count - tail)
            }
            Break::TailAndRest => {
                let tail = rng.between(1, count - 2);
                let ring = rng.between(1, count - tail - 1);
                self.tail_into_ring(rng, event, tail, ring)
            }
            Break::OffTheWalk => self.off_the_walk(rng, event),
            Break::Drawn => self.drawn(rng, event),
            Break::BalancedHere | Break::BalancedElsewhere | Break::BalancedLeaving | Break::BalancedOutOfRange => {
                return (0..TRIES).find_map(|_| self.balanced(rng, kind, event));
            }
            Break::Several => self.several(rng, event),
        })
    }

    fn out_of_range(&self, rng: &mut Rng, dart: usize) -> Changes {
        let limit = self.chart.darts();
        let over = [limit, limit + 1, TOP, rng.between(limit, TOP)];
        vec![(dart, *rng.pick(&over))]
    }

    /// A dart of another event: at least half of all darts are.
    fn dart_elsewhere(&self, rng: &mut Rng, event: usize) -> usize {
        loop {
            let dart = rng.below(self.chart.darts());
            if self.chart.at(dart) != event {
                return dart;
            }
        }
    }

    fn exchange(&self, one: usize, other: usize) -> Changes {
        vec![(one, self.chart.next[other]), (other, self.chart.next[one])]
    }

    /// Each of the two darts gets the other's predecessor and successor.
    fn trade(&self, one: usize, other: usize) -> Changes {
        let traded = |dart: usize| match dart {
            dart if dart == one => other,
            dart if dart == other => one,
            dart => dart,
        };
        let touched = |&dart: &usize| [dart, self.chart.next[dart]].iter().any(|&end| traded(end) != end);
        let darts = (0..self.chart.darts()).filter(touched);
        darts.map(|dart| (traded(dart), traded(self.chart.next[dart]))).collect()
    }

    fn highest(&self, event: usize) -> usize {
        *self.rings[event].iter().max().expect("an event with darts")
    }

    /// The darts of an event from its highest on, clockwise.
    fn round(&self, event: usize) -> Vec<usize> {
        let mut round = self.rings[event].clone();
        let highest = self.highest(event);
        let start = round.iter().position(|&dart| dart == highest).expect("the highest is among them");
        round.rotate_left(start);
        round
    }

    /// The darts of an event from its highest on, clockwise or, now and then, in any order.
    fn walk(&self, rng: &mut Rng, event: usize) -> Vec<usize> {
        let mut walk = self.round(event);
        if rng.one_in(3) {
            rng.shuffle(&mut walk[1..]);
        }
        walk
    }

    fn tail_into_ring(&self, rng: &mut Rng, event: usize, tail: usize, ring: usize) -> Changes {
        let walk = self.walk(rng, event);
        let (met, rest) = walk.split_at(tail + ring);
        let mut changes = chain(met, met[tail]);
        changes.extend(match rng.below(3) {
            0 if !rest.is_empty() => chain(rest, rest[0]),
            1 => rest.iter().map(|&dart| (dart, dart)).collect(),
            _ => lead_in(rng, met, rest),
        });
        changes
    }

    fn off_the_walk(&self, rng: &mut Rng, event: usize) -> Changes {
        let walk = self.walk(rng, event);
        let (ring, rest) = walk.split_at(rng.between(1, walk.len() - 1));
        let mut changes = chain(ring, ring[0]);
        changes.extend(lead_in(rng, ring, rest));
        changes
    }

    fn drawn(&self, rng: &mut Rng, event: usize) -> Changes {
        let ring = &self.rings[event];
        loop {
            let changes = ring.iter().map(|&dart| (dart, *rng.pick(ring))).collect();
            if comes_back(&self.with(&changes), ring[0]) != Some(ring.len()) {
                return changes;
            }
        }
    }

    /// One entry changed so that the walk never comes back, and one more so that the sum of all entries stays.
    fn balanced(&self, rng: &mut Rng, kind: Break, event: usize) -> Option<Changes> {
        let round = self.round(event);
        let into = rng.between(1, round.len() - 1);
        let last = round[rng.between(into, round.len() - 1)];
        let (old, new) = (self.chart.next[last], round[into]);

        let all: Vec<usize> = (0..self.chart.darts()).collect();
        let darts = if kind == Break::BalancedHere { &round } else { &all };
        let other = |&dart: &usize| Some((dart, (self.chart.next[dart] + old).checked_sub(new)?));
        let mut others: Changes = darts.iter().filter(|&&dart| dart != last).filter_map(other).collect();
        others.retain(|&(dart, successor)| self.balances(kind, event, dart, successor));
        if others.is_empty() {
            return None;
        }
        let changes = vec![(last, new), *rng.pick(&others)];
        comes_back(&self.with(&changes), round[0]).is_none().then_some(changes)
    }

    /// Whether the second change of a balanced kind is of the right sort.
    fn balances(&self, kind: Break, event: usize, dart: usize, successor: usize) -> bool {
        let here = self.chart.at(dart) == event;
        let known = successor < self.chart.darts();
        let stays = known && self.chart.at(successor) == self.chart.at(dart);
        match kind {
            Break::BalancedHere => here && stays,
            Break::BalancedElsewhere => !here && stays,
            Break::BalancedLeaving => !here && known && !stays,
            _ => !here && !known,
        }
    }

    fn several(&self, rng: &mut Rng, event: usize) -> Changes {
        let mut others: Vec<usize> = (0..self.chart.events).collect();
        others.retain(|&other| other != event && !self.rings[other].is_empty());
        rng.shuffle(&mut others);
        others.truncate(rng.between(1, 2));
        let mut changes = Vec::new();
        for event in others.into_iter().chain([event]) {
            let single = |kind: &&Break| kind.is_single() && self.fits(**kind, event);
            let kinds: Vec<Break> = Break::ALL.iter().filter(single).copied().collect();
            let kind = *rng.pick(&kinds);
            changes.extend(self.changes(rng, kind, event).expect("a single kind needs no luck"));
        }
        changes
    }
}

/// The darts one after another, the last followed by `end`.
fn chain(darts: &[usize], end: usize) -> Changes {
    let after = darts.iter().skip(1).copied().chain([end]);
    darts.iter().copied().zip(after).collect()
}

/// The rest leads to darts that the walk met: one after another, each at once, or as a tree.
fn lead_in(rng: &mut Rng, met: &[usize], rest: &[usize]) -> Changes {
    match rng.below(3) {
        0 => chain(rest, *rng.pick(met)),
        1 => rest.iter().map(|&dart| (dart, *rng.pick(met))).collect(),
        _ => {
            let mut reached = met.to_vec();
            let mut changes = Vec::new();
            for &dart in rest {
                changes.push((dart, *rng.pick(&reached)));
                reached.push(dart);
            }
            changes
        }
    }
}

/// After how many steps the walk from a dart comes back to it; none if it leaves the event or never comes back.
pub fn comes_back(chart: &Chart, start: usize) -> Option<usize> {
    let mut here = start;
    for steps in 1..=chart.darts() {
        here = chart.next[here];
        if here == start {
            return Some(steps);
        }
        if here >= chart.darts() || chart.at(here) != chart.at(start) {
            return None;
        }
    }
    None
}

#[cfg(test)]
mod tests {
    use super::*;
    use crate::cycles::cycles;
    use crate::examine::examine;

    /// A chart, how it was broken, and what came of it.
    struct Trial {
        good: Ordered,
        kind: Break,
        event: usize,
        broken: Chart,
    }

    impl Trial {
        fn changed(&self) -> Vec<usize> {
            (0..self.broken.darts()).filter(|&dart| self.broken.next[dart] != self.good.chart.next[dart]).collect()
        }

        fn out_of_range(&self) -> Vec<usize> {
            (0..self.broken.darts()).filter(|&dart| self.broken.next[dart] >= self.broken.darts()).collect()
        }

        fn leaving(&self) -> Vec<usize> {
            let leaves = |&dart: &usize| {
                let next = self.broken.next[dart];
                next < self.broken.darts() && self.broken.at(next) != self.broken.at(dart)
            };
            (0..self.broken.darts()).filter(leaves).collect()
        }

        fn rings(&self) -> Option<usize> {
            Some(cycles(&self.broken.next)?.len())
        }

        /// The lengths of all rings stay.
        fn lengths_stay(&self) -> bool {
            let lengths = |chart: &Chart| {
                let mut lengths: Vec<usize> = cycles(&chart.next)?.iter().map(Vec::len).collect();
                lengths.sort_unstable();
                Some(lengths)
            };
            lengths(&self.broken) == lengths(&self.good.chart)
        }

        fn back(&self) -> Option<usize> {
            comes_back(&self.broken, self.good.highest(self.event))
        }

        /// The darts that the walk meets before its ring, and those of the ring.
        fn tail_and_ring(&self) -> (usize, usize) {
            let mut met = Vec::new();
            let mut here = self.good.highest(self.event);
            loop {
                if let Some(tail) = met.iter().position(|&dart| dart == here) {
                    return (tail, met.len() - tail);
                }
                met.push(here);
                here = self.broken.next[here];
            }
        }

        fn check(&self) {
            let count = self.good.rings[self.event].len();
            let sum_stays = self.broken.next.iter().sum::<usize>() == (0..self.broken.darts()).sum();
            let (out, leaving) = (self.out_of_range().len(), self.leaving().len());
            let stays = out == 0 && leaving == 0;
            let good_rings = cycles(&self.good.chart.next).expect("a permutation").len();
            let holds = match self.kind {
                Break::OutOfRangeFirst => self.changed() == [0] && out == 1,
                Break::OutOfRangeLast => self.changed() == [self.broken.darts() - 1] && out == 1,
                Break::OutOfRange => self.changed() == self.out_of_range() && out == 1,
                Break::Leaves => self.changed() == self.leaving() && leaving == 1,
                Break::Exchanged => self.rings().is_some() && self.changed() == self.leaving() && leaving == 2,
                Break::Traded => out == 0 && leaving >= 1 && self.lengths_stay(),
                Break::TwoRings => stays && self.rings() == Some(good_rings + 1) && self.back().is_some(),
                Break::OwnSuccessors => stays && self.rings() == Some(good_rings + count - 1),
                Break::LongRing => stays && self.tail_and_ring() == (1, count - 1),
                Break::LongTail => stays && matches!(self.tail_and_ring(), (_, 2 | 3)),
                Break::HalfTail => stays && self.tail_and_ring() == (count / 2, count - count / 2),
                Break::OwnEnd => stays && self.tail_and_ring() == (count - 1, 1),
                Break::ShortTail => stays && matches!(self.tail_and_ring(), (1, 1 | 2)),
                Break::AnyTail => stays && matches!(self.tail_and_ring(), (1.., ring) if ring < count),
                Break::TailAndRest => stays && matches!(self.tail_and_ring(), (1.., ring) if ring < count - 1),
                Break::OffTheWalk => stays && self.back().is_some_and(|steps| steps < count) && self.rings().is_none(),
                Break::Drawn => stays && self.back() != Some(count),
                Break::BalancedHere => stays && sum_stays && self.back().is_none() && self.one_event_changed(),
                Break::BalancedElsewhere => stays && sum_stays && self.back().is_none() && !self.one_event_changed(),
                Break::BalancedLeaving => out == 0 && leaving == 1 && sum_stays && self.back().is_none(),
                Break::BalancedOutOfRange => out == 1 && leaving == 0 && sum_stays && self.back().is_none(),
                Break::Several => !self.one_event_changed(),
            };
            assert!(holds, "{:?} at event {}: {:?} from {:?}", self.kind, self.event, self.broken, self.good.chart);
        }

        fn one_event_changed(&self) -> bool {
            self.changed().iter().all(|&dart| self.broken.at(dart) == self.event)
        }
    }

    #[test]
    fn every_kind_is_what_it_says_and_gets_9() {
        let mut rng = Rng::new(51);
        for &kind in Break::ALL {
            let mut done = 0;
            for _ in 0..1000 {
                let good = Ordered::random(&mut rng);
                let event = rng.below(good.chart.events);
                if let Some(broken) = good.broken_at(&mut rng, kind, event) {
                    assert_eq!(examine(&broken.bytes()).number(), 9, "{kind:?}: {broken:?}");
                    Trial { good, kind, event, broken }.check();
                    done += 1;
                }
            }
            assert!(done >= 100, "{kind:?} was possible {done} times only");
        }
    }

    #[test]
    fn the_place_is_the_one_asked_for() {
        let mut rng = Rng::new(52);
        for _ in 0..300 {
            let good = Ordered::random(&mut rng);
            let changed_event = |broken: Chart| {
                let dart = (0..broken.darts()).find(|&dart| broken.next[dart] != good.chart.next[dart]);
                broken.at(dart.expect("a change"))
            };
            let with_darts: Vec<usize> = (0..good.chart.events).filter(|&e| !good.rings[e].is_empty()).collect();
            let most = good.rings.iter().map(Vec::len).max();
            let mut event = |place| good.broken(&mut rng, Break::Leaves, place).map(changed_event);
            assert_eq!(event(Place::First).as_ref(), with_darts.first());
            assert_eq!(event(Place::Last).as_ref(), with_darts.last());
            assert_eq!(event(Place::Busiest).map(|event| good.rings[event].len()), most);
        }
    }

    #[test]
    fn one_arrow_has_no_place_for_most_kinds() {
        let mut rng = Rng::new(53);
        let good = Ordered::new(hubs::fan(1).shuffled(&mut rng)).expect("good rings");
        for &kind in Break::ALL {
            let possible = good.broken(&mut rng, kind, Place::Any).is_some();
            assert_eq!(possible, kind.least() == 1, "{kind:?}");
        }
    }

    #[test]
    fn tails_of_every_length_at_a_hub() {
        let mut rng = Rng::new(54);
        for (tail, ring) in [(1, 1), (1, 99), (99, 1), (50, 50), (30, 20)] {
            let good = Ordered::new(hubs::fan(100).shuffled(&mut rng)).expect("good rings");
            let broken = good.with_tail(&mut rng, 1, tail, ring);
            assert_eq!(examine(&broken.bytes()).number(), 9);
            let trial = Trial { good, kind: Break::AnyTail, event: 1, broken };
            assert_eq!(trial.tail_and_ring(), (tail, ring));
        }
    }
}
