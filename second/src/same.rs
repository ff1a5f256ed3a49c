//! The test once more, by the library's own algorithm in ordinary Rust: what the library's time is measured against.
//!
//! Whatever spares the library time is done here too. The charts' tables are read in place; one pass answers tests 6
//! and 7; one walk round the rings answers tests 9 and 10 and leaves a dart of each event, and where it does not meet all
//! only the others' rings are followed besides; one walk round the faces numbers them and counts their switch corners;
//! everyone sits who touches a face with room before anyone is searched for; a search stops at the first face with room
//! and clears only what it listed. All else lies in arrays, of one of three sizes, so that a small chart clears small
//! ones; those of the later tests are made after test 10.

use std::ops::ControlFlow::{self, Break, Continue};

const MOST_EVENTS: usize = 1024;
const MOST_ARROWS: usize = 3072;
const MOST_DARTS: usize = 2 * MOST_ARROWS;
const HEADER: usize = 11;
const REPORT_HEADER: usize = 8;
const FULL_ROOM: usize = REPORT_HEADER + MOST_DARTS;
/// No dart, no event.
const NONE: u16 = u16::MAX;

/// What counts the steps of the searches.
trait Count {
    fn step(&mut self);
}

/// Counts nothing, and takes no time.
struct Uncounted;

impl Count for Uncounted {
    fn step(&mut self) {}
}

struct Steps(u64);

impl Count for Steps {
    fn step(&mut self) {
        self.0 += 1;
    }
}

/// A chart past test 8.
struct Tables<'a> {
    events: usize,
    darts: usize,
    outer: usize,
    /// The event of each dart.
    at: &'a [[u8; 2]],
    /// The clockwise successor of each dart.
    next: &'a [[u8; 2]],
}

impl Tables<'_> {
    fn at(&self, dart: usize) -> usize {
        number(self.at[dart])
    }

    fn next(&self, dart: usize) -> usize {
        number(self.next[dart])
    }
}

fn number(word: [u8; 2]) -> usize {
    u16::from_le_bytes(word).into()
}

/// The number given and the bytes written.
pub fn test(chart: &[u8], report: &mut [u8]) -> (u16, usize) {
    counted(chart, report, &mut Uncounted)
}

/// The number given, and how many steps the searches for places took: the same on every machine, as time is not.
pub fn steps(chart: &[u8]) -> (u16, u64) {
    let mut steps = Steps(0);
    let (number, _) = counted(chart, &mut [0; FULL_ROOM], &mut steps);
    (number, steps.0)
}

fn counted(chart: &[u8], report: &mut [u8], count: &mut impl Count) -> (u16, usize) {
    if report.len() < FULL_ROOM {
        return (1, 0);
    }
    let tables = match open(chart) {
        Ok(tables) => tables,
        Err(number) => return (number, 0),
    };
    match (tables.events, tables.darts) {
        (..=32, ..=32) => drawn::<32, 32, 16>(&tables, report, count),
        (..=256, ..=1024) => drawn::<256, 1024, 512>(&tables, report, count),
        _ => drawn::<MOST_EVENTS, MOST_DARTS, MOST_ARROWS>(&tables, report, count),
    }
}

/// Tests 2 to 8.
fn open(chart: &[u8]) -> Result<Tables<'_>, u16> {
    if chart.len() < HEADER || &chart[..3] != b"EVC" {
        return Err(2);
    }
    let word = |at: usize| number([chart[at], chart[at + 1]]);
    if word(3) != 1 {
        return Err(3);
    }
    let (events, arrows, outer) = (word(5), word(7), word(9));
    if !(2..=MOST_EVENTS).contains(&events) || !(1..=MOST_ARROWS).contains(&arrows) {
        return Err(4);
    }
    if chart.len() != HEADER + 8 * arrows {
        return Err(5);
    }
    let darts = 2 * arrows;
    let (at, next) = chart[HEADER..].as_chunks::<2>().0.split_at(darts);
    let unknown = |event: &[u8; 2]| number(*event) >= events;
    for [tail, head] in at.as_chunks::<2>().0 {
        if unknown(tail) || unknown(head) {
            return Err(6);
        }
        if tail == head {
            // Test 6 comes first.
            return Err(if at.iter().any(unknown) { 6 } else { 7 });
        }
    }
    if outer >= darts {
        return Err(8);
    }
    Ok(Tables { events, darts, outer, at, next })
}

/// Tests 9 to 14, in tables of E events, D darts and F faces. Joined events in rings have at most A - V + 2 faces.
#[inline(never)]
fn drawn<const E: usize, const D: usize, const F: usize>(
    tables: &Tables,
    report: &mut [u8],
    count: &mut impl Count,
) -> (u16, usize) {
    let mut first = [NONE; E];
    let mut list = [0; E];
    if !all_keep(tables) {
        return (9, 0);
    }
    if let Err(number) = walk_rings(tables, &mut first, &mut list) {
        return (number, 0);
    }
    let mut face = [NONE; D];
    let mut spare = [0; F];
    let faces = walk_faces(tables, &mut face, &mut spare);
    if tables.events + faces != tables.darts / 2 + 2 {
        return (11, 0);
    }
    if let Some(event) = lowest_mixed(tables, &first) {
        return (12, write_list(report, 12, &[event as u16]));
    }
    if let Some(circle) = circle(tables, &first, &mut list) {
        return (13, write_list(report, 13, circle));
    }
    make_rooms(&mut spare[..faces], usize::from(face[tables.outer ^ 1]));
    let poles = poles(tables);
    let mut places = Places { tables, first: &first, face: &face, poles: &poles, spare: &mut spare, place: [NONE; E] };
    if places.seat_all()
        && let Some(cut) = places.search_all(&mut list, count)
    {
        return (14, write_list(report, 14, cut));
    }
    (0, places.write_labels(report))
}

/// Whether each successor is a dart, of the same event, and the successors add up to what the darts add up to. In rings
/// they do; where a ring never comes back to its first dart they mostly don't, and no walk is lost in it.
fn all_keep(tables: &Tables) -> bool {
    let keeps = |event: &[u8; 2], dart: usize| tables.at.get(dart) == Some(event);
    let mut total = 0;
    for (at, next) in tables.at.as_chunks::<2>().0.iter().zip(tables.next.as_chunks::<2>().0) {
        let (one, other) = (number(next[0]), number(next[1]));
        if !keeps(&at[0], one) || !keeps(&at[1], other) {
            return false;
        }
        total += one + other;
    }
    2 * total + tables.darts == tables.darts * tables.darts
}

/// Tests 9 and 10: goes round the ring of each event that the arrows join with dart 0's, in a queue of one dart for
/// each. Leaves a dart of each event in `first`, the last by which it was met.
fn walk_rings<const E: usize>(tables: &Tables, first: &mut [u16; E], queue: &mut [u16; E]) -> Result<(), u16> {
    first[tables.at(0)] = 0;
    queue[0] = 0;
    let (mut done, mut length) = (0, 1);
    let mut left = tables.darts;
    while done < length {
        let start = usize::from(queue[done]);
        done += 1;
        let mut dart = start;
        loop {
            if left == 0 {
                return Err(9);
            }
            left -= 1;
            // Nothing branches on whether the event is new: what stands behind the queue's end doesn't count.
            let far = dart ^ 1;
            let entry = &mut first[tables.at(far)];
            if let Some(end) = queue.get_mut(length) {
                *end = far as u16;
            }
            length += usize::from(*entry == NONE);
            *entry = far as u16;
            dart = tables.next(dart);
            if dart == start {
                break;
            }
        }
    }
    // Where a ring of every event was followed and darts are left, some event has another.
    if left > 0 {
        return Err(if length < tables.events && follow_rest(tables, first, queue, left) { 10 } else { 9 });
    }
    if length < tables.events { Err(10) } else { Ok(()) }
}

/// Test 9 where the walk from dart 0 doesn't meet all events: whether each of the others' darts are one ring, and these
/// make up the darts left.
#[cold]
fn follow_rest<const E: usize>(tables: &Tables, first: &[u16; E], some: &mut [u16; E], mut left: usize) -> bool {
    some.fill(NONE);
    for dart in 0..tables.darts {
        some[tables.at(dart)] = dart as u16;
    }
    for (_, &start) in first.iter().zip(&*some).filter(|&(&mark, &start)| mark == NONE && start != NONE) {
        let mut dart = usize::from(start);
        loop {
            if left == 0 {
                return false;
            }
            left -= 1;
            dart = tables.next(dart);
            if dart == usize::from(start) {
                break;
            }
        }
    }
    left == 0
}

/// Gives each corner its face, each face the number of its switch corners, and answers the number of faces. After dart
/// d the walk takes the successor of its twin, and the corner between those two lies in the face.
fn walk_faces<const D: usize, const F: usize>(tables: &Tables, face: &mut [u16; D], switches: &mut [u16; F]) -> usize {
    let mut faces = 0;
    for start in 0..tables.darts {
        if face[start ^ 1] != NONE {
            continue;
        }
        let (mut dart, mut count) = (start, 0);
        loop {
            let corner = dart ^ 1;
            face[corner] = faces as u16;
            dart = tables.next(corner);
            count += is_switch(corner, dart);
            if dart == start {
                break;
            }
        }
        switches[faces] = count;
        faces += 1;
    }
    faces
}

/// 1 if the corner between a dart and its successor is a switch, else 0.
fn is_switch(dart: usize, successor: usize) -> u16 {
    ((dart ^ successor) & 1 ^ 1) as u16
}

/// Test 12: going round each event, the direction changes no more than twice.
fn lowest_mixed<const E: usize>(tables: &Tables, first: &[u16; E]) -> Option<usize> {
    first[..tables.events].iter().position(|&start| {
        let start = usize::from(start);
        let (mut dart, mut changes) = (start, 0);
        loop {
            let after = tables.next(dart);
            changes += (dart ^ after) & 1;
            dart = after;
            if dart == start {
                return changes > 2;
            }
        }
    })
}

/// Test 13: takes away events that nothing enters any more. What is left has a circle.
fn circle<'a, const E: usize>(tables: &Tables, first: &[u16; E], list: &'a mut [u16; E]) -> Option<&'a [u16]> {
    let mut entering = [0u16; E];
    for [_, head] in tables.at.as_chunks::<2>().0 {
        entering[number(*head)] += 1;
    }
    let (mut done, mut length) = (0, 0);
    for (event, &entering) in entering[..tables.events].iter().enumerate() {
        list[length] = event as u16;
        length += usize::from(entering == 0);
    }
    while done < length {
        let start = usize::from(first[usize::from(list[done])]);
        done += 1;
        let mut dart = start;
        loop {
            // Nothing branches on the direction or the count: an entering dart leaves its own event's count as it is.
            let enters = dart as u16 & 1;
            let head = tables.at(dart | 1);
            let left = &mut entering[head];
            if let Some(end) = list.get_mut(length) {
                *end = head as u16;
            }
            length += usize::from(*left + 2 * enters == 1);
            *left -= 1 - enters;
            dart = tables.next(dart);
            if dart == start {
                break;
            }
        }
    }
    (length < tables.events).then(|| find_circle(tables, &entering, list))
}

/// A circle among the events that arrows still enter, its lowest arrow first.
#[cold]
fn find_circle<'a, const E: usize>(tables: &Tables, entering: &[u16; E], list: &'a mut [u16; E]) -> &'a [u16] {
    // For each of them an arrow from one of them.
    let mut into = [0u16; E];
    let mut event = 0;
    for arrow in 0..tables.darts / 2 {
        let (tail, head) = (tables.at(2 * arrow), tables.at(2 * arrow + 1));
        if entering[tail] > 0 && entering[head] > 0 {
            into[head] = arrow as u16;
            event = head;
        }
    }
    let back = |event: usize| tables.at(2 * usize::from(into[event]));
    // As many steps back as there are events end on a circle.
    for _ in 0..tables.events {
        event = back(event);
    }
    let (mut start, mut length, mut here) = (event, 0, event);
    loop {
        if into[here] < into[start] {
            start = here;
        }
        length += 1;
        here = back(here);
        if here == event {
            break;
        }
    }
    // The lowest arrow enters `start`; going back from there the arrows come from the last on.
    let mut here = start;
    for entry in list[..length].iter_mut().rev() {
        here = back(here);
        *entry = into[here];
    }
    &list[..length]
}

/// Makes rooms of numbers of switch corners. Past test 13 an inner face has a switch corner, so at least two. The outer
/// face has room for two more.
fn make_rooms(spare: &mut [u16], outer: usize) {
    spare[outer] += 4;
    for spare in spare {
        *spare = *spare / 2 - 1;
    }
}

/// Which events are sources or sinks: those where the darts don't have both directions.
fn poles<const E: usize>(tables: &Tables) -> [bool; E] {
    // First all tails and then all heads: a tail's flag is stored without a look at what was there.
    let mut flags = [0u8; E];
    let arrows = tables.at.as_chunks::<2>().0;
    for [tail, _] in arrows {
        flags[number(*tail)] = 1;
    }
    for [_, head] in arrows {
        flags[number(*head)] |= 2;
    }
    flags.map(|flags| flags != 3)
}

/// Where the sources and sinks have their large corners.
struct Places<'a, const E: usize, const D: usize, const F: usize> {
    tables: &'a Tables<'a>,
    /// A dart of each event.
    first: &'a [u16; E],
    /// The face of each corner.
    face: &'a [u16; D],
    poles: &'a [bool; E],
    /// The room left in each face.
    spare: &'a mut [u16; F],
    /// The large corner of each event placed.
    place: [u16; E],
}

impl<const E: usize, const D: usize, const F: usize> Places<'_, E, D, F> {
    /// Everyone sits who touches a face with room. Answers whether someone is left over.
    fn seat_all(&mut self) -> bool {
        let mut left_over = false;
        for event in 0..self.tables.events {
            if self.poles[event] {
                left_over |= !self.seat(event);
            }
        }
        left_over
    }

    fn seat(&mut self, event: usize) -> bool {
        let start = usize::from(self.first[event]);
        let mut corner = start;
        loop {
            let spare = &mut self.spare[usize::from(self.face[corner])];
            if *spare > 0 {
                *spare -= 1;
                self.place[event] = corner as u16;
                return true;
            }
            corner = self.tables.next(corner);
            if corner == start {
                return false;
            }
        }
    }

    /// Searches for places of those who are left over; or leaves a cut in `list`. Only here are the tables of the
    /// searches made.
    #[inline(never)]
    fn search_all<'l>(&mut self, list: &'l mut [u16; E], count: &mut impl Count) -> Option<&'l [u16]> {
        let events = self.tables.events;
        let mut search = Search { places: self, rank: [0; F], via: [0; F], count };
        for event in 0..events {
            if search.places.poles[event] && search.places.place[event] == NONE && !search.place(event) {
                return Some(search.cut(event, list));
            }
        }
        None
    }

    fn write_labels(&self, report: &mut [u8]) -> usize {
        let darts = self.tables.darts;
        write_header(report, 0, darts);
        let labels = &mut report[REPORT_HEADER..REPORT_HEADER + darts];
        for (corner, (label, &next)) in labels.iter_mut().zip(self.tables.next).enumerate() {
            *label = (corner as u8 ^ next[0]) & 1;
        }
        for &corner in self.place[..self.tables.events].iter().filter(|&&corner| corner != NONE) {
            labels[usize::from(corner)] = 2;
        }
        REPORT_HEADER + darts
    }
}

/// A search for places. It lists the faces that an event touches, then for each listed face those that the events
/// placed there touch, up to a face with room. Who is placed in a face is seen by going round it, as the library does.
/// Lists of those placed in each face were tried too: they spare up to two thirds of the time where the searches are
/// very long (`slow.rs`), and take as much or up to a seventh more on most other charts.
struct Search<'a, 'b, const E: usize, const D: usize, const F: usize, C> {
    places: &'a mut Places<'b, E, D, F>,
    /// For each face listed its place in the list, from 1 on; 0 for the others.
    rank: [u16; F],
    /// The corner by which the search came to each listed face.
    via: [u16; F],
    count: &'a mut C,
}

impl<const E: usize, const D: usize, const F: usize, C: Count> Search<'_, '_, E, D, F, C> {
    /// Places an event, unless there is no place; then the list stays.
    fn place(&mut self, event: usize) -> bool {
        let Break(length) = self.list_all(usize::from(self.places.first[event])) else {
            return false;
        };
        self.shift(event, length);
        for &corner in &self.via[..length] {
            self.rank[usize::from(self.places.face[usize::from(corner)])] = 0;
        }
        true
    }

    /// The length of the list: it breaks off at a face with room, here and in the next two.
    fn list_all(&mut self, start: usize) -> ControlFlow<usize, usize> {
        let mut length = self.touch(start, 0)?;
        let mut done = 0;
        while done < length {
            length = self.scan(usize::from(self.via[done]), length)?;
            done += 1;
        }
        Continue(length)
    }

    /// Goes round the face of a corner, to those who are placed there.
    fn scan(&mut self, start: usize, mut length: usize) -> ControlFlow<usize, usize> {
        let tables = self.places.tables;
        let mut corner = start;
        loop {
            self.count.step();
            if usize::from(self.places.place[tables.at(corner)]) == corner {
                length = self.touch(corner, length)?;
            }
            corner = tables.next(corner) ^ 1;
            if corner == start {
                return Continue(length);
            }
        }
    }

    /// Goes round the event of a corner, and lists its faces.
    fn touch(&mut self, start: usize, mut length: usize) -> ControlFlow<usize, usize> {
        let Places { tables, face, spare, .. } = &*self.places;
        let mut corner = start;
        loop {
            self.count.step();
            let face = usize::from(face[corner]);
            if self.rank[face] == 0 {
                self.via[length] = corner as u16;
                length += 1;
                self.rank[face] = length as u16;
                if spare[face] > 0 {
                    return Break(length);
                }
            }
            corner = tables.next(corner);
            if corner == start {
                return Continue(length);
            }
        }
    }

    /// Moves events, from the last listed face back, until the new one has its place.
    fn shift(&mut self, event: usize, length: usize) {
        let places = &mut *self.places;
        let mut rank = length;
        loop {
            let corner = self.via[rank - 1];
            let moved = places.tables.at(corner.into());
            let old = places.place[moved];
            places.place[moved] = corner;
            places.spare[usize::from(places.face[usize::from(corner)])] -= 1;
            if moved == event {
                return;
            }
            let face = usize::from(places.face[usize::from(old)]);
            places.spare[face] += 1;
            rank = self.rank[face].into();
        }
    }

    /// The cut is the event left over and all that are placed in listed faces.
    fn cut<'l>(&self, event: usize, list: &'l mut [u16; E]) -> &'l [u16] {
        let places = &*self.places;
        let mut length = 0;
        for (other, &corner) in places.place[..places.tables.events].iter().enumerate() {
            let member = corner != NONE && self.rank[usize::from(places.face[usize::from(corner)])] > 0;
            if member || other == event {
                list[length] = other as u16;
                length += 1;
            }
        }
        &list[..length]
    }
}

fn write_header(report: &mut [u8], result: u8, count: usize) {
    report[..3].copy_from_slice(b"EVR");
    report[3..5].copy_from_slice(&1u16.to_le_bytes());
    report[5] = result;
    report[6..8].copy_from_slice(&(count as u16).to_le_bytes());
}

fn write_list(report: &mut [u8], result: u8, list: &[u16]) -> usize {
    write_header(report, result, list.len());
    let end = REPORT_HEADER + 2 * list.len();
    for (bytes, entry) in report[REPORT_HEADER..end].as_chunks_mut::<2>().0.iter_mut().zip(list) {
        *bytes = entry.to_le_bytes();
    }
    end
}
