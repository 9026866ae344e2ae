//! Valid random traces.

use crate::draft::{change_bytes, least_k, unused_bits, Change, Draft, Facility, Kind, Meant};
use crate::random::Random;
use crate::times::{other_times, table_length, time_range, TimeTable, LONG_TIMES, SHORT_TIMES};
use std::collections::{BTreeSet, VecDeque};

/// 3.14159 in binary64, lowest byte first.
pub const REAL_TEST: [u8; 8] = [0x6E, 0x86, 0x1B, 0xF0, 0xF9, 0x21, 0x09, 0x40];

/// The symbols of the codes 0 to 8.
const SYMBOLS: [u8; 9] = *b"01ZXHUWL-";

/// How large a trace may become.
#[derive(Clone, Copy, Debug)]
pub struct Shape {
    pub facilities: usize,
    pub changes: usize,
    pub widest: u32,
    pub longest_text: usize,
}

impl Shape {
    pub const TINY: Shape = Shape {
        facilities: 5,
        changes: 12,
        widest: 16,
        longest_text: 6,
    };
    pub const SMALL: Shape = Shape {
        facilities: 20,
        changes: 60,
        widest: 100,
        longest_text: 40,
    };
    pub const MIDDLE: Shape = Shape {
        facilities: 60,
        changes: 300,
        widest: 4_096,
        longest_text: 300,
    };
    pub const LARGE: Shape = Shape {
        facilities: 400,
        changes: 2_000,
        widest: 4_096,
        longest_text: 1_000,
    };

    /// Mostly a small one.
    pub fn any(random: &mut Random) -> Shape {
        match random.below(100) {
            0..=49 => Shape::TINY,
            50..=89 => Shape::SMALL,
            90..=97 => Shape::MIDDLE,
            _ => Shape::LARGE,
        }
    }
}

/// A valid trace of any shape.
pub fn valid(seed: u64) -> Draft {
    let mut random = Random::new(seed);
    let shape = Shape::any(&mut random);
    valid_of(&mut random, &shape)
}

/// What stands in the body, in the order of its offsets.
#[derive(Clone, Copy, PartialEq, Eq)]
enum Piece {
    Change,
    Body(u8),
}

/// A change before it is placed.
struct Event {
    root: usize,
    command: u8,
    data: Vec<u8>,
    value: Meant,
    clean: bool,
}

/// A valid trace.
pub fn valid_of(random: &mut Random, shape: &Shape) -> Draft {
    let mut draft = Draft::new(random.within(0, 4) as u16);
    draft.facilities = facilities(random, shape);
    let roots = draft.roots();
    let real_order = real_order(random);

    let mut events = VecDeque::new();
    // Some files are clean as a whole; the others have rubbish in some changes.
    let rubbish_part = random.pick(&[0, 0, 2, 2, 4, 8]);
    if !roots.is_empty() {
        let most = random.below(shape.changes + 1);
        for _ in 0..random.within(0, most as u64) {
            let root = random.pick(&roots);
            events.push_back(event(
                random,
                root,
                &draft.facilities[root],
                &real_order,
                shape,
                rubbish_part,
            ));
        }
    }
    let m = match events.len() {
        0 => random.below(4),
        count => 1 + random.below(count + 2),
    };

    // The order of the pieces, then their places.
    let has_real = draft.facilities.iter().any(|it| it.kind == Kind::Real);
    let with_timescale = random.chance(2, 3);
    let with_initial = random.chance(2, 3);
    let with_real_test = has_real || random.chance(1, 4);
    let times_tag = random.pick(&[SHORT_TIMES, LONG_TIMES]);
    let mut bodies = vec![0x02, 0x03, 0x04, times_tag];
    if with_timescale && random.chance(2, 3) {
        bodies.push(0x05);
    }
    if with_initial && random.chance(2, 3) {
        bodies.push(0x07);
    }
    if with_real_test {
        bodies.push(0x08);
    }
    let pieces = order_pieces(random, bodies, events.len());
    let gaps = random.pick(&[0, 1, 4]);
    let mut last_offset = vec![0; draft.facilities.len()];
    for piece in pieces {
        if random.chance(gaps, 8) {
            gap(random, &mut draft);
        }
        match piece {
            Piece::Change => {
                if let Some(event) = events.pop_front() {
                    let at = draft.end();
                    place(random, &mut draft, at, None, &event, &mut last_offset);
                }
            }
            Piece::Body(tag) => {
                let at = draft.end();
                draft.items.push((tag, at as u32));
                match tag {
                    0x02 => lay_sync(random, &mut draft, &mut events, &mut last_offset),
                    0x03 => lay_names(random, &mut draft),
                    0x04 => lay_geometry(random, &mut draft, &mut events, &mut last_offset),
                    SHORT_TIMES | LONG_TIMES => {
                        draft.append(&vec![0; table_length(tag, m)]);
                    }
                    0x08 => {
                        let mut test = [0; 8];
                        for (byte, at) in real_order.iter().enumerate() {
                            test[*at] = REAL_TEST[byte];
                        }
                        draft.body.extend(test);
                    }
                    0x05 => draft
                        .body
                        .push(random.pick(&[-9_i8, -12, -15, 0, 2, 3, -21, -22, 100]) as u8),
                    _ => draft
                        .body
                        .push(random.pick(&[0, 1, 2, 3, 4, 5, 6, 7, 8, 9, 200])),
                }
            }
        }
    }
    if random.chance(gaps, 8) {
        gap(random, &mut draft);
    }

    // What could not be known before.
    for (root, offset) in last_offset.iter().enumerate() {
        if draft.facilities[root].target.is_none() {
            draft.set_word(draft.sync_at(root), *offset as u32);
        }
    }
    fill_times(random, &mut draft, m);
    lay_section_list(random, &mut draft, with_timescale, with_initial, has_real);
    draft.timescale = match draft.start(0x05) {
        0 => -9,
        at => match draft.byte(at) as i8 {
            scale @ -21..=2 => scale,
            _ => -9,
        },
    };
    draft.initial = match draft.start(0x07) {
        0 => 3,
        at => match draft.byte(at) {
            code @ 0..=8 => code,
            _ => 3,
        },
    };
    draft
}

/// Facilities with names, roots and facts.
fn facilities(random: &mut Random, shape: &Shape) -> Vec<Facility> {
    let n = match random.below(12) {
        0 => 0,
        1 => 1,
        _ => random.within(1, shape.facilities as u64) as usize,
    };
    // An alias's target comes before it in this order, so there is no cycle.
    let mut order: Vec<usize> = (0..n).collect();
    random.shuffle(&mut order);
    let alias_part = random.pick(&[0, 0, 2, 6]);
    let mut list: Vec<Option<Facility>> = vec![None; n];
    for (place, number) in order.iter().enumerate() {
        let target = if place > 0 && random.chance(alias_part, 8) {
            Some(order[random.below(place)])
        } else {
            None
        };
        let facility = match target.and_then(|target| list[target].clone()) {
            Some(aliased) => Facility { target, ..aliased },
            None => root_facility(random, *number, shape),
        };
        list[*number] = Some(facility);
    }
    let mut list: Vec<Facility> = list.into_iter().flatten().collect();
    let mut before: Vec<u8> = Vec::new();
    for facility in &mut list {
        facility.name = name(random, &before);
        before = facility.name.clone();
    }
    list
}

fn root_facility(random: &mut Random, number: usize, shape: &Shape) -> Facility {
    let kind = random.pick(&[
        Kind::Bits,
        Kind::Bits,
        Kind::Bits,
        Kind::Integer,
        Kind::Real,
        Kind::Text,
    ]);
    let (width, msb, lsb) = match kind {
        Kind::Bits => {
            let width = match random.below(10) {
                0..=2 => 1,
                3..=6 => random.within(1, 17),
                7..=8 => random.within(1, 70),
                _ => random.pick(&[
                    u64::from(shape.widest),
                    u64::from(shape.widest) - 1,
                    random.clone().within(1, u64::from(shape.widest)),
                ]),
            }
            .min(u64::from(shape.widest)) as u32;
            let span = width as i32 - 1;
            let low = match random.below(6) {
                0 => i32::MIN,
                1 => i32::MAX - span,
                2 => random.within(0, 200) as i32 - 100,
                _ => 0,
            };
            if random.chance(1, 3) {
                (width, low, low + span)
            } else {
                (width, low + span, low)
            }
        }
        Kind::Integer => (32, 31, 0),
        Kind::Real | Kind::Text => (0, 0, 0),
    };
    Facility {
        name: Vec::new(),
        name_at: 0,
        target: None,
        root: number,
        kind,
        width,
        msb,
        lsb,
    }
}

/// A name that often shares its first bytes with the one before.
pub fn name(random: &mut Random, before: &[u8]) -> Vec<u8> {
    match random.below(20) {
        0 => Vec::new(),
        1 | 2 => before.to_vec(),
        3 if random.chance(1, 8) => vec![b'n'; random.within(1_000, 1_023) as usize],
        _ => {
            let kept = random.below(before.len().min(60) + 1);
            let mut name = before[..kept].to_vec();
            for _ in 0..random.below(8) {
                name.push(match random.below(12) {
                    0 => random.within(1, 255) as u8,
                    1 => b'.',
                    _ => random.within(b'a'.into(), b'd'.into()) as u8,
                });
            }
            name
        }
    }
}

/// A byte order: byte i, lowest first, of every real is data byte order[i].
fn real_order(random: &mut Random) -> [usize; 8] {
    let mut order = [0, 1, 2, 3, 4, 5, 6, 7];
    match random.below(5) {
        0 => {}
        1 => order.reverse(),
        2 => {
            // A 3-cycle, which is not its own inverse.
            let mut places = [0, 1, 2, 3, 4, 5, 6, 7];
            random.shuffle(&mut places);
            let [first, second, third, ..] = places;
            order[first] = second;
            order[second] = third;
            order[third] = first;
        }
        3 => order.rotate_left(4),
        _ => random.shuffle(&mut order),
    }
    order
}

/// Codes packed from the top bit, unused bits 0.
pub fn pack(codes: &[u8], bits_a_symbol: usize) -> Vec<u8> {
    let mut data = vec![0; (codes.len() * bits_a_symbol).div_ceil(8)];
    for (place, code) in codes.iter().enumerate() {
        let bit = place * bits_a_symbol;
        data[bit / 8] |= code << (8 - bits_a_symbol - bit % 8);
    }
    data
}

fn event(
    random: &mut Random,
    root: usize,
    facility: &Facility,
    real_order: &[usize; 8],
    shape: &Shape,
    rubbish_part: u64,
) -> Event {
    let mut clean = true;
    let width = facility.width as usize;
    let symbols = |codes: &[u8]| {
        Meant::Symbols(
            codes
                .iter()
                .map(|code| SYMBOLS[usize::from(*code)])
                .collect(),
        )
    };
    let (command, data, value) = match facility.kind {
        Kind::Bits | Kind::Integer => {
            let command = match facility.kind {
                Kind::Integer => random.pick(&[0, 0, 3, 4]),
                _ => random.pick(&[0, 0, 1, 1, 2, 2, 3, 4, 5, 6, 7, 8, 9, 0x0A, 0x0B]),
            };
            let (most, bits_a_symbol) = match command {
                0 => (1, 1),
                1 => (3, 2),
                2 => (8, 4),
                _ => (0, 0),
            };
            let codes: Vec<u8> = match bits_a_symbol {
                0 => vec![command - 3; width],
                _ => (0..width).map(|_| random.within(0, most) as u8).collect(),
            };
            let mut data = match bits_a_symbol {
                0 => Vec::new(),
                _ => pack(&codes, bits_a_symbol),
            };
            let unused = unused_bits(width * bits_a_symbol);
            if let (Some(last), 1..) = (data.last_mut(), unused) {
                if random.chance(rubbish_part, 8) {
                    *last |= rubbish(random, unused);
                    clean = false;
                }
            }
            (command, data, symbols(&codes))
        }
        Kind::Real => {
            let bits = match random.below(6) {
                0 => u64::from_le_bytes(REAL_TEST),
                1 => 0x7FF0_0000_0000_0000,
                2 => 0x7FF0_0000_0000_0001 | random.any() & 0x800F_FFFF_FFFF_FFFF,
                3 => 1 << 63,
                _ => random.any(),
            };
            let mut data = vec![0; 8];
            for (byte, at) in real_order.iter().enumerate() {
                data[*at] = bits.to_le_bytes()[byte];
            }
            (random.below(16) as u8, data, Meant::Real(bits))
        }
        Kind::Text => {
            let length = match random.below(8) {
                0 => 0,
                1 => random.below(shape.longest_text + 1),
                _ => random.below(9),
            };
            let text: Vec<u8> = (0..length).map(|_| random.within(1, 255) as u8).collect();
            let mut data = text.clone();
            data.push(0);
            (random.below(16) as u8, data, Meant::Text(text))
        }
    };
    Event {
        root,
        command,
        data,
        value,
        clean,
    }
}

/// Rubbish of so many bits, not 0: the lowest alone, the highest alone, all, or any.
pub fn rubbish(random: &mut Random, bits: usize) -> u8 {
    let all = 0xFF >> (8 - bits);
    let any = random.within(1, all.into()) as u8;
    random.pick(&[1, 1 << (bits - 1), all, any])
}

/// The bodies in any order, before, behind or between the changes.
fn order_pieces(random: &mut Random, mut bodies: Vec<u8>, changes: usize) -> Vec<Piece> {
    random.shuffle(&mut bodies);
    let style = random.below(3);
    let mut pieces = vec![Piece::Change; changes];
    for tag in bodies {
        let at = match style {
            0 => 0,
            1 => pieces.len(),
            _ => random.below(pieces.len() + 1),
        };
        pieces.insert(at, Piece::Body(tag));
    }
    pieces
}

/// Bytes that nothing points to.
fn gap(random: &mut Random, draft: &mut Draft) {
    for _ in 0..random.within(1, 6) {
        draft.body.push(random.byte());
    }
}

/// Places a change at `at`: at the end of the body, or inside a body in the `room` that is free
/// there. Tells whether the room was enough.
fn place(
    random: &mut Random,
    draft: &mut Draft,
    at: usize,
    room: Option<usize>,
    event: &Event,
    last_offset: &mut [usize],
) -> bool {
    let previous = last_offset[event.root];
    let least = least_k(at - previous - 2);
    let k = match random.chance(1, 3) {
        true => random.within(least as u64, 4) as usize,
        false => least,
    };
    let bytes = change_bytes(at, previous, event.command, k, &event.data);
    if room.is_some_and(|room| bytes.len() > room) {
        return false;
    }
    if room.is_some() {
        draft.set(at, &bytes);
    } else {
        draft.append(&bytes);
    }
    last_offset[event.root] = at;
    draft.changes.push(Change {
        root: event.root,
        offset: at,
        command: event.command,
        k,
        data: at + 1 + k,
        end: at + bytes.len(),
        previous,
        time: 0,
        value: event.value.clone(),
        clean: event.clean,
    });
    true
}

/// Places the next change inside a body, where its `room` is enough.
fn place_within(
    random: &mut Random,
    draft: &mut Draft,
    at: usize,
    room: usize,
    events: &mut VecDeque<Event>,
    last_offset: &mut [usize],
) {
    if let Some(event) = events.pop_front() {
        if !place(random, draft, at, Some(room), &event, last_offset) {
            events.push_front(event);
        }
    }
}

/// The sync table. The entries of roots come later; that of an alias is ignored, so that a change may
/// lie there.
fn lay_sync(
    random: &mut Random,
    draft: &mut Draft,
    events: &mut VecDeque<Event>,
    last_offset: &mut [usize],
) {
    let start = draft.end();
    let n = draft.facilities.len();
    draft.body.extend(vec![0; 4 * n]);
    for number in 0..n {
        if draft.facilities[number].target.is_none() {
            continue;
        }
        let at = start + 4 * number;
        draft.set_word(at, random.word());
        if random.chance(1, 3) {
            place_within(random, draft, at, 4, events, last_offset);
        }
    }
}

/// The names, each with any prefix length that serves, and M.
fn lay_names(random: &mut Random, draft: &mut Draft) {
    let needed: usize = draft.facilities.iter().map(|it| it.name.len() + 1).sum();
    let memory = match random.below(4) {
        0 => u32::MAX,
        1 => needed as u32 + random.within(0, 100) as u32,
        _ => needed as u32,
    };
    let memory = match draft.facilities.is_empty() {
        true => random.pick(&[0, 1, memory]),
        false => memory,
    };
    draft.append_words(&[draft.facilities.len() as u32, memory]);
    let mut before: Vec<u8> = Vec::new();
    for number in 0..draft.facilities.len() {
        let name = draft.facilities[number].name.clone();
        let shared = before
            .iter()
            .zip(&name)
            .take_while(|(one, other)| one == other)
            .count();
        let prefix = match random.below(4) {
            0 => random.below(shared + 1),
            _ => shared,
        };
        draft.facilities[number].name_at = draft.end();
        draft.append(&(prefix as u16).to_be_bytes());
        draft.append(&name[prefix..]);
        draft.append(&[0]);
        before = name;
    }
}

/// The geometry. msb and lsb are ignored but of bits; a change may lie there.
fn lay_geometry(
    random: &mut Random,
    draft: &mut Draft,
    events: &mut VecDeque<Event>,
    last_offset: &mut [usize],
) {
    let start = draft.end();
    let n = draft.facilities.len();
    draft.body.extend(vec![0; 16 * n]);
    for number in 0..n {
        let facility = draft.facilities[number].clone();
        let at = start + 16 * number;
        let (rows, flags) = match (facility.target, facility.kind) {
            (Some(target), _) => (
                target as u32,
                random.pick(&[8, 9, 15, random.clone().word() | 8]),
            ),
            (None, Kind::Bits) => (0, 0),
            (None, Kind::Integer) => (0, 1),
            (None, Kind::Real) => (0, 2),
            (None, Kind::Text) => (0, 4),
        };
        draft.set_word(at, rows);
        draft.set_word(at + 12, flags);
        if facility.target.is_none() && facility.kind == Kind::Bits {
            draft.set_word(at + 4, facility.msb as u32);
            draft.set_word(at + 8, facility.lsb as u32);
            continue;
        }
        draft.set_word(at + 4, random.word());
        draft.set_word(at + 8, random.word());
        if random.chance(1, 3) {
            place_within(random, draft, at + 4, 8, events, last_offset);
        }
    }
}

/// The times: m positions, of changes or elsewhere, and m times. In some tables both rise; in the others
/// positions, times or both repeat.
fn fill_times(random: &mut Random, draft: &mut Draft, m: usize) {
    let (tied, equal) = random.pick(&[
        (false, false),
        (false, false),
        (true, false),
        (false, true),
        (true, true),
    ]);
    let tag = draft.times_tag();
    let positions = positions(random, draft, m, tied);
    let times = times(random, tag, m, equal);
    let (first, last) = first_and_last(random, tag, &times);
    let table = TimeTable {
        tag,
        first,
        last,
        positions: deltas(&positions, |delta| delta as u32),
        times: deltas(&times, |delta| delta),
    };
    draft.set(draft.times_at(), &table.bytes());
    // Of equal positions the last in the table decides, and before all of them entry 0 itself.
    for change in &mut draft.changes {
        let entry = positions
            .iter()
            .rposition(|position| *position <= change.offset as i64)
            .unwrap_or(0);
        change.time = times[entry];
    }
}

/// The first number and the differences of neighbours.
fn deltas<T>(list: &[i64], of: fn(i64) -> T) -> Vec<T> {
    let mut before = 0;
    let differences = list.iter().map(|number| {
        let difference = number - before;
        before = *number;
        of(difference)
    });
    differences.collect()
}

/// Bounds of the times: those themselves or wider ones. Without a time any two numbers.
fn first_and_last(random: &mut Random, tag: u8, times: &[i64]) -> (i64, i64) {
    let (least, greatest) = time_range(tag);
    let (Some(low), Some(high)) = (times.first(), times.last()) else {
        return (
            random.within_signed(least, greatest),
            random.within_signed(least, greatest),
        );
    };
    let first = match random.chance(1, 2) {
        true => *low,
        false => random.within_signed(least, *low),
    };
    let last = match random.chance(1, 2) {
        true => *high,
        false => random.within_signed(*high, greatest),
    };
    (first, last)
}

/// How many different numbers a list of m has: fewer where some repeat.
fn different(random: &mut Random, m: usize, repeat: bool) -> usize {
    match repeat && m > 1 {
        true => random.within(1, m as u64 - 1) as usize,
        false => m,
    }
}

/// m numbers that never fall: each of a set of at most m, the others repeat its first, its last, one or
/// any of it.
fn repeated(random: &mut Random, numbers: BTreeSet<i64>, m: usize) -> Vec<i64> {
    let mut list: Vec<i64> = numbers.into_iter().collect();
    let count = list.len();
    let place = random.below(count.max(1));
    let style = random.below(4);
    while list.len() < m {
        let repeated = match style {
            0 => 0,
            1 => count - 1,
            2 => place,
            _ => random.below(count),
        };
        list.push(list[repeated]);
    }
    list.sort_unstable();
    list
}

fn positions(random: &mut Random, draft: &Draft, m: usize, tied: bool) -> Vec<i64> {
    let end = draft.end() as i64;
    let mut count = different(random, m, tied);
    let mut positions = BTreeSet::new();
    // Above all changes, so that entry 0 decides for each of them. The newest has two bytes or more.
    let above = draft.changes.last().map_or(4, |it| it.offset as i64 + 1);
    let room = (end - above) as usize;
    let behind_all = random.chance(1, 5) && (tied || count <= room);
    if behind_all {
        count = count.min(room);
    } else if m > 0 && random.chance(1, 5) {
        positions.insert(4);
    }
    while positions.len() < count {
        if behind_all {
            positions.insert(random.within_signed(above, end - 1));
            continue;
        }
        positions.insert(match draft.changes.is_empty() || random.chance(1, 3) {
            true => random.within_signed(4, end - 1),
            false => draft.changes[random.below(draft.changes.len())].offset as i64,
        });
        // A few changes may not give enough different positions.
        if random.chance(1, 4) {
            positions.insert(random.within_signed(4, end - 1));
        }
        while positions.len() > count {
            positions.pop_last();
        }
    }
    repeated(random, positions, m)
}

fn times(random: &mut Random, tag: u8, m: usize, equal: bool) -> Vec<i64> {
    let count = different(random, m, equal);
    let (low, high) = match tag {
        SHORT_TIMES => short_span(random, m as i64),
        _ => long_span(random, m as i64),
    };
    let mut times = BTreeSet::new();
    if m > 0 && random.chance(1, 4) {
        times.insert(low);
    }
    if m > 1 && random.chance(1, 8) {
        times.insert(time_range(tag).1);
    }
    // From the one end of the range to the other, by the largest deltas.
    if tag == LONG_TIMES && m > 4 && random.chance(1, 8) {
        times.extend([i64::MIN, -1, i64::MAX - 1, i64::MAX]);
    }
    let by_high_half = tag == LONG_TIMES && random.chance(1, 5);
    while times.len() < count {
        times.insert(match by_high_half {
            true => random.within_signed(-(m as i64), m as i64) << 32 | random.pick(&[0, 1, 7]),
            false => random.within_signed(low, high),
        });
    }
    let mut times = repeated(random, times, m);
    // A delta of 8 bytes is at most 2^63 - 1: later times come down to what it leads to.
    for place in 1..m {
        let farthest = times[place - 1].saturating_add(i64::MAX);
        times[place] = times[place].min(farthest);
    }
    times
}

/// Where m times of 32 bits lie.
fn short_span(random: &mut Random, m: i64) -> (i64, i64) {
    (0, random.pick(&[3 * m, 3 * m, 1_000 * m, 0xFFFF_FFFF]))
}

/// Where m times of 64 bits lie: at the least number, below the greatest, around 0 or 2^32, or in the whole
/// range.
fn long_span(random: &mut Random, m: i64) -> (i64, i64) {
    let span = random.pick(&[3 * m, 3 * m, 1_000 * m, 1 << 33, i64::MAX]);
    match random.below(6) {
        0 => (i64::MIN, i64::MIN + span),
        1 => (i64::MAX - span, i64::MAX),
        2 => (-(span / 2), span - span / 2),
        3 => ((1 << 32) - span / 2, (1 << 32) + (span - span / 2)),
        4 => (-span, -1),
        _ => (i64::MIN, i64::MAX),
    }
}

/// The section list in any order, with items that are skipped and items that don't count.
fn lay_section_list(
    random: &mut Random,
    draft: &mut Draft,
    with_timescale: bool,
    with_initial: bool,
    has_real: bool,
) {
    let end = draft.end() as u64;
    // Empty bodies may lie anywhere, at T too.
    if draft.facilities.is_empty() && random.chance(1, 2) {
        for tag in [0x02, 0x04] {
            let start = match random.chance(1, 4) {
                true => end,
                false => random.within(4, end),
            };
            draft.set_item(tag, start as u32);
        }
    }
    let lowest = draft
        .changes
        .first()
        .map_or(end, |change| change.offset as u64);
    let c = match random.below(4) {
        0 | 1 => lowest,
        2 => 4,
        _ => random.within(4, lowest),
    };
    draft.items.push((0x01, c as u32));
    // One byte sections may share their byte with anything.
    for (tag, present) in [(0x05, with_timescale), (0x07, with_initial)] {
        if present && draft.value(tag) == 0 {
            let start = random.within(4, end - 1);
            draft.items.push((tag, start as u32));
        } else if !present && random.chance(1, 3) {
            draft.items.push((tag, 0));
        }
    }
    if !has_real && random.chance(1, 4) {
        draft.set_item(
            0x08,
            random.pick(&[0, 1, 3, end as u32, random.clone().word()]),
        );
    }
    if random.chance(1, 3) {
        for _ in 0..random.within(1, 5) {
            let tag = match random.below(3) {
                0 => random.pick(&[0x13, 0x14]),
                _ => random.within(0x15, 0xFF) as u8,
            };
            draft.items.push((tag, random.word()));
        }
    }
    // Absent by a value of 0, even if one farther from END isn't 0.
    if random.chance(1, 3) {
        let tag = random.within(0x0A, 0x12) as u8;
        draft.items.push((tag, 0));
    }
    if random.chance(1, 3) {
        draft.items.push((other_times(draft.times_tag()), 0));
    }
    random.shuffle(&mut draft.items);
    if random.chance(1, 2) {
        for _ in 0..random.within(1, 4) {
            let (tag, _) = draft.items[random.below(draft.items.len())];
            let counting = draft.items.iter().position(|(other, _)| *other == tag);
            let after = counting.map_or(draft.items.len(), |place| place + 1);
            let at = after + random.below(draft.items.len() - after + 1);
            let value = match random.below(4) {
                0 => 0,
                1 => random.within(1, 3) as u32,
                2 => random.within(4, end) as u32,
                _ => random.word(),
            };
            draft.items.insert(at, (tag, value));
        }
    }
}
