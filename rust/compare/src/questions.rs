//! The proved single questions against the independent reader: every answer, and every byte of the
//! lent memory and around it.

use std::collections::{BTreeMap, BTreeSet};
use std::fmt::Debug;

use lxt::{Refusal, TextAt};
use lxt_generate::Random;
use lxt_reference::{Judged, Which};

use crate::times::Entries;

/// Bytes on either side of a lent part, which nothing may write.
const AROUND: usize = 8;

pub const QUESTIONS: [&str; 7] = [
    "facts",
    "root",
    "name",
    "change_before",
    "change",
    "value_at",
    "text_at",
];

/// Texts that are lent as a default.
const TEXTS: [&[u8]; 3] = [b"", b"none", b"\0two\0\0"];

/// Rooms for a name: one less than needed, exactly that, more, and none.
const NAME_ROOMS: [usize; 4] = [1_022, 1_023, 1_032, 0];

/// A buffer of marks, none of them a symbol, with a lent part of `room` bytes in its middle.
pub(crate) fn marked(room: usize) -> Vec<u8> {
    let mark = |at: usize| 0x80 | (at * 37 + 5) as u8;
    (0..AROUND + room + AROUND).map(mark).collect()
}

pub(crate) fn lent(buffer: &mut [u8]) -> &mut [u8] {
    let end = buffer.len() - AROUND;
    &mut buffer[AROUND..end]
}

/// How many of a file's facilities, and of a chain's changes, are asked about.
#[derive(Clone, Copy)]
pub struct Most {
    pub facilities: usize,
    pub changes: usize,
}

pub const ALL: Most = Most {
    facilities: usize::MAX,
    changes: usize::MAX,
};

/// At most so many of a list, evenly, with its first and last one.
pub fn sample<T: Copy>(list: &[T], most: usize) -> Vec<T> {
    if list.len() <= most {
        return list.to_vec();
    }
    let of = |place: usize| list[place * (list.len() - 1) / (most - 1)];
    (0..most).map(of).collect()
}

fn plain(value: lxt::Value) -> lxt_reference::Value {
    match value {
        lxt::Value::Bits { width } => lxt_reference::Value::Bits { width },
        lxt::Value::Real { number, bits } => {
            assert_eq!(number.to_bits(), bits);
            lxt_reference::Value::Real { bits }
        }
        lxt::Value::Text { start, length } => lxt_reference::Value::Text { start, length },
        lxt::Value::NotDriven => lxt_reference::Value::NotDriven,
        other => panic!("{other:?}"),
    }
}

fn sort_of(value: &lxt_reference::Value) -> &'static str {
    match value {
        lxt_reference::Value::Bits { .. } => "bits",
        lxt_reference::Value::Real { .. } => "real",
        lxt_reference::Value::Text { .. } => "text",
        lxt_reference::Value::NotDriven => "not driven",
    }
}

/// That of a change: padding is of bits alone.
fn sort_of_change(read: &lxt_reference::Changed) -> &'static str {
    match (sort_of(&read.value), read.clean) {
        (sort, true) => sort,
        ("bits", false) => "dirty bits",
        (sort, false) => panic!("{sort} with padding"),
    }
}

/// Where a part starts in a slice that it is to be a part of, by the addresses: that of a copy is none.
fn start_in(whole: &[u8], part: &[u8]) -> usize {
    (part.as_ptr() as usize).wrapping_sub(whole.as_ptr() as usize)
}

/// The proved text at a time as the independent reader has it, with where its part lies.
fn plain_text(answer: TextAt, file: &[u8], text: &[u8]) -> lxt_reference::TextAt {
    let (which, start) = match answer {
        TextAt::File(part) => (Which::File, start_in(file, part)),
        TextAt::Lent(part) => (Which::Lent, start_in(text, part)),
        TextAt::OtherKind => (Which::OtherKind, 0),
    };
    lxt_reference::TextAt {
        which,
        start,
        length: answer.bytes().len(),
    }
}

fn sort_of_text(answer: &lxt_reference::TextAt) -> &'static str {
    match answer.which {
        Which::File => "file",
        Which::Lent => "lent",
        Which::OtherKind => "other kind",
    }
}

/// What was compared.
#[derive(Default)]
pub struct Seen {
    /// The questions by their answer's sort or their refusal's number.
    asked: BTreeMap<(&'static str, &'static str, u8), u64>,
    /// The answers that entries at one position decide, as `shared` gives them.
    shared: [u64; 3],
    /// The answers about times outside 32 bits, as `outside` gives them.
    outside: [u64; 5],
    /// The values by the changes visited, as `visited` gives them.
    visited: [u64; 4],
    /// The texts by whose they are, as `texts` gives them.
    texts: [u64; 8],
}

impl Seen {
    pub fn count(&self, question: &str, sort: &str, number: u8) -> u64 {
        let of = |key: &(&str, &str, u8)| *key == (question, sort, number);
        let counts = self.asked.iter().filter(|(key, _)| of(key));
        counts.map(|(_, count)| count).sum()
    }

    /// How many times each question got an answer, as 0, or a refusal, as its number.
    pub fn answers(&self) -> impl Iterator<Item = (&'static str, u8, u64)> + '_ {
        let counts = self.asked.iter();
        counts.map(|((question, _, number), count)| (*question, *number, *count))
    }

    /// How many changes were read whose padding is clean, and how many whose is not.
    pub fn padding(&self) -> [u64; 2] {
        let read = |of: fn(&str) -> bool| {
            let counts = self.asked.iter();
            let counts = counts.filter(|((question, sort, number), _)| {
                (*question, *number) == ("change", 0) && of(sort)
            });
            counts.map(|(_, count)| count).sum()
        };
        [
            read(|sort| sort != "dirty bits"),
            read(|sort| sort == "dirty bits"),
        ]
    }

    /// How many changes were read whose time shows which of several entries at one position decides: the
    /// last, or entry 0 since the change lies before every position. Then how many values were asked for
    /// while such a change is there by one of these entries and not yet by another, at times that are not
    /// next to a change's.
    pub fn shared(&self) -> [u64; 3] {
        self.shared
    }

    /// How many times outside 32 bits were met: changes read with a time below 0, and with one past 32 bits;
    /// values asked for below 0 and past 32 bits in files with 64-bit times, and outside in the others.
    pub fn outside(&self) -> [u64; 5] {
        self.outside
    }

    /// How many values were asked for, by the changes visited: before all changes, where each of them is visited
    /// and none is answered; of roots without changes; with one change visited; and with several, the last of
    /// which is answered.
    pub fn visited(&self) -> [u64; 4] {
        self.visited
    }

    /// How many texts were asked for, by the answer: parts of the file that are not empty, and that are; lent texts
    /// before later changes, of roots without changes, that are empty, and that lie in the file; other kinds that
    /// are driven, and that are not.
    pub fn texts(&self) -> [u64; 8] {
        self.texts
    }

    pub fn report(&self, what: &str) {
        let total: u64 = self.asked.values().sum();
        let [after, before, between] = self.shared;
        println!("{what}: {total} questions {:?}", self.asked);
        println!("  by the last of several entries {after}, by entry 0 of several {before}");
        println!(
            "  between their times {between}, outside 32 bits {:?}, visited {:?}, texts {:?}",
            self.outside, self.visited, self.texts
        );
    }
}

/// The changes of the root of a facility.
#[derive(Clone, Copy, Default)]
struct Own {
    count: usize,
    /// The time of the oldest.
    first: Option<i64>,
    /// How many there can be, of two bytes each.
    most: usize,
}

/// A file, what the independent reader knows about it, and what was compared.
struct Asked<'a> {
    file: &'a [u8],
    judged: Result<Judged<'a>, u8>,
    entries: Entries,
    long_times: bool,
    /// Of the facility that is asked about.
    own: Own,
    /// Draws the texts that are lent.
    random: Random,
    what: &'a str,
    seen: &'a mut Seen,
}

impl<'a> Asked<'a> {
    fn new(file: &'a [u8], what: &'a str, seen: &'a mut Seen) -> Self {
        let judged = Judged::new(file);
        let entries = judged.as_ref().map(Entries::of).unwrap_or_default();
        let long_times = judged.as_ref().is_ok_and(Judged::has_long_times);
        Asked {
            file,
            judged,
            entries,
            long_times,
            own: Own::default(),
            random: Random::new(file.len() as u64),
            what,
            seen,
        }
    }

    fn expect<T>(&self, ask: impl FnOnce(&Judged) -> Result<T, u8>) -> Result<T, u8> {
        match &self.judged {
            Ok(judged) => ask(judged),
            Err(number) => Err(*number),
        }
    }

    /// Compares two answers with all bytes lent for them.
    fn same<T: PartialEq + Debug>(
        &mut self,
        question: (&'static str, &[i64]),
        sort: fn(&T) -> &'static str,
        proved: (Result<T, Refusal>, &[u8]),
        expected: (Result<T, u8>, &[u8]),
    ) {
        let answer = proved.0.map_err(Refusal::number);
        let key = match &expected.0 {
            Ok(answer) => (question.0, sort(answer), 0),
            Err(number) => (question.0, "refused", *number),
        };
        *self.seen.asked.entry(key).or_default() += 1;
        if answer != expected.0 || proved.1 != expected.1 {
            panic!(
                "{question:?} of {}\nproved {answer:?} {:02X?}\nexpected {:?} {:02X?}\nfile {:02X?}",
                self.what,
                proved.1,
                expected.0,
                expected.1,
                &self.file[..self.file.len().min(10_000)]
            );
        }
    }

    fn root(&mut self, facility: u32) {
        let proved = lxt::root(self.file, facility);
        let expected = self.expect(|judged| judged.root(facility));
        self.same(
            ("root", &[facility.into()]),
            |_| "number",
            (proved, &[]),
            (expected, &[]),
        );
    }

    fn name(&mut self, facility: u32, room: usize) {
        let (mut ours, mut theirs) = (marked(room), marked(room));
        let proved = lxt::name(self.file, facility, lent(&mut ours)).map(<[u8]>::to_vec);
        let expected = self.expect(|judged| {
            let length = judged.name(facility, lent(&mut theirs))?;
            assert_eq!(
                lent(&mut theirs)[..length],
                judged.name_of(facility)[..length]
            );
            Ok(judged.name_of(facility).to_vec())
        });
        self.same(
            ("name", &[facility.into(), room as i64]),
            |_| "name",
            (proved, &ours),
            (expected, &theirs),
        );
    }

    fn change_before(&mut self, facility: u32, offset: u32) {
        let proved = lxt::change_before(self.file, facility, offset);
        let expected = self.expect(|judged| judged.change_before(facility, offset));
        self.same(
            ("change_before", &[facility.into(), offset.into()]),
            |_| "number",
            (proved, &[]),
            (expected, &[]),
        );
    }

    fn value_at(&mut self, facility: u32, time: i64, room: usize) {
        let (mut ours, mut theirs) = (marked(room), marked(room));
        let proved = lxt::value_at(self.file, facility, time, lent(&mut ours));
        let proved = proved.map(|lookup| lxt_reference::Lookup {
            value: plain(lookup.value),
            visited: lookup.visited,
        });
        let expected = self.expect(|judged| judged.value_at(facility, time, lent(&mut theirs)));
        self.same(
            ("value_at", &[facility.into(), time, room as i64]),
            |lookup| sort_of(&lookup.value),
            (proved, &ours),
            (expected, &theirs),
        );
        if let Ok(lookup) = expected {
            self.count_outside(time);
            self.count_visited(time, lookup.visited as usize);
        }
    }

    /// Asks with one of the texts or with a part of the file as the default.
    fn text_at(&mut self, facility: u32, time: i64) {
        let drawn = self.random.below(TEXTS.len() + 1);
        match TEXTS.get(drawn) {
            Some(text) => {
                let mut buffer = marked(text.len());
                lent(&mut buffer).copy_from_slice(text);
                let text = &buffer[AROUND..AROUND + text.len()];
                self.text_with(facility, time, text, &buffer);
            }
            None => {
                let third = self.file.len() / 3;
                let text = &self.file[third..][..third.min(64)];
                self.text_with(facility, time, text, text);
            }
        }
    }

    /// Asks with a text that lies in the file or in a buffer, of which no byte changes.
    fn text_with(&mut self, facility: u32, time: i64, text: &[u8], buffer: &[u8]) {
        let before = buffer.to_vec();
        let proved = lxt::text_at(self.file, facility, time, text);
        let proved = proved.map(|answer| plain_text(answer, self.file, text));
        let expected = self.expect(|judged| judged.text_at(facility, time, text));
        self.same(
            ("text_at", &[facility.into(), time, text.len() as i64]),
            sort_of_text,
            (proved, buffer),
            (expected, &before),
        );
        if let Ok(answer) = expected {
            self.count_text(time, answer, std::ptr::eq(text, buffer));
        }
    }

    /// Counts an answered text: of the file exactly where a change of a text is answered.
    fn count_text(&mut self, time: i64, answer: lxt_reference::TextAt, in_file: bool) {
        let Own { count, first, .. } = self.own;
        let driven = first.is_some_and(|first| first <= time);
        let [file, lent, other] =
            [Which::File, Which::Lent, Which::OtherKind].map(|it| it == answer.which);
        assert!(other || file == driven, "{}", self.what);
        let empty = answer.length == 0;
        let met = [
            file && !empty,
            file && empty,
            lent && count > 0,
            lent && count == 0,
            lent && empty,
            lent && in_file,
            other && driven,
            other && !driven,
        ];
        for (count, met) in self.seen.texts.iter_mut().zip(met) {
            *count += u64::from(met);
        }
    }

    /// Counts an answered value where its time leaves 32 bits.
    fn count_outside(&mut self, time: i64) {
        let places = match self.long_times {
            true => [2, 3],
            false => [4, 4],
        };
        if let Some(side) = outside(time) {
            self.seen.outside[places[side]] += 1;
        }
    }

    /// Counts an answered value by the changes visited: all where none is answered, else at least that one.
    fn count_visited(&mut self, time: i64, visited: usize) {
        let Own { count, first, most } = self.own;
        assert!(visited <= most, "{}", self.what);
        let answered = first.is_some_and(|first| first <= time);
        match answered {
            true => assert!((1..=count).contains(&visited), "{}", self.what),
            false => assert_eq!(visited, count, "{}", self.what),
        }
        let met = [
            !answered && visited > 0,
            !answered && visited == 0,
            visited == 1,
            answered && visited > 1,
        ];
        for (count, met) in self.seen.visited.iter_mut().zip(met) {
            *count += u64::from(met);
        }
    }

    fn facts(&mut self, facility: u32) {
        let proved = lxt::facts(self.file, facility).map(|facts| lxt_reference::Facts {
            width: facts.width,
            msb: facts.msb,
            lsb: facts.lsb,
            kind: match facts.kind {
                lxt::Kind::Bits => lxt_reference::Kind::Bits,
                lxt::Kind::Integer => lxt_reference::Kind::Integer,
                lxt::Kind::Real => lxt_reference::Kind::Real,
                lxt::Kind::Text => lxt_reference::Kind::Text,
                other => panic!("{other:?}"),
            },
        });
        let expected = self.expect(|judged| judged.facts(facility));
        self.same(
            ("facts", &[facility.into()]),
            |facts| match facts.kind {
                lxt_reference::Kind::Bits => "bits",
                lxt_reference::Kind::Integer => "integer",
                lxt_reference::Kind::Real => "real",
                lxt_reference::Kind::Text => "text",
            },
            (proved, &[]),
            (expected, &[]),
        );
    }

    fn change(&mut self, facility: u32, offset: u32, room: usize) {
        let (mut ours, mut theirs) = (marked(room), marked(room));
        let proved = lxt::change(self.file, facility, offset, lent(&mut ours));
        let proved = proved.map(|read| lxt_reference::Changed {
            time: read.time,
            value: plain(read.value),
            clean: read.clean,
        });
        let expected = self.expect(|judged| judged.change(facility, offset, lent(&mut theirs)));
        if let (Ok(_), Some(shared)) = (expected, self.entries.shared(offset)) {
            self.seen.shared[usize::from(shared.before_all)] += 1;
        }
        if let Some(side) = expected.ok().and_then(|read| outside(read.time)) {
            self.seen.outside[side] += 1;
        }
        self.same(
            ("change", &[facility.into(), offset.into(), room as i64]),
            sort_of_change,
            (proved, &ours),
            (expected, &theirs),
        );
    }

    /// Every question about a facility, at these offsets, times and rooms.
    fn facility(&mut self, facility: u32, offsets: &[u32], times: &[i64], rooms: &[usize]) {
        self.root(facility);
        self.facts(facility);
        for room in NAME_ROOMS {
            self.name(facility, room);
        }
        for &offset in offsets {
            self.change_before(facility, offset);
            for &room in rooms {
                self.change(facility, offset, room);
            }
        }
        for &time in times {
            for &room in rooms {
                self.value_at(facility, time, room);
            }
            self.text_at(facility, time);
        }
    }
}

/// Where a time leaves 32 bits: 0 below, 1 above.
fn outside(time: i64) -> Option<usize> {
    match time {
        ..0 => Some(0),
        0..=0xFFFF_FFFF => None,
        _ => Some(1),
    }
}

/// One less, the offset itself and one more, for each, and the ends of the range.
fn around(offsets: &[u32]) -> BTreeSet<u32> {
    let mut all = BTreeSet::from([0, u32::MAX]);
    for offset in offsets {
        all.extend([offset.saturating_sub(1), *offset, offset.saturating_add(1)]);
    }
    all
}

/// The ends of the range of times, and the neighbours of those of 32 bits.
const ENDS: [i64; 6] = [i64::MIN, -1, 0, 0xFFFF_FFFF, 0x1_0000_0000, i64::MAX];

/// One less, the time itself and one more, for each, and the ends of the ranges.
fn around_times(times: &[i64]) -> BTreeSet<i64> {
    let mut all = BTreeSet::from(ENDS);
    for time in times {
        all.extend([time.saturating_sub(1), *time, time.saturating_add(1)]);
    }
    all
}

/// Asks every question about a file, of all facilities and changes or so many of them.
pub fn compare(file: &[u8], what: &str, most: Most, seen: &mut Seen) {
    let mut asked = Asked::new(file, what, seen);
    let Ok(judged) = &asked.judged else {
        for facility in [0, 1, u32::MAX] {
            asked.facility(
                facility,
                &[0, 10, u32::MAX],
                &[i64::MIN, 0, i64::MAX],
                &[0, 40],
            );
        }
        return;
    };
    let summary = judged.summary();
    let chains = judged.chains();
    let facilities: Vec<u32> = (0..summary.facilities).collect();
    let mut plans = Vec::new();
    for facility in sample(&facilities, most.facilities) {
        let root = judged.root(facility).expect("a root") as usize;
        let facts = judged.facts(facility).expect("facts");
        let own = sample(&chains[root], most.changes);
        // The time of a change is asked of the reader, with room for every value.
        let mut room = vec![0; facts.width as usize];
        let read = |offset: &u32| judged.change(facility, *offset, &mut room);
        let times = own.iter().map(read).map(|it| it.expect("a change").time);
        let times = Vec::from_iter(times);
        let all = Own {
            count: chains[root].len(),
            first: times.last().copied(),
            most: (summary.end - summary.changes) as usize / 2,
        };
        let of_changes = around_times(&times);
        // Of entries at one position also the times that do not decide, and others between them.
        let (mut others, mut between) = (Vec::new(), Vec::new());
        for shared in own.iter().filter_map(|it| asked.entries.shared(*it)) {
            let some = sample(&shared.times(), 4);
            let middle = |pair: &[i64]| pair[0].midpoint(pair[1]);
            others.extend(some.windows(2).map(middle));
            others.extend(some);
            between.push(shared.between());
        }
        let mut times = around_times(&others);
        times.retain(|time| !of_changes.contains(time));
        let shows = |time: &&i64| between.iter().any(|it| it.contains(time));
        let shown = times.iter().filter(shows).count() as u64;
        times.extend(of_changes);
        // And of the table all times, or some with the first and the last.
        let of_table = sample(&asked.entries.times(), most.changes.max(6));
        times.extend(around_times(&of_table));

        let mut offsets = around(&own);
        offsets.extend(around(&[summary.changes, summary.end]));
        // Another root's last change is not on this chain.
        let other = (root + 1..chains.len()).chain(0..root);
        let other = other.filter_map(|number| chains[number].first());
        offsets.extend(other.take(1));

        let width = facts.width as usize;
        let rooms = BTreeSet::from([width.saturating_sub(1), width, width + 5]);
        plans.push((facility, offsets, times, rooms, (shown, all)));
    }
    for facility in [summary.facilities, u32::MAX] {
        let (offsets, rooms) = (around(&[summary.changes]), BTreeSet::from([0, 40]));
        let none = (0, Own::default());
        plans.push((facility, offsets, ENDS.into(), rooms, none));
    }
    for (facility, offsets, times, rooms, (shown, own)) in plans {
        let offsets = Vec::from_iter(offsets);
        let times = Vec::from_iter(times);
        asked.own = own;
        asked.facility(facility, &offsets, &times, &Vec::from_iter(rooms));
        asked.seen.shared[2] += shown;
    }
}
