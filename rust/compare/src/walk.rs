//! The proved walk against the independent reader and against lists of changes: every answer, and
//! every pair and number of the lent memory and around it.

mod records;

pub use records::{landmarks, pending_anywhere};

use std::collections::{BTreeMap, BTreeSet};

use lxt::{Pair, Refusal};
use lxt_generate::Random;
use lxt_reference::{Fault, Judged, RecordFault, Tables};

use crate::times::Entries;

/// Pairs and numbers on either side of a lent part, which nothing may write.
const AROUND: usize = 4;

/// A number with the top bit set: no facility's number and no offset of a file.
fn mark(at: usize) -> u32 {
    0x8000_0000 | (at as u32).wrapping_mul(0x9E37_79B1) >> 1
}

/// Marks with a lent part of `room` numbers in their middle.
fn marked(room: usize) -> Vec<u32> {
    (0..AROUND + room + AROUND).map(mark).collect()
}

/// Marks with a lent part of `room` pairs in their middle.
fn marked_pairs(room: usize) -> Vec<Pair> {
    let pair = |at: usize| Pair {
        number: mark(2 * at),
        offset: mark(2 * at + 1),
    };
    (0..AROUND + room + AROUND).map(pair).collect()
}

/// Marks with these pairs in their middle, and `extra` pairs of marks after them in the lent part.
pub fn record_of(pairs: &[(u32, u32)], extra: usize) -> Vec<Pair> {
    let mut record = marked_pairs(pairs.len() + extra);
    for (pair, (number, offset)) in lent(&mut record).iter_mut().zip(pairs) {
        *pair = Pair {
            number: *number,
            offset: *offset,
        };
    }
    record
}

fn lent<T>(buffer: &mut [T]) -> &mut [T] {
    let end = buffer.len() - AROUND;
    &mut buffer[AROUND..end]
}

/// The first pairs of a record.
fn plain(record: &[Pair], count: usize) -> Vec<(u32, u32)> {
    let pairs = &record[AROUND..AROUND + count];
    pairs.iter().map(|it| (it.number, it.offset)).collect()
}

/// Numbers and offsets, as the independent reader takes them.
fn apart(record: &[Pair]) -> (Vec<u32>, Vec<u32>) {
    record.iter().map(|it| (it.number, it.offset)).unzip()
}

fn together(numbers: &[u32], offsets: &[u32]) -> Vec<Pair> {
    let pairs = numbers.iter().zip(offsets);
    let pair = |(number, offset): (&u32, &u32)| Pair {
        number: *number,
        offset: *offset,
    };
    pairs.map(pair).collect()
}

/// The output after these pairs were handed out into a room of marks.
fn output_of(pairs: &[(u32, u32)], room: usize) -> Vec<u32> {
    let mut output = marked(room);
    for (place, (number, offset)) in pairs.iter().enumerate() {
        lent(&mut output)[2 * place] = *number;
        lent(&mut output)[2 * place + 1] = *offset;
    }
    output
}

/// The record where this is left to be handed out: of each facility the first pair's offset, or 0.
fn record_after(before: &[Pair], n: usize, left: &[(u32, u32)]) -> Vec<Pair> {
    let mut record = before.to_vec();
    for pair in &mut lent(&mut record)[..n] {
        pair.offset = 0;
    }
    for (number, offset) in left.iter().rev() {
        lent(&mut record)[*number as usize].offset = *offset;
    }
    record
}

fn too_short(room: usize, size: u32) -> bool {
    (room as u64) < 2 * u64::from(size)
}

/// The compared calls by what they met, and other things met.
#[derive(Default)]
pub struct Seen {
    calls: BTreeMap<(&'static str, String), u64>,
    met: BTreeMap<String, u64>,
}

impl Seen {
    fn call(&mut self, call: &'static str, what: impl Into<String>) {
        *self.calls.entry((call, what.into())).or_default() += 1;
    }

    fn meet(&mut self, what: impl Into<String>) {
        *self.met.entry(what.into()).or_default() += 1;
    }

    /// Fails unless so many calls met this.
    pub fn least(&self, call: &'static str, what: &str, least: u64) {
        let count = self.calls.get(&(call, what.to_string())).copied();
        let count = count.unwrap_or(0);
        assert!(count >= least, "{call}, {what}: {count} of {least}");
    }

    pub fn least_met(&self, what: &str, least: u64) {
        let count = self.met.get(what).copied().unwrap_or(0);
        assert!(count >= least, "{what}: {count} of {least}");
    }

    /// How many times each call got an answer, as 0, or a refusal, as its number.
    pub fn answers(&self) -> impl Iterator<Item = (&'static str, u8, u64)> + '_ {
        self.calls.iter().map(|((call, what), count)| {
            let number = what.split(' ').next().unwrap_or_default();
            (*call, number.parse().unwrap_or(0), *count)
        })
    }

    pub fn report(&self, what: &str) {
        let total: u64 = self.calls.values().sum();
        println!("{what}: {total} calls compared");
        for ((call, case), count) in &self.calls {
            println!("  {count:8} {call}: {case}");
        }
        for (met, count) in &self.met {
            println!("  {count:8} {met}");
        }
    }
}

/// What a case of 20 is called.
pub fn name_of(fault: RecordFault) -> String {
    match fault {
        RecordFault::Chain(fault) => format!("20 {fault:?}"),
        fault => format!("20 {fault:?}"),
    }
}

/// Whether the first broken chain of a record is sound in its first change.
fn broken_below(tables: &Tables, record: &[(u32, u32)]) -> bool {
    let downwards = tables.downwards();
    let mut parts = record
        .iter()
        .enumerate()
        .map(|(root, pair)| downwards.sound_part(root, pair.1));
    let broken = parts.find(|(_, fault)| fault.is_some());
    broken.is_some_and(|(sound, _)| !sound.is_empty())
}

/// A file that calls are made about, and what was compared.
pub struct Calls<'a> {
    file: &'a [u8],
    pub tables: Result<Tables<'a>, u8>,
    judged: Result<Judged<'a>, u8>,
    /// Whether each call is also compared with the list of the pairs that its record leads to.
    pub by_list: bool,
    what: &'a str,
    seen: &'a mut Seen,
}

impl<'a> Calls<'a> {
    pub fn new(file: &'a [u8], what: &'a str, seen: &'a mut Seen) -> Self {
        Calls {
            file,
            tables: Tables::new(file),
            judged: Judged::new(file),
            by_list: true,
            what,
            seen,
        }
    }

    /// n, or 0 where the tables are refused.
    pub fn n(&self) -> usize {
        self.tables.as_ref().map_or(0, Tables::facilities)
    }

    fn fail(&self, call: &str, proved: &str, expected: &str) -> ! {
        let bytes = &self.file[..self.file.len().min(10_000)];
        let first = |text: &str| text.chars().take(10_000).collect::<String>();
        panic!(
            "{} of {}\nproved   {}\nexpected {}\nfile {bytes:02X?}",
            first(call),
            self.what,
            first(proved),
            first(expected)
        );
    }

    /// Starts a walk with a room of so many marked pairs, both ways. Gives the answer and the record.
    pub fn start(&mut self, asked: &[u8], room: usize) -> (Result<(), u8>, Vec<Pair>) {
        let mut record = marked_pairs(room);
        let proved = lxt::start_walk(self.file, asked, lent(&mut record));
        let proved = proved.map_err(Refusal::number);

        let (mut numbers, mut offsets) = apart(&marked_pairs(room));
        let expected =
            lxt_reference::start_walk(self.file, asked, lent(&mut numbers), lent(&mut offsets));
        let expected_record = together(&numbers, &offsets);
        if proved != expected || record != expected_record {
            self.fail(
                &format!("start {asked:?} {room}"),
                &format!("{proved:?} {record:?}"),
                &format!("{expected:?} {expected_record:?}"),
            );
        }
        let what = match expected {
            Ok(()) => "started".to_string(),
            Err(21) if asked.len() == self.n() => "21 pairs".to_string(),
            Err(21) => "21 pairs, before 22".to_string(),
            Err(22) if asked.len() < self.n() => "22 too few".to_string(),
            Err(22) => "22 too many".to_string(),
            Err(number) => number.to_string(),
        };
        self.seen.call("start", what);
        (proved, record)
    }

    /// Carries on over a record, both ways and by the list of what it leads to. Gives the answer and
    /// the output with its marks; the record moves.
    pub fn carry_on(
        &mut self,
        record: &mut Vec<Pair>,
        size: u32,
        room: usize,
    ) -> (Result<(u32, bool), u8>, Vec<u32>) {
        let before = record.clone();
        let mut output = marked(room);
        let proved = lxt::carry_on(self.file, lent(record), size, lent(&mut output));
        let proved = proved.map_err(Refusal::number);

        let (mut numbers, mut offsets) = apart(&before);
        let mut expected_output = marked(room);
        let expected = lxt_reference::carry_on(
            self.file,
            lent(&mut numbers),
            lent(&mut offsets),
            lent(&mut expected_output),
            size.into(),
        );
        let expected_record = together(&numbers, &offsets);
        if proved != expected || *record != expected_record || output != expected_output {
            self.fail(
                &format!("carry on {before:?} {size} {room}"),
                &format!("{proved:?} {record:?} {output:?}"),
                &format!("{expected:?} {expected_record:?} {expected_output:?}"),
            );
        }
        if expected.is_err() && (*record != before || output != marked(room)) {
            self.fail("refused", "moved", "nothing changed");
        }
        self.name_call(&before, record, &output, proved, size);
        (proved, output)
    }

    /// Compares a call with the list of what its record led to, and counts it by what it met.
    fn name_call(
        &mut self,
        before: &[Pair],
        after: &[Pair],
        output: &[u32],
        proved: Result<(u32, bool), u8>,
        size: u32,
    ) {
        let length = before.len() - 2 * AROUND;
        let room = output.len() - 2 * AROUND;
        let what = match &self.tables {
            Err(number) => {
                assert_eq!(proved, Err(*number));
                number.to_string()
            }
            Ok(tables) if length < tables.facilities() => {
                assert_eq!(proved, Err(21));
                let number = |(at, pair): (usize, &(u32, u32))| pair.0 as usize == at;
                match plain(before, length).iter().enumerate().all(number) {
                    true => "21 pairs".to_string(),
                    false => "21 pairs, before 20".to_string(),
                }
            }
            Ok(_) if !self.by_list => match proved {
                Ok((_, done)) => format!("done {done}"),
                Err(number) => format!("{number} of a hostile file"),
            },
            Ok(tables) => {
                let n = tables.facilities();
                match tables.downwards().rest(&plain(before, n)) {
                    Err(fault) => {
                        assert_eq!(proved, Err(20), "{}", self.what);
                        if too_short(room, size) {
                            self.seen.meet("20 before the output's 21");
                        }
                        if self.judged.is_err() {
                            self.seen.meet("20 of a file that 15 to 17 refuse");
                        }
                        if let RecordFault::Chain(fault) = fault {
                            if broken_below(tables, &plain(before, n)) {
                                self.seen
                                    .meet(format!("20 {fault:?} below the first change"));
                            }
                        }
                        name_of(fault)
                    }
                    Ok(_) if too_short(room, size) => {
                        assert_eq!(proved, Err(21), "{}", self.what);
                        "21 output".to_string()
                    }
                    Ok(rest) => {
                        let count = rest.len().min(size as usize);
                        let done = count == rest.len();
                        assert_eq!(proved, Ok((count as u32, done)), "{}", self.what);
                        assert_eq!(output, output_of(&rest[..count], room), "{}", self.what);
                        let left = record_after(before, n, &rest[count..]);
                        assert_eq!(after, left, "{}", self.what);
                        self.meet_answered(before, &rest[..count]);
                        format!("done {done}")
                    }
                }
            }
        };
        self.seen.call("carry on", what);
    }

    /// Counts what a call met that was not refused.
    fn meet_answered(&mut self, before: &[Pair], handed: &[(u32, u32)]) {
        if handed.windows(2).any(|pair| pair[0].1 == pair[1].1) {
            self.seen.meet("equal offsets handed out");
        }
        if handed.is_empty() {
            return;
        }
        match &self.judged {
            Err(number) => self
                .seen
                .meet(format!("walk on in a file refused {number}")),
            Ok(judged) => {
                // Chains are long in large files.
                if self.file.len() > 3_000 {
                    return;
                }
                let chains = judged.chains();
                let own = |(number, offset): &(u32, u32)| {
                    *offset == 0 || chains[*number as usize].contains(offset)
                };
                if !plain(before, chains.len()).iter().all(own) {
                    self.seen.meet("walk on off the root's own chain");
                }
            }
        }
    }
}

/// A source of numbers that a file settles, for a purpose.
fn random_of(file: &[u8], purpose: u64) -> Random {
    let mix = |sum: u64, byte: &u8| (sum ^ u64::from(*byte)).wrapping_mul(0x100_0000_01B3);
    Random::new(file.iter().fold(purpose, mix))
}

// ---- Whole walks ----

/// A byte that asks.
fn asking(random: &mut Random) -> u8 {
    random.pick(&[1, 1, 2, 0x80, 0xFF])
}

/// Asked bytes: none, all, one facility, one alias, a root with its aliases, and any.
fn asked_sets(judged: &Judged, random: &mut Random) -> Vec<Vec<u8>> {
    let n = judged.summary().facilities as usize;
    let root = |facility: usize| judged.root(facility as u32).expect("a root") as usize;
    let mut sets = vec![vec![0; n], (0..n).map(|_| asking(random)).collect()];
    if n == 0 {
        return sets;
    }
    let mut one = vec![0; n];
    one[random.below(n)] = asking(random);
    sets.push(one);

    let aliases: Vec<usize> = (0..n).filter(|number| root(*number) != *number).collect();
    if !aliases.is_empty() {
        let alias = random.pick(&aliases);
        let mut one = vec![0; n];
        one[alias] = asking(random);
        sets.push(one);
        let same = |facility| u8::from(root(facility) == root(alias));
        sets.push((0..n).map(same).collect());
    }
    let part = random.within(1, 7);
    let byte = |random: &mut Random| match random.chance(part, 8) {
        true => asking(random),
        false => 0,
    };
    sets.push((0..n).map(|_| byte(random)).collect());
    sets
}

/// The size of a call, where so many of a list are left: any from 0 to beyond the list.
fn any_size(random: &mut Random, length: usize, left: usize) -> u32 {
    let (length, left) = (length as u32, left as u32);
    match random.below(12) {
        0..=2 => random.within(0, u64::from(length) + 3) as u32,
        3 | 4 => random.within(0, u64::from(left)) as u32,
        5 => left,
        6 => random.pick(&[left.saturating_sub(1), left + 1]),
        7 => length + random.within(1, 700) as u32,
        // Twice as many numbers are no 32-bit number, or no buffer has them.
        8 => random.pick(&[0x8000_0000, 0x8000_0001, 0x7FFF_FFFF, 0x4000_0000, u32::MAX]),
        _ => small_size(random),
    }
}

/// A size that needs many calls.
fn small_size(random: &mut Random) -> u32 {
    random.pick(&[0, 1, 1, 1, 2, 2, 3, 5])
}

/// The room of an output: around twice the size, around the size, none, or much.
fn any_room(random: &mut Random, size: u32) -> usize {
    if size > 1 << 24 {
        return random.pick(&[0, 1, 2, 3, 64]);
    }
    let twice = 2 * size as usize;
    match random.below(12) {
        0 | 1 => twice.saturating_sub(1),
        2 => 0,
        3 => size as usize,
        4 => twice.saturating_sub(2),
        5 | 6 => twice + 1,
        7 => twice + random.below(200),
        _ => twice,
    }
}

/// One whole walk: a start, calls until done and two after that, each compared with the full list.
/// After so many calls the rest is taken in one.
fn whole_walk(
    calls: &mut Calls,
    asked: &[u8],
    list: &[(u32, u32)],
    most: usize,
    random: &mut Random,
) {
    let n = asked.len();
    let (start, mut record) = calls.start(asked, n + random.below(4));
    assert_eq!(start, Ok(()), "{}", calls.what);
    let started = record.clone();
    let (numbers, _) = apart(&record[AROUND..AROUND + n]);
    assert_eq!(numbers, Vec::from_iter(0..n as u32), "{}", calls.what);
    assert_eq!(record, record_after(&started, n, list), "{}", calls.what);
    assert_eq!(
        record[AROUND + n..],
        marked_pairs(record.len() - 2 * AROUND)[AROUND + n..]
    );

    let mut joined: Vec<(u32, u32)> = Vec::new();
    let (mut made, mut past) = (0, 0);
    let small = random.chance(1, 2);
    while past < 2 {
        let handed = joined.len();
        let left = list.len() - handed;
        let (size, room) = match made < most {
            true => {
                let size = match small {
                    true => small_size(random),
                    false => any_size(random, list.len(), left),
                };
                (size, any_room(random, size))
            }
            false => (left as u32, 2 * left),
        };
        made += 1;
        past += usize::from(left == 0);
        let before = record.clone();
        let (answer, output) = calls.carry_on(&mut record, size, room);

        if too_short(room, size) {
            assert_eq!(answer, Err(21), "{}", calls.what);
            assert_eq!(record, before, "{}", calls.what);
            assert_eq!(output, marked(room), "{}", calls.what);
            continue;
        }
        let count = left.min(size as usize);
        let next = &list[handed..handed + count];
        let done = handed + count == list.len();
        assert_eq!(answer, Ok((count as u32, done)), "{}", calls.what);
        assert_eq!(output, output_of(next, room), "{}", calls.what);
        let new = output[AROUND..AROUND + 2 * count].chunks(2);
        joined.extend(new.map(|pair| (pair[0], pair[1])));
        assert_eq!(joined[..], list[..joined.len()], "{}", calls.what);
        let left = &list[joined.len()..];
        assert_eq!(record, record_after(&started, n, left), "{}", calls.what);
    }
    calls.seen.meet("whole walks");
    if made > past + 2 {
        calls.seen.meet("whole walks of several calls");
    }
}

/// Whole walks over an accepted file with each sort of asked bytes.
pub fn whole_walks(file: &[u8], what: &str, seen: &mut Seen) {
    let mut random = random_of(file, 1);
    let mut calls = Calls::new(file, what, seen);
    let Ok(judged) = Judged::new(file) else {
        return;
    };
    let most = match file.len() {
        0..=3_000 => 30,
        3_001..=60_000 => 10,
        60_001..=200_000 => 5,
        _ => 3,
    };
    let clean = judged.summary().clean;
    let shared = Entries::of(&judged).share_position();
    for asked in asked_sets(&judged, &mut random) {
        let list = judged.full_list(&asked).expect("a full list");
        whole_walk(&mut calls, &asked, &list, most, &mut random);
        let mut bits = [0; lxt::WIDEST];
        let mut read = |(root, offset): &(u32, u32)| judged.change(*root, *offset, &mut bits);
        if !clean && list.iter().any(|it| read(it).is_ok_and(|it| !it.clean)) {
            calls.seen.meet("whole walks over dirty changes");
        }
        if shared && !list.is_empty() {
            calls
                .seen
                .meet("whole walks beside entries at one position");
        }
    }
}

// ---- Wider walks ----

/// The pairs of a whole walk, in calls of any size.
fn walked(calls: &mut Calls, asked: &[u8], random: &mut Random) -> Vec<(u32, u32)> {
    let n = asked.len();
    let (start, mut record) = calls.start(asked, n);
    assert_eq!(start, Ok(()));
    let mut list = Vec::new();
    loop {
        let size = random.within(0, 40 + list.len() as u64) as u32;
        let (answer, output) = calls.carry_on(&mut record, size, 2 * size as usize);
        let (count, done) = answer.expect("a call");
        let new = output[AROUND..AROUND + 2 * count as usize].chunks(2);
        list.extend(new.map(|pair| (pair[0], pair[1])));
        if done {
            return list;
        }
    }
}

/// A walk that asks for every root of another, by itself or by any alias, holds the other's list.
pub fn wider(file: &[u8], what: &str, seen: &mut Seen) {
    let Ok(judged) = Judged::new(file) else {
        return;
    };
    let mut calls = Calls::new(file, what, seen);
    let mut random = random_of(file, 2);
    let n = judged.summary().facilities as usize;
    let roots: Vec<u32> = (0..n as u32)
        .map(|it| judged.root(it).expect("a root"))
        .collect();
    let part = random.within(1, 7);
    let first: Vec<u8> = (0..n).map(|_| u8::from(random.chance(part, 8))).collect();
    let asked: BTreeSet<u32> = (0..n)
        .filter(|it| first[*it] != 0)
        .map(|it| roots[it])
        .collect();
    let mut second: Vec<u8> = (0..n).map(|_| u8::from(random.chance(2, 8))).collect();
    for root in &asked {
        let same: Vec<usize> = (0..n).filter(|it| roots[*it] == *root).collect();
        second[random.pick(&same)] = asking(&mut random);
    }
    let less = walked(&mut calls, &first, &mut random);
    let more = walked(&mut calls, &second, &mut random);
    let longer = more.len() > less.len();
    let kept: Vec<_> = more
        .into_iter()
        .filter(|(root, _)| asked.contains(root))
        .collect();
    assert_eq!(kept, less, "{what}");
    if longer && !less.is_empty() {
        calls.seen.meet("wider walks with more pairs");
    }
}

// ---- Refusals ----

/// Every room and number of asked bytes around n, for a start; of a refused file any.
pub fn start_refusals(file: &[u8], what: &str, seen: &mut Seen) {
    let mut calls = Calls::new(file, what, seen);
    match calls.judged.as_ref().map(Judged::summary) {
        Err(number) => {
            let number = *number;
            let n = calls.n();
            for room in BTreeSet::from([0, n, n + 3]) {
                for asked in BTreeSet::from([0, n, n + 1]) {
                    assert_eq!(calls.start(&vec![1; asked], room).0, Err(number), "{what}");
                }
            }
            if number > 14 {
                return;
            }
            // Carrying on makes the checks 1 to 14 before it looks at anything else.
            for (length, size, room) in [(0, 0, 0), (2, 3, 6), (40, 3, 5), (1, u32::MAX, 9)] {
                let mut record = marked_pairs(length);
                let answer = calls.carry_on(&mut record, size, room).0;
                assert_eq!(answer, Err(number), "{what}");
            }
        }
        Ok(summary) => {
            let n = summary.facilities as usize;
            for room in BTreeSet::from([0, n.saturating_sub(1), n, n + 2]) {
                for asked in BTreeSet::from([0, n.saturating_sub(1), n, n + 1]) {
                    let expected = match () {
                        _ if room < n => Err(21),
                        _ if asked != n => Err(22),
                        _ => Ok(()),
                    };
                    assert_eq!(calls.start(&vec![1; asked], room).0, expected, "{what}");
                }
            }
        }
    }
}

/// Offsets by how the chain down from them reads with a root's kind and width; none for an alias.
#[derive(Default)]
struct Offsets {
    sound: Vec<u32>,
    broken: BTreeMap<Fault, Vec<u32>>,
}

/// The offsets of each facility: of a small file all up to behind T, else some, and its own chain's.
fn offsets_of(tables: &Tables, random: &mut Random) -> Vec<Offsets> {
    let downwards = tables.downwards();
    let last = u64::from(tables.end()) + 2;
    let some: Vec<u32> = match last {
        0..=400 => (1..=last as u32).collect(),
        _ => (0..400).map(|_| random.within(1, last) as u32).collect(),
    };
    let of = |facility: usize| {
        let mut offsets = Offsets::default();
        if !tables.is_root(facility) {
            return offsets;
        }
        let sync = tables.sync(facility);
        offsets.sound = downwards.chain(facility, sync).unwrap_or_default();
        for offset in &some {
            match downwards.chain(facility, *offset) {
                Ok(_) => offsets.sound.push(*offset),
                Err(fault) => offsets.broken.entry(fault).or_default().push(*offset),
            }
        }
        offsets
    };
    (0..tables.facilities()).map(of).collect()
}

/// A record for a file whose tables are sound: each root's pending offset is 0, its sync entry, another
/// that leads down soundly, that of another root, or now and then one that does not.
fn any_record(tables: &Tables, offsets: &[Offsets], random: &mut Random) -> Vec<(u32, u32)> {
    let mut record: Vec<(u32, u32)> = Vec::new();
    let odd = random.pick(&[0, 0, 0, 1, 3]);
    for (facility, Offsets { sound, broken }) in offsets.iter().enumerate() {
        let faults: Vec<Fault> = broken.keys().copied().collect();
        let offset = match random.below(5) {
            _ if !tables.is_root(facility) => 0,
            _ if !faults.is_empty() && random.chance(odd, 12) => {
                let fault = random.pick(&faults);
                random.pick(&broken[&fault])
            }
            1 if sound.contains(&tables.sync(facility)) => tables.sync(facility),
            // The offset of a facility before, so that several are equal.
            2 | 3 => {
                let mut before = record.iter().map(|(_, offset)| *offset);
                let equal = before.find(|it| sound.contains(it));
                equal.unwrap_or(0)
            }
            4 if !sound.is_empty() => random.pick(sound),
            _ => 0,
        };
        record.push((facility as u32, offset));
    }
    record
}

/// Records that no start wrote, over a file whose tables are sound.
pub fn altered_records(file: &[u8], what: &str, seen: &mut Seen) {
    let Ok(tables) = Tables::new(file) else {
        return;
    };
    let n = tables.facilities();
    let mut random = random_of(file, 3);
    let offsets = offsets_of(&tables, &mut random);
    let mut calls = Calls::new(file, what, seen);
    for _ in 0..12 {
        let pairs = any_record(&tables, &offsets, &mut random);
        let extra = random.below(3);

        // Carries on to the end, where the record is sound.
        let mut record = record_of(&pairs, extra);
        let fault = tables.downwards().rest(&pairs).err();
        let mut most = 20;
        loop {
            let size = random.within(0, 6) as u32 * random.pick(&[1, 1, 50]);
            let room = any_room(&mut random, size);
            let (answer, _) = calls.carry_on(&mut record, size, room);
            assert_eq!(answer == Err(20), fault.is_some(), "{what}");
            most -= 1;
            if most == 0 || fault.is_some() || matches!(answer, Ok((_, true))) {
                break;
            }
        }

        if n == 0 {
            continue;
        }
        // Fewer than n pairs is 21, also where a pair is wrong.
        let fewer = match random.below(3) {
            0 => 0,
            1 => n - 1,
            _ => random.below(n),
        };
        let mut record = record_of(&pairs[..fewer], 0);
        assert_eq!(calls.carry_on(&mut record, 1, 2).0, Err(21), "{what}");
        if fewer > 0 {
            lent(&mut record)[random.below(fewer)].number ^= 1;
            assert_eq!(calls.carry_on(&mut record, 1, 1).0, Err(21), "{what}");
        }

        // A wrong number, with any size and room.
        let at = random.below(n);
        let mut record = record_of(&pairs, extra);
        let wrong = [
            at as u32 + 1,
            (at as u32).wrapping_sub(1),
            u32::MAX,
            at as u32 ^ 0x100,
        ];
        lent(&mut record)[at].number = random.pick(&wrong);
        if random.chance(1, 3) {
            lent(&mut record)[at].offset = 0;
        }
        let size = random.below(4) as u32;
        let room = any_room(&mut random, size);
        assert_eq!(calls.carry_on(&mut record, size, room).0, Err(20), "{what}");
        // Two pairs in each other's place.
        let other = random.below(n);
        let mut record = record_of(&pairs, extra);
        lent(&mut record).swap(at, other);
        let answer = calls.carry_on(&mut record, size, 2 * size as usize).0;
        assert_eq!(answer == Err(20), at != other || fault.is_some(), "{what}");

        // A pending offset of an alias, even one that its root has.
        let aliases: Vec<usize> = (0..n).filter(|it| !tables.is_root(*it)).collect();
        if !aliases.is_empty() {
            let at = random.pick(&aliases);
            let mut record = record_of(&pairs, extra);
            let of_others = offsets
                .iter()
                .flat_map(|it| it.sound.first().copied())
                .next();
            let some = [1, 4, tables.sync(at).max(1), of_others.unwrap_or(u32::MAX)];
            lent(&mut record)[at].offset = random.pick(&some);
            let answer = calls.carry_on(&mut record, size, room).0;
            assert_eq!(answer, Err(20), "{what}");
        }
    }
}

/// Fails unless chains broke each rule so many times below their first change.
pub fn below_the_first_change(seen: &Seen, least: u64) {
    for fault in Fault::ALL {
        // A previous offset is 0 or from C on, and lower, so only a first change may start elsewhere.
        if ![Fault::StartBelowC, Fault::StartFromT].contains(&fault) {
            seen.least_met(&format!("20 {fault:?} below the first change"), least);
        }
    }
}

/// Each facility's pending offset, one at a time, becomes every number up to behind T.
pub fn every_offset(file: &[u8], what: &str, seen: &mut Seen) {
    let Ok(tables) = Tables::new(file) else {
        return;
    };
    let n = tables.facilities();
    let downwards = tables.downwards();
    // The other pending offsets are the sync entries where those are sound.
    let sync = |facility: usize| match downwards.chain(facility, tables.sync(facility)) {
        Ok(_) if tables.is_root(facility) => tables.sync(facility),
        _ => 0,
    };
    let pairs: Vec<(u32, u32)> = (0..n).map(|it| (it as u32, sync(it))).collect();
    let mut calls = Calls::new(file, what, seen);
    let far = [0x100_0000, 0x8000_0000, u32::MAX - 1, u32::MAX];
    for facility in 0..n {
        for offset in (0..=tables.end() + 2).chain(far) {
            let mut record = record_of(&pairs, 1);
            lent(&mut record)[facility].offset = offset;
            let size = offset % 5;
            let answer = calls.carry_on(&mut record, size, 2 * size as usize).0;
            let sound = match tables.is_root(facility) {
                true => downwards.chain(facility, offset).is_ok(),
                false => offset == 0,
            };
            assert_eq!(answer.is_ok(), sound, "{what}");
        }
    }
}
