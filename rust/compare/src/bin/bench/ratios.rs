//! Judging, values, texts, changes, walks and names: the proved functions against the independent reader.

use std::cell::RefCell;
use std::hint::black_box;

use crate::timing::{grouped, medians, seconds, shown, used};
use lxt::{NewValue, Pair, TextAt, Writer};
use lxt_generate::{large, Large, Random, LONG_TIMES, SHORT_TIMES};
use lxt_reference::{Judged, Kind, Which};

pub struct Input {
    pub name: String,
    pub file: Vec<u8>,
    pub facilities: usize,
    pub changes: usize,
    /// The latest time that is asked about.
    latest: i64,
    /// Roots and offsets of changes that are read, evenly over all.
    read: Vec<(u32, u32)>,
    /// The facilities that are texts.
    texts: Vec<u32>,
}

impl Input {
    pub fn new(name: impl Into<String>, file: Vec<u8>) -> Self {
        let judged = Judged::new(&file).expect("an accepted trace");
        let chains = judged.chains();
        // The time of the newest change of all.
        let newest = chains.iter().enumerate();
        let newest = newest.filter_map(|(root, chain)| Some((*chain.first()?, root as u32)));
        let mut bits = vec![0; 4_096];
        let read = |(offset, root)| judged.change(root, offset, &mut bits);
        let newest = newest.max().map(read);
        let latest = newest.map_or(0, |it| it.expect("a change").time);
        let all = judged.full_list(&vec![1; chains.len()]).expect("a list");
        let read = (0..64).map(|place| all[place * all.len() / 64]);
        let read = read.collect();
        let kind = |facility: &u32| judged.facts(*facility).expect("facts").kind;
        let texts = (0..chains.len() as u32).filter(|it| kind(it) == Kind::Text);
        let texts = texts.collect();
        Input {
            name: name.into(),
            facilities: chains.len(),
            changes: all.len(),
            latest,
            read,
            texts,
            file,
        }
    }

    pub fn of_shape(name: &str, bytes: usize, facilities: usize, width: u32) -> Self {
        Input::new(name, large(&shape(bytes, facilities, width)))
    }
}

/// A shape with a time entry for every hundred bytes.
pub fn shape(bytes: usize, facilities: usize, width: u32) -> Large {
    Large {
        bytes,
        facilities,
        width,
        entries: bytes / 100,
        times_tag: SHORT_TIMES,
    }
}

/// About so many bytes of texts that change in turn: eleven for a change and its part of a time entry, of which there
/// is one for eight changes.
fn texts_of(bytes: usize, facilities: usize) -> Vec<u8> {
    let mut writer = Writer::new(-9, 3).expect("a writer");
    for _ in 0..facilities {
        let made = writer.facility(b"text", lxt::Kind::Text, 0, 0);
        made.expect("a facility");
    }
    // Ten thousand bytes are left for the tables.
    for place in 0..(bytes - 10_000) / 11 {
        let text = &b"twelve bytes"[..place % 13];
        let (facility, time) = ((place % facilities) as u32, (place / 8) as u32);
        let made = writer.change(facility, time, NewValue::Text(text));
        made.expect("a change");
    }
    writer.write().expect("a file")
}

pub const MB: usize = 1_000_000;
pub const LONGEST: usize = 16_777_216;

fn inputs() -> Vec<Input> {
    let mut inputs = Vec::new();
    for (name, file) in lxt_compare::traces(usize::MAX) {
        if name.starts_with("gpsim_fib400k") || name.starts_with("des") {
            inputs.push(Input::new(name.trim_end_matches(".lxt"), file));
        }
    }
    for bytes in [MB, LONGEST] {
        for facilities in [1, 122, 4_096] {
            inputs.push(Input::of_shape("8-bit signals", bytes, facilities, 8));
        }
        inputs.push(Input::of_shape("4,096-bit buses", bytes, 122, 4_096));
        inputs.push(Input::new("texts", texts_of(bytes, 122)));
    }
    // More time entries than bytes of changes: two or three at each position.
    // The same with 64-bit times, of which fewer fit.
    for (name, times_tag, entries) in [
        ("2,000,000 times", SHORT_TIMES, 2_000_000),
        ("1,300,000 64-bit times", LONG_TIMES, 1_300_000),
    ] {
        let shape = Large {
            bytes: LONGEST,
            facilities: 1,
            width: 8,
            entries,
            times_tag,
        };
        inputs.push(Input::new(name, large(&shape)));
    }
    inputs
}

/// How many calls a run makes, where the slower side takes so long for one.
fn calls_in_a_run(one: f64, most: usize) -> usize {
    ((0.4 / one) as usize).clamp(1, most.max(1))
}

fn row(input: &Input, what: &str, times: [f64; 2], calls: usize) {
    let [proved, reference] = times.map(|time| time / calls as f64);
    let speed = input.file.len() as f64 / proved / 1e6;
    let places = usize::from(speed < 10.0);
    println!(
        "| {} | {} | {} | {} | {what} | {} | {} | {:.2} | {speed:.places$} |",
        input.name,
        grouped(input.file.len()),
        grouped(input.facilities),
        grouped(input.changes),
        shown(proved),
        shown(reference),
        proved / reference,
    );
}

fn judging(input: &Input) -> f64 {
    let file = &input.file;
    let summary = lxt::judge(file).expect("accepted");
    assert_eq!(summary.facilities as usize, input.facilities);
    let times = medians(
        || used(lxt::judge(black_box(file))),
        || used(lxt_reference::judge(black_box(file))),
    );
    row(input, "judge", times, 1);
    times[0].max(times[1])
}

fn values(input: &Input, one: f64) {
    let file = &input.file;
    let mut random = Random::new(7);
    let question = |_| {
        let facility = random.below(input.facilities) as u32;
        (facility, random.within_signed(0, input.latest))
    };
    let calls = calls_in_a_run(one, 64);
    let questions: Vec<(u32, i64)> = (0..calls).map(question).collect();
    let (mut bits, mut other) = (vec![0; 4_096], vec![0; 4_096]);
    for (facility, time) in &questions {
        let ours = lxt::value_at(file, *facility, *time, &mut bits).map(|it| it.visited);
        let theirs = lxt_reference::value_at(file, *facility, *time, &mut other);
        let theirs = theirs.map(|it| it.visited);
        assert_eq!((ours.ok(), &bits), (theirs.ok(), &other));
    }
    let times = medians(
        || {
            for (facility, time) in &questions {
                let _ = black_box(lxt::value_at(file, *facility, *time, &mut bits));
            }
        },
        || {
            for (facility, time) in &questions {
                let value = lxt_reference::value_at(file, *facility, *time, &mut other);
                let _ = black_box(value);
            }
        },
    );
    row(input, "a value at a time", times, calls);
}

/// Of a trace that has texts.
fn texts(input: &Input, one: f64) {
    let file = &input.file;
    let mut random = Random::new(7);
    let question = |_| {
        let facility = random.pick(&input.texts);
        (facility, random.within_signed(-1, input.latest))
    };
    let calls = calls_in_a_run(one, 64);
    let questions: Vec<(u32, i64)> = (0..calls).map(question).collect();
    let text = b"none";
    for (facility, time) in &questions {
        let ours = lxt::text_at(file, *facility, *time, text).map(|it| match it {
            TextAt::File(part) => (Which::File, part.len()),
            TextAt::Lent(part) => (Which::Lent, part.len()),
            TextAt::OtherKind => (Which::OtherKind, 0),
        });
        let theirs = lxt_reference::text_at(file, *facility, *time, text);
        let theirs = theirs.map(|it| (it.which, it.length));
        assert_eq!(ours.ok(), theirs.ok());
    }
    let times = medians(
        || {
            for (facility, time) in &questions {
                let _ = black_box(lxt::text_at(file, *facility, *time, text));
            }
        },
        || {
            for (facility, time) in &questions {
                let _ = black_box(lxt_reference::text_at(file, *facility, *time, text));
            }
        },
    );
    row(input, "a text at a time", times, calls);
}

fn changes(input: &Input, one: f64) {
    let file = &input.file;
    let calls = calls_in_a_run(one, input.read.len());
    // Evenly over all again.
    let place = |call: usize| input.read[call * input.read.len() / calls];
    let (mut bits, mut other) = (vec![0; 4_096], vec![0; 4_096]);
    for (root, offset) in (0..calls).map(place) {
        let ours = lxt::change(file, root, offset, &mut bits).map(|it| it.time);
        let theirs = lxt_reference::change(file, root, offset, &mut other).map(|it| it.time);
        assert_eq!((ours.ok(), &bits), (theirs.ok(), &other));
    }
    let times = medians(
        || {
            for (root, offset) in (0..calls).map(place) {
                let _ = black_box(lxt::change(file, root, offset, &mut bits));
            }
        },
        || {
            for (root, offset) in (0..calls).map(place) {
                let _ = black_box(lxt_reference::change(file, root, offset, &mut other));
            }
        },
    );
    row(input, "a change", times, calls);
}

fn names(input: &Input, one: f64) {
    let file = &input.file;
    let calls = calls_in_a_run(one, input.facilities);
    let facility = |place: usize| (place * input.facilities / calls) as u32;
    let (mut lent, mut other) = (vec![0; 1_023], vec![0; 1_023]);
    for place in 0..calls {
        let ours = lxt::name(file, facility(place), &mut lent).map(<[u8]>::len);
        let theirs = lxt_reference::name(file, facility(place), &mut other);
        assert_eq!((ours.ok(), &lent), (theirs.ok(), &other));
    }
    let times = medians(
        || {
            for place in 0..calls {
                let _ = black_box(lxt::name(file, facility(place), &mut lent));
            }
        },
        || {
            for place in 0..calls {
                let _ = black_box(lxt_reference::name(file, facility(place), &mut other));
            }
        },
    );
    let what = match calls == input.facilities {
        true => "a name, all asked".to_string(),
        false => format!("a name, {} asked", grouped(calls)),
    };
    row(input, &what, times, calls);
}

/// What a walk is lent on either side, and its record as a start leaves it.
struct Walking<'a> {
    file: &'a [u8],
    asked: Vec<u8>,
    pairs: Vec<Pair>,
    numbers: Vec<u32>,
    offsets: Vec<u32>,
    output: Vec<u32>,
    other: Vec<u32>,
}

impl<'a> Walking<'a> {
    fn new(input: &'a Input, size: usize) -> Self {
        let n = input.facilities;
        let mut walking = Walking {
            file: &input.file,
            asked: vec![1; n],
            pairs: vec![Pair::default(); n],
            numbers: vec![0; n],
            offsets: vec![0; n],
            output: vec![1; 2 * size],
            other: vec![1; 2 * size],
        };
        walking.start();
        walking.other_start();
        walking
    }

    fn start(&mut self) {
        lxt::start_walk(self.file, &self.asked, &mut self.pairs).expect("a start");
    }

    fn other_start(&mut self) {
        let (numbers, offsets) = (&mut self.numbers, &mut self.offsets);
        lxt_reference::start_walk(self.file, &self.asked, numbers, offsets).expect("a start");
    }

    /// Calls of the size that the output has room for; the last one's count.
    fn carry_on(&mut self, calls: usize) -> u32 {
        let size = (self.output.len() / 2) as u32;
        let mut last = 0;
        for _ in 0..calls {
            let answer = lxt::carry_on(self.file, &mut self.pairs, size, &mut self.output);
            last = answer.expect("a call").0;
        }
        last
    }

    fn other_carry_on(&mut self, calls: usize) -> u32 {
        let size = (self.other.len() / 2) as u64;
        let mut last = 0;
        for _ in 0..calls {
            let (numbers, offsets) = (&mut self.numbers, &mut self.offsets);
            let answer =
                lxt_reference::carry_on(self.file, numbers, offsets, &mut self.other, size);
            last = answer.expect("a call").0;
        }
        last
    }
}

/// A start and one call for all changes.
fn whole_walk(input: &Input) {
    let walking = RefCell::new(Walking::new(input, input.changes));
    let times = medians(
        || {
            walking.borrow_mut().start();
            let count = walking.borrow_mut().carry_on(1);
            assert_eq!(count as usize, input.changes);
        },
        || {
            walking.borrow_mut().other_start();
            let count = walking.borrow_mut().other_carry_on(1);
            assert_eq!(count as usize, input.changes);
        },
    );
    assert_eq!(walking.borrow().output, walking.borrow().other);
    row(input, "a whole walk: start, one call", times, 1);
}

/// Calls of 64 after a start that is not measured: as many of the first as fit into a run.
fn first_calls(input: &Input, one: f64) {
    let all = input.changes.div_ceil(64);
    let calls = calls_in_a_run(one, all);
    let walking = RefCell::new(Walking::new(input, 64));
    let pairs = walking.borrow().pairs.clone();
    let offsets = walking.borrow().offsets.clone();
    let times = medians(
        || {
            let walking = &mut walking.borrow_mut();
            walking.pairs.copy_from_slice(&pairs);
            used(walking.carry_on(calls));
        },
        || {
            let walking = &mut walking.borrow_mut();
            walking.offsets.copy_from_slice(&offsets);
            used(walking.other_carry_on(calls));
        },
    );
    assert_eq!(walking.borrow().output, walking.borrow().other);
    let what = format!("a call of 64, first {} of {}", grouped(calls), grouped(all));
    row(input, &what, times, calls);
}

/// All calls of 64, one run.
fn all_calls(input: &Input) {
    let calls = input.changes.div_ceil(64);
    let mut walking = Walking::new(input, 64);
    let proved = seconds(|| {
        walking.start();
        used(walking.carry_on(calls));
    });
    let reference = seconds(|| {
        walking.other_start();
        used(walking.other_carry_on(calls));
    });
    assert_eq!(walking.output, walking.other);
    let what = format!(
        "a whole walk: start, {} calls of 64, one run",
        grouped(calls)
    );
    row(input, &what, [proved, reference], 1);
}

pub fn print() {
    println!("\nRatios: proved against independent; times a call, and file bytes a second\n");
    println!(
        "| Input | Bytes | Facilities | Changes | Call | Proved | Independent | Ratio | MB/s |"
    );
    println!("|---|---|---|---|---|---|---|---|---|");
    for input in inputs() {
        let one = judging(&input);
        values(&input, one);
        if !input.texts.is_empty() {
            texts(&input, one);
        }
        changes(&input, one);
        names(&input, one);
        whole_walk(&input);
        first_calls(&input, one);
        if one * (input.changes as f64) / 64.0 < 100.0 {
            all_calls(&input);
        }
    }
}
