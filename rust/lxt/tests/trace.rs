//! The trace that is asked, its readings and its walks against the independent reader.

use std::collections::BTreeMap;

use lxt::{Change, Reading, Refusal, TextAt, Trace, Walk};
use lxt_compare::traces;
use lxt_generate::Random;
use lxt_reference::{Judged, TextAt as TextPart, Value, Which};

/// The same value with its symbols or bytes.
fn reading<'a>(file: &'a [u8], value: Value, bits: &[u8]) -> Reading<'a> {
    match value {
        Value::Bits { width } => Reading::Bits(bits[..width as usize].to_vec()),
        Value::Real { bits } => Reading::Real(f64::from_bits(bits)),
        Value::Text { start, length } => Reading::Text(&file[start as usize..][..length as usize]),
        Value::NotDriven => Reading::NotDriven,
    }
}

/// Whether two readings are the same; reals go by their bits.
fn same(one: &Reading, other: &Reading) -> bool {
    match (one, other) {
        (Reading::Real(one), Reading::Real(other)) => one.to_bits() == other.to_bits(),
        _ => one == other,
    }
}

fn sort_of(reading: &Reading) -> &'static str {
    match reading {
        Reading::Bits(_) => "bits",
        Reading::Real(_) => "real",
        Reading::Text(_) => "text",
        Reading::NotDriven => "not driven",
        other => panic!("{other:?}"),
    }
}

/// The independent reader's text with its bytes, and its sort.
fn text_of<'a>(file: &'a [u8], text: TextPart, lent: &'a [u8]) -> (&'static str, TextAt<'a, 'a>) {
    let part = |of: &'a [u8]| &of[text.start..][..text.length];
    match text.which {
        Which::File => ("text of the file", TextAt::File(part(file))),
        Which::Lent => ("lent text", TextAt::Lent(part(lent))),
        Which::OtherKind => ("no text", TextAt::OtherKind),
    }
}

/// The traces of generated files, with what the independent reader knows about them.
fn accepted(seeds: std::ops::Range<u64>, mut ask: impl FnMut(&Trace, &Judged, &str)) {
    let mut count = 0;
    for seed in seeds {
        let case = lxt_generate::case(seed);
        let what = format!("seed {seed}, {}", case.origin);
        match (Trace::open(&case.bytes), Judged::new(&case.bytes)) {
            (Ok(trace), Ok(judged)) => {
                ask(&trace, &judged, &what);
                count += 1;
            }
            (Err(refusal), Err(number)) => {
                assert_eq!(refusal.number(), number, "{what}");
                assert!(refusal.is_of_file(), "{what}");
            }
            (ours, theirs) => panic!("{what}: {ours:?} {theirs:?}"),
        }
    }
    assert!(count >= 300, "{count}");
}

#[test]
fn every_question_of_a_trace() {
    let mut seen: BTreeMap<&str, u32> = BTreeMap::new();
    accepted(100_000..101_500, |trace, judged, what| {
        let file = trace.bytes();
        let summary = trace.summary();
        assert_eq!(trace.facilities(), 0..judged.summary().facilities);
        assert_eq!(summary.end, judged.summary().end);
        assert_eq!(summary.clean, judged.summary().clean, "{what}");
        assert_eq!(trace.stray_bytes(), Ok(judged.stray_bytes()), "{what}");
        let mut bits = [0; lxt::WIDEST];
        for facility in trace.facilities().take(12) {
            let facts = judged.facts(facility).expect("facts");
            assert_eq!(trace.facts(facility).expect("facts").width, facts.width);
            assert_eq!(trace.root(facility).ok(), judged.root(facility).ok());
            let name = trace.name(facility).expect("a name");
            assert_eq!(name, judged.name_of(facility), "{what}");

            let root = judged.root(facility).expect("a root") as usize;
            let chain = &judged.chains()[root];
            let mut times = vec![i64::MIN, -1, 0, u32::MAX.into(), i64::MAX];
            for (place, offset) in chain.iter().enumerate().take(6) {
                let before = trace.change_before(facility, *offset);
                assert_eq!(before, Ok(chain.get(place + 1).copied()), "{what}");
                let read = trace.change(facility, *offset).expect("a change");
                let expected = judged.change(facility, *offset, &mut bits);
                let expected = expected.expect("a change");
                assert_eq!(read.time, expected.time, "{what}");
                assert_eq!(read.clean, expected.clean, "{what}");
                let value = reading(file, expected.value, &bits);
                assert!(same(&read.value, &value), "{what}");
                *seen.entry(sort_of(&value)).or_default() += 1;
                let clean = if read.clean { "clean" } else { "dirty" };
                *seen.entry(clean).or_default() += 1;
                let range = match read.time {
                    ..0 => "below 0",
                    0..=0xFFFF_FFFF => "32 bits",
                    _ => "past 32 bits",
                };
                *seen.entry(range).or_default() += 1;
                times.extend([read.time, read.time.saturating_sub(1)]);
            }
            for time in times {
                let lookup = trace.value_at(facility, time).expect("a value");
                let expected = judged.value_at(facility, time, &mut bits);
                let expected = expected.expect("a value");
                assert_eq!(lookup.visited, expected.visited, "{what}");
                let expected = reading(file, expected.value, &bits);
                assert!(same(&lookup.value, &expected), "{what}");
                *seen.entry(sort_of(&lookup.value)).or_default() += 1;
                let text = trace.text_at(facility, time, b"none");
                let expected = judged.text_at(facility, time, b"none");
                let (sort, expected) = text_of(file, expected.expect("an answer"), b"none");
                assert_eq!(text, Ok(expected), "{what}");
                *seen.entry(sort).or_default() += 1;
            }
        }
        let none = summary.facilities;
        assert_eq!(trace.name(none), Err(Refusal::NoFacility));
        assert_eq!(trace.text_at(none, 0, b"none"), Err(Refusal::NoFacility));
        assert_eq!(trace.walk_of(&[none]).err(), Some(Refusal::NoFacility));
        let asked = vec![true; none as usize + 1];
        assert_eq!(trace.walk(&asked).err(), Some(Refusal::Asked));
        let short = &mut [0; lxt::NAME_ROOM - 1];
        if none > 0 {
            assert_eq!(trace.name_into(0, short), Err(Refusal::Room));
            assert_eq!(trace.change_before(0, 1), Err(Refusal::NoChange));
        }
    });
    println!("{seen:?}");
    let sorts = ["bits", "real", "text", "not driven", "clean", "dirty"];
    let ranges = ["below 0", "32 bits", "past 32 bits"];
    let texts = ["text of the file", "lent text", "no text"];
    for sort in sorts.into_iter().chain(ranges).chain(texts) {
        assert!(seen[sort] >= 200, "{seen:?}");
    }
}

#[test]
fn walks_hand_out_the_full_list_in_batches_of_any_size() {
    let (mut walks, mut several) = (0, 0);
    accepted(101_500..103_500, |trace, judged, what| {
        if trace.bytes().len() > 20_000 {
            return;
        }
        let n = trace.facilities().len();
        let mut random = Random::new(trace.bytes().len() as u64);
        let mut asked: Vec<bool> = (0..n).map(|_| random.chance(1, 2)).collect();
        for all in [false, true] {
            if all {
                asked.fill(true);
            }
            let bytes: Vec<u8> = asked.iter().map(|it| u8::from(*it)).collect();
            let list = judged.full_list(&bytes).expect("a list");
            let list: Vec<Change> = list
                .into_iter()
                .map(|(facility, offset)| Change { facility, offset })
                .collect();
            let walk = trace.walk(&asked).expect("a walk");
            for size in [0, 1, 2, 7, u32::MAX] {
                let walk = walk.clone().in_batches_of(size);
                assert_eq!(Vec::from_iter(walk), list, "{what}");
                walks += 1;
            }
            // In other batches from anywhere on, and a copy from there.
            let first = random.below(list.len() + 2);
            let mut walk = walk.in_batches_of(3);
            let mut handed: Vec<Change> = walk.by_ref().take(first).collect();
            let copy: Vec<Change> = walk.clone().collect();
            walk = walk.in_batches_of(5);
            handed.extend(walk.by_ref());
            assert_eq!(handed, list, "{what}");
            assert_eq!(copy[..], list[first.min(list.len())..], "{what}");
            assert_eq!((walk.next(), walk.next()), (None, None));
            several += u32::from(list.len() > 64);

            // By numbers, one of them twice.
            let mut numbers: Vec<u32> = (0..n as u32).filter(|it| asked[*it as usize]).collect();
            numbers.extend(numbers.first().copied());
            numbers.reverse();
            let walk = trace.walk_of(&numbers).expect("a walk");
            assert_eq!(Vec::from_iter(walk), list, "{what}");
        }
        let all = trace.walk_all().expect("a walk").count();
        let each = judged.chains().iter().map(Vec::len).sum::<usize>();
        assert_eq!(all, each, "{what}");
    });
    println!("{walks} walks, {several} of more than 64 changes");
    assert!(walks >= 3_000 && several >= 20, "{walks} {several}");
}

#[test]
fn walks_of_the_traces_in_batches_that_double() {
    let mut several = 0;
    for (name, file) in traces(usize::MAX) {
        let Ok(trace) = Trace::open(&file) else {
            continue;
        };
        let judged = Judged::new(&file).expect("a trace");
        let list = judged.full_list(&vec![1; trace.facilities().len()]);
        let list = list.expect("a list").into_iter();
        let list = list.map(|(facility, offset)| Change { facility, offset });
        let list: Vec<Change> = list.collect();
        let walk = trace.walk_all().expect("a walk");
        assert_eq!(Vec::from_iter(walk), list, "{name}");
        several += u32::from(list.len() > Walk::BATCH as usize);
    }
    assert!(several >= 5, "{several}");
}
