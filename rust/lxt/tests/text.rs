//! The text at a time with a lent text as the default, through the C interface: worked out by hand, where its part
//! lies, beside the value at a time, and against the independent reader.

use std::ptr;

use lxt::{Kind, NewValue, Refusal, TextAt, Trace, Value, Writer};
use lxt_compare::questions::sample;
use lxt_compare::{generated, traces};
use lxt_generate::{valid, Random, DAMAGES};
use lxt_reference::Judged;

mod mixed;
#[allow(dead_code)]
mod tied;
#[allow(dead_code)]
mod wide;

/// Which text it is, where its part starts and how many bytes it has. The start is by addresses: a copy has none that
/// could be expected.
#[derive(Clone, Copy, Debug, PartialEq, Eq)]
enum Part {
    File(usize, usize),
    Lent(usize, usize),
    OtherKind,
}

fn part(answer: TextAt, file: &[u8], text: &[u8]) -> Part {
    let within = |whole: &[u8], part: &[u8]| {
        assert!(ptr::eq(answer.bytes(), part));
        let start = (part.as_ptr() as usize).wrapping_sub(whole.as_ptr() as usize);
        (start, part.len())
    };
    match answer {
        TextAt::File(part) => {
            let (start, length) = within(file, part);
            Part::File(start, length)
        }
        TextAt::Lent(part) => {
            let (start, length) = within(text, part);
            Part::Lent(start, length)
        }
        TextAt::OtherKind => {
            assert_eq!(answer.bytes(), b"");
            Part::OtherKind
        }
    }
}

/// The same answer of the trace and of the function under it.
fn asked(trace: &Trace, facility: u32, time: i64, text: &[u8]) -> Result<Part, Refusal> {
    let file = trace.bytes();
    let answer = trace.text_at(facility, time, text);
    let answer = answer.map(|it| part(it, file, text));
    let under = lxt::text_at(file, facility, time, text);
    assert_eq!(under.map(|it| part(it, file, text)), answer);
    answer
}

/// The place of the text of a change, as it is read.
fn read(trace: &Trace, facility: u32, offset: u32) -> Part {
    let read = trace.change_into(facility, offset, &mut []);
    match read.expect("a change").value {
        Value::Text { start, length } => Part::File(start as usize, length as usize),
        other => panic!("{other:?}"),
    }
}

/// The offsets of a facility's changes, the oldest first.
fn offsets(trace: &Trace, facility: u32) -> Vec<u32> {
    let walk = trace.walk_of(&[facility]).expect("a walk");
    let mut offsets = Vec::from_iter(walk.map(|change| change.offset));
    offsets.reverse();
    offsets
}

/// A trace of texts with these changes, by facility, time and text. The last facility has none.
fn written(changes: &[(u32, u32, &[u8])]) -> Vec<u8> {
    let mut writer = Writer::new(-9, 3).expect("a writer");
    let most = changes.iter().map(|change| change.0 + 1).max();
    for _ in 0..=most.unwrap_or(0) {
        let made = writer.facility(b"text", Kind::Text, 0, 0);
        made.expect("a facility");
    }
    for (facility, time, text) in changes {
        let made = writer.change(*facility, *time, NewValue::Text(text));
        made.expect("a change");
    }
    writer.write().expect("a file")
}

// ---- Worked out by hand ----

#[test]
fn examples_of_the_mixed_trace() {
    let file = mixed::file();
    let trace = Trace::open(&file).expect("an accepted trace");
    for (facility, time, text, expected) in [
        (2, 19, "none", Ok(Part::Lent(0, 4))),
        (2, 20, "none", Ok(Part::File(9, 2))),
        (2, 19, "", Ok(Part::Lent(0, 0))),
        (0, 19, "none", Ok(Part::OtherKind)),
        (1, 19, "none", Ok(Part::OtherKind)),
        (5, 19, "none", Err(Refusal::NoFacility)),
    ] {
        let answer = asked(&trace, facility, time, text.as_bytes());
        assert_eq!(answer, expected, "{facility} at {time}, {text:?}");
    }
    let none = lxt::text_at(&file, 2, 19, b"none");
    assert_eq!(none, Ok(TextAt::Lent(b"none")));
    let hi = lxt::text_at(&file, 2, 20, b"none");
    assert_eq!(hi, Ok(TextAt::File(b"hi")));

    // The old question stays.
    let lookup = lxt::value_at(&file, 2, 19, &mut []);
    let lookup = lookup.map(|it| (it.value, it.visited));
    assert_eq!(lookup, Ok((Value::NotDriven, 1)));
    let lookup = lxt::value_at(&file, 2, 20, &mut []);
    let (start, length) = (9, 2);
    let lookup = lookup.map(|it| (it.value, it.visited));
    assert_eq!(lookup, Ok((Value::Text { start, length }, 1)));
}

/// A part of the file, kept when the trace and the lent text are gone.
fn kept(file: &[u8]) -> &[u8] {
    let trace = Trace::open(file).expect("an accepted trace");
    let default = String::from("none");
    match trace.text_at(2, 20, default.as_bytes()) {
        Ok(TextAt::File(text)) => text,
        other => panic!("{other:?}"),
    }
}

/// The lent text, kept when the file is gone.
fn kept_lent(text: &[u8]) -> &[u8] {
    let file = mixed::file();
    match lxt::text_at(&file, 2, 19, text) {
        Ok(TextAt::Lent(text)) => text,
        other => panic!("{other:?}"),
    }
}

#[test]
fn either_part_outlives_the_other() {
    let (file, text) = (mixed::file(), String::from("none"));
    assert!(ptr::eq(kept(&file), &file[9..11]));
    assert!(ptr::eq(kept_lent(text.as_bytes()), text.as_bytes()));
}

// ---- Around each change ----

#[test]
fn every_time_around_each_change() {
    // The texts of facility 0, several at one time and empty ones among them; 1 changes in between.
    let changes: [(u32, &[u8]); 8] = [
        (3, b"idle"),
        (5, b""),
        (5, b"busy"),
        (9, b""),
        (9, b""),
        (12, b"\x01\xFF\n"),
        (12, b"idle"),
        (14, b""),
    ];
    let with_other = changes.map(|(time, text)| [(1, time, &b"other"[..]), (0, time, text)]);
    let file = written(with_other.as_flattened());
    let trace = Trace::open(&file).expect("an accepted trace");
    let places = offsets(&trace, 0).into_iter();
    let places = Vec::from_iter(places.map(|offset| read(&trace, 0, offset)));
    assert_eq!(places.len(), changes.len());
    for time in (-2..20).chain([i64::MIN, i64::MAX]) {
        let latest = changes.iter().rposition(|it| i64::from(it.0) <= time);
        for text in [&b""[..], b"none", b"busy"] {
            let answer = trace.text_at(0, time, text);
            let expected = match latest {
                Some(place) => TextAt::File(changes[place].1),
                None => TextAt::Lent(text),
            };
            assert_eq!(answer, Ok(expected), "{time}");
            let expected = match latest {
                Some(place) => places[place],
                None => Part::Lent(0, text.len()),
            };
            assert_eq!(asked(&trace, 0, time, text), Ok(expected), "{time}");
        }
    }
}

#[test]
fn before_the_first_change_and_without_any() {
    // Facility 0 changes from 7 on, 1 from 0 on, and 2 never.
    let file = written(&[(1, 0, b"one"), (0, 7, b"first"), (0, 8, b"second")]);
    let trace = Trace::open(&file).expect("an accepted trace");
    let lent = Part::Lent(0, 4);
    let [first, second] = [0, 1].map(|place| read(&trace, 0, offsets(&trace, 0)[place]));
    let one = read(&trace, 1, offsets(&trace, 1)[0]);
    for (time, expected) in [
        (i64::MIN, [lent, lent, lent]),
        (-1, [lent, lent, lent]),
        (0, [lent, one, lent]),
        (6, [lent, one, lent]),
        (7, [first, one, lent]),
        (8, [second, one, lent]),
        (i64::MAX, [second, one, lent]),
    ] {
        let answers = [0, 1, 2].map(|facility| asked(&trace, facility, time, b"none"));
        assert_eq!(answers, expected.map(Ok), "{time}");
        // The old question says no more of either, but for its count.
        let values = [0, 2].map(|facility| lxt::value_at(&file, facility, time, &mut []));
        let visited = values.map(|it| it.expect("a value")).map(|it| {
            let undriven = it.value == Value::NotDriven;
            undriven.then_some(it.visited)
        });
        assert_eq!(visited, [(time < 7).then_some(2), Some(0)], "{time}");
    }
}

#[test]
fn an_empty_text_of_the_file_is_no_lent_one() {
    let file = written(&[(0, 4, b""), (0, 8, b"text")]);
    let trace = Trace::open(&file).expect("an accepted trace");
    // The first change is at 4, with one byte of delta; its zero is at 6.
    assert_eq!((offsets(&trace, 0)[0], file[6]), (4, 0));
    let empty = lxt::text_at(&file, 0, 4, b"").expect("an answer");
    let lent = lxt::text_at(&file, 0, 3, b"").expect("an answer");
    assert_eq!((empty, lent), (TextAt::File(b""), TextAt::Lent(b"")));
    assert_ne!(empty, lent);
    assert_eq!((empty.bytes(), lent.bytes()), (&b""[..], &b""[..]));
    for (time, text, expected) in [
        (3, "", Part::Lent(0, 0)),
        (3, "none", Part::Lent(0, 4)),
        (4, "", Part::File(6, 0)),
        (4, "none", Part::File(6, 0)),
        (7, "none", Part::File(6, 0)),
        (8, "", Part::File(9, 4)),
    ] {
        let answer = asked(&trace, 0, time, text.as_bytes());
        assert_eq!(answer, Ok(expected), "{time} {text:?}");
    }
}

// ---- Other kinds, aliases ----

#[test]
fn other_kinds_driven_or_not() {
    let mut writer = Writer::new(-9, 3).expect("a writer");
    let kinds = [Kind::Bits, Kind::Integer, Kind::Real];
    for kind in kinds.into_iter().chain(kinds) {
        writer.facility(b"f", kind, 4, 0).expect("a facility");
    }
    let ones = [b'1'; 32];
    let values = [
        NewValue::Symbols(&ones[..5]),
        NewValue::Symbols(&ones),
        NewValue::Real(1.5_f64.to_bits()),
    ];
    for (facility, value) in values.into_iter().enumerate() {
        let made = writer.change(facility as u32, 7, value);
        made.expect("a change");
    }
    let file = writer.write().expect("a file");
    let trace = Trace::open(&file).expect("an accepted trace");
    let undriven = |time| {
        let answers = (0..6).map(|facility| trace.value_at_into(facility, time, &mut [0; 32]));
        let values = answers.map(|it| it.expect("a value").value);
        values.filter(|it| *it == Value::NotDriven).count()
    };
    // A real before its change, and the one that has none.
    assert_eq!([6, 7].map(undriven), [2, 1]);
    for facility in 0..6 {
        for time in [i64::MIN, -1, 0, 6, 7, 8, i64::MAX] {
            for text in [&b""[..], b"none"] {
                let answer = asked(&trace, facility, time, text);
                assert_eq!(answer, Ok(Part::OtherKind), "{facility} at {time}");
            }
        }
    }
}

#[test]
fn an_alias_is_asked_as_its_root() {
    // An alias of the text, and an alias of that.
    let file = mixed::with_aliases(2, 3);
    let trace = Trace::open(&file).expect("an accepted trace");
    assert_eq!([2, 3, 4].map(|it| trace.root(it)), [Ok(2); 3]);
    for facility in [2, 3, 4] {
        for (time, expected) in [
            (i64::MIN, Part::Lent(0, 4)),
            (19, Part::Lent(0, 4)),
            (20, Part::File(9, 2)),
            (i64::MAX, Part::File(9, 2)),
        ] {
            let answer = asked(&trace, facility, time, b"none");
            assert_eq!(answer, Ok(expected), "{facility} at {time}");
        }
    }
    // Aliases of the real and of the bits.
    let file = mixed::with_aliases(1, 0);
    let trace = Trace::open(&file).expect("an accepted trace");
    assert_eq!([3, 4].map(|it| trace.root(it)), [Ok(1), Ok(0)]);
    for facility in [3, 4] {
        for time in [9, 19, 20, 30] {
            let answer = asked(&trace, facility, time, b"none");
            assert_eq!(answer, Ok(Part::OtherKind), "{facility} at {time}");
        }
    }
}

// ---- Any lent text ----

#[test]
fn any_text_may_be_lent() {
    let file = mixed::file();
    let trace = Trace::open(&file).expect("an accepted trace");
    let (zeros, long, driven) = (vec![0; 300], vec![b'x'; 1_000_000], b"hi".to_vec());
    for text in [
        &b""[..],
        b"\0",
        b"a\0b\0",
        &zeros,
        &long,
        // With the bytes of the text that is driven.
        &driven,
        // In the file: that text itself, an empty part of it, the part behind it, and the whole file.
        &file[9..11],
        &file[9..9],
        &file[11..40],
        &file,
    ] {
        let before = text.to_vec();
        assert_eq!(asked(&trace, 2, 19, text), Ok(Part::Lent(0, text.len())));
        let lent = lxt::text_at(&file, 2, 19, text).expect("an answer");
        assert!(matches!(lent, TextAt::Lent(it) if ptr::eq(it, text)));
        assert_eq!(asked(&trace, 2, 20, text), Ok(Part::File(9, 2)));
        let driven = lxt::text_at(&file, 2, 20, text).expect("an answer");
        assert!(matches!(driven, TextAt::File(it) if ptr::eq(it, &file[9..11])));
        assert_eq!(asked(&trace, 1, 19, text), Ok(Part::OtherKind));
        assert!(text == before);
    }
    assert_eq!(file, mixed::file());
}

#[test]
fn the_longest_text_of_the_longest_file() {
    let around = written(&[(0, 5, b"")]).len();
    let text = vec![b'x'; lxt::LONGEST_FILE - around];
    let file = written(&[(0, 5, &text)]);
    assert_eq!(file.len(), lxt::LONGEST_FILE);
    let trace = Trace::open(&file).expect("an accepted trace");
    let expected = Ok(Part::File(6, text.len()));
    assert_eq!(asked(&trace, 0, 5, b"none"), expected);
    assert_eq!(asked(&trace, 0, 4, b"none"), Ok(Part::Lent(0, 4)));
    // A lent one that is longer than any file.
    let longer = vec![0; lxt::LONGEST_FILE + 1];
    let expected = Ok(Part::Lent(0, longer.len()));
    assert_eq!(asked(&trace, 0, 4, &longer), expected);
}

// ---- Refused ----

/// The file is refused so, whatever is asked with whatever text.
fn refused(file: &[u8], number: u8, what: &str) {
    let expected = Err(Refusal::of_number(number).expect("a refusal"));
    assert_eq!(Trace::open(file).err(), expected.err(), "{what}");
    for facility in [0, 1, u32::MAX] {
        for time in [i64::MIN, 0, i64::MAX] {
            for text in [&b""[..], b"none"] {
                let answer = lxt::text_at(file, facility, time, text);
                assert_eq!(answer, expected, "{what}");
            }
        }
    }
}

#[test]
fn files_on_either_side_of_each_rule() {
    let mut accepted = 0;
    for damage in DAMAGES {
        let bases = (0..400).map(|seed| (seed, valid(seed)));
        let bases = bases.filter(|(_, base)| base.end() <= 20_000);
        let both = bases.filter_map(|(seed, base)| (damage.apply)(&base, &mut Random::new(seed)));
        let mut made = 0;
        for neighbours in both.take(5) {
            made += 1;
            refused(&neighbours.over.bytes(), damage.number, damage.name);
            let near = neighbours.near.bytes();
            match neighbours.near_answer {
                Err(number) => refused(&near, number, damage.name),
                Ok(()) => {
                    let trace = Trace::open(&near).expect("an accepted trace");
                    let judged = Judged::new(&near).expect("an accepted trace");
                    accepted += by_numbers(&trace, &judged, damage.name);
                }
            }
        }
        assert!(made >= 1, "{}", damage.name);
    }
    println!("{} rules, {accepted} facilities", DAMAGES.len());
    assert!(accepted >= 500, "{accepted}");
}

/// Of an accepted trace numbers below n are answered, as by the independent reader, and no other. Gives how many of
/// them were asked, 0 and n - 1 among them.
fn by_numbers(trace: &Trace, judged: &Judged, what: &str) -> usize {
    let n = trace.facilities().end;
    let facilities = sample(&Vec::from_iter(trace.facilities()), 20);
    for &facility in &facilities {
        let answer = asked(trace, facility, 0, b"none");
        let expected = judged.text_at(facility, 0, b"none").expect("an answer");
        assert_eq!(answer, Ok(independent(expected)), "{what}");
    }
    for facility in [n, n + 1, u32::MAX] {
        for text in [&b""[..], b"none"] {
            let answer = asked(trace, facility, 0, text);
            assert_eq!(answer, Err(Refusal::NoFacility), "{what}");
            assert_eq!(judged.text_at(facility, 0, text), Err(18), "{what}");
        }
    }
    facilities.len()
}

/// The independent reader's answer.
fn independent(answer: lxt_reference::TextAt) -> Part {
    match answer.which {
        lxt_reference::Which::File => Part::File(answer.start, answer.length),
        lxt_reference::Which::Lent => Part::Lent(answer.start, answer.length),
        lxt_reference::Which::OtherKind => Part::OtherKind,
    }
}

#[test]
fn every_shorter_file() {
    let file = mixed::file();
    for length in 0..file.len() {
        let cut = &file[..length];
        let number = lxt_reference::judge(cut).expect_err("a refusal");
        refused(cut, number, &format!("{length} bytes"));
    }
    let trace = Trace::open(&file).expect("an accepted trace");
    let judged = Judged::new(&file).expect("an accepted trace");
    assert_eq!(by_numbers(&trace, &judged, "all"), 5);
}

// ---- Times ----

/// The small trace of paper 01 with any table of times, and a text in place of its bit: `1` by the change at 4, and
/// `0` by one at 8, which there is at 6. No position of the examples lies between the two.
fn with_texts(file: &[u8]) -> Vec<u8> {
    let end = lxt::judge(file).expect("an accepted trace").end as usize;
    let mut made = file[..4].to_vec();
    made.extend([0, 2, b'1', 0, 0, 2, b'0', 0]);
    made.extend(&file[8..end]);
    // Four bytes further on: the last bytes of the flags and of the sync entry.
    assert_eq!((made[39], made[43]), (0, 6));
    (made[39], made[43]) = (4, 8);
    made.push(0);
    for item in file[end + 1..file.len() - 1].chunks(5) {
        let (value, tag) = item.split_at(4);
        let value = u32::from_be_bytes(value.try_into().expect("four bytes"));
        // All sections move but the changes.
        let moved = if tag == [1] || value == 0 { 0 } else { 4 };
        made.extend((value + moved).to_be_bytes());
        made.extend(tag);
    }
    made.push(0xB4);
    made
}

/// The place of the text at a time where the bit of the small trace shows this symbol.
fn place_of(symbol: char) -> Part {
    match symbol {
        'X' => Part::Lent(0, 4),
        '1' => Part::File(6, 1),
        '0' => Part::File(10, 1),
        other => panic!("{other}"),
    }
}

#[test]
fn examples_of_zero_deltas() {
    let mut equal = 0;
    for example in tied::EXAMPLES {
        let file = example.file();
        let what = format!("2-{}", example.letter);
        let Some(answer) = &example.answer else {
            refused(&file, 13, &what);
            continue;
        };
        let file = with_texts(&file);
        let trace = Trace::open(&file).expect("an accepted trace");
        for (time, symbol) in answer.values.chars().enumerate() {
            let place = asked(&trace, 0, time as i64, b"none");
            assert_eq!(place, Ok(place_of(symbol)), "{what} at {time}");
        }
        for (time, symbol) in [(i64::MIN, 'X'), (-1, 'X'), (i64::MAX, '0')] {
            let place = asked(&trace, 0, time, b"none");
            assert_eq!(place, Ok(place_of(symbol)), "{what} at {time}");
        }
        equal += u32::from(answer.newer == answer.older);
    }
    // Of changes at one time the newest is answered.
    assert!(equal >= 3, "{equal}");
}

#[test]
fn examples_of_64_bit_times() {
    let mut below_0 = 0;
    for example in wide::examples() {
        let (file, what) = (&example.file, example.name);
        let answer = match &example.answer {
            Ok(answer) => answer,
            Err(number) => {
                refused(file, *number, what);
                continue;
            }
        };
        let file = with_texts(file);
        let trace = Trace::open(&file).expect("an accepted trace");
        for (time, symbol) in answer.values {
            let place = asked(&trace, 0, *time, b"none");
            assert_eq!(place, Ok(place_of(*symbol)), "{what} at {time}");
            below_0 += u32::from(*time < 0);
        }
    }
    assert!(below_0 >= 8, "{below_0}");
}

#[test]
fn the_ends_of_the_range() {
    for (file, values) in wide::range_ends() {
        let file = with_texts(&file);
        let trace = Trace::open(&file).expect("an accepted trace");
        for (time, symbol) in values {
            let place = asked(&trace, 0, time, b"none");
            assert_eq!(place, Ok(place_of(symbol)), "{file:02X?} at {time}");
        }
    }
}

// ---- Beside the value at a time ----

/// What was met: parts of the file, those that are empty, lent texts before later changes, those of a root without
/// changes, other kinds that are driven and that are not.
#[derive(Debug, Default)]
struct Met([u32; 6]);

impl Met {
    fn count(&mut self, part: Part, changes: usize, driven: bool) {
        let place = match part {
            Part::File(_, 1..) => 0,
            Part::File(_, 0) => 1,
            Part::Lent(..) if changes > 0 => 2,
            Part::Lent(..) => 3,
            Part::OtherKind if driven => 4,
            Part::OtherKind => 5,
        };
        self.0[place] += 1;
    }
}

/// The texts of a facility at some times beside the values: of the file exactly where the value is a text, from there
/// on and as long, lent exactly where a text is not driven, and of another kind exactly where the facility is.
fn compare(trace: &Trace, judged: &Judged, facility: u32, most: usize, met: &mut Met) {
    let file = trace.bytes();
    let kind = trace.facts(facility).expect("facts").kind;
    let root = judged.root(facility).expect("a root");
    let chain = &judged.chains()[root as usize];
    let mut bits = vec![0; lxt::WIDEST];
    let mut time_of = |offset| {
        judged
            .change(facility, offset, &mut bits)
            .expect("a change")
            .time
    };
    let oldest = chain.last().map(|offset| time_of(*offset));
    let times = sample(chain, most).into_iter().map(time_of);
    let around = times.flat_map(|it| [it.saturating_sub(1), it, it.saturating_add(1)]);
    let mut times = Vec::from_iter(around.chain([i64::MIN, 0, i64::MAX]));
    times.sort_unstable();
    times.dedup();
    for (place, time) in times.into_iter().enumerate() {
        let lookup = lxt::value_at(file, facility, time, &mut bits);
        let lookup = lookup.expect("a value");
        let text = [&b"none"[..], b"", b"\0"][place % 3];
        let expected = match (kind, lookup.value) {
            (Kind::Text, Value::Text { start, length }) => {
                Part::File(start as usize, length as usize)
            }
            (Kind::Text, Value::NotDriven) => {
                // The old question says so, and counts all changes.
                assert_eq!(lookup.visited as usize, chain.len());
                Part::Lent(0, text.len())
            }
            (Kind::Text, other) | (_, other @ Value::Text { .. }) => panic!("{other:?}"),
            _ => Part::OtherKind,
        };
        let answer = asked(trace, facility, time, text);
        assert_eq!(answer, Ok(expected), "{facility} at {time}");
        let answer = judged.text_at(facility, time, text).expect("an answer");
        assert_eq!(independent(answer), expected, "{facility} at {time}");
        let driven = oldest.is_some_and(|oldest| oldest <= time);
        met.count(expected, chain.len(), driven);
    }
}

#[test]
fn traces_of_the_folder() {
    let (mut accepted, mut met) = (0, Met::default());
    for (_, file) in traces(usize::MAX) {
        let Ok(trace) = Trace::open(&file) else {
            continue;
        };
        let judged = Judged::new(&file).expect("an accepted trace");
        let facilities = Vec::from_iter(trace.facilities());
        let (facilities, changes) = match file.len() {
            0..=60_000 => (facilities, 4),
            _ => (sample(&facilities, 4), 2),
        };
        for facility in facilities {
            // Of texts every change.
            let changes = match judged.facts(facility).expect("facts").kind {
                lxt_reference::Kind::Text => usize::MAX,
                _ => changes,
            };
            compare(&trace, &judged, facility, changes, &mut met);
        }
        accepted += 1;
    }
    println!("{accepted} traces, {met:?}");
    assert!(accepted >= 20, "{accepted}");
    assert!(met.0.iter().all(|count| *count >= 20), "{met:?}");
}

#[test]
fn generated_files() {
    let (mut accepted, mut met) = (0, Met::default());
    for (_, file) in generated(600_000..604_000, 20_000) {
        let Ok(trace) = Trace::open(&file) else {
            continue;
        };
        let judged = Judged::new(&file).expect("an accepted trace");
        let facilities = Vec::from_iter(trace.facilities());
        for facility in sample(&facilities, 12) {
            compare(&trace, &judged, facility, 4, &mut met);
        }
        accepted += 1;
    }
    println!("{accepted} files, {met:?}");
    assert!(accepted >= 1_000, "{accepted}");
    assert!(met.0.iter().all(|count| *count >= 500), "{met:?}");
}
