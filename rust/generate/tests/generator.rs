//! The generator, checked with the reference reader.

use std::collections::BTreeMap;

use lxt_generate::*;
use lxt_reference as reader;

/// What judging answers, without the summary.
fn answer(bytes: &[u8]) -> Result<(), u8> {
    reader::judge(bytes).map(|_| ())
}

fn slot(answer: Result<(), u8>) -> usize {
    match answer {
        Ok(()) => 0,
        Err(number) => usize::from(number),
    }
}

fn print_histogram(title: &str, counts: &[u32; 18]) {
    println!("{title}");
    println!("  accepted {:6}", counts[0]);
    for (number, count) in counts.iter().enumerate().skip(1) {
        println!("  {number:8} {count:6}");
    }
}

/// Every valid trace is accepted, and the reader answers what was meant.
#[test]
fn valid_traces_are_read_as_meant() {
    let mut most_changes = 0;
    for seed in 0..3_000 {
        let draft = valid(seed);
        let bytes = draft.bytes();
        let judged = match reader::Judged::new(&bytes) {
            Ok(judged) => judged,
            Err(number) => panic!("seed {seed}: refused {number}"),
        };
        let summary = judged.summary();
        assert_eq!(summary.facilities as usize, draft.facilities.len());
        assert_eq!(summary.changes, draft.value(0x01));
        assert_eq!(summary.end as usize, draft.end());
        assert_eq!(summary.timescale, draft.timescale);
        assert_eq!(summary.initial, draft.initial);
        let clean = draft.changes.iter().all(|change| change.clean);
        assert_eq!(summary.clean, clean, "seed {seed}");
        most_changes = most_changes.max(draft.changes.len());

        let mut names = vec![0xAA; 1_030];
        for (number, facility) in draft.facilities.iter().enumerate() {
            let number = number as u32;
            assert_eq!(judged.root(number), Ok(facility.root as u32));
            let kind = match facility.kind {
                Kind::Bits => reader::Kind::Bits,
                Kind::Integer => reader::Kind::Integer,
                Kind::Real => reader::Kind::Real,
                Kind::Text => reader::Kind::Text,
            };
            assert_eq!(
                judged.facts(number),
                Ok(reader::Facts {
                    width: facility.width,
                    msb: facility.msb,
                    lsb: facility.lsb,
                    kind,
                })
            );
            assert_eq!(judged.name(number, &mut names), Ok(facility.name.len()));
            assert_eq!(&names[..facility.name.len()], &facility.name[..]);
            assert!(names[facility.name.len()..1_023].iter().all(|it| *it == 0));
            assert_eq!(names[1_023..], [0xAA; 7]);
        }

        // The full list is all changes by falling offset, and each change is as meant.
        let n = draft.facilities.len();
        let list = judged.full_list(&vec![1; n]).expect("a full list");
        let meant: Vec<(u32, u32)> = draft
            .changes
            .iter()
            .rev()
            .map(|change| (change.root as u32, change.offset as u32))
            .collect();
        assert_eq!(list, meant);
        for change in &draft.changes {
            let (root, offset) = (change.root as u32, change.offset as u32);
            assert_eq!(
                judged.change_before(root, offset),
                Ok(change.previous as u32)
            );
            let mut lent = vec![b'?'; 4_100];
            let read = judged.change(root, offset, &mut lent).expect("a change");
            assert_eq!((read.time, read.clean), (change.time, change.clean));
            assert!(
                shows(&bytes, read.value, &lent, &change.value),
                "seed {seed}"
            );
        }
        values_at_times(&draft, &bytes, &judged);
        if seed % 10 == 0 {
            walks(&draft, &bytes, seed);
        }
    }
    assert!(most_changes > 1_000);
}

/// Whether an answer shows the value that was meant.
fn shows(file: &[u8], value: reader::Value, lent: &[u8], meant: &Meant) -> bool {
    match (value, meant) {
        (reader::Value::Bits { width }, Meant::Symbols(symbols)) => {
            lent[..width as usize] == symbols[..]
                && lent[width as usize..].iter().all(|it| *it == b'?')
        }
        (reader::Value::Real { bits }, Meant::Real(real)) => bits == *real,
        (reader::Value::Text { start, length }, Meant::Text(text)) => {
            let (start, end) = (start as usize, (start + length) as usize);
            file[start..end] == text[..] && file[end] == 0
        }
        _ => false,
    }
}

/// The value at a time is that of the change of highest offset with time <= t, and so is the text. Visited are this
/// one and the root's changes after t.
fn values_at_times(draft: &Draft, bytes: &[u8], judged: &reader::Judged) {
    let mut random = Random::new(draft.end() as u64);
    for (number, facility) in draft.facilities.iter().enumerate().take(8) {
        for _ in 0..4 {
            let time = match draft.changes.is_empty() || random.chance(1, 8) {
                true => random.pick(&[i64::MIN, -1, 0, i64::MAX, random.clone().any() as i64]),
                false => {
                    let change = &draft.changes[random.below(draft.changes.len())];
                    change.time.saturating_add(random.pick(&[-1, 0, 1]))
                }
            };
            let of_root = |change: &&Change| change.root == facility.root;
            let own = Vec::from_iter(draft.changes.iter().rev().filter(of_root));
            let expected = own.iter().find(|change| change.time <= time);
            let mut lent = vec![b'?'; 4_100];
            let lookup = judged.value_at(number as u32, time, &mut lent);
            let reader::Lookup { value, visited } = lookup.expect("a value");
            let later = own.iter().filter(|change| change.time > time).count();
            let answered = usize::from(expected.is_some());
            assert_eq!(visited as usize, later + answered);
            let text = judged.text_at(number as u32, time, b"none");
            assert_eq!(text, Ok(text_meant(facility, expected.copied())));
            match expected {
                Some(change) => assert!(shows(bytes, value, &lent, &change.value)),
                None => match facility.kind {
                    Kind::Bits | Kind::Integer => {
                        let symbol = b"01ZXHUWL-"[usize::from(draft.initial)];
                        let symbols = vec![symbol; facility.width as usize];
                        assert!(shows(bytes, value, &lent, &Meant::Symbols(symbols)));
                    }
                    Kind::Real | Kind::Text => assert_eq!(value, reader::Value::NotDriven),
                },
            }
        }
    }
}

/// The text of a facility where a lent one of four bytes is the default: that of the change answered, if any.
fn text_meant(facility: &Facility, answered: Option<&Change>) -> reader::TextAt {
    let (which, start, length) = match (facility.kind, answered) {
        (Kind::Text, Some(change)) => (
            reader::Which::File,
            change.data,
            change.end - change.data - 1,
        ),
        (Kind::Text, None) => (reader::Which::Lent, 0, 4),
        _ => (reader::Which::OtherKind, 0, 0),
    };
    reader::TextAt {
        which,
        start,
        length,
    }
}

/// Starting and carrying on in steps of any size gives the full list, in order and once.
fn walks(draft: &Draft, bytes: &[u8], seed: u64) {
    let mut random = Random::new(seed);
    let n = draft.facilities.len();
    let asked: Vec<u8> = (0..n).map(|_| random.pick(&[0, 0, 1, 255])).collect();
    let list = reader::full_list(bytes, &asked).expect("a full list");
    let (mut numbers, mut offsets) = (vec![9; n + 2], vec![8; n + 2]);
    reader::start_walk(bytes, &asked, &mut numbers, &mut offsets).expect("a start");
    let mut handed_out = 0;
    let mut calls = 0;
    loop {
        let size = match calls {
            0 => 0,
            1..=20 => random.below(4),
            _ => list.len(),
        };
        calls += 1;
        let mut output = vec![0xEEEE_EEEE; 2 * size + 3];
        let (count, done) =
            reader::carry_on(bytes, &mut numbers, &mut offsets, &mut output, size as u64)
                .expect("a carry-on call");
        let count = count as usize;
        assert_eq!(count, size.min(list.len() - handed_out));
        for (place, pair) in list[handed_out..handed_out + count].iter().enumerate() {
            assert_eq!((output[2 * place], output[2 * place + 1]), *pair);
        }
        assert!(output[2 * count..].iter().all(|it| *it == 0xEEEE_EEEE));
        handed_out += count;
        assert_eq!(done, handed_out == list.len());
        for number in 0..n {
            let pending = list[handed_out..]
                .iter()
                .find(|(root, _)| *root == number as u32)
                .map_or(0, |(_, offset)| *offset);
            assert_eq!((numbers[number], offsets[number]), (number as u32, pending));
        }
        assert_eq!((&numbers[n..], &offsets[n..]), (&[9, 9][..], &[8, 8][..]));
        if done {
            break;
        }
    }
}

/// Each damage gives its refusal just over the boundary, and acceptance or the refusal named just
/// before it, often enough.
#[test]
fn neighbours_of_every_boundary() {
    let mut refused = [0; 18];
    let mut before = [0; 18];
    for damage in DAMAGES {
        let mut made = 0;
        let mut accepted = 0;
        for seed in 0..400 {
            if made >= 40 {
                break;
            }
            let base = valid(seed);
            if base.end() > 20_000 {
                continue;
            }
            let mut random = Random::new(seed + 1);
            let Some(neighbours) = (damage.apply)(&base, &mut random) else {
                continue;
            };
            made += 1;
            let over = answer(&neighbours.over.bytes());
            assert_eq!(
                over,
                Err(damage.number),
                "over: {}, seed {seed}",
                damage.name
            );
            let near = answer(&neighbours.near.bytes());
            assert_eq!(
                near, neighbours.near_answer,
                "near: {}, seed {seed}",
                damage.name
            );
            refused[slot(over)] += 1;
            before[slot(near)] += 1;
            accepted += u32::from(near.is_ok());
        }
        assert!(made >= 10, "{}: {made} made", damage.name);
        println!(
            "{:2} {:45} {made:3} made, {accepted:3} with an accepted neighbour",
            damage.number, damage.name
        );
    }
    print_histogram("over the boundary", &refused);
    print_histogram("before the boundary", &before);
    assert!((1..=17).all(|number| refused[number] > 0));
}

/// Over fixed seeds every refusal 1 to 17 and acceptance occurs.
#[test]
fn every_answer_occurs() {
    let mut counts = [0; 18];
    let mut blind_counts = [0; 18];
    for seed in 0..6_000 {
        let case = case(seed);
        let found = answer(&case.bytes);
        if let Some(expected) = case.expected {
            assert_eq!(found, expected, "seed {seed}: {}", case.origin);
        }
        counts[slot(found)] += 1;
        if case.origin == "blind" {
            blind_counts[slot(found)] += 1;
        }
    }
    print_histogram("all cases", &counts);
    print_histogram("blind cases", &blind_counts);
    assert!(counts.iter().all(|count| *count >= 50));
}

/// Rubbish occurs in every packing, in the lowest and the highest unused bit alone and in all, and as a
/// nibble that is no code; clean and dirty files are both frequent.
#[test]
fn rubbish_in_every_packing() {
    let (mut clean_files, mut dirty_files, mut mixed_files) = (0, 0, 0);
    let mut clean_changes = [0; 5];
    // By the bits of a symbol: dirty changes, only the lowest, only the highest, all unused bits.
    let mut rubbish = [[0; 4]; 5];
    let mut no_codes = 0;
    let mut older = 0;
    for seed in 0..3_000 {
        let draft = valid(seed);
        let padded = draft.changes.iter().filter(|it| draft.unused_bits(it) > 0);
        let (mut clean, mut dirty) = (0, 0);
        for change in padded {
            let symbol = draft.bits_a_symbol(change);
            let unused = draft.unused_bits(change);
            let all = 0xFF_u8 >> (8 - unused);
            let found = draft.byte(change.end - 1) & all;
            assert_eq!(change.clean, found == 0);
            if change.clean {
                clean += 1;
                clean_changes[symbol] += 1;
                continue;
            }
            dirty += 1;
            rubbish[symbol][0] += 1;
            rubbish[symbol][1] += u32::from(found == 1 && unused > 1);
            rubbish[symbol][2] += u32::from(found == 1 << (unused - 1) && unused > 1);
            rubbish[symbol][3] += u32::from(found == all);
            no_codes += u32::from(symbol == 4 && found > 8);
            let newest = draft.word(draft.sync_at(change.root)) as usize;
            older += u32::from(newest != change.offset);
        }
        clean_files += u32::from(dirty == 0 && clean > 0);
        dirty_files += u32::from(dirty > 0);
        mixed_files += u32::from(dirty > 0 && clean > 0);
    }
    println!(
        "files: {clean_files} clean, {dirty_files} dirty, {mixed_files} of them in some changes"
    );
    println!("clean {clean_changes:?}, rubbish {rubbish:?}");
    println!("{no_codes} nibbles above 8, {older} in changes that are not the newest");
    assert!(clean_files >= 400 && dirty_files >= 400 && mixed_files >= 200);
    for symbol in [1, 2, 4] {
        assert!(clean_changes[symbol] >= 500, "{symbol}");
        assert!(
            rubbish[symbol].iter().all(|count| *count >= 150),
            "{symbol}"
        );
    }
    assert!(no_codes >= 200 && older >= 1_500);
}

/// The two sides of clean differ in one byte, and judging says which is which.
#[test]
fn clean_and_dirty_neighbours() {
    let mut made = 0;
    for seed in 0..400 {
        let mut random = Random::new(seed + 1);
        let Some([clean, dirty]) = clean_and_dirty(&valid(seed), &mut random) else {
            continue;
        };
        let (clean, dirty) = (clean.bytes(), dirty.bytes());
        let differ = clean.iter().zip(&dirty).filter(|(one, other)| one != other);
        assert_eq!(differ.count(), 1, "seed {seed}");
        let said = |file| reader::judge(file).map(|it| it.clean);
        assert_eq!((said(&clean), said(&dirty)), (Ok(true), Ok(false)));
        made += 1;
    }
    assert!(made >= 150, "{made}");
}

/// What a damage makes of 600 files that are not too long; what it breaks is refused by its number.
fn neighbours_by(damage: &Damage) -> impl Iterator<Item = Neighbours> + '_ {
    let bases = (0..600).map(|seed| (Random::new(seed + 1), valid(seed)));
    let short = bases.filter(|(_, base)| base.end() <= 20_000);
    short.filter_map(|(mut random, base)| {
        let neighbours = (damage.apply)(&base, &mut random)?;
        assert_eq!(answer(&neighbours.over.bytes()), Err(damage.number));
        Some(neighbours)
    })
}

/// Files with rubbish come to 17, and to 16 by a code in use: each damage of theirs starts from dirty
/// files and from clean ones.
#[test]
fn dirty_files_reach_every_refusal_of_changes() {
    for damage in DAMAGES.iter().filter(|it| it.number >= 15) {
        let (mut clean, mut dirty) = (0, 0);
        for neighbours in neighbours_by(damage) {
            match reader::judge(&neighbours.near.bytes()).map(|it| it.clean) {
                Ok(true) => clean += 1,
                Ok(false) => dirty += 1,
                Err(_) => {}
            }
        }
        println!(
            "{} {:45} {clean} clean, {dirty} dirty",
            damage.number, damage.name
        );
        // Near 15, by a command byte at T - 1, nothing is accepted.
        if damage.name == "command before the change's end" {
            continue;
        }
        assert!(dirty >= 10, "{}: {dirty}", damage.name);
        let always = damage.name.contains("rubbish");
        assert_eq!(clean == 0, always, "{}: {clean}", damage.name);
    }
}

/// First and last of a table of times.
fn first_and_last(draft: &Draft) -> (i64, i64) {
    let at = draft.times_at() + 4;
    let bytes = time_length(draft.times_tag());
    (draft.time(at), draft.time(at + bytes))
}

/// The deltas of a table of times: of the positions, and of the times.
fn deltas(draft: &Draft) -> (Vec<u32>, Vec<i64>) {
    let m = draft.entries() as usize;
    let bytes = time_length(draft.times_tag());
    let at = draft.times_at() + head_length(draft.times_tag());
    let positions = (0..m).map(|entry| draft.word(at + 4 * entry));
    let times = (0..m).map(|entry| draft.time(at + 4 * m + bytes * entry));
    (positions.collect(), times.collect())
}

/// Whether two entries share a position, and whether two have one time.
fn zeros(draft: &Draft) -> [bool; 2] {
    let (positions, times) = deltas(draft);
    [
        positions.iter().skip(1).any(|delta| *delta == 0),
        times.iter().skip(1).any(|delta| *delta == 0),
    ]
}

/// Tables of times rise, or positions, times or both repeat: at every place, in runs, and so that it shows
/// in the times of changes.
#[test]
fn entries_that_share_a_position_or_a_time() {
    let mut seen: BTreeMap<&str, u32> = BTreeMap::new();
    for seed in 0..3_000 {
        let draft = valid(seed);
        let bytes = draft.bytes();
        let judged = reader::Judged::new(&bytes).expect("a valid trace");
        let entries = judged.entries();
        let (Some(lowest), Some(highest)) = (entries.first(), entries.last()) else {
            continue;
        };
        let mut meet = |what, met: bool| *seen.entry(what).or_default() += u32::from(met);
        let [tied, equal] = zeros(&draft);
        let several = entries.len() > 1;
        meet("rising", several && !tied && !equal);
        meet("shared positions, rising times", tied && !equal);
        meet("rising positions, equal times", !tied && equal);
        meet("shared positions and equal times", tied && equal);

        let shared = |count: usize, part: fn(&(u32, i64)) -> i64| {
            let mut runs = entries.windows(count);
            runs.any(|run| part(&run[0]) == part(&run[count - 1]))
        };
        meet(
            "one position three times",
            shared(3, |entry| entry.0.into()),
        );
        meet("one position six times", shared(6, |entry| entry.0.into()));
        meet("one time three times", shared(3, |entry| entry.1));
        meet("one time six times", shared(6, |entry| entry.1));
        let twice = entries.windows(2).any(|pair| pair[0] == pair[1]);
        meet("an entry twice", twice);
        let same = entries.iter().all(|entry| entry == lowest);
        meet("all entries equal", several && same);
        let at = |position: u32| entries.iter().filter(|entry| entry.0 == position).count();
        let (first, last) = first_and_last(&draft);
        let of_time = |time: i64| entries.iter().filter(|entry| entry.1 == time).count();
        meet("shared first position", at(lowest.0) > 1);
        meet("shared last position", at(highest.0) > 1);
        meet("one position", several && at(lowest.0) == entries.len());
        meet("one time", several && of_time(lowest.1) == entries.len());
        meet("equal times of first", of_time(first) > 1);
        meet("equal times of last", of_time(last) > 1);
        meet("first position 4", lowest.0 == 4);
        meet("shared first position 4", lowest.0 == 4 && at(4) > 1);
        meet("last position T - 1", highest.0 == draft.end() as u32 - 1);

        let offsets = draft.changes.iter().map(|change| change.offset as u32);
        let offsets = Vec::from_iter(offsets);
        let behind = offsets.last().is_some_and(|newest| lowest.0 > *newest);
        meet("first position behind all changes", behind);
        meet("shared position behind all changes", behind && tied);
        let at_change = |count| offsets.iter().any(|offset| at(*offset) >= count);
        meet("shared position of a change", at_change(2));
        meet("position of a change three times", at_change(3));

        // Changes whose time another entry of the position would show as another.
        for change in &draft.changes {
            let offset = change.offset as u32;
            let before = entries.iter().filter(|entry| entry.0 <= offset).count();
            let deciding = entries[before.max(1) - 1];
            assert_eq!(change.time, deciding.1, "seed {seed}");
            let others = entries.iter().filter(|entry| entry.0 == deciding.0);
            let other = others.clone().any(|entry| entry.1 != deciding.1);
            let there = deciding.0 == offset;
            meet("changes: the last decides", before > 0 && other);
            meet(
                "changes: the last decides, there",
                before > 0 && other && there,
            );
            meet(
                "changes: the last decides, further on",
                before > 0 && other && !there,
            );
            meet(
                "changes: the last of three decides",
                before > 0 && other && others.count() > 2,
            );
            meet("changes: entry 0 decides", before == 0 && other);
            meet(
                "changes: before a position of its own",
                before == 0 && !other,
            );
        }
    }
    for (what, count) in &seen {
        println!("{count:7} {what}");
    }
    assert_eq!(seen.len(), 29);
    for (what, count) in seen {
        let least = match what.starts_with("changes") {
            true => 300,
            false => 60,
        };
        assert!(count >= least, "{what}: {count}");
    }
}

/// Zero deltas stand on both sides of the time rules: accepted, and refused by another rule.
#[test]
fn zero_deltas_on_both_sides() {
    let names = [
        "first position below 4, then zeros",
        "position T",
        "equal times before first or after last",
        "time of an entry that never decides",
        "position sum past 2^32",
        "time sum out of range",
        "time delta below 0",
    ];
    for name in names {
        let damage = DAMAGES.iter().find(|damage| damage.name == name);
        let damage = damage.expect("a damage of that name");
        // Shared positions and equal times, on the one side and on the other.
        let mut counts = [[0; 2]; 2];
        for seed in 0..200 {
            let mut random = Random::new(seed);
            let base = valid(seed);
            let Some(neighbours) = (damage.apply)(&base, &mut random) else {
                continue;
            };
            assert_eq!(answer(&neighbours.near.bytes()), Ok(()), "{name}");
            assert_eq!(answer(&neighbours.over.bytes()), Err(13), "{name}");
            let sides = [&neighbours.near, &neighbours.over];
            for (counts, draft) in counts.iter_mut().zip(sides) {
                for (count, met) in counts.iter_mut().zip(zeros(draft)) {
                    *count += u32::from(met);
                }
            }
        }
        println!("{name}: accepted {:?}, refused {:?}", counts[0], counts[1]);
        assert!(counts.iter().flatten().all(|count| *count >= 40), "{name}");
    }
}

/// Each rule behind the times is broken in files with zero deltas, and in files without.
#[test]
fn zero_deltas_in_files_of_every_later_refusal() {
    for damage in DAMAGES.iter().filter(|it| it.number >= 14) {
        let mut counts = [0; 2];
        for neighbours in neighbours_by(damage) {
            counts[usize::from(zeros(&neighbours.over).contains(&true))] += 1;
        }
        println!("{} {:45} {counts:?}", damage.number, damage.name);
        let enough = counts.iter().all(|count| *count >= 10);
        assert!(enough, "{}: {counts:?}", damage.name);
    }
}

/// Both tables of times occur, and in those of 64 bits both signs, both ends of the range, deltas of every
/// size, and any first and last.
#[test]
fn times_of_both_kinds() {
    let (least, most) = (i64::MIN, i64::MAX);
    let mut seen: BTreeMap<&str, u32> = BTreeMap::new();
    for seed in 0..3_000 {
        let draft = valid(seed);
        let bytes = draft.bytes();
        let entries = reader::Judged::new(&bytes).map(|judged| judged.entries());
        let entries = entries.expect("a valid trace");
        let times = Vec::from_iter(entries.iter().map(|entry| entry.1));
        let mut meet = |what, met: bool| *seen.entry(what).or_default() += u32::from(met);
        let tag = draft.times_tag();
        let other = other_times(tag);
        let items = |tag| draft.items.iter().filter(move |item| item.0 == tag);
        let taken_back = draft.value(other) == 0 && items(other).any(|item| item.1 != 0);
        let met_once = items(tag).count() == 1 && items(other).count() == 0;
        assert_eq!(draft.value(other), 0);
        if tag == SHORT_TIMES {
            meet("06", true);
            meet("06: 09 not met", met_once);
            meet("06: 09 taken back by 0", taken_back);
            meet("06: no entry", times.is_empty());
            let greatest = times.last() == Some(&0xFFFF_FFFF);
            meet("06: last time 2^32 - 1", greatest);
            meet(
                "06: times from 2^31 on",
                times.iter().any(|it| *it >= 1 << 31),
            );
            continue;
        }
        let (first, last) = first_and_last(&draft);
        let deltas = deltas(&draft).1;
        meet("09", true);
        meet("09: 06 not met", met_once);
        meet("09: 06 taken back by 0", taken_back);
        meet("09: no entry", times.is_empty());
        meet(
            "09: no entry, first above last",
            times.is_empty() && first > last,
        );
        let (Some(lowest), Some(highest)) = (times.first(), times.last()) else {
            continue;
        };
        meet("09: first time below 0", *lowest < 0);
        meet("09: all times below 0", *highest < 0);
        meet("09: times of both signs", *lowest < 0 && *highest >= 0);
        meet("09: the least number", *lowest == least);
        meet("09: the greatest number", *highest == most);
        meet("09: both ends", *lowest == least && *highest == most);
        let past = |time: &i64| *time > 0xFFFF_FFFF;
        meet("09: all times past 32 bits", past(lowest));
        meet(
            "09: some times past 32 bits",
            !past(lowest) && past(highest),
        );
        meet("09: first is the first time", first == *lowest);
        meet("09: first below all", first < *lowest);
        meet("09: last is the last time", last == *highest);
        meet("09: last above all", last > *highest);
        let later = &deltas[1..];
        meet("09: a delta past 32 bits", later.iter().any(past));
        meet("09: the largest delta", later.contains(&most));
        meet("09: a delta of 0", later.contains(&0));
        meet(
            "09: small deltas",
            later.iter().any(|it| (1..100).contains(it)),
        );
        let sums = deltas.iter().scan(0_i64, |sum, delta| {
            *sum += delta;
            Some(*sum)
        });
        assert_eq!(Vec::from_iter(sums), times, "seed {seed}");
        // Changes whose times have the same low half.
        let halves = draft.changes.iter().map(|it| (it.time as u32, it.time));
        let halves = BTreeMap::from_iter(halves);
        let other = |it: &lxt_generate::Change| halves[&(it.time as u32)] != it.time;
        meet(
            "09: changes apart by the high half",
            draft.changes.iter().any(other),
        );
    }
    for (what, count) in &seen {
        println!("{count:7} {what}");
    }
    assert_eq!(seen.len(), 28);
    for (what, count) in seen {
        assert!(count >= 20, "{what}: {count}");
    }
}

/// Each rule behind the frame is broken in files of both tables of times; those of 64-bit times alone, in
/// such.
#[test]
fn times_of_both_kinds_in_files_of_every_refusal() {
    let long_only = [
        "start of 64-bit times",
        "time delta below 0",
        "time below 0 and first 0",
        "time in bounds by its low half",
    ];
    for damage in DAMAGES.iter().filter(|it| it.number >= 5) {
        // By the tag: refused, and accepted on the other side.
        let mut counts = BTreeMap::from([(SHORT_TIMES, [0; 2]), (LONG_TIMES, [0; 2])]);
        for neighbours in neighbours_by(damage) {
            let sides = [
                (neighbours.over.times_tag(), true),
                (neighbours.near.times_tag(), neighbours.near_answer.is_ok()),
            ];
            for (side, (tag, counted)) in sides.into_iter().enumerate() {
                counts.get_mut(&tag).expect("a tag")[side] += u32::from(counted);
            }
        }
        println!("{:2} {:45} {counts:?}", damage.number, damage.name);
        let [short, long] = [SHORT_TIMES, LONG_TIMES].map(|tag| counts[&tag]);
        let both = !long_only.contains(&damage.name);
        assert_eq!(short[1] > 0, both && long[1] > 0, "{}", damage.name);
        // Both present, or neither, counts as 06 here.
        let least = if matches!(damage.number, 6 | 7) {
            0
        } else {
            10
        };
        assert!(long[0] >= least, "{}: {counts:?}", damage.name);
        assert!(short[0] >= if both { 10 } else { 0 }, "{}", damage.name);
    }
}

/// Dense chains come to every answer that chains can have.
#[test]
fn dense_chains() {
    let mut counts = [0; 18];
    for seed in 0..4_000 {
        counts[slot(answer(&dense(seed).bytes()))] += 1;
    }
    print_histogram("dense", &counts);
    assert!(counts[1..15].iter().all(|count| *count == 0));
    assert!(counts[0] > 200 && counts[15..].iter().all(|count| *count > 200));
}

/// The same seed gives the same file.
#[test]
fn seeds_are_deterministic() {
    for seed in 0..200 {
        assert_eq!(case(seed).bytes, case(seed).bytes);
        assert_eq!(valid(seed).bytes(), valid(seed).bytes());
    }
    assert_ne!(valid(1).bytes(), valid(2).bytes());
}

#[test]
fn large_traces_have_their_shape() {
    for facilities in [1, 122, 900] {
        for width in [1, 8, 33, 4_096] {
            for times_tag in [SHORT_TIMES, LONG_TIMES] {
                has_its_shape(&Large {
                    bytes: 200_000,
                    facilities,
                    width,
                    entries: 2_000,
                    times_tag,
                });
            }
        }
    }
}

fn has_its_shape(shape: &Large) {
    let file = large(shape);
    assert!(file.len() <= shape.bytes && file.len() > shape.bytes - 2_100);
    let judged = reader::Judged::new(&file).expect("a trace");
    let changes: usize = judged.chains().iter().map(Vec::len).sum();
    assert_eq!(judged.summary().facilities as usize, shape.facilities);
    assert_eq!(judged.facts(0).map(|facts| facts.width), Ok(shape.width));
    assert!(changes > if shape.width == 4_096 { 100 } else { 9_000 });
    // The tag of the times is the one before B4.
    assert_eq!(file[file.len() - 2], shape.times_tag);
    assert_eq!(judged.entries().len(), shape.entries);
    // The times of the oldest and the newest change lie far apart.
    let mut times = judged.chains().concat();
    times.sort_unstable();
    let time = |offset| {
        let root = judged.chains().iter().position(|it| it.contains(&offset));
        let root = root.expect("a root") as u32;
        judged
            .change(root, offset, &mut [0; 4_096])
            .expect("a change")
            .time
    };
    assert!(time(times[0]) <= 20 && time(times[changes - 1]) > 15_000);
}

#[test]
fn hostile_files_are_judged() {
    let cases = hostile();
    for case in &cases {
        let expected = case.expected.expect("a settled answer");
        assert_eq!(answer(&case.bytes), expected, "{}", case.origin);
    }
    for (start, count) in [("texts", 6), ("4-bit", 6), ("no data", 4), ("1-bit", 2)] {
        let of_kind: Vec<&Case> = cases
            .iter()
            .filter(|case| case.origin.starts_with(start))
            .collect();
        assert_eq!(of_kind.len(), count);
        assert!(of_kind.iter().all(|case| case.bytes.len() == 65_536));
    }
    // Large tables of zero deltas, accepted and refused.
    for (start, accepted, refused) in [
        ("8,001 time entries at", 1, 5),
        ("8,001 time entries of one time", 1, 1),
        ("8,001 time entries that are equal", 1, 1),
        ("8,001 equal time entries", 1, 2),
        ("40 time entries at each", 1, 0),
        ("1,500 time entries at", 4, 0),
    ] {
        let of_kind = cases.iter().filter(|case| case.origin.starts_with(start));
        let answers = Vec::from_iter(of_kind.map(|case| case.expected));
        let count = |answer| answers.iter().filter(|it| **it == Some(answer)).count();
        let counts = (count(Ok(())), count(Err(13)));
        assert_eq!(counts, (accepted, refused), "{start}");
    }
    // 64-bit times at each boundary: how many are accepted, and refused by each number.
    for (start, expected) in [
        ("64-bit times: ", &[(0, 26), (8, 43), (13, 45)][..]),
        ("8,001 64-bit times", &[(0, 3), (13, 5)]),
        ("8,001 equal 64-bit times", &[(0, 2), (13, 3)]),
        ("1,500 64-bit times at", &[(0, 4)]),
        ("times: ", &[(0, 14), (5, 8), (6, 16), (7, 10), (8, 6)]),
    ] {
        let mut counts: BTreeMap<usize, u32> = BTreeMap::new();
        for case in cases.iter().filter(|case| case.origin.starts_with(start)) {
            *counts.entry(slot(answer(&case.bytes))).or_default() += 1;
        }
        println!("{start}: {counts:?}");
        assert_eq!(Vec::from_iter(counts), expected, "{start}");
    }
}

#[test]
fn the_longest_hostile_files_are_judged() {
    for case in hostile_large() {
        let expected = case.expected.expect("a settled answer");
        assert_eq!(answer(&case.bytes), expected, "{}", case.origin);
    }
}

/// 4,096 roots of different widths on one chain in the longest file: minutes of reading.
#[test]
#[ignore = "takes minutes"]
fn as_many_visits_as_there_can_be() {
    assert_eq!(answer(&widest_sharing(16_777_216, 4_096)), Err(17));
}
