//! The number of changes visited by a value at a time, through the C interface: worked out by hand, counted along
//! the chain, and against the independent reader.

use lxt::{Kind, NewValue, Reading, Refusal, Trace, Value, Writer};
use lxt_compare::judge::TRACE;
use lxt_compare::questions::sample;
use lxt_compare::times::{small_trace, small_trace_09};
use lxt_compare::{generated, traces};
use lxt_reference::Judged;

mod filled;
#[allow(dead_code)]
mod mixed;
#[allow(dead_code)]
mod tied;
#[allow(dead_code)]
mod wide;

use filled::filled;

/// How many changes of a facility are visited at a time.
fn visited(trace: &Trace, facility: u32, time: i64) -> u32 {
    trace.value_at(facility, time).expect("a value").visited
}

/// The value of a facility at a time as text, and how many changes were visited.
fn shown(trace: &Trace, facility: u32, time: i64) -> (String, u32) {
    let lookup = trace.value_at(facility, time).expect("a value");
    (lookup.value.to_string(), lookup.visited)
}

/// (T - C) / 2, of an accepted file.
fn most(trace: &Trace) -> u32 {
    let summary = trace.summary();
    (summary.end - summary.changes) / 2
}

/// How many of the two changes of the small trace, to 1 and then to 0, are visited where this is shown.
fn visited_of_two(symbol: &str) -> u32 {
    match symbol {
        "0" => 1,
        "1" | "X" => 2,
        other => panic!("{other}"),
    }
}

// ---- Worked out by hand ----

#[test]
fn examples_of_the_mixed_trace() {
    let file = mixed::file();
    let trace = Trace::open(&file).expect("an accepted trace");
    let bits = |symbols: &str| Reading::Bits(symbols.into());
    for (facility, time, value, visited) in [
        (0, 9, bits("ZZZ"), 2),
        (0, 10, bits("011"), 2),
        (0, 29, bits("011"), 2),
        (0, 30, bits("ZX1"), 1),
        (3, 30, bits("ZX1"), 1),
        (1, 19, Reading::NotDriven, 1),
        (2, 20, Reading::Text(b"hi"), 1),
        (4, 30, bits(&"Z".repeat(32)), 0),
    ] {
        let lookup = trace.value_at(facility, time).expect("a value");
        assert_eq!(lookup.value, value, "{facility} at {time}");
        assert_eq!(lookup.visited, visited, "{facility} at {time}");
    }
    let text = trace.value_at_into(2, 20, &mut []).expect("a value");
    let (start, length) = (9, 2);
    assert_eq!(text.value, Value::Text { start, length });

    let mut room = [b'?'; 2];
    let refused = lxt::value_at(&file, 5, 0, &mut room);
    assert_eq!(refused, Err(Refusal::NoFacility));
    let refused = lxt::value_at(&file, 0, 0, &mut room);
    assert_eq!(refused, Err(Refusal::Room));
    assert_eq!(room, [b'?'; 2]);
}

#[test]
fn the_small_trace_at_each_time() {
    let trace = Trace::open(&TRACE).expect("an accepted trace");
    for (time, symbol, visited) in [
        (i64::MIN, "X", 2),
        (-1, "X", 2),
        (0, "1", 2),
        (4, "1", 2),
        (5, "0", 1),
        (i64::MAX, "0", 1),
    ] {
        assert_eq!(shown(&trace, 0, time), (symbol.to_string(), visited));
    }
    // With one change, and with none.
    for (at, byte, expected) in [(7, 4, 1), (39, 0, 0)] {
        let mut file = TRACE;
        file[at] = byte;
        let trace = Trace::open(&file).expect("an accepted trace");
        for time in [i64::MIN, 0, 4, 5, i64::MAX] {
            assert_eq!(visited(&trace, 0, time), expected, "{time}");
        }
    }
}

// ---- Before the first change ----

#[test]
fn before_the_first_time_all_changes_of_the_root_are_visited() {
    // Entry 0 is later than these times, so that no change is answered.
    for (file, times) in [
        (small_trace(3, &[4, 2], &[3, 1]), &[i64::MIN, -1, 0, 2][..]),
        (small_trace(5, &[4], &[5]), &[i64::MIN, -1, 0, 4]),
        (
            small_trace(5, &[67, 0], &[5, 0]),
            &[i64::MIN, -0x1_0000_0000, 4],
        ),
        (
            small_trace_09(-5, 5, &[4, 2], &[-5, 10]),
            &[i64::MIN, -7, -6],
        ),
        (
            small_trace_09(i64::MIN, 0, &[4], &[i64::MIN + 1]),
            &[i64::MIN],
        ),
        (
            small_trace_09(i64::MAX, i64::MAX, &[4], &[i64::MAX]),
            &[i64::MIN, -1, 0, i64::MAX - 1],
        ),
    ] {
        let trace = Trace::open(&file).expect("an accepted trace");
        for time in times {
            assert_eq!(shown(&trace, 0, *time), ("X".to_string(), 2), "{time}");
        }
        // From the last one on the newest change alone.
        assert_eq!(shown(&trace, 0, i64::MAX), ("0".to_string(), 1));
    }
}

#[test]
fn every_kind_before_its_first_change() {
    let mut writer = Writer::new(-9, 5).expect("a writer");
    let mut facility = |kind| writer.facility(b"f", kind, 0, 0).expect("a facility");
    let kinds = [Kind::Bits, Kind::Integer, Kind::Real, Kind::Text].map(&mut facility);
    let ones = [b'1'; 32];
    for time in [7, 8, 8] {
        for (facility, value) in kinds.into_iter().zip([
            NewValue::Symbols(&ones[..1]),
            NewValue::Symbols(&ones),
            NewValue::Real(1),
            NewValue::Text(b"t"),
        ]) {
            writer.change(facility, time, value).expect("a change");
        }
    }
    let file = writer.write().expect("a file");
    let trace = Trace::open(&file).expect("an accepted trace");
    let before = ["U", &"U".repeat(32), "not driven", "not driven"];
    for (facility, before) in kinds.into_iter().zip(before) {
        for time in [i64::MIN, -1, 0, 6] {
            assert_eq!(shown(&trace, facility, time), (before.to_string(), 3));
        }
        assert_eq!(visited(&trace, facility, 7), 3);
        assert_eq!(visited(&trace, facility, 8), 1);
    }
}

#[test]
fn examples_of_64_bit_times() {
    let mut below_0 = 0;
    for example in wide::examples() {
        let (file, what) = (&example.file, example.name);
        let Ok(answer) = &example.answer else {
            let number = example.answer.err();
            let refused = lxt::value_at(file, 0, i64::MIN, &mut [0]).err();
            assert_eq!(refused.map(Refusal::number), number, "{what}");
            continue;
        };
        let trace = Trace::open(file).expect("an accepted trace");
        for (time, symbol) in answer.values {
            let symbol = symbol.to_string();
            let expected = visited_of_two(&symbol);
            let lookup = shown(&trace, 0, *time);
            assert_eq!(lookup, (symbol, expected), "{what} at {time}");
            below_0 += u32::from(*time < 0);
        }
    }
    assert!(below_0 >= 8, "{below_0}");
}

// ---- Equal times ----

#[test]
fn examples_of_zero_deltas() {
    for example in tied::EXAMPLES {
        let file = example.file();
        let what = format!("2-{}", example.letter);
        let Some(answer) = &example.answer else {
            let refused = lxt::value_at(&file, 0, 5, &mut [0]);
            assert_eq!(refused, Err(Refusal::Times), "{what}");
            continue;
        };
        let trace = Trace::open(&file).expect("an accepted trace");
        for (time, symbol) in answer.values.chars().enumerate() {
            let symbol = symbol.to_string();
            let expected = visited_of_two(&symbol);
            let lookup = shown(&trace, 0, time as i64);
            assert_eq!(lookup, (symbol, expected), "{what} at {time}");
        }
        // Before 0 the initial symbol is answered, and both changes are visited.
        assert_eq!(shown(&trace, 0, -1), ("X".to_string(), 2), "{what}");
    }
}

#[test]
fn several_changes_at_one_time() {
    // One root changes once at 10, five times at 20 and twice at 30, another one in between.
    let mut writer = Writer::new(-9, 3).expect("a writer");
    let mut facility = |name| writer.facility(name, Kind::Bits, 2, 0).expect("a facility");
    let (one, other) = (facility(b"one"), facility(b"other"));
    let symbols = [
        b"000", b"001", b"010", b"011", b"100", b"101", b"110", b"111",
    ];
    let times = [10, 20, 20, 20, 20, 20, 30, 30];
    for (time, symbols) in times.into_iter().zip(symbols) {
        let mut change = |facility| {
            let value = NewValue::Symbols(symbols);
            writer.change(facility, time, value).expect("a change");
        };
        change(one);
        if time == 20 {
            change(other);
        }
    }
    let file = writer.write().expect("a file");
    let trace = Trace::open(&file).expect("an accepted trace");
    for (time, value, visited) in [
        (9, "XXX", 8),
        (10, "000", 8),
        (19, "000", 8),
        (20, "101", 3),
        (29, "101", 3),
        (30, "111", 1),
        (31, "111", 1),
    ] {
        let lookup = shown(&trace, one, time);
        assert_eq!(lookup, (value.to_string(), visited), "{time}");
    }
    // What another root changes is not counted.
    for (time, value, visited) in [(19, "XXX", 5), (20, "101", 1), (30, "101", 1)] {
        let lookup = shown(&trace, other, time);
        assert_eq!(lookup, (value.to_string(), visited), "{time}");
    }
}

// ---- At most (T - C) / 2 ----

/// The newest value of such a trace.
fn newest(changes: usize) -> &'static str {
    match changes {
        0 => "X",
        _ => ["0", "1"][changes % 2],
    }
}

#[test]
fn the_bound_is_reached() {
    for changes in [0, 1, 2, 3, 4, 127, 128, 1_000, 70_001] {
        let file = filled(changes, 0, false);
        let trace = Trace::open(&file).expect("an accepted trace");
        assert_eq!(most(&trace) as usize, changes);
        assert_eq!(lxt::stray_bytes(&file), Ok(0));
        for time in [i64::MIN, 0, 9] {
            assert_eq!(shown(&trace, 0, time), ("X".to_string(), changes as u32));
        }
        let last = (newest(changes).to_string(), changes.min(1) as u32);
        assert_eq!(shown(&trace, 0, 10), last);
        // A byte more holds no change; two bytes more could.
        for (rest, more) in [(1, 0), (2, 1)] {
            let file = filled(changes, rest, false);
            let trace = Trace::open(&file).expect("an accepted trace");
            assert_eq!(most(&trace) as usize, changes + more);
            assert_eq!(visited(&trace, 0, 9) as usize, changes);
        }
    }
}

#[test]
fn the_bound_is_reached_where_the_oldest_change_is_answered() {
    for changes in [2, 3, 128, 1_000] {
        let file = filled(changes, 0, true);
        let trace = Trace::open(&file).expect("an accepted trace");
        assert_eq!(most(&trace) as usize, changes);
        for (time, value, visited) in [
            (9, "X", changes),
            (10, "1", changes),
            (19, "1", changes),
            (20, newest(changes), 1),
        ] {
            let lookup = shown(&trace, 0, time);
            assert_eq!(lookup, (value.to_string(), visited as u32), "{time}");
        }
    }
}

#[test]
fn the_bound_is_reached_in_the_longest_file() {
    let tables = filled(0, 0, false).len();
    let changes = (lxt::LONGEST_FILE - tables) / 2;
    let file = filled(changes, 0, false);
    assert_eq!((file.len(), changes), (lxt::LONGEST_FILE, 8_388_566));
    let trace = Trace::open(&file).expect("an accepted trace");
    assert_eq!(most(&trace), 8_388_566);
    assert_eq!(shown(&trace, 0, 9), ("X".to_string(), 8_388_566));
    assert_eq!(shown(&trace, 0, 10), ("0".to_string(), 1));

    let file = filled(changes - 4, 0, true);
    let trace = Trace::open(&file).expect("an accepted trace");
    assert_eq!(shown(&trace, 0, 19), ("1".to_string(), 8_388_562));
    assert_eq!(shown(&trace, 0, 20), ("0".to_string(), 1));
}

/// At the least time each facility's count is at most (T - C) / 2, and those of all roots together are too. They
/// are all changes that a walk hands out, where none has that time. Gives the sum.
fn bounded(file: &[u8], trace: &Trace, what: &str) -> u32 {
    let judged = Judged::new(file).expect("an accepted trace");
    let mut sum = 0;
    for facility in trace.facilities() {
        let before = visited(trace, facility, i64::MIN);
        assert!(before <= most(trace), "{what}: facility {facility}");
        if judged.root(facility) == Ok(facility) {
            sum += before;
        }
    }
    assert!(sum <= most(trace), "{what}");
    let first = judged.entries().first().map(|entry| entry.1);
    if first != Some(i64::MIN) {
        let walked = trace.walk_all().expect("a walk").count();
        assert_eq!(sum as usize, walked, "{what}");
    }
    sum
}

#[test]
fn no_count_passes_the_bound_in_the_traces() {
    let (mut accepted, mut changes) = (0, 0);
    for (name, file) in traces(usize::MAX) {
        if let Ok(trace) = Trace::open(&file) {
            changes += bounded(&file, &trace, &name);
            accepted += 1;
        }
    }
    println!("{accepted} traces, {changes} changes");
    assert!(accepted >= 20 && changes >= 300_000, "{accepted} {changes}");
}

#[test]
fn no_count_passes_the_bound_in_generated_files() {
    let (mut accepted, mut reached) = (0, 0);
    for (what, file) in generated(500_000..506_000, 20_000) {
        if let Ok(trace) = Trace::open(&file) {
            let sum = bounded(&file, &trace, &what);
            accepted += 1;
            reached += u32::from(sum > 0 && 8 * sum >= most(&trace));
        }
    }
    println!("{accepted} files, {reached} with an eighth of the bound or more");
    assert!(accepted >= 1_500 && reached >= 100, "{accepted} {reached}");
}

// ---- Against the independent reader, and along the chain ----

/// The times of a facility's changes, from the newest on by the change before each.
fn times_of(trace: &Trace, facility: u32) -> Vec<i64> {
    let mut times = Vec::new();
    let mut walk = trace.walk_of(&[facility]).expect("a walk");
    let mut next = walk.next().map(|change| change.offset);
    while let Some(offset) = next {
        times.push(trace.change(facility, offset).expect("a change").time);
        next = trace.change_before(facility, offset).expect("a change");
    }
    times
}

/// Those after a time, and the change answered, if any.
fn counted(times: &[i64], time: i64) -> u32 {
    let later = times.iter().filter(|it| **it > time).count();
    let answered = times.iter().any(|it| *it <= time);
    later as u32 + u32::from(answered)
}

/// Compares the counts of a facility around some times of its changes. Gives how many, and how many of them were
/// also counted along the chain.
fn compare(trace: &Trace, judged: &Judged, facility: u32, what: &str) -> [u32; 2] {
    let root = judged.root(facility).expect("a root");
    let chain = &judged.chains()[root as usize];
    let mut bits = vec![0; lxt::WIDEST];
    let read = |offset| judged.change(facility, offset, &mut bits);
    let times = sample(chain, 4).into_iter().map(read);
    let times = times.map(|it| it.expect("a change").time);
    let around = times.flat_map(|it| [it.saturating_sub(1), it, it.saturating_add(1)]);
    let mut asked = Vec::from_iter(around.chain([i64::MIN, i64::MAX]));
    asked.sort_unstable();
    asked.dedup();

    let short = chain.len() <= 20 && trace.bytes().len() <= 60_000;
    let walked = short.then(|| times_of(trace, facility));
    assert!(walked.iter().all(|it| it.len() == chain.len()), "{what}");
    for time in &asked {
        let ours = visited(trace, facility, *time);
        let theirs = judged.value_at(facility, *time, &mut bits);
        let theirs = theirs.expect("a value").visited;
        assert_eq!(ours, theirs, "{what}: facility {facility} at {time}");
        if let Some(times) = &walked {
            assert_eq!(ours, counted(times, *time), "{what}: {facility} at {time}");
        }
    }
    let compared = asked.len() as u32;
    [compared, if short { compared } else { 0 }]
}

#[test]
fn traces_of_the_folder() {
    let (mut accepted, mut compared) = (0, [0; 2]);
    for (name, file) in traces(usize::MAX) {
        let Ok(trace) = Trace::open(&file) else {
            continue;
        };
        let judged = Judged::new(&file).expect("an accepted trace");
        let facilities = Vec::from_iter(trace.facilities());
        let most = if file.len() <= 60_000 { 12 } else { 4 };
        for facility in sample(&facilities, most) {
            let counts = compare(&trace, &judged, facility, &name);
            compared = [compared[0] + counts[0], compared[1] + counts[1]];
        }
        accepted += 1;
    }
    println!("{accepted} traces, counts compared and counted along chains {compared:?}");
    assert!(accepted >= 20, "{accepted}");
    assert!(compared.iter().all(|it| *it >= 500), "{compared:?}");
}
