//! Hostile files with many entries in their times, found by how their origin starts.

use lxt::{Reading, Trace};

/// Files with all entries at one position: the times of their three changes, to 0, 1 and Z, and the values at
/// the times asked.
pub fn at_one_position(start: &str, expected: [[i64; 3]; 4], asked: &[i64]) {
    let mut cases = lxt_generate::hostile();
    cases.retain(|case| case.origin.starts_with(start));
    assert_eq!(cases.len(), expected.len());
    for (case, times) in cases.iter().zip(expected) {
        let trace = Trace::open(&case.bytes).expect("an accepted trace");
        let mut changes = Vec::from_iter(trace.walk_all().expect("a walk"));
        changes.reverse();
        let read = changes.iter().map(|it| trace.change(0, it.offset));
        let read = Vec::from_iter(read.map(|it| it.expect("a change").time));
        assert_eq!(read, times, "{}", case.origin);
        for time in asked {
            let newest = times.iter().rposition(|it| it <= time);
            let value = newest.map_or("X", |place| ["0", "1", "Z"][place]);
            let shown = trace.value_at(0, *time).expect("a value").value;
            assert_eq!(shown, Reading::Bits(value.into()), "{} {time}", case.origin);
        }
    }
}

/// Of files of nearly the greatest length, what judging answers and what is expected.
pub fn judged(start: &str) -> Vec<(Result<(), u8>, Result<(), u8>)> {
    let mut cases = lxt_generate::hostile_large();
    cases.retain(|case| case.origin.starts_with(start));
    let answers = cases.iter().map(|case| {
        let judged = lxt::judge(&case.bytes).map_err(|it| it.number());
        (judged.map(|_| ()), case.expected.expect("an answer"))
    });
    answers.collect()
}
