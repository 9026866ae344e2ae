//! Zero deltas of the times through the C interface: which entry decides, and what stays refused.

use lxt::{Change, Pair, Reading, Refusal, Trace};
use lxt_compare::judge::TRACE;
use lxt_compare::times::small_trace;
use refused::by_every_call;

mod many;
mod refused;
mod tied;

/// Every call refuses the file as 13 and changes nothing.
fn refused(file: &[u8], what: &str) {
    by_every_call(file, Refusal::Times, what);
}

fn bits(symbols: &str) -> Reading<'static> {
    Reading::Bits(symbols.into())
}

#[test]
fn examples_2_a_to_2_i() {
    assert_eq!(small_trace(0, &[4, 2], &[0, 5]), TRACE);
    for example in tied::EXAMPLES {
        let file = example.file();
        let what = format!("2-{}", example.letter);
        let printed = lxt_reference::dump(&file);
        assert_eq!(String::from_utf8_lossy(&printed), example.lines(), "{what}");
        let Some(answer) = &example.answer else {
            refused(&file, &what);
            continue;
        };
        let trace = Trace::open(&file).expect("an accepted trace");
        let summary = trace.summary();
        let end = 52 + 8 * example.positions.len() as u32;
        assert_eq!(
            (summary.facilities, summary.changes, summary.end),
            (1, 4, end),
            "{what}"
        );
        for (offset, time, symbol) in [(6, answer.newer, "0"), (4, answer.older, "1")] {
            let read = trace.change(0, offset).expect("a change");
            assert_eq!((read.time, read.clean), (time, true), "{what} {offset}");
            assert_eq!(read.value, bits(symbol), "{what} {offset}");
        }
        // Every time on either side of each entry, and any far behind.
        let shown = |time| trace.value_at(0, time).map(|it| it.value.to_string());
        let values = (0..7).map(|time| shown(time).expect("a value"));
        assert_eq!(values.collect::<String>(), answer.values, "{what}");
        assert_eq!(shown(i64::MAX), shown(6), "{what}");

        let changes = [6, 4].map(|offset| Change {
            facility: 0,
            offset,
        });
        let walk = trace.walk_all().expect("a walk");
        for size in [1, 2, 9] {
            let walk = walk.clone().in_batches_of(size);
            assert_eq!(Vec::from_iter(walk), changes, "{what}");
        }
        let mut pairs = [Pair::default()];
        let mut output = [77; 6];
        lxt::start_walk(&file, &[1], &mut pairs).expect("a start");
        let carried = lxt::carry_on(&file, &mut pairs, 3, &mut output);
        assert_eq!(carried, Ok((2, true)), "{what}");
        assert_eq!(output, [0, 6, 0, 4, 77, 77], "{what}");

        // The lines of the program, by the answers of the interface.
        let mut lines = String::from("facility 0 a bits 1\n");
        for change in changes {
            let read = trace.change(0, change.offset).expect("a change");
            lines += &format!("change 0 {} {} {}\n", change.offset, read.time, read.value);
        }
        assert_eq!(lines + "done 2\n", example.lines(), "{what}");
    }
}

/// What stays refused beside zero deltas, next to a neighbour that is accepted.
#[test]
fn only_the_first_position_and_the_bounds_refuse() {
    for first in 0..4 {
        refused(&small_trace(0, &[first, 0], &[0, 0]), "a first position");
        refused(&small_trace(0, &[first, 9], &[0, 0]), "a first position");
        let file = small_trace(0, &[4, first], &[0, 0]);
        assert!(lxt::judge(&file).is_ok(), "{first}");
    }
    // Bounds of first and last, reached by entries that share a position.
    for (times, first, accepted) in [
        ([0, 0, 0], 0, true),
        ([5, 0, 0], 5, true),
        ([4, 0, 1], 4, true),
        ([4, 0, 1], 5, false),
        ([4, 1, 0], 5, false),
        ([5, 0, 1], 0, false),
        ([5, 1, 0], 0, false),
        ([5, 0, u32::MAX], 0, false),
    ] {
        let file = small_trace(first, &[4, 0, 0], &times);
        match accepted {
            true => assert!(lxt::judge(&file).is_ok(), "{times:?}"),
            false => refused(&file, &format!("{times:?}")),
        }
    }
    // T is 76.
    assert!(lxt::judge(&small_trace(0, &[75, 0, 0], &[0, 0, 0])).is_ok());
    refused(&small_trace(0, &[75, 0, 1], &[0, 0, 0]), "position T");
    refused(&small_trace(0, &[76, 0, 0], &[0, 0, 0]), "position T");
    refused(&small_trace(0, &[6, 0, u32::MAX], &[0, 0, 0]), "a wrap");
}

/// 1,500 entries with the times 0 to 1,499 at one position: of a change, or behind all three.
#[test]
fn of_many_entries_the_last_decides_from_there_on() {
    let expected = [[1_499; 3], [0, 1_499, 1_499], [0, 0, 1_499], [0; 3]];
    let asked = [0, 1, 749, 750, 1_498, 1_499, 1_500];
    many::at_one_position("1,500 time entries at ", expected, &asked);
}

/// 2,000,000 entries at one position, nearly as many as the longest file has room for: accepted, and refused for
/// the time of the first.
#[test]
fn as_many_entries_as_fit() {
    let answers = many::judged("2,000,000 time entries");
    assert_eq!(answers, [(Ok(()), Ok(())), (Err(13), Err(13))]);
}

/// A trace of another writer, with entries (4, 0), (7, 5) and (7, 9).
#[test]
fn a_trace_of_an_independent_writer() {
    let file = include_bytes!("../../../traces/lxtgen_zerodelta.lxt");
    let trace = Trace::open(file).expect("an accepted trace");
    let time = |offset| trace.change(0, offset).map(|read| read.time);
    assert_eq!((time(7), time(4)), (Ok(9), Ok(0)));
    let value_at = |facility, time| trace.value_at(facility, time).map(|it| it.value);
    for (time, value) in [(0, "0001"), (5, "0001"), (8, "0001"), (9, "0010")] {
        assert_eq!(value_at(0, time), Ok(bits(value)), "{time}");
    }
    let unchanged = bits(&"X".repeat(40));
    assert_eq!(value_at(1, 9), Ok(unchanged));
}
