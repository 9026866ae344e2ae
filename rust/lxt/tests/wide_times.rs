//! 64-bit times through the C interface: tag 09 beside tag 06, and times outside 32 bits.

use lxt::{Change, Pair, Reading, Refusal, Trace};
use lxt_compare::judge::TRACE;
use lxt_compare::times::{small_trace, small_trace_09};
use refused::by_every_call;

mod many;
mod refused;
#[allow(dead_code)]
mod wide;

const LEAST: i64 = i64::MIN;
const MOST: i64 = i64::MAX;

fn bits(symbols: &str) -> Reading<'static> {
    Reading::Bits(symbols.into())
}

fn value_at<'a>(trace: &Trace<'a>, facility: u32, time: i64) -> Result<Reading<'a>, Refusal> {
    trace.value_at(facility, time).map(|lookup| lookup.value)
}

#[test]
fn the_bytes_of_1_a() {
    let file = &wide::examples()[0].file;
    let digits = file.iter().map(|byte| format!("{byte:02x}"));
    let expected = "013800040402030000000001000000020000610000000000000000000000000000000000\
        0000000600000002fffffffffffffffb00000000000000050000000400000002fffffffffffffffb00000000000000\
        0a0000000004010000002402000000080300000014040000002809b4";
    assert_eq!(digits.collect::<String>(), expected);
    assert_eq!(file.len(), 111);
    assert_eq!(lxt::judge(file).map(|summary| summary.end), Ok(84));
}

#[test]
fn examples_1_a_to_1_l() {
    for example in wide::examples() {
        let what = example.name;
        let file = &example.file;
        let printed = lxt_reference::dump(file);
        assert_eq!(String::from_utf8_lossy(&printed), example.lines(), "{what}");
        let answer = match &example.answer {
            Ok(answer) => answer,
            Err(number) => {
                let no = Refusal::of_number(*number).expect("a refusal");
                by_every_call(file, no, what);
                continue;
            }
        };
        let trace = Trace::open(file).expect("an accepted trace");
        let changes = [(6, answer.newer, "0"), (4, answer.older, "1")];
        for (offset, time, symbol) in changes {
            let read = trace.change(0, offset).expect("a change");
            assert_eq!((read.time, read.clean), (time, true), "{what} {offset}");
            assert_eq!(read.value, bits(symbol), "{what} {offset}");
        }
        for (time, symbol) in answer.values {
            let value = value_at(&trace, 0, *time);
            assert_eq!(value, Ok(bits(&symbol.to_string())), "{what} at {time}");
        }

        let walk = trace.walk_all().expect("a walk");
        let walked = changes.map(|(offset, _, _)| Change {
            facility: 0,
            offset,
        });
        for size in [1, 2, 9] {
            let walk = walk.clone().in_batches_of(size);
            assert_eq!(Vec::from_iter(walk), walked, "{what}");
        }
        let mut pairs = [Pair::default()];
        let mut output = [77; 6];
        lxt::start_walk(file, &[1], &mut pairs).expect("a start");
        let carried = lxt::carry_on(file, &mut pairs, 3, &mut output);
        assert_eq!(carried, Ok((2, true)), "{what}");
        assert_eq!(output, [0, 6, 0, 4, 77, 77], "{what}");

        // The lines of the program, by the answers of the interface.
        let mut lines = String::from("facility 0 a bits 1\n");
        for change in walked {
            let read = trace.change(0, change.offset).expect("a change");
            lines += &format!("change 0 {} {} {}\n", change.offset, read.time, read.value);
        }
        assert_eq!(lines + "done 2\n", example.lines(), "{what}");
    }
}

/// The rules of 09, each refused table next to one that is accepted.
#[test]
fn the_range_the_sign_and_the_bounds() {
    type Table = (i64, i64, &'static [u32], &'static [i64]);
    let accepted: [Table; 14] = [
        (LEAST, LEAST, &[4], &[LEAST]),
        (MOST, MOST, &[4], &[MOST]),
        (LEAST, MOST, &[4, 1, 1, 1], &[LEAST, MOST, MOST, 1]),
        (LEAST, MOST, &[4, 1], &[MOST - 1, 1]),
        (LEAST, MOST, &[4, 1], &[0, MOST]),
        (LEAST, MOST, &[4, 1], &[-1, MOST]),
        (0, 9, &[4, 0, 0], &[9, 0, 0]),
        (-1, -1, &[4], &[-1]),
        (-1, 0, &[4, 1], &[-1, 1]),
        (LEAST + 1, MOST, &[4], &[LEAST + 1]),
        (LEAST, MOST - 1, &[4], &[MOST - 1]),
        (0x1_0000_0005, 0x1_0000_0009, &[4], &[0x1_0000_0007]),
        (
            -0x1_0000_0000,
            0x1_0000_0000,
            &[4, 1],
            &[-0x1_0000_0000, 0x2_0000_0000],
        ),
        (0, 9, &[4, 79], &[0, 0]),
    ];
    for (first, last, positions, times) in accepted {
        let file = small_trace_09(first, last, positions, times);
        assert!(lxt::judge(&file).is_ok(), "{first} {last} {times:?}");
    }
    let refused: [Table; 18] = [
        (LEAST, MOST, &[4, 1, 1, 1], &[LEAST, MOST, MOST, 2]),
        (LEAST, MOST, &[4, 1], &[MOST, 1]),
        (LEAST, MOST, &[4, 1], &[1, MOST]),
        (LEAST, MOST, &[4, 1], &[MOST, MOST]),
        (0, 9, &[4, 1, 1, 1], &[4, MOST, MOST, 2]),
        (LEAST, MOST, &[4, 1], &[5, -1]),
        (LEAST, MOST, &[4, 1], &[0, LEAST]),
        (LEAST, MOST, &[4, 1], &[LEAST, -1]),
        (LEAST, MOST, &[4, 0, 0], &[5, 5, -1]),
        (0, -1, &[4], &[-1]),
        (0, MOST, &[4], &[-1]),
        (LEAST + 1, MOST, &[4], &[LEAST]),
        (LEAST, MOST - 1, &[4], &[MOST]),
        (LEAST, LEAST, &[4, 1], &[LEAST, 1]),
        (5, 9, &[4], &[0x1_0000_0007]),
        (0x1_0000_0005, 0x1_0000_0009, &[4], &[7]),
        (0, 9, &[3, 1], &[0, 0]),
        (0, 9, &[4, 80], &[0, 0]),
    ];
    for (first, last, positions, times) in refused {
        let file = small_trace_09(first, last, positions, times);
        by_every_call(&file, Refusal::Times, &format!("{first} {last} {times:?}"));
    }
}

/// The body of 09 lies between offset 4 and T, in plain numbers.
#[test]
fn the_place_of_64_bit_times() {
    let file = small_trace_09(-5, 5, &[4, 2], &[-5, 10]);
    let with = |at: usize, word: u32| {
        let mut file = file.clone();
        file[at..at + 4].copy_from_slice(&word.to_be_bytes());
        file
    };
    // The count, and the value of the item before B4.
    let (count, item) = (0x28, file.len() - 6);
    assert_eq!(lxt::judge(&with(count, 2)), lxt::judge(&file));
    for word in [3, 357_913_942, 0x4000_0002, 0x8000_0002, u32::MAX] {
        by_every_call(
            &with(count, word),
            Refusal::Place,
            &format!("{word} counted"),
        );
    }
    for start in [1, 2, 3, 0x29, 84, 85, u32::MAX - 43, u32::MAX] {
        by_every_call(&with(item, start), Refusal::Place, &format!("from {start}"));
    }
    let mut short = file.clone();
    short.remove(83);
    by_every_call(&short, Refusal::Place, "a byte less");
    by_every_call(&with(item, 0), Refusal::Absent, "no times");
}

/// Of 06 and 09 the one that counts is read; the other may stand anywhere with a nearer 0.
#[test]
fn which_times_count() {
    // Both tables: that of 09 at 40, that of 06 behind it.
    let long = small_trace_09(-5, 5, &[4, 2], &[-5, 10]);
    let file = |items: &[(u8, u32)]| {
        let mut file = long[..84].to_vec();
        file.extend(&TRACE[40..68]);
        file.extend(&TRACE[68..89]);
        for (tag, value) in items {
            file.extend(value.to_be_bytes());
            file.push(*tag);
        }
        file.push(0xB4);
        file
    };
    let older = |items: &[(u8, u32)]| {
        let read = lxt::change(&file(items), 0, 4, &mut [0]);
        read.map(|read| read.time)
    };
    assert_eq!(older(&[(9, 40)]), Ok(-5));
    assert_eq!(older(&[(6, 84)]), Ok(0));
    assert_eq!(older(&[(6, 0), (6, 84), (9, 40)]), Ok(-5));
    assert_eq!(older(&[(9, 0), (9, 40), (6, 84)]), Ok(0));
    assert_eq!(older(&[(9, 40), (6, 0), (6, u32::MAX)]), Ok(-5));
    assert_eq!(older(&[(6, 84), (9, 0), (9, u32::MAX)]), Ok(0));
    for both in [
        &[(6, 84), (9, 40)][..],
        &[(9, 40), (9, 0), (6, 84)],
        &[(9, 1), (6, 1)],
    ] {
        by_every_call(&file(both), Refusal::TwoTimes, "both");
        let compressed = [both, &[(0x0A, 1)]].concat();
        by_every_call(&file(&compressed), Refusal::Compressed, "compressed");
        let mut file = file(both);
        let changes = file.len() - 1 - 5 * both.len() - 5 * 4;
        assert_eq!(file[changes..changes + 5], [0, 0, 0, 4, 1]);
        file[changes + 3] = 0;
        by_every_call(&file, Refusal::TwoTimes, "both without changes");
    }
    for none in [
        &[][..],
        &[(6, 0), (9, 0)],
        &[(9, 0), (9, 40)],
        &[(6, 0), (6, 84)],
    ] {
        by_every_call(&file(none), Refusal::Absent, "none");
    }
}

/// Any time may be asked of 32-bit times too: before 0 nothing has changed, and all has by 2^32.
#[test]
fn any_time_of_32_bit_times() {
    let trace = Trace::open(&TRACE).expect("a trace");
    for (time, symbol) in [
        (LEAST, "X"),
        (-0xFFFF_FFFF, "X"),
        (-1, "X"),
        (0, "1"),
        (4, "1"),
        (5, "0"),
        (0x1_0000_0000, "0"),
        (0x1_0000_0001, "0"),
        (MOST, "0"),
    ] {
        assert_eq!(value_at(&trace, 0, time), Ok(bits(symbol)), "{time}");
    }
    // Of no change at all the initial symbol, at any time.
    let mut none = small_trace(0, &[4, 2], &[0, 5]);
    none[39] = 0;
    for time in [LEAST, -1, 0, 5, MOST] {
        let mut symbol = [b'?'];
        let value = lxt::value_at(&none, 0, time, &mut symbol);
        assert_eq!((value.is_ok(), symbol), (true, [b'X']));
    }
}

/// 1,500 entries with the times -750 to 749 at one position: of a change, or behind all three.
#[test]
fn many_entries_at_one_position() {
    let (low, high) = (-750, 749);
    let expected = [[high; 3], [low, high, high], [low, low, high], [low; 3]];
    let asked = [LEAST, -751, -750, -1, 0, 748, 749, 750, MOST];
    many::at_one_position("1,500 64-bit times at ", expected, &asked);
}

/// Nearly as many entries as the longest file has room for.
#[test]
fn as_many_entries_as_fit() {
    let refused = (Err(13), Err(13));
    let answers = many::judged("1,300,000 64-bit times");
    assert_eq!(answers, [(Ok(()), Ok(())), refused, refused]);
}

/// Two traces of other writers, whose times leave 32 bits, or lie below a last time that does.
#[test]
fn traces_of_independent_writers() {
    let file = include_bytes!("../../../traces/longtime64.vcd2lxt-plain.unz.lxt");
    let trace = Trace::open(file).expect("an accepted trace");
    let time = |facility, offset| trace.change(facility, offset).map(|read| read.time);
    assert_eq!(time(0, 111), Ok(20_000_000_000));
    assert_eq!((time(2, 54), time(1, 4)), (Ok(9_000_000_000), Ok(0)));
    for (time, value) in [
        (-1, "XXXXXXXX"),
        (0, "00000000"),
        (4_999_999_999, "00000100"),
        (5_000_000_000, "00000101"),
        (19_999_999_999, "00010011"),
        (20_000_000_000, "00010100"),
        (MOST, "00010100"),
    ] {
        assert_eq!(value_at(&trace, 0, time), Ok(bits(value)), "{time}");
    }

    let file = include_bytes!("../../../traces/lxtgen_t64_2.lxt");
    let trace = Trace::open(file).expect("an accepted trace");
    let time = |facility, offset| trace.change(facility, offset).map(|read| read.time);
    assert_eq!(time(0, 54), Ok(4_294_967_052));
    assert_eq!(
        (time(1, 27), time(1, 4)),
        (Ok(4_294_967_010), Ok(4_294_967_000))
    );
    for (time, value) in [
        (4_294_966_999, value_at(&trace, 1, LEAST)),
        (4_294_967_000, Ok(bits("101"))),
        (4_294_967_009, Ok(bits("101"))),
        (4_294_967_010, Ok(bits("000"))),
        (4_294_967_045, Ok(bits("110"))),
        (MOST, Ok(bits("110"))),
    ] {
        assert_eq!(value_at(&trace, 1, time), value, "{time}");
    }
}
