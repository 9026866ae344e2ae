//! 64-bit times (Ask 1): tag 09 beside tag 06.

use super::*;

const LEAST: i64 = i64::MIN;
const MOST: i64 = i64::MAX;

fn printed(file: &[u8]) -> String {
    String::from_utf8(dump(file)).expect("text")
}

/// Every call gives the refusal.
fn assert_refused(file: &[u8], number: u8, what: &str) {
    assert_eq!(printed(file), format!("refused {number}\n"), "{what}");
    assert_eq!(judge(file), Err(number), "{what}");
    assert_eq!(facts(file, 0), Err(number), "{what}");
    assert_eq!(change(file, 0, 6, &mut [0]), Err(number), "{what}");
    for time in [LEAST, 0, MOST] {
        assert_eq!(value_at(file, 0, time, &mut [0]), Err(number), "{what}");
        assert_eq!(text_at(file, 0, time, b"none"), Err(number), "{what}");
    }
    let (mut numbers, mut offsets) = ([0], [6]);
    let start = start_walk(file, &[1], &mut numbers, &mut offsets);
    assert_eq!(start, Err(number), "{what}");
    let carried = carry_on(file, &mut numbers, &mut offsets, &mut [0; 2], 1);
    assert_eq!(carried, Err(number), "{what}");
}

/// The small trace's two changes have these times, that at 6 and that at 4: in the printed lines, and in
/// the values before, at and after each of them and at both ends of the range.
fn assert_times(file: &[u8], newer: i64, older: i64, what: &str) {
    let lines = format!("change 0 6 {newer} 0\nchange 0 4 {older} 1\n");
    let lines = format!("facility 0 a bits 1\n{lines}done 2\n");
    assert_eq!(printed(file), lines, "{what}");
    for (offset, time) in [(6, newer), (4, older)] {
        let read = change(file, 0, offset, &mut [0]).map(|read| read.time);
        assert_eq!(read, Ok(time), "{what}");
    }
    let near = [newer, older].map(|it| [it.saturating_sub(1), it, it.saturating_add(1)]);
    for time in near.concat().into_iter().chain([LEAST, -1, 0, MOST]) {
        let expected = match (newer <= time, older <= time) {
            (true, _) => (b'0', 1),
            (false, true) => (b'1', 2),
            (false, false) => (b'X', 2),
        };
        let shown = symbol_and_visited(file, time);
        assert_eq!(shown, expected, "{what}: at {time}");
    }
    let list = vec![(0, 6), (0, 4)];
    assert_eq!(walk(file, &[1], 9), (list, true), "{what}");
}

fn accepted(file: &[u8]) -> Result<(), u8> {
    judge(file).map(|_| ())
}

// ---- 1-A to 1-L ----

const TRACE_1_A: &str = "0138000404020300000000010000000200006100000000000000000000000000000000000000\
    000600000002fffffffffffffffb00000000000000050000000400000002fffffffffffffffb000000000000000a0000000004\
    010000002402000000080300000014040000002809b4";

fn hex(digits: &str) -> Vec<u8> {
    let pairs = digits.as_bytes().chunks(2);
    let bytes = pairs.map(|pair| {
        let pair = std::str::from_utf8(pair).expect("digits");
        u8::from_str_radix(pair, 16).expect("a byte")
    });
    bytes.collect()
}

fn trace_1_a() -> Vec<u8> {
    small_trace_09(-5, 5, &[4, 2], &[-5, 10])
}

#[test]
fn example_1_a() {
    let file = trace_1_a();
    assert_eq!(file, hex(TRACE_1_A));
    assert_eq!(file.len(), 111);
    assert_eq!(judge(&file).map(|summary| summary.end), Ok(84));
    assert_eq!(
        printed(&file),
        "facility 0 a bits 1\nchange 0 6 5 0\nchange 0 4 -5 1\ndone 2\n"
    );
    for (time, symbol) in [
        (LEAST, b'X'),
        (-6, b'X'),
        (-5, b'1'),
        (4, b'1'),
        (5, b'0'),
        (MOST, b'0'),
    ] {
        assert_eq!(symbol_at(&file, time), symbol, "{time}");
    }
    assert_times(&file, 5, -5, "1-A");
}

#[test]
fn examples_1_b_to_1_i() {
    let whole = |times: &[i64]| small_trace_09(LEAST, MOST, &[4, 2], times);
    assert_refused(&whole(&[10, -1]), 13, "1-B");
    assert_refused(&whole(&[MOST, 1]), 13, "1-C");
    assert_refused(&whole(&[LEAST, LEAST]), 13, "1-D");
    assert_eq!(
        printed(&whole(&[LEAST, MOST])),
        "facility 0 a bits 1\nchange 0 6 -1 0\nchange 0 4 -9223372036854775808 1\ndone 2\n"
    );
    assert_times(&whole(&[LEAST, MOST]), -1, LEAST, "1-E");
    assert_refused(&small_trace_09(0, -1, &[4], &[-1]), 13, "1-F");
    assert_refused(&small_trace_09(5, -5, &[], &[]), 13, "1-G");
    assert_times(&small_trace_09(-5, 5, &[4, 2], &[3, 0]), 3, 3, "1-H");
    let mut file = trace_1_a();
    file[0x28 + 3] = 3;
    assert_refused(&file, 8, "1-I");
}

/// The small trace and one more item before B4.
fn with_one_more(value: u32, tag: u8) -> Vec<u8> {
    let mut file = small_trace();
    file.pop();
    file.extend(value.to_be_bytes());
    file.extend([tag, 0xB4]);
    file
}

#[test]
fn examples_1_j_to_1_l() {
    assert_refused(&with_one_more(0x28, 0x09), 6, "1-J");
    assert_times(&with_one_more(0, 0x09), 5, 0, "1-J with 0");
    assert_refused(&with_item(&small_trace(), 0x06, 0), 7, "1-K");
    let mut file = small_trace_with(0, &[4, 2], &[0xFFFF_FFFE, 1]);
    set_word(&mut file, 0x28 + 8, 0xFFFF_FFFF);
    assert_eq!(
        printed(&file),
        "facility 0 a bits 1\nchange 0 6 4294967295 0\nchange 0 4 4294967294 1\ndone 2\n"
    );
    assert_times(&file, 4_294_967_295, 4_294_967_294, "1-L");
    // None is there at the times that these would be with a sign.
    for time in [LEAST, -2, -1, 0, 0x7FFF_FFFF, 0x8000_0000] {
        assert_eq!(symbol_at(&file, time), b'X', "{time}");
    }
}

// ---- Refusals 5 to 7: which times count ----

/// The small trace with both kinds of times as bodies, and these items for them after END, the first
/// nearest to it: by 06 the changes have the times 0 and 5, by 09 -5 and 5.
fn both_bodies(items: &[(u8, bool)]) -> Vec<u8> {
    let mut file = trace_1_a();
    let end = 84;
    let long = file[0x28..end].to_vec();
    let tail = file.split_off(end);
    file.truncate(0x28);
    file.extend(&small_trace()[0x28..0x44]);
    let start_09 = file.len() as u32;
    file.extend(long);
    // END and the four items of 01 to 04.
    file.extend(&tail[..1 + 4 * 5]);
    for (tag, present) in items {
        let start = match (tag, present) {
            (_, false) => 0,
            (0x06, true) => 0x28,
            _ => start_09,
        };
        file.extend(start.to_be_bytes());
        file.push(*tag);
    }
    file.push(0xB4);
    file
}

#[test]
fn both_kinds_of_times_are_6_and_none_is_7() {
    let by_06 = |items: &[(u8, bool)]| assert_times(&both_bodies(items), 5, 0, "by 06");
    let by_09 = |items: &[(u8, bool)]| assert_times(&both_bodies(items), 5, -5, "by 09");
    let (short, long) = ((0x06, true), (0x09, true));
    let (no_short, no_long) = ((0x06, false), (0x09, false));
    by_06(&[short]);
    by_09(&[long]);
    by_06(&[short, no_long]);
    by_06(&[no_long, short]);
    by_09(&[long, no_short]);
    by_09(&[no_short, long]);
    // Of a tag met twice the one nearer END counts, also with the value 0.
    by_09(&[no_short, short, long]);
    by_09(&[no_short, long, short]);
    by_09(&[long, no_short, short]);
    by_06(&[no_long, long, short]);
    by_06(&[no_long, short, long]);
    by_06(&[short, no_long, long]);
    for items in [
        &[short, long][..],
        &[long, short],
        &[short, no_short, long],
        &[long, no_long, short],
        &[short, long, no_short, no_long],
    ] {
        assert_refused(&both_bodies(items), 6, "both");
    }
    for items in [
        &[][..],
        &[no_short],
        &[no_long],
        &[no_short, no_long],
        &[no_long, long],
        &[no_short, short],
        &[no_short, no_long, short, long],
    ] {
        assert_refused(&both_bodies(items), 7, "none");
    }
}

#[test]
fn six_stands_between_5_and_7() {
    let both = both_bodies(&[(0x06, true), (0x09, true)]);
    // 01 to 04 absent beside both.
    for tag in 0x01..=0x04 {
        assert_refused(&with_item(&both, tag, 0), 6, "both, one absent");
        let one = both_bodies(&[(0x09, true)]);
        assert_refused(&with_item(&one, tag, 0), 7, "one absent");
    }
    // Any value but 0 counts, and 6 comes before 8.
    for value in [1, 3, 0x28, 0x7FFF_FFFF, 0xFFFF_FFFF] {
        assert_refused(&with_item(&both, 0x06, value), 6, "both, out of bounds");
        assert_refused(&with_item(&both, 0x09, value), 6, "both, out of bounds");
    }
    // Compressed sections beside both, beside one and beside none.
    for tag in 0x0A..=0x12 {
        for items in [
            &[(0x06, true), (0x09, true), (tag, true)][..],
            &[(0x09, true), (tag, true)],
            &[(tag, true)],
        ] {
            assert_refused(&both_bodies(items), 5, "compressed");
        }
        let taken_back = both_bodies(&[(tag, false), (0x09, true), (tag, true)]);
        assert_times(&taken_back, 5, -5, "not compressed");
    }
}

// ---- Refusal 8: the body of 09 ----

/// A plan with a table of 09.
fn plan_09(first: i64, last: i64, positions: &[u32], times: &[i64]) -> Plan {
    let mut made = four_changes(positions, times);
    (made.times_tag, made.first, made.last) = (0x09, first, last);
    made
}

#[test]
fn the_body_of_09_lies_between_4_and_t() {
    // The times stand last: they end exactly at T, and with a byte less before END past it.
    let mut made = plan_09(-5, 5, &[4, 2], &[-5, 10]);
    made.initial = None;
    assert_eq!(made.make().end - made.make().times, 20 + 12 * 2);
    assert!(made.judge().is_ok());
    let mut short = made.file();
    short.remove(made.make().end as usize - 1);
    assert_eq!(judge(&short), Err(8));
    let start = made.make().times;
    assert_eq!(judge(&with_item(&made.file(), 0x09, start + 1)), Err(8));
    // Below 4, and past T.
    for start in [1, 2, 3, made.make().end, made.make().end + 1, 0xFFFF_FFFF] {
        assert_refused(&with_item(&made.file(), 0x09, start), 8, "start");
    }
    // A head of zeros from 4 on: m = 0.
    let mut low = plan(&[0; 20], &[]);
    (low.times_tag, low.positions, low.times) = (0x09, vec![], vec![]);
    assert!(judge(&with_item(&low.file(), 0x09, 4)).is_ok());
    assert_eq!(judge(&with_item(&low.file(), 0x09, 3)), Err(8));
}

#[test]
fn the_head_of_09_is_20_bytes() {
    // For m = 0, at the very end.
    let mut made = plan(&[], &[]);
    (made.times_tag, made.positions, made.times) = (0x09, vec![], vec![]);
    made.rest = vec![0; 20];
    let made = made.make();
    assert!(judge(&with_item(&made.file, 0x09, made.end - 20)).is_ok());
    for start in made.end - 19..=made.end + 1 {
        assert_eq!(judge(&with_item(&made.file, 0x09, start)), Err(8));
    }
    // A head that passes T is 8, whatever its count would be.
    let mut made = plan(&[], &[]);
    (made.times_tag, made.positions, made.times) = (0x09, vec![], vec![]);
    for fill in [0, 0xFF] {
        for length in [12, 19] {
            made.rest = vec![fill; length];
            let short = made.make();
            let file = with_item(&short.file, 0x09, short.end - length as u32);
            assert_eq!(judge(&file), Err(8));
        }
    }
}

#[test]
fn the_count_of_09_in_plain_numbers() {
    let made = plan_09(-5, 5, &[4, 2], &[-5, 10]).make();
    let answer = |count| {
        let mut file = made.file.clone();
        set_word(&mut file, made.times as usize, count);
        accepted(&file)
    };
    assert_eq!(answer(2), Ok(()));
    // One byte follows the table, the initial value.
    assert_eq!(made.end - made.times, 20 + 12 * 2 + 1);
    assert_eq!(answer(3), Err(8));
    // 12m is 2^32 + 8, 2^32 + 20 and so on, and wraps to 8, 20 and 32.
    assert_eq!(357_913_942_u32.wrapping_mul(12), 8);
    for count in [357_913_942, 357_913_943, 357_913_944] {
        assert_eq!(answer(count), Err(8));
    }
    for count in [0x4000_0000, 0x4000_0001, 0x8000_0000, 0xFFFF_FFFF] {
        assert_eq!(answer(count), Err(8));
    }
    // Starts near 2^32.
    for less in 0..48 {
        let file = with_item(&made.file, 0x09, 0xFFFF_FFFF - less);
        assert_eq!(judge(&file), Err(8));
    }
}

/// Only the table that counts is looked at.
#[test]
fn the_absent_table_may_be_anything() {
    let mut made = plan_09(-5, 5, &[4, 2], &[-5, 10]);
    made.nearer_b4 = vec![(0x06, 0)];
    assert!(made.judge().is_ok());
    made.nearer_b4 = vec![(0x06, 0xFFFF_FFFF)];
    made.nearer_end = vec![(0x06, 0)];
    assert!(made.judge().is_ok());
    let mut made = four_changes(&[4, 2], &[0, 5]);
    made.nearer_b4 = vec![(0x09, 0xFFFF_FFFF)];
    made.nearer_end = vec![(0x09, 0)];
    assert!(made.judge().is_ok());
}

// ---- Refusal 13: the rules of 09 ----

fn answer(first: i64, last: i64, positions: &[u32], times: &[i64]) -> Result<(), u8> {
    accepted(&plan_09(first, last, positions, times).file())
}

/// The times of the changes at 4, 6, 8 and 10.
fn times_of(first: i64, last: i64, positions: &[u32], times: &[i64]) -> [Result<i64, u8>; 4] {
    let file = plan_09(first, last, positions, times).file();
    [4, 6, 8, 10].map(|offset| change(&file, 0, offset, &mut [0]).map(|read| read.time))
}

#[test]
fn both_ends_of_the_range() {
    let all = |times: &[i64]| {
        let positions = [4, 2, 2, 2];
        times_of(LEAST, MOST, &positions[..times.len()], times)
    };
    assert_eq!(all(&[LEAST]), [LEAST; 4].map(Ok));
    assert_eq!(all(&[MOST]), [MOST; 4].map(Ok));
    assert_eq!(all(&[MOST, 0, 0, 0]), [MOST; 4].map(Ok));
    assert_eq!(all(&[LEAST, 0, 0, 0]), [LEAST; 4].map(Ok));
    // From the one end to the other: the largest delta, twice, and 1.
    let times = [LEAST, -1, MOST - 1, MOST].map(Ok);
    assert_eq!(all(&[LEAST, MOST, MOST, 1]), times);
    // One more, or by any other of the deltas, leaves the range.
    assert_eq!(all(&[LEAST, MOST, MOST, 2]), [Err(13); 4]);
    assert_eq!(all(&[LEAST + 1, MOST, MOST, 1]), [Err(13); 4]);
    assert_eq!(all(&[LEAST, MOST, MOST, MOST]), [Err(13); 4]);
    // A sum exactly at the greatest number, and one above, for small and large deltas.
    for delta in [1, 2, 0x1_0000_0000, MOST / 2, MOST - 1, MOST] {
        assert_eq!(answer(LEAST, MOST, &[4, 2], &[MOST - delta, delta]), Ok(()));
        let above = answer(LEAST, MOST, &[4, 2], &[MOST - delta + 1, delta]);
        assert_eq!(above, Err(13), "{delta}");
    }
    // Sums that wrap more than once, and back into first and last.
    assert_eq!(all(&[MOST, MOST, MOST, MOST]), [Err(13); 4]);
    assert_eq!(answer(0, 9, &[4, 2, 2], &[4, MOST, MOST]), Err(13));
    assert_eq!(answer(0, 9, &[4, 2, 2, 2], &[4, MOST, MOST, 2]), Err(13));
}

#[test]
fn the_first_delta_is_the_first_time_and_the_others_are_not_negative() {
    for first in [LEAST, LEAST + 1, -0x1_0000_0000, -1, 0, 1, 0x1_0000_0000] {
        assert_eq!(answer(first, MOST, &[4], &[first]), Ok(()));
        for delta in [0, 1, 2, 0xFFFF_FFFF, MOST] {
            let expected = match first.checked_add(delta) {
                Some(_) => Ok(()),
                None => Err(13),
            };
            assert_eq!(answer(first, MOST, &[4, 2], &[first, delta]), expected);
        }
        for delta in [-1, -2, -5, -0x8000_0000, -0xFFFF_FFFF, LEAST + 1, LEAST] {
            let [second, third] = [&[first, delta][..], &[first, 5, delta]];
            assert_eq!(answer(LEAST, MOST, &[4, 2], second), Err(13));
            assert_eq!(answer(LEAST, MOST, &[4, 2, 2], third), Err(13));
        }
    }
    // A negative delta whose entry decides for no change.
    assert_eq!(answer(0, 9, &[4, 7, 0], &[5, 1, -1]), Err(13));
    assert_eq!(answer(0, 9, &[4, 7, 0], &[5, 1, 0]), Ok(()));
    assert_eq!(answer(0, 9, &[4, 0, 7], &[5, -1, 1]), Err(13));
}

#[test]
fn first_and_last_have_a_sign() {
    for time in [LEAST + 1, -0x1_0000_0000, -1, 0, 1, 0x1_0000_0000, MOST - 1] {
        assert_eq!(answer(time, time, &[4], &[time]), Ok(()));
        assert_eq!(answer(time - 1, time + 1, &[4], &[time]), Ok(()));
        assert_eq!(answer(LEAST, MOST, &[4], &[time]), Ok(()));
        assert_eq!(answer(time + 1, MOST, &[4], &[time]), Err(13));
        assert_eq!(answer(LEAST, time - 1, &[4], &[time]), Err(13));
        assert_eq!(answer(time + 1, time - 1, &[4], &[time]), Err(13));
        assert_eq!(answer(MOST, LEAST, &[4], &[time]), Err(13));
    }
    // At the ends of the range there is nothing further on.
    assert_eq!(answer(LEAST, LEAST, &[4, 1], &[LEAST, 0]), Ok(()));
    assert_eq!(answer(LEAST, LEAST, &[4, 1], &[LEAST, 1]), Err(13));
    assert_eq!(answer(LEAST + 1, MOST, &[4], &[LEAST]), Err(13));
    assert_eq!(answer(MOST, MOST, &[4, 1], &[MOST, 0]), Ok(()));
    assert_eq!(answer(MOST, MOST, &[4, 1], &[MOST - 1, 1]), Err(13));
    assert_eq!(answer(LEAST, MOST - 1, &[4], &[MOST]), Err(13));
    // Times that differ from the bounds in one half of their bytes only.
    assert_eq!(answer(5, 9, &[4], &[0x1_0000_0005]), Err(13));
    assert_eq!(answer(5, 9, &[4], &[7]), Ok(()));
    assert_eq!(answer(0x1_0000_0005, 0x1_0000_0009, &[4], &[7]), Err(13));
}

#[test]
fn positions_of_09_as_of_06() {
    for below in 0..4 {
        assert_eq!(answer(0, 9, &[below, 4], &[0, 1]), Err(13));
        assert_eq!(answer(0, 9, &[4, below], &[0, 1]), Ok(()));
    }
    let end = plan_09(0, 9, &[4; 3], &[0; 3]).make().end;
    assert_eq!(answer(0, 9, &[end - 1, 0, 0], &[0, 0, 0]), Ok(()));
    assert_eq!(answer(0, 9, &[end - 1, 0, 1], &[0, 0, 0]), Err(13));
    assert_eq!(answer(0, 9, &[end, 0, 0], &[0, 0, 0]), Err(13));
    // Deltas of positions have no sign, and their sums never wrap.
    assert_eq!(answer(0, 9, &[6, 0xFFFF_FFFF], &[0, 0]), Err(13));
    assert_eq!(answer(0, 9, &[0xFFFF_FFFF], &[0]), Err(13));
    assert_eq!(answer(0, 9, &[8, 0xFFFF_FFFC, 1], &[0, 0, 0]), Err(13));
    // Of several entries at one position the last decides, before all of them entry 0.
    let times = times_of(LEAST, MOST, &[6, 0, 0], &[LEAST, 1, MOST]);
    assert_eq!(times, [LEAST, 0, 0, 0].map(Ok));
    let times = times_of(-9, 9, &[4, 4, 0], &[-9, 9, 9]);
    assert_eq!(times, [-9, -9, 9, 9].map(Ok));
}

#[test]
fn without_entries_first_and_last_of_09_are_free() {
    let mut made = plan(&[], &[facility("a", 0, 0, 0, 0)]);
    (made.times_tag, made.positions, made.times) = (0x09, vec![], vec![]);
    for (first, last) in [(5, -5), (MOST, LEAST), (LEAST, MOST), (0, 0)] {
        (made.first, made.last) = (first, last);
        assert!(made.judge().is_ok(), "{first} {last}");
        for time in [LEAST, -1, 0, MOST] {
            assert_eq!(symbol_at(&made.file(), time), b'X');
        }
    }
    // Any sync entry of a root needs an entry.
    for sync in [1, 4, 0xFFFF_FFFF] {
        made.facilities[0].sync = sync;
        assert_eq!(refused(made.judge()), 13);
    }
}

// ---- Any time may be asked ----

/// The times of 06 have no sign, so nothing has changed below 0, and 2^32 lies behind all of them.
#[test]
fn the_times_of_06_have_no_sign() {
    let answer = |times: &[i64], last| {
        let made = four_changes(&[4, 2][..times.len()], times);
        let file = Plan { last, ..made }.file();
        let time = |offset| change(&file, 0, offset, &mut [0]).map(|read| read.time);
        assert_eq!(symbol_at(&file, -1), b'-');
        assert_eq!(symbol_at(&file, LEAST), b'-');
        assert_eq!(symbol_at(&file, 0x1_0000_0000), b'X');
        assert_eq!(symbol_at(&file, MOST), b'X');
        [time(4), time(10)]
    };
    assert_eq!(
        answer(&[0, 0xFFFF_FFFF], 0xFFFF_FFFF),
        [0, 0xFFFF_FFFF].map(Ok)
    );
    assert_eq!(
        answer(&[0x7FFF_FFFF, 1], 0x8000_0000),
        [0x7FFF_FFFF, 0x8000_0000].map(Ok)
    );
    assert_eq!(
        answer(&[0x8000_0000], 0x8000_0000),
        [0x8000_0000; 2].map(Ok)
    );
}

/// Reals and texts before their first change, at times below 0 and at the least number.
#[test]
fn not_driven_before_the_first_time() {
    let mut made = plan(
        &[0x00, 0x02, b'x', 0],
        &[facility("t", 0, 0, 4, 4), facility("u", 0, 0, 4, 0)],
    );
    (made.times_tag, made.first, made.last) = (0x09, -7, -7);
    made.times = vec![-7];
    let file = made.file();
    let text = Value::Text {
        start: 6,
        length: 1,
    };
    for (time, value) in [
        (LEAST, Value::NotDriven),
        (-8, Value::NotDriven),
        (-7, text),
        (0, text),
        (MOST, text),
    ] {
        // The one change of facility 0 is visited at any time; facility 1 has none.
        assert_eq!(value_at(&file, 0, time, &mut []), found(value, 1), "{time}");
        let none = value_at(&file, 1, time, &mut []);
        assert_eq!(none, found(Value::NotDriven, 0), "{time}");
    }
    assert_eq!(
        printed(&file),
        "facility 0 t text 0\nfacility 1 u text 0\nchange 0 4 -7 78\ndone 1\n"
    );
}

/// Tag 14, an offset for all times in another reader, stays skipped.
#[test]
fn an_offset_of_times_is_skipped() {
    let mut made = plan_09(-5, 5, &[4, 2], &[-5, 10]);
    let before = printed(&made.file());
    made.nearer_end = vec![(0x14, 4)];
    assert_eq!(printed(&made.file()), before);
}
