//! The number of changes visited by a value at a time (Ask 7), worked out by hand.

use super::*;

/// Facilities 0 `a` of three bits, 1 `r` a real, 2 `s` a text, 3 `b` an alias of 0, 4 `i` an integer without
/// changes. The initial symbol is Z.
const MIXED: &str = "\
    013800040002600005686900000a000000000000f83f0110b4000000050000000a00006100000072\
    00000073000000620000006900000000000000000200000000000000000000000000000000000000\
    00000000020000000000000000000000000000000400000000000000000000000000000008000000\
    000000001f0000000000000001000000160000000c00000007000000000000000000000003000000\
    0a0000001e00000004000000030000000f0000000a0000000a0000000a026e861bf0f92109400000\
    000004010000008502000000190300000035040000009906000000bd07000000be08b4";

const MIXED_LINES: &str = "facility 0 a bits 3
facility 1 r real 0
facility 2 s text 0
facility 3 b alias 0
facility 4 i integer 32
change 0 22 30 ZX1
change 1 12 20 3ff8000000000000
change 2 7 20 6869
change 0 4 10 011
done 4
";

pub fn mixed() -> Vec<u8> {
    let byte = |at: usize| u8::from_str_radix(&MIXED[2 * at..2 * at + 2], 16);
    let bytes = (0..MIXED.len() / 2).map(|at| byte(at).expect("a byte"));
    bytes.collect()
}

/// How many changes of a facility are visited, with room for any value.
fn visited(file: &[u8], facility: u32, time: i64) -> Result<u32, u8> {
    value_at(file, facility, time, &mut [0; 32]).map(|lookup| lookup.visited)
}

#[test]
fn the_mixed_trace() {
    let file = mixed();
    assert_eq!(file.len(), 235);
    assert_eq!(String::from_utf8_lossy(&dump(&file)), MIXED_LINES);
}

#[test]
fn examples_of_the_mixed_trace() {
    let file = mixed();
    let z = "Z".repeat(32);
    for (facility, time, symbols, visited) in [
        (0, 9, "ZZZ", 2),
        (0, 10, "011", 2),
        (0, 29, "011", 2),
        (0, 30, "ZX1", 1),
        (3, 30, "ZX1", 1),
        (4, 30, &z, 0),
    ] {
        let width = symbols.len();
        let mut bits = [b'?'; 40];
        let lookup = value_at(&file, facility, time, &mut bits);
        let value = Value::Bits {
            width: width as u32,
        };
        assert_eq!(lookup, found(value, visited), "{facility} at {time}");
        assert_eq!(bits[..width], *symbols.as_bytes(), "{facility} at {time}");
        assert_eq!(bits[width..], [b'?'; 40][width..], "{facility} at {time}");
    }
    let none = value_at(&file, 1, 19, &mut []);
    assert_eq!(none, found(Value::NotDriven, 1));
    let text = Value::Text {
        start: 9,
        length: 2,
    };
    assert_eq!(value_at(&file, 2, 20, &mut []), found(text, 1));
    let mut bits = [b'?'; 2];
    assert_eq!(value_at(&file, 5, 0, &mut bits), Err(18));
    assert_eq!(value_at(&file, 0, 0, &mut bits), Err(21));
    assert_eq!(bits, [b'?'; 2]);
}

#[test]
fn the_small_trace_at_each_time() {
    let file = small_trace();
    for (time, symbol, visited) in [
        (i64::MIN, b'X', 2),
        (-1, b'X', 2),
        (0, b'1', 2),
        (4, b'1', 2),
        (5, b'0', 1),
        (i64::MAX, b'0', 1),
    ] {
        let shown = symbol_and_visited(&file, time);
        assert_eq!(shown, (symbol, visited), "{time}");
    }
}

#[test]
fn a_refused_file_has_no_count() {
    let file = small_trace();
    for length in 0..file.len() {
        let cut = &file[..length];
        let number = refused(judge(cut));
        assert_eq!(visited(cut, 0, 5), Err(number), "{length}");
    }
}

#[test]
fn changes_at_equal_times() {
    let at = |file: &[u8], times: std::ops::Range<i64>| {
        let counts = times.map(|time| visited(file, 0, time).expect("a value"));
        Vec::from_iter(counts)
    };
    // Four changes at the time 2: all of them before it, and only the newest from it on.
    let one = four_changes(&[4], &[2]).file();
    assert_eq!(at(&one, 0..5), [4, 4, 1, 1, 1]);
    // Two at 1, two at 3.
    let two = four_changes(&[4, 4], &[1, 2]).file();
    assert_eq!(at(&two, 0..5), [4, 3, 3, 1, 1]);
    // One at 0, two at 2, one at 3.
    let three = four_changes(&[4, 2, 4], &[0, 2, 1]).file();
    assert_eq!(at(&three, 0..5), [4, 4, 2, 1, 1]);
    // The same by entries that do not decide.
    let more = four_changes(&[4, 2, 0, 4, 0], &[0, 1, 1, 1, 0]).file();
    assert_eq!(at(&more, 0..5), [4, 4, 2, 1, 1]);
}

#[test]
fn before_entry_0_all_changes_of_the_root_are_visited() {
    // All four lie before the only position, and take the time of entry 0.
    for (tag, time) in [(0x06, 7), (0x09, 7), (0x09, -7), (0x09, i64::MAX)] {
        let mut made = four_changes(&[11], &[time]);
        (made.times_tag, made.first, made.last) = (tag, time, time);
        let file = made.file();
        for before in [i64::MIN, time - 1] {
            assert_eq!(symbol_and_visited(&file, before), (b'-', 4), "{time}");
        }
        assert_eq!(symbol_and_visited(&file, time), (b'X', 1), "{time}");
    }
}

#[test]
fn an_alias_counts_the_changes_of_its_root() {
    let file = four_facilities().file();
    for facility in [0, 2, 3] {
        assert_eq!(visited(&file, facility, 9), Ok(2), "{facility}");
        assert_eq!(visited(&file, facility, 10), Ok(1), "{facility}");
    }
    // Facility 1 has one change of its own.
    for time in [9, 10] {
        assert_eq!(visited(&file, 1, time), Ok(1), "{time}");
    }
}

#[test]
fn a_facility_without_changes_visits_none() {
    let mut made = plan(
        &[0x03, 0x02],
        &[
            facility("a", 0, 0, 0, 4),
            facility("bits", 2, 0, 0, 0),
            facility("integer", 0, 0, 1, 0),
            facility("real", 0, 0, 2, 0),
            facility("text", 0, 0, 4, 0),
            alias("alias", 1),
        ],
    );
    made.real_test = Some(crate::tables::REAL_TEST);
    let file = made.file();
    for time in [i64::MIN, 9, 10, i64::MAX] {
        assert_eq!(visited(&file, 0, time), Ok(1), "{time}");
        for facility in 1..=5 {
            assert_eq!(visited(&file, facility, time), Ok(0), "{facility} {time}");
        }
    }
}
