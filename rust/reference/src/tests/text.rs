//! The text at a time with a lent text as the default (Ask 11), worked out by hand.

use super::visited::mixed;
use super::*;

fn part(which: Which, start: usize, length: usize) -> Result<TextAt, u8> {
    Ok(TextAt {
        which,
        start,
        length,
    })
}

fn in_file(start: usize, length: usize) -> Result<TextAt, u8> {
    part(Which::File, start, length)
}

fn lent(length: usize) -> Result<TextAt, u8> {
    part(Which::Lent, 0, length)
}

fn other_kind() -> Result<TextAt, u8> {
    part(Which::OtherKind, 0, 0)
}

#[test]
fn examples_of_the_mixed_trace() {
    let file = mixed();
    for (facility, time, text, expected) in [
        (2, 19, "none", lent(4)),
        (2, 20, "none", in_file(9, 2)),
        (2, 19, "", lent(0)),
        (0, 19, "none", other_kind()),
        (1, 19, "none", other_kind()),
        (5, 19, "none", Err(18)),
        // Other kinds that are driven, an alias of one, and one without changes.
        (0, 30, "none", other_kind()),
        (1, 20, "none", other_kind()),
        (3, 30, "none", other_kind()),
        (4, 30, "none", other_kind()),
    ] {
        let answer = text_at(&file, facility, time, text.as_bytes());
        assert_eq!(answer, expected, "{facility} at {time}, {text:?}");
    }
    assert_eq!(file[9..11], *b"hi");
    // The old question stays.
    let none = value_at(&file, 2, 19, &mut []);
    assert_eq!(none, found(Value::NotDriven, 1));
}

/// Texts: 0 `t`, empty by the change at 4 and then, by that at 7, of two bytes; 1 `u` without changes; 2 an alias of
/// 0, 3 an alias of that, 4 an alias of 1.
fn texts(positions: &[u32], times: &[i64]) -> Plan {
    let mut made = plan(
        &[0x0C, 0x02, 0x00, 0x0D, 0x01, b'h', 0xFF, 0x00],
        &[
            facility("t", 0, 0, 4, 7),
            facility("u", 0, 0, 4, 0),
            alias("of t", 0),
            alias("of it", 2),
            alias("of u", 1),
        ],
    );
    made.positions = positions.to_vec();
    made.times = times.to_vec();
    made
}

#[test]
fn around_each_change() {
    let file = texts(&[4, 3], &[10, 5]).file();
    for (time, expected) in [
        (i64::MIN, lent(4)),
        (-1, lent(4)),
        (0, lent(4)),
        (9, lent(4)),
        (10, in_file(6, 0)),
        (14, in_file(6, 0)),
        (15, in_file(9, 2)),
        (16, in_file(9, 2)),
        (i64::MAX, in_file(9, 2)),
    ] {
        // The facility itself and its aliases.
        for facility in [0, 2, 3] {
            let answer = text_at(&file, facility, time, b"none");
            assert_eq!(answer, expected, "{facility} at {time}");
        }
        // Without any change it is the lent text at every time.
        for facility in [1, 4] {
            let answer = text_at(&file, facility, time, b"none");
            assert_eq!(answer, lent(4), "{facility} at {time}");
        }
    }
}

#[test]
fn an_empty_part_does_not_say_which() {
    let file = texts(&[4, 3], &[10, 5]).file();
    assert_eq!(text_at(&file, 0, 10, b""), in_file(6, 0));
    assert_eq!(text_at(&file, 0, 9, b""), lent(0));
    assert_eq!(text_at(&file, 1, 10, b""), lent(0));
    assert_eq!(text_at(&file, 0, 10, b"none"), in_file(6, 0));
    assert_eq!(text_at(&file, 0, 15, b""), in_file(9, 2));
}

#[test]
fn the_lent_text_is_any_bytes_of_any_length() {
    let file = texts(&[4], &[10]).file();
    let long = vec![0; 1_000_000];
    let whole: &[u8] = &file;
    for text in [
        &b""[..],
        b"\0",
        b"a\0b",
        b"h\xFF",
        &long,
        &file[9..11],
        whole,
    ] {
        assert_eq!(text_at(&file, 0, 9, text), lent(text.len()));
        assert_eq!(text_at(&file, 0, 10, text), in_file(9, 2));
    }
}

#[test]
fn other_kinds_driven_or_not() {
    let mut changes = vec![0x04, 0x02, 0x04, 0x04, 0x00, 0x06];
    changes.extend(1.5_f64.to_le_bytes());
    let mut made = plan(
        &changes,
        &[
            facility("bits", 2, 0, 0, 4),
            facility("integer", 0, 0, 1, 6),
            facility("real", 0, 0, 2, 8),
            facility("bits without changes", 2, 0, 0, 0),
            facility("integer without changes", 0, 0, 1, 0),
            facility("real without changes", 0, 0, 2, 0),
            alias("of a real", 2),
            alias("of one without changes", 5),
        ],
    );
    made.real_test = Some(crate::tables::REAL_TEST);
    let file = made.file();
    assert_eq!(
        value_at(&file, 2, 10, &mut []),
        found(
            Value::Real {
                bits: 1.5_f64.to_bits()
            },
            1
        )
    );
    for facility in 0..8 {
        for time in [i64::MIN, 9, 10, i64::MAX] {
            for text in [&b""[..], b"none"] {
                let answer = text_at(&file, facility, time, text);
                assert_eq!(answer, other_kind(), "{facility} at {time}");
            }
        }
    }
}

#[test]
fn refused_are_files_and_numbers_alone() {
    let file = texts(&[4], &[10]).file();
    for facility in [5, 6, u32::MAX] {
        assert_eq!(text_at(&file, facility, 10, b"none"), Err(18));
    }
    assert_eq!(text_at(&file, 4, 10, b"none"), lent(4));
    // The file comes first.
    for length in 0..file.len() {
        let cut = &file[..length];
        let number = refused(judge(cut));
        for facility in [0, 5] {
            assert_eq!(text_at(cut, facility, 10, b"none"), Err(number), "{length}");
        }
    }
}

#[test]
fn changes_at_equal_times() {
    // By one entry, by two of equal time, and by two at one position: the newest, and none before it.
    for (positions, times) in [
        (&[4][..], &[10][..]),
        (&[4, 3], &[10, 0]),
        (&[4, 0], &[3, 7]),
    ] {
        let file = texts(positions, times).file();
        assert_eq!(text_at(&file, 0, 9, b"none"), lent(4), "{positions:?}");
        let newest = text_at(&file, 0, 10, b"none");
        assert_eq!(newest, in_file(9, 2), "{positions:?}");
    }
    // Both lie before the only position, and take the time of entry 0.
    let file = texts(&[12, 0], &[10, 5]).file();
    assert_eq!(text_at(&file, 0, 9, b"none"), lent(4));
    assert_eq!(text_at(&file, 0, 10, b"none"), in_file(9, 2));
}

#[test]
fn times_of_64_bits() {
    let file = |times: &[i64]| {
        let mut made = texts(&[4, 3], times);
        (made.times_tag, made.first, made.last) = (0x09, i64::MIN, i64::MAX);
        made.file()
    };
    let below_0 = file(&[-5, 10]);
    for (time, expected) in [
        (i64::MIN, lent(4)),
        (-6, lent(4)),
        (-5, in_file(6, 0)),
        (4, in_file(6, 0)),
        (5, in_file(9, 2)),
    ] {
        assert_eq!(text_at(&below_0, 0, time, b"none"), expected, "{time}");
    }
    // From the least number on there is a text at every time, and by the greatest at that time alone.
    let from_the_least = file(&[i64::MIN, i64::MAX]);
    let first = text_at(&from_the_least, 0, i64::MIN, b"none");
    assert_eq!(first, in_file(6, 0));
    let at_the_greatest = file(&[i64::MAX, 0]);
    let before = text_at(&at_the_greatest, 0, i64::MAX - 1, b"none");
    assert_eq!(before, lent(4));
    let last = text_at(&at_the_greatest, 0, i64::MAX, b"none");
    assert_eq!(last, in_file(9, 2));
}

#[test]
fn a_text_up_to_the_end() {
    // The only change stands behind all tables: command, four bytes of delta, text and zero.
    let mut made = texts(&[4], &[10]);
    let offset = made.make().end;
    made.facilities[0].sync = offset;
    made.rest = [&[0x30][..], &(offset - 2).to_be_bytes(), b"end\0"].concat();
    let file = made.file();
    assert_eq!(judge(&file).map(|it| it.end), Ok(offset + 9));
    let start = offset as usize + 5;
    assert_eq!(text_at(&file, 0, 10, b"none"), in_file(start, 3));
    assert_eq!(file[start..start + 4], *b"end\0");
}
