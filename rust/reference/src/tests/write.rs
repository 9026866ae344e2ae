//! Ask 5: the worked examples byte for byte, every boundary of refusal 24, the room, and reading back.

use super::found;
use crate::*;

/// What is given to the writer.
#[derive(Clone)]
struct Given {
    facilities: Vec<[u32; 5]>,
    names: Vec<u8>,
    changes: Vec<[u32; 4]>,
    values: Vec<u8>,
    initial: u8,
    timescale: i8,
}

const BITS: u32 = 0;
const INTEGER: u32 = 1;
const REAL: u32 = 2;
const TEXT: u32 = 3;

/// Nothing yet; the initial symbol is X, and a unit of time a nanosecond.
fn nothing() -> Given {
    Given {
        facilities: Vec::new(),
        names: Vec::new(),
        changes: Vec::new(),
        values: Vec::new(),
        initial: 3,
        timescale: -9,
    }
}

impl Given {
    fn facility(mut self, name: impl AsRef<[u8]>, kind: u32, msb: i32, lsb: i32) -> Self {
        let name = name.as_ref();
        let (start, length) = (self.names.len() as u32, name.len() as u32);
        let row = [start, length, kind, msb as u32, lsb as u32];
        self.facilities.push(row);
        self.names.extend(name);
        self
    }

    fn change(mut self, facility: u32, time: u32, value: impl AsRef<[u8]>) -> Self {
        let value = value.as_ref();
        let (start, length) = (self.values.len() as u32, value.len() as u32);
        self.changes.push([facility, time, start, length]);
        self.values.extend(value);
        self
    }

    fn write_into(&self, out: &mut [u8]) -> Result<u32, u8> {
        write(
            &self.facilities,
            &self.names,
            &self.changes,
            &self.values,
            self.initial,
            self.timescale,
            out,
        )
    }

    /// The file, written into more room than it needs, of which the rest stays.
    fn write(&self) -> Result<Vec<u8>, u8> {
        let mut out = vec![0xA5; LONGEST_FILE + 9];
        let answer = self.write_into(&mut out);
        let length = answer.unwrap_or(0) as usize;
        assert!(out[length..].iter().all(|byte| *byte == 0xA5));
        out.truncate(length);
        answer.map(|_| out)
    }

    /// A small file; fails where it is refused or not read back as it was given.
    fn file(&self) -> Vec<u8> {
        let mut out = vec![0xA5; 65_536];
        let length = self.write_into(&mut out).expect("a file") as usize;
        assert!(out[length..].iter().all(|byte| *byte == 0xA5));
        out.truncate(length);
        read_back(self, &out);
        out
    }

    /// That this is refused with 24, whatever the room.
    fn is_refused(&self, what: &str) {
        for room in [0, 4, 400] {
            let mut out = vec![0xA5; room];
            assert_eq!(self.write_into(&mut out), Err(24), "{what}");
            assert!(out.iter().all(|byte| *byte == 0xA5), "{what}");
        }
    }
}

/// The facts as they are to be read back: msb and lsb as written.
fn facts_of(row: &[u32; 5]) -> Facts {
    let (msb, lsb) = (row[3] as i32, row[4] as i32);
    let (width, msb, lsb, kind) = match row[2] {
        BITS => (msb.abs_diff(lsb) + 1, msb, lsb, Kind::Bits),
        INTEGER => (32, 31, 0, Kind::Integer),
        REAL => (0, 0, 0, Kind::Real),
        _ => (0, 0, 0, Kind::Text),
    };
    Facts {
        width,
        msb,
        lsb,
        kind,
    }
}

/// That a file is accepted, clean and without stray bytes, and read back as what was given.
fn read_back(given: &Given, file: &[u8]) {
    let judged = Judged::new(file).expect("an accepted file");
    let n = given.facilities.len();
    let summary = judged.summary();
    assert_eq!(summary.facilities as usize, n);
    assert_eq!((summary.changes, summary.clean), (4, true));
    assert_eq!(summary.initial, given.initial);
    assert_eq!(summary.timescale, given.timescale);
    assert_eq!(judged.stray_bytes(), 0);
    for (facility, row) in given.facilities.iter().enumerate() {
        let name = &given.names[row[0] as usize..][..row[1] as usize];
        assert_eq!(judged.name_of(facility as u32), name);
        assert_eq!(judged.facts(facility as u32), Ok(facts_of(row)));
    }
    let mut walk = judged.full_list(&vec![1; n]).expect("a list");
    walk.reverse();
    assert_eq!(walk.len(), given.changes.len());
    let mut bits = [0; WIDEST_FACILITY as usize];
    for ((root, offset), [facility, time, start, length]) in walk.iter().zip(&given.changes) {
        let value = &given.values[*start as usize..][..*length as usize];
        let read = judged.change(*root, *offset, &mut bits).expect("a change");
        assert_eq!((*root, read.time), (*facility, i64::from(*time)));
        match read.value {
            Value::Bits { width } => assert_eq!(&bits[..width as usize], value),
            Value::Real { bits } => assert_eq!(bits.to_le_bytes(), value),
            Value::Text { start, length } => {
                assert_eq!(&file[start as usize..][..length as usize], value);
            }
            Value::NotDriven => panic!("a change without a value"),
        }
    }
}

/// The bytes of hexadecimal digits; other characters are for the reader.
fn hex(text: &str) -> Vec<u8> {
    let digits: Vec<u8> = text.bytes().filter(u8::is_ascii_hexdigit).collect();
    let byte = |pair: &[u8]| u8::from_str_radix(&String::from_utf8_lossy(pair), 16);
    let bytes = digits.chunks(2).map(|pair| byte(pair).expect("a byte"));
    bytes.collect()
}

fn e1() -> Given {
    let given = nothing().facility("a", BITS, 0, 0);
    given.change(0, 0, "1").change(0, 5, "0")
}

fn check(given: &Given, length: usize, expected: &str) {
    let file = given.file();
    assert_eq!(file, hex(expected));
    assert_eq!(file.len(), length);
}

#[test]
fn example_1() {
    check(
        &e1(),
        107,
        "01380004 0402 0300 00000001 00000002 0000 6100 00000000 00000000 00000000 00000000 00000006 \
         00000002 00000000 00000005 00000004 00000002 00000000 00000005 F7 03 00 0000000401 0000002402 \
         0000000803 0000001404 0000004405 0000002806 0000004507 B4",
    );
    // Up to offset 43 the bytes of paper 01's trace.
    assert_eq!(e1().file()[..0x44], super::small_trace()[..0x44]);
}

#[test]
fn example_2() {
    let given = Given {
        initial: 0,
        timescale: 0,
        ..nothing()
    };
    check(
        &given,
        63,
        "01380004 00000000 00000000 00000000 00000000 00000000 00 00 00 0000000401 0000000C02 \
         0000000403 0000000C04 0000001805 0000000C06 0000001907 B4",
    );
}

#[test]
fn example_3() {
    let values = ["010", "0ZX", "0HX", "XXX", "---"];
    let empty_name = nothing().facility("", BITS, 2, 0);
    let given = values
        .iter()
        .fold(empty_name, |it, value| it.change(0, 9, value));
    check(
        &given,
        108,
        "01380004 | 00 02 40 | 01 01 2C | 02 01 04 30 | 06 02 | 0B 00 | 00000001 00000001 0000 00 \
         | 00000000 00000002 00000000 00000000 | 00000010 \
         | 00000001 00000009 00000009 00000004 00000009 | F7 03 00 \
         0000000401 0000002D02 0000001203 0000001D04 0000004505 0000003106 0000004607 B4",
    );
}

#[test]
fn example_4() {
    let given = nothing().facility("i", INTEGER, 7, -7);
    let ends = format!("1{}1", "0".repeat(30));
    let given = given.change(0, 1, "0".repeat(32));
    let given = given.change(0, 1, "1".repeat(32)).change(0, 2, ends);
    check(
        &given,
        113,
        "01380004 | 03 02 | 04 00 | 00 00 80 00 00 01 | 00000001 00000002 0000 69 00 \
         | 00000000 0000001F 00000000 00000001 | 00000008 \
         | 00000002 00000001 00000002 00000004 00000004 00000001 00000001 | F7 03 00 \
         0000000401 0000002A02 0000000E03 0000001A04 0000004A05 0000002E06 0000004B07 B4",
    );
}

#[test]
fn example_5() {
    let given = nothing().facility("r", REAL, 0, 0);
    // 3.14159, a NaN, and 0 with its sign.
    let given = given.change(0, 0, 0x4009_21F9_F01B_866E_u64.to_le_bytes());
    let given = given.change(0, 3, 0x7FF0_0000_0000_0001_u64.to_le_bytes());
    let given = given.change(0, 3, (-0.0_f64).to_le_bytes());
    check(
        &given,
        146,
        "01380004 | 00 02 6E861BF0F9210940 | 00 08 010000000000F07F | 00 08 0000000000000080 \
         | 00000001 00000002 0000 72 00 | 00000000 00000000 00000000 00000002 | 00000018 \
         | 00000002 00000000 00000003 00000004 0000000A 00000000 00000003 | F7 03 6E861BF0F9210940 00 \
         0000000401 0000003E02 0000002203 0000002E04 0000005E05 0000004206 0000005F07 0000006008 B4",
    );
}

#[test]
fn example_6() {
    let names = ["alpha", "apple", "application", "zero"];
    let given = names
        .iter()
        .fold(nothing(), |it, name| it.facility(name, TEXT, 0, 0));
    let given = given.change(3, 4, "hi").change(0, 4, "");
    let geometry = "00000000 00000000 00000000 00000004".repeat(4);
    let expected = format!(
        "01380004 | 00 02 686900 | 00 07 00 | 00000004 0000001D 0000616C70686100 000170706C6500 \
         000469636174696F6E00 00007A65726F00 | {geometry} | 00000009 00000000 00000000 00000004 \
         | 00000001 00000004 00000004 00000004 00000004 | F7 03 00 \
         0000000401 0000007402 0000000C03 0000003404 0000009805 0000008406 0000009907 B4"
    );
    check(&given, 191, &expected);
}

#[test]
fn example_7() {
    let given = nothing()
        .facility("ck", BITS, 0, 0)
        .facility("ck", BITS, 1, 0);
    let given = given.change(0, 0, "0").change(1, 0, "0Z");
    let given = given.change(0, 1, "1").change(1, u32::MAX, "01");
    check(
        &given,
        145,
        "01380004 | 03 02 | 01 04 20 | 04 03 | 00 03 40 | 00000002 00000006 0000 636B 00 0002 00 \
         | 00000000 00000000 00000000 00000000 00000000 00000001 00000000 00000000 | 00000009 0000000B \
         | 00000003 00000000 FFFFFFFF 00000004 00000005 00000002 00000000 00000001 FFFFFFFE | F7 03 00 \
         0000000401 0000003E02 0000000E03 0000001E04 0000006A05 0000004606 0000006B07 B4",
    );
}

#[test]
fn refused_neighbours_of_example_1() {
    let with = |edit: fn(&mut Given)| {
        let mut given = e1();
        edit(&mut given);
        given
    };
    with(|it| it.timescale = 3).is_refused("timescale 3");
    with(|it| it.timescale = -22).is_refused("timescale -22");
    with(|it| it.initial = 9).is_refused("initial 9");
    with(|it| it.initial = b'X').is_refused("initial as ASCII");
    with(|it| it.changes[1][0] = 1).is_refused("facility 1");
    nothing()
        .facility("a", BITS, 0, 0)
        .change(0, 0, "11")
        .is_refused("two symbols");
    nothing()
        .facility("a", BITS, 0, 0)
        .change(0, 0, "")
        .is_refused("no symbol");
    for byte in [b'x', b'z', b'?', 0x00, 0x01, b'/', b'2', b'Y', 0xB0] {
        nothing()
            .facility("a", BITS, 0, 0)
            .change(0, 0, [byte])
            .is_refused("no symbol");
    }
    let falling = nothing().facility("a", BITS, 0, 0);
    falling
        .change(0, 5, "1")
        .change(0, 4, "0")
        .is_refused("times 5, 4");
    for timescale in [-21, 2] {
        Given { timescale, ..e1() }.file();
    }
    for initial in 0..=8 {
        Given { initial, ..e1() }.file();
    }
}

#[test]
fn the_room_is_tested_last_and_nothing_is_written_without_it() {
    let file = e1().file();
    for room in 0..file.len() {
        let mut out = vec![0xA5; room];
        assert_eq!(e1().write_into(&mut out), Err(25), "{room}");
        assert!(out.iter().all(|byte| *byte == 0xA5), "{room}");
    }
    for room in [107, 108, 500] {
        let mut out = vec![0xA5; room];
        assert_eq!(e1().write_into(&mut out), Ok(107));
        assert_eq!(out[..107], file);
        assert!(out[107..].iter().all(|byte| *byte == 0xA5), "{room}");
    }
}

#[test]
fn facilities_at_their_limit() {
    let many = |n| (0..n).fold(nothing(), |it, _| it.facility("", BITS, 0, 0));
    let most = many(4_096).change(4_095, 1, "1");
    assert_eq!(read(&most, 200_000).facilities, 4_096);
    many(4_097).is_refused("4,097 facilities");
}

#[test]
fn names_at_their_limits() {
    nothing().facility([b'n'; 1_023], BITS, 0, 0).file();
    nothing()
        .facility([b'n'; 1_024], BITS, 0, 0)
        .is_refused("a name of 1,024 bytes");
    nothing().facility(b"a\xFFb", TEXT, 0, 0).file();
    nothing()
        .facility(b"a\0b", TEXT, 0, 0)
        .is_refused("a zero in a name");
    nothing()
        .facility(b"ab\0", TEXT, 0, 0)
        .is_refused("a zero behind a name");
}

#[test]
fn widths_and_kinds_at_their_limits() {
    let (least, most) = (i32::MIN, i32::MAX);
    for (msb, lsb) in [
        (4_095, 0),
        (0, 4_095),
        (least, least + 4_095),
        (most, most - 4_095),
    ] {
        let given = nothing().facility("b", BITS, msb, lsb);
        given.clone().change(0, 0, [b'Z'; 4_096]).file();
        given
            .change(0, 0, [b'Z'; 4_095])
            .is_refused("4,095 symbols");
    }
    for (msb, lsb) in [
        (4_096, 0),
        (0, 4_096),
        (-1, 4_095),
        (most, least),
        (least, most),
        (most, 0),
    ] {
        nothing()
            .facility("b", BITS, msb, lsb)
            .is_refused("a width above 4,096");
        // Of the other kinds they are not tested.
        for kind in [INTEGER, REAL, TEXT] {
            nothing().facility("b", kind, msb, lsb).file();
        }
    }
    for kind in [4, 8, u32::MAX] {
        nothing().facility("b", kind, 0, 0).is_refused("kind");
    }
}

/// What judging answers of a file that is read back as it was given.
fn read(given: &Given, room: usize) -> Summary {
    let mut out = vec![0; room];
    let length = given.write_into(&mut out).expect("a file") as usize;
    read_back(given, &out[..length]);
    judge(&out[..length]).expect("an accepted file")
}

#[test]
fn parts_lie_inside_their_pools() {
    let sound = nothing().facility("ab", TEXT, 0, 0).change(0, 0, "cd");
    sound.file();
    // Parts that overlap, and one of no bytes at the end of the pool.
    let mut overlapping = sound.clone();
    overlapping
        .facilities
        .extend([[0, 1, TEXT, 0, 0], [1, 1, TEXT, 0, 0], [2, 0, TEXT, 0, 0]]);
    overlapping
        .changes
        .extend([[1, 0, 0, 2], [2, 0, 1, 1], [3, 0, 2, 0]]);
    overlapping.names.extend(b"\0unused");
    overlapping.values.extend(b"\0unused");
    overlapping.file();
    for (start, length) in [
        (0, 3),
        (1, 2),
        (2, 1),
        (3, 0),
        (u32::MAX, 2),
        (2, u32::MAX),
        (u32::MAX, u32::MAX),
    ] {
        let mut given = sound.clone();
        given.facilities[0][..2].copy_from_slice(&[start, length]);
        given.is_refused("a name outside its pool");
        let mut given = sound.clone();
        given.changes[0][2..].copy_from_slice(&[start, length]);
        given.is_refused("a value outside its pool");
    }
}

#[test]
fn integers_have_32_symbols_0_and_1() {
    let integer = || nothing().facility("i", INTEGER, 0, 0);
    for length in [0, 1, 31, 33] {
        integer()
            .change(0, 0, "1".repeat(length))
            .is_refused("an integer of other width");
    }
    for symbol in "ZXHUWL-zx".chars() {
        let one = format!("{symbol}{}", "01".repeat(15) + "0");
        integer()
            .change(0, 0, one)
            .is_refused("an integer with another symbol");
        integer()
            .change(0, 0, symbol.to_string().repeat(32))
            .is_refused("an integer of another");
    }
}

#[test]
fn reals_and_texts_are_of_their_length_and_without_a_zero() {
    for length in [0, 7, 9, 16] {
        nothing()
            .facility("r", REAL, 0, 0)
            .change(0, 0, vec![1; length])
            .is_refused("a real");
    }
    nothing()
        .facility("t", TEXT, 0, 0)
        .change(0, 0, b"\xFF\x01")
        .file();
    nothing()
        .facility("t", TEXT, 0, 0)
        .change(0, 0, "a\0b")
        .is_refused("a zero in a text");
    nothing()
        .facility("t", TEXT, 0, 0)
        .change(0, 0, "ab\0")
        .is_refused("a zero behind a text");
}

#[test]
fn a_change_is_of_a_facility_that_is_given() {
    // Without facilities there is none that could change.
    nothing().change(0, 0, "").is_refused("no facility");
    nothing()
        .facility("t", TEXT, 0, 0)
        .change(1, 0, "")
        .is_refused("facility 1");
    nothing()
        .facility("t", TEXT, 0, 0)
        .change(u32::MAX, 0, "")
        .is_refused("no such facility");
}

#[test]
fn times_never_fall_over_the_whole_list() {
    let two = || {
        nothing()
            .facility("a", BITS, 0, 0)
            .facility("b", BITS, 0, 0)
    };
    two()
        .change(0, 5, "0")
        .change(1, 3, "1")
        .is_refused("5 of one, 3 of the other");
    two()
        .change(0, u32::MAX, "0")
        .change(1, 0, "1")
        .is_refused("the greatest, then 0");
    let equal = two().change(0, 5, "0").change(0, 5, "1").change(1, 5, "Z");
    let file = equal.file();
    let judged = Judged::new(&file).expect("an accepted file");
    assert_eq!(judged.entries(), [(4, 5)]);
    let mut bits = [0];
    assert_eq!(
        judged.value_at(0, 5, &mut bits),
        found(Value::Bits { width: 1 }, 1)
    );
    assert_eq!(bits, *b"1");
}

/// The changes of a facility of bits, one for each value, without the four bytes before them.
fn changes_of(values: &[&str]) -> Vec<u8> {
    let bits = nothing().facility("b", BITS, values[0].len() as i32 - 1, 0);
    let given = values.iter().fold(bits, |it, value| it.change(0, 0, value));
    let file = given.file();
    let end = file.len() - (1 + 7 * 5 + 1) - 2 - 20 - 4 - 16 - 12;
    file[4..end].to_vec()
}

#[test]
fn the_command_is_the_lowest_of_fewest_data_bytes() {
    for (code, symbol) in SYMBOLS.iter().enumerate() {
        for width in [1, 2, 7, 8, 9, 33] {
            let value = char::from(*symbol).to_string().repeat(width);
            assert_eq!(changes_of(&[&value]), [3 + code as u8, 2], "{value}");
        }
    }
    assert_eq!(changes_of(&["01"]), [0, 2, 0x40]);
    assert_eq!(changes_of(&["0X"]), [1, 2, 0x30]);
    assert_eq!(changes_of(&["0-"]), [2, 2, 0x08]);
    assert_eq!(changes_of(&["11111110011"]), [0, 2, 0xFE, 0x60]);
    assert_eq!(changes_of(&["ZX1"]), [1, 2, 0xB4]);
    assert_eq!(
        changes_of(&["01ZXHUWL-"]),
        [2, 2, 0x01, 0x23, 0x45, 0x67, 0x80]
    );
    assert_eq!(changes_of(&["00000001"]), [0, 2, 0x01]);
    assert_eq!(changes_of(&["100000000"]), [0, 2, 0x80, 0x00]);
    assert_eq!(changes_of(&["X1111", "11111"]), [1, 2, 0xD5, 0x40, 4, 2]);
}

#[test]
fn deltas_take_the_fewest_bytes() {
    // A text of the other facility sets how far apart two changes are.
    for (delta, command, bytes) in [
        (255, 0x03, vec![0xFF]),
        (256, 0x13, vec![0x01, 0x00]),
        (65_535, 0x13, vec![0xFF, 0xFF]),
        (65_536, 0x23, vec![0x01, 0x00, 0x00]),
        (16_000_000, 0x23, vec![0xF4, 0x24, 0x00]),
    ] {
        // The change of the text has three bytes beside it: the command, its delta and the zero.
        let given = nothing()
            .facility("b", BITS, 0, 0)
            .facility("t", TEXT, 0, 0);
        let text = vec![b't'; delta - 3];
        let given = given.change(0, 0, "1").change(1, 0, text).change(0, 0, "0");
        let file = given.write().expect("a file");
        read_back(&given, &file);
        let at = 6 + delta;
        assert_eq!(file[at], command, "{delta}");
        assert_eq!(file[at + 1..][..bytes.len()], bytes, "{delta}");
        assert_eq!(previous_offset(&file, at), 4);
    }
}

/// The offset before the change at an offset, by its bytes.
fn previous_offset(file: &[u8], at: usize) -> usize {
    let k = usize::from(file[at] >> 4) + 1;
    let delta = file[at + 1..][..k].iter();
    at - 2 - delta.fold(0, |sum, byte| sum << 8 | usize::from(*byte))
}

#[test]
fn names_take_the_longest_shared_prefix() {
    let names = ["ck", "ck", "ckx", "ck", "c", "", "", "x"];
    let given = names
        .iter()
        .fold(nothing(), |it, name| it.facility(name, TEXT, 0, 0));
    let file = given.file();
    let expected = hex(
        "00000008 00000013 | 0000 636B 00 | 0002 00 | 0002 78 00 | 0002 00 | 0001 00 | 0000 00 | 0000 00 \
         | 0000 78 00",
    );
    assert_eq!(file[4..4 + expected.len()], expected);
}

#[test]
fn a_real_facility_without_changes_has_the_real_test() {
    let file = nothing().facility("r", REAL, 5, 9).file();
    assert_eq!(file.len(), 100);
    // m, first and last are 0.
    assert_eq!(file[36..48], [0; 12]);
    assert_eq!(nothing().facility("t", TEXT, 5, 9).file().len(), 87);
}

#[test]
fn a_new_time_gets_one_entry_at_its_first_change() {
    let given = nothing()
        .facility("a", BITS, 0, 0)
        .facility("r", REAL, 0, 0);
    let given = given
        .change(0, 7, "1")
        .change(1, 7, [1; 8])
        .change(0, 8, "0");
    let given = given.change(0, 8, "Z").change(1, u32::MAX, [0; 8]);
    let file = given.file();
    let judged = Judged::new(&file).expect("an accepted file");
    assert_eq!(judged.entries(), [(4, 7), (16, 8), (20, u32::MAX.into())]);
}

/// One text of so many bytes in a facility "t".
fn long_text(length: usize) -> Given {
    nothing()
        .facility("t", TEXT, 0, 0)
        .change(0, 0, vec![b't'; length])
}

#[test]
fn a_file_has_16_777_216_bytes_at_most() {
    let longest = long_text(16_777_118);
    let file = longest.write().expect("a file");
    assert_eq!(file.len(), 16_777_216);
    read_back(&longest, &file);
    assert_eq!(longest.write_into(&mut vec![0; file.len() - 1]), Err(25));
    // One byte more, with any room.
    assert_eq!(long_text(16_777_119).write(), Err(24));
    long_text(16_777_119).is_refused("one byte too long");
    long_text(20_000_000).is_refused("a text longer than a file");
}

#[test]
fn lengths_may_sum_to_more_than_32_bits() {
    let mut given = long_text(1 << 20);
    let row = given.changes[0];
    // 2^12 times 2^20 bytes and a little: by 32 bits it would be a small file.
    given.changes = vec![row; 4_096];
    given.is_refused("4,096 texts of a megabyte");
}
