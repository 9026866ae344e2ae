//! The small trace of paper 01, P1 to P12, and the sentences of the readings, each in a small file.

mod column;
mod stray;
mod text;
mod visited;
mod wide_times;
mod write;

use crate::*;

/// The 95-byte trace of paper 01.
fn small_trace() -> Vec<u8> {
    small_trace_with(0, &[4, 2], &[0, 5])
}

/// The same with other times: first, position deltas and time deltas; last is 5. The times stand
/// before END, which moves with their number.
fn small_trace_with(first: u32, positions: &[u32], times: &[u32]) -> Vec<u8> {
    let mut file = vec![0x01, 0x38, 0x00, 0x04, 0x04, 0x02, 0x03, 0x00];
    file.extend([0, 0, 0, 1, 0, 0, 0, 2, 0, 0, 0x61, 0]);
    file.extend([0; 16]);
    file.extend([0, 0, 0, 6]);
    let head = [positions.len() as u32, first, 5];
    for word in head.iter().chain(positions).chain(times) {
        file.extend(word.to_be_bytes());
    }
    file.push(0);
    for (value, tag) in [(4_u32, 1), (0x24, 2), (8, 3), (0x14, 4), (0x28, 6)] {
        file.extend(value.to_be_bytes());
        file.push(tag);
    }
    file.push(0xB4);
    file
}

/// The same with times of tag 09 (Ask 1): first, last, position deltas and time deltas.
fn small_trace_09(first: i64, last: i64, positions: &[u32], times: &[i64]) -> Vec<u8> {
    let mut file = small_trace()[..0x28].to_vec();
    file.extend((positions.len() as u32).to_be_bytes());
    file.extend([first, last].map(i64::to_be_bytes).concat());
    file.extend(positions.iter().flat_map(|delta| delta.to_be_bytes()));
    file.extend(times.iter().flat_map(|delta| delta.to_be_bytes()));
    // END, the items, B4; the tag of the times is the last but one byte.
    file.extend(&small_trace()[0x44..]);
    let tag = file.len() - 2;
    file[tag] = 0x09;
    file
}

/// A facility of a `Plan`: name with prefix length and suffix, geometry, sync entry.
#[derive(Clone)]
struct PlannedFacility {
    prefix: u16,
    suffix: Vec<u8>,
    rows: u32,
    msb: i32,
    lsb: i32,
    flags: u32,
    sync: u32,
}

fn facility(suffix: &str, msb: i32, lsb: i32, flags: u32, sync: u32) -> PlannedFacility {
    PlannedFacility {
        prefix: 0,
        suffix: suffix.as_bytes().to_vec(),
        rows: 0,
        msb,
        lsb,
        flags,
        sync,
    }
}

fn alias(suffix: &str, target: u32) -> PlannedFacility {
    let mut made = facility(suffix, 7, -3, 8, 0xFFFF_FFFF);
    made.rows = target;
    made
}

/// A small trace: the changes stand from offset 4 on, then names, geometry, sync, times, timescale,
/// initial value and real test follow without gaps, then END.
#[derive(Clone)]
struct Plan {
    version: u16,
    changes: Vec<u8>,
    facilities: Vec<PlannedFacility>,
    memory: u32,
    /// The tag of the times: 06, whose times have 4 bytes, or 09 with 8.
    times_tag: u8,
    first: i64,
    last: i64,
    positions: Vec<u32>,
    times: Vec<i64>,
    timescale: Option<u8>,
    initial: Option<u8>,
    real_test: Option<[u8; 8]>,
    c: u32,
    /// Bytes between the last body and END.
    rest: Vec<u8>,
    /// Items (tag, value) between END and those of the bodies.
    nearer_end: Vec<(u8, u32)>,
    /// Items (tag, value) between those of the bodies and B4.
    nearer_b4: Vec<(u8, u32)>,
}

/// A `Plan` made, with where its parts lie.
struct Made {
    file: Vec<u8>,
    end: u32,
    names: u32,
    geometry: u32,
    sync: u32,
    times: u32,
}

fn plan(changes: &[u8], facilities: &[PlannedFacility]) -> Plan {
    Plan {
        version: 4,
        changes: changes.to_vec(),
        facilities: facilities.to_vec(),
        memory: 1_000_000,
        times_tag: 0x06,
        first: 0,
        last: 100,
        positions: vec![4],
        times: vec![10],
        timescale: None,
        initial: None,
        real_test: None,
        c: 4,
        rest: Vec::new(),
        nearer_end: Vec::new(),
        nearer_b4: Vec::new(),
    }
}

impl Plan {
    fn make(&self) -> Made {
        let mut file = vec![0x01, 0x38];
        file.extend(self.version.to_be_bytes());
        file.extend(&self.changes);
        let mut items = vec![(0x01, self.c)];

        let names = file.len() as u32;
        items.push((0x03, names));
        file.extend((self.facilities.len() as u32).to_be_bytes());
        file.extend(self.memory.to_be_bytes());
        for facility in &self.facilities {
            file.extend(facility.prefix.to_be_bytes());
            file.extend(&facility.suffix);
            file.push(0);
        }

        let geometry = file.len() as u32;
        items.push((0x04, geometry));
        for facility in &self.facilities {
            file.extend(facility.rows.to_be_bytes());
            file.extend(facility.msb.to_be_bytes());
            file.extend(facility.lsb.to_be_bytes());
            file.extend(facility.flags.to_be_bytes());
        }

        let sync = file.len() as u32;
        items.push((0x02, sync));
        for facility in &self.facilities {
            file.extend(facility.sync.to_be_bytes());
        }

        let times = file.len() as u32;
        items.push((self.times_tag, times));
        file.extend((self.positions.len() as u32).to_be_bytes());
        file.extend(self.time_bytes(&[self.first, self.last]));
        for delta in &self.positions {
            file.extend(delta.to_be_bytes());
        }
        file.extend(self.time_bytes(&self.times));

        if let Some(timescale) = self.timescale {
            items.push((0x05, file.len() as u32));
            file.push(timescale);
        }
        if let Some(initial) = self.initial {
            items.push((0x07, file.len() as u32));
            file.push(initial);
        }
        if let Some(real_test) = self.real_test {
            items.push((0x08, file.len() as u32));
            file.extend(real_test);
        }

        file.extend(&self.rest);
        let end = file.len() as u32;
        file.push(0);
        let all = self.nearer_end.iter().chain(&items).chain(&self.nearer_b4);
        for (tag, value) in all {
            file.extend(value.to_be_bytes());
            file.push(*tag);
        }
        file.push(0xB4);
        Made {
            file,
            end,
            names,
            geometry,
            sync,
            times,
        }
    }

    /// Times as the table has them.
    fn time_bytes(&self, times: &[i64]) -> Vec<u8> {
        let mut bytes = Vec::new();
        for time in times {
            match self.times_tag {
                0x06 => bytes.extend(u32::try_from(*time).expect("32 bits").to_be_bytes()),
                _ => bytes.extend(time.to_be_bytes()),
            }
        }
        bytes
    }

    fn file(&self) -> Vec<u8> {
        self.make().file
    }

    fn judge(&self) -> Result<Summary, u8> {
        judge(&self.file())
    }
}

fn refused(result: Result<Summary, u8>) -> u8 {
    result.expect_err("a refusal")
}

/// The offset of the counting item's value of a tag that stands once.
fn item(file: &[u8], tag: u8) -> usize {
    let mut at = file.len() - 2;
    while file[at] != tag {
        assert!(file[at] != 0, "no such tag");
        at -= 5;
    }
    at - 4
}

fn set_word(file: &mut [u8], at: usize, word: u32) {
    file[at..at + 4].copy_from_slice(&word.to_be_bytes());
}

fn with_item(file: &[u8], tag: u8, value: u32) -> Vec<u8> {
    let mut file = file.to_vec();
    let at = item(&file, tag);
    set_word(&mut file, at, value);
    file
}

/// The symbols of a change.
fn symbols(file: &[u8], facility: u32, offset: u32) -> String {
    let width = facts(file, facility).expect("facts").width as usize;
    let mut bits = vec![b'?'; width + 1];
    let read = change(file, facility, offset, &mut bits).expect("a change");
    assert_eq!(
        read.value,
        Value::Bits {
            width: width as u32
        }
    );
    assert_eq!(bits[width], b'?', "the rest stays");
    String::from_utf8(bits[..width].to_vec()).expect("symbols")
}

/// A clean change of the time that a `plan` has.
fn clean_at_10(value: Value) -> Result<Changed, u8> {
    Ok(Changed {
        time: 10,
        value,
        clean: true,
    })
}

/// What a value at a time answers, with the number of changes visited.
fn found(value: Value, visited: u32) -> Result<Lookup, u8> {
    Ok(Lookup { value, visited })
}

fn symbol_at(file: &[u8], time: i64) -> u8 {
    symbol_and_visited(file, time).0
}

/// The symbol of facility 0 at a time, and the number of changes visited.
fn symbol_and_visited(file: &[u8], time: i64) -> (u8, u32) {
    let mut bits = [b'?'];
    let lookup = value_at(file, 0, time, &mut bits).expect("a value");
    assert_eq!(lookup.value, Value::Bits { width: 1 });
    (bits[0], lookup.visited)
}

/// A whole walk by one carry-on call with room for `size` pairs.
fn walk(file: &[u8], asked: &[u8], size: usize) -> (Vec<(u32, u32)>, bool) {
    let n = asked.len();
    let (mut numbers, mut offsets) = (vec![77; n], vec![77; n]);
    start_walk(file, asked, &mut numbers, &mut offsets).expect("a start");
    let mut output = vec![0; 2 * size];
    let (count, done) = carry_on(file, &mut numbers, &mut offsets, &mut output, size as u64)
        .expect("a carry-on call");
    let list = output[..2 * count as usize]
        .chunks(2)
        .map(|pair| (pair[0], pair[1]))
        .collect();
    (list, done)
}

// ---- The whole small trace, and its neighbours ----

#[test]
fn p1_the_small_trace_is_accepted() {
    let file = small_trace();
    assert_eq!(file.len(), 95);
    assert_eq!(
        judge(&file),
        Ok(Summary {
            facilities: 1,
            changes: 4,
            end: 68,
            timescale: -9,
            initial: 3,
            clean: true,
        })
    );
    let mut names = [0xEE; 1_030];
    assert_eq!(name(&file, 0, &mut names), Ok(1));
    assert_eq!(names[0], b'a');
    assert!(names[1..1_023].iter().all(|byte| *byte == 0));
    assert!(names[1_023..].iter().all(|byte| *byte == 0xEE));
    assert_eq!(
        facts(&file, 0),
        Ok(Facts {
            width: 1,
            msb: 0,
            lsb: 0,
            kind: Kind::Bits
        })
    );
    assert_eq!(root(&file, 0), Ok(0));
}

#[test]
fn p2_a_walk_of_size_9() {
    let file = small_trace();
    assert_eq!(walk(&file, &[1], 9), (vec![(0, 6), (0, 4)], true));
    assert_eq!(full_list(&file, &[1]), Ok(vec![(0, 6), (0, 4)]));
}

#[test]
fn p3_values_at_times() {
    let file = small_trace();
    assert_eq!(symbol_at(&file, 0), b'1');
    assert_eq!(symbol_at(&file, 4), b'1');
    assert_eq!(symbol_at(&file, 5), b'0');
    assert_eq!(symbol_at(&file, u32::MAX.into()), b'0');
}

#[test]
fn p4_to_p6_the_delta_of_the_newest_change() {
    let mut file = small_trace();
    file[7] = 0x04;
    assert_eq!(walk(&file, &[1], 9), (vec![(0, 6)], true));
    file[7] = 0x01;
    assert_eq!(judge(&file), Err(15));
    file[7] = 0x05;
    assert_eq!(judge(&file), Err(15));
}

#[test]
fn p7_strictly_falling_offsets_are_no_proof() {
    let mut file = small_trace();
    set_word(&mut file, 0x24, 7);
    assert_eq!(judge(&file), Err(17));
}

#[test]
fn p8_six_bytes() {
    assert_eq!(judge(&[0x01, 0x38, 0x00, 0x04, 0x00, 0xB4]), Err(7));
}

#[test]
fn p9_the_previous_offset() {
    assert_eq!(previous_offset(0x1000, 0x0210), 0x0DEE);
    // The same in a file: k = 2 at offset 1000 hex, above a change at 0DEE.
    let mut changes = vec![0xAA; 0x1000 - 4];
    changes[0xDEE - 4..0xDEE - 4 + 3].copy_from_slice(&[0x13, 0x0D, 0xEC]);
    changes.extend([0x13, 0x02, 0x10]);
    let file = plan(&changes, &[facility("a", 0, 0, 0, 0x1000)]).file();
    assert_eq!(change_before(&file, 0, 0x1000), Ok(0x0DEE));
    assert_eq!(change_before(&file, 0, 0x0DEE), Ok(0));
}

#[test]
fn p10_packings() {
    // "11111110011" in 1-bit form is FE 60.
    let file = plan(&[0x00, 0x02, 0xFE, 0x60], &[facility("a", 10, 0, 0, 4)]).file();
    assert_eq!(symbols(&file, 0, 4), "11111110011");
    // "ZX1" in 2-bit form is B4.
    let file = plan(&[0x01, 0x02, 0xB4], &[facility("a", 0, 2, 0, 4)]).file();
    assert_eq!(symbols(&file, 0, 4), "ZX1");
    // Others of 003, with the order of codes of paper 01.
    let file = plan(&[0x01, 0x02, 0xFF, 0x80], &[facility("a", -4, 0, 0, 4)]).file();
    assert_eq!(symbols(&file, 0, 4), "XXXXZ");
    let nine = [0x02, 0x02, 0x01, 0x23, 0x45, 0x67, 0x80];
    let file = plan(&nine, &[facility("a", 8, 0, 0, 4)]).file();
    assert_eq!(symbols(&file, 0, 4), "01ZXHUWL-");
}

/// The names of 003 and 004: alpha, apple, application, zero.
fn four_names() -> Plan {
    let mut facilities = vec![
        facility("alpha", 0, 0, 0, 0),
        facility("pple", 0, 0, 0, 0),
        facility("ication", 0, 0, 0, 0),
        facility("zero", 0, 0, 0, 0),
    ];
    facilities[1].prefix = 1;
    facilities[2].prefix = 4;
    plan(&[], &facilities)
}

#[test]
fn p11_memory_of_four_names() {
    let mut four = four_names();
    four.memory = 29;
    let file = four.file();
    let mut names = [0; 1_023];
    for (number, expected) in ["alpha", "apple", "application", "zero"].iter().enumerate() {
        let length = name(&file, number as u32, &mut names).expect("a name");
        assert_eq!(&names[..length], expected.as_bytes());
    }
    four.memory = 28;
    assert_eq!(refused(four.judge()), 10);
}

#[test]
fn p12_prefix_after_alpha() {
    let mut four = four_names();
    four.facilities[1].prefix = 5;
    assert!(four.judge().is_ok());
    four.facilities[1].prefix = 6;
    assert_eq!(refused(four.judge()), 10);
}

#[test]
fn the_small_program_prints_four_lines() {
    assert_eq!(
        String::from_utf8(dump(&small_trace())).expect("text"),
        "facility 0 a bits 1\nchange 0 6 5 0\nchange 0 4 0 1\ndone 2\n"
    );
}

// ---- Frame ----

#[test]
fn length_and_frame() {
    assert_eq!(judge(&[]), Err(1));
    assert_eq!(judge(&[0x01, 0x38, 0x00, 0x04, 0xB4]), Err(1));
    for version in 0..=4 {
        let mut made = plan(&[], &[]);
        made.version = version;
        assert!(made.judge().is_ok());
    }
    for version in [5, 0x0100, 0xFFFF] {
        let mut made = plan(&[], &[]);
        made.version = version;
        assert_eq!(refused(made.judge()), 2);
    }
    let mut file = small_trace();
    file[0] = 2;
    assert_eq!(judge(&file), Err(2));
    let mut file = small_trace();
    file[1] = 0x39;
    // 2 comes before 3.
    *file.last_mut().expect("bytes") = 0;
    assert_eq!(judge(&file), Err(2));
    file[1] = 0x38;
    assert_eq!(judge(&file), Err(3));
}

#[test]
fn the_longest_file() {
    let mut made = plan(&[], &[facility("a", 0, 0, 0, 0)]);
    let length = made.file().len();
    made.rest = vec![0x55; LONGEST_FILE - length];
    let mut file = made.file();
    assert_eq!(file.len(), LONGEST_FILE);
    assert!(judge(&file).is_ok());
    file.push(0xB4);
    assert_eq!(judge(&file), Err(1));
}

// ---- Numbers ----

#[test]
fn sums_never_wrap() {
    let one = plan(&[0x03, 0x02], &[facility("a", 0, 0, 0, 4)]);
    let file = one.file();
    // start + 16 n and start + 4 n past 2^32
    assert_eq!(judge(&with_item(&file, 0x04, 0xFFFF_FFF8)), Err(8));
    assert_eq!(judge(&with_item(&file, 0x02, 0xFFFF_FFFF)), Err(8));
    // 16 n, 4 n and 8 m past 2^32
    let made = one.make();
    for (at, word) in [
        (made.names, 0x1000_0001),
        (made.names, 0x4000_0001),
        (made.times, 0x2000_0001),
    ] {
        let mut file = made.file.clone();
        set_word(&mut file, at as usize, word);
        assert_eq!(judge(&file), Err(8));
    }
    // A position sum past 2^32 is 13 even if it would wrap below T.
    let mut wrapping = one.clone();
    wrapping.positions = vec![6, 0xFFFF_FFFF];
    wrapping.times = vec![0, 1];
    assert_eq!(refused(wrapping.judge()), 13);
    // So is a time sum.
    let mut wrapping = one.clone();
    wrapping.positions = vec![4, 1];
    wrapping.times = vec![0xFFFF_FFFF, 1];
    wrapping.last = 0xFFFF_FFFF;
    assert_eq!(refused(wrapping.judge()), 13);
    wrapping.times = vec![0xFFFF_FFFE, 1];
    assert!(wrapping.judge().is_ok());
    // |msb - lsb| + 1
    for (msb, lsb) in [(i32::MIN, i32::MAX), (i32::MAX, i32::MIN), (i32::MIN, 0)] {
        let wide = plan(&[], &[facility("a", msb, lsb, 0, 0)]);
        assert_eq!(refused(wide.judge()), 11);
    }
    // offset - delta - 2
    let far = plan(
        &[0x33, 0xFF, 0xFF, 0xFF, 0xFF],
        &[facility("a", 0, 0, 0, 4)],
    );
    assert_eq!(refused(far.judge()), 15);
    // 2 s
    let (mut numbers, mut offsets) = ([0], [4]);
    for size in [1, 1 << 31, 1 << 32, 1 << 63, u64::MAX] {
        let answer = carry_on(&file, &mut numbers, &mut offsets, &mut [], size);
        assert_eq!(answer, Err(21));
    }
}

#[test]
fn numbers_too_large_are_refused_by_themselves() {
    let file = small_trace();
    for number in [1, 4_096, u32::MAX] {
        assert_eq!(facts(&file, number), Err(18));
        assert_eq!(root(&file, number), Err(18));
        assert_eq!(name(&file, number, &mut []), Err(18));
        assert_eq!(change_before(&file, number, 4), Err(18));
        assert_eq!(change(&file, number, 1, &mut []), Err(18));
        assert_eq!(value_at(&file, number, 0, &mut []), Err(18));
    }
    for offset in [0, 1, 3, 5, 7, 68, u32::MAX] {
        assert_eq!(change_before(&file, 0, offset), Err(19));
        assert_eq!(change(&file, 0, offset, &mut []), Err(19));
    }
}

// ---- Section list ----

#[test]
fn of_a_tag_met_twice_the_one_nearer_end_counts() {
    let file = small_trace();
    let mut made = plan(&[0x03, 0x02], &[facility("a", 0, 0, 0, 4)]);
    made.nearer_b4 = vec![
        (0x01, 0),
        (0x02, 1),
        (0x03, 0xFFFF_FFFF),
        (0x04, 3),
        (0x06, 0),
    ];
    assert!(made.judge().is_ok());
    // Also if its value is 0: then the tag is absent.
    for tag in [0x01, 0x02, 0x03, 0x04, 0x06] {
        let mut made = plan(&[0x03, 0x02], &[facility("a", 0, 0, 0, 4)]);
        made.nearer_end = vec![(tag, 0)];
        assert_eq!(refused(made.judge()), 7);
        assert_eq!(judge(&with_item(&file, tag, 0)), Err(7));
    }
    let mut made = plan(&[], &[]);
    made.timescale = Some(-12_i8 as u8);
    made.initial = Some(1);
    let summary = made.judge().expect("accepted");
    assert_eq!((summary.timescale, summary.initial), (-12, 1));
    made.nearer_end = vec![(0x05, 0), (0x07, 0)];
    let summary = made.judge().expect("accepted");
    assert_eq!((summary.timescale, summary.initial), (-9, 3));
}

#[test]
fn compressed_data() {
    for tag in 0x0A..=0x12 {
        let mut made = plan(&[], &[]);
        made.nearer_b4 = vec![(tag, 1)];
        assert_eq!(refused(made.judge()), 5);
        // A nearer 0 takes it back.
        made.nearer_end = vec![(tag, 0)];
        assert!(made.judge().is_ok());
        made.nearer_end = vec![(tag, 0x8000_0000)];
        assert_eq!(refused(made.judge()), 5);
    }
}

#[test]
fn other_tags_are_skipped_with_their_value() {
    let mut made = plan(&[], &[facility("a", 0, 0, 0, 0)]);
    made.nearer_end = vec![
        (0x13, 1),
        (0x14, 2),
        (0x15, 3),
        (0xB4, 0),
        (0xFF, 0xFFFF_FFFF),
    ];
    made.nearer_b4 = vec![(0x80, 0), (0x14, 0x0102_0304)];
    assert!(made.judge().is_ok());
}

#[test]
fn end_may_lie_at_offset_4_and_not_below() {
    // END at 4 behind one item: 7, since the item is none of those needed.
    let mut file = vec![0x01, 0x38, 0, 0, 0, 1, 1, 1, 1, 0x15, 0xB4];
    assert_eq!(judge(&file), Err(7));
    // No END: the next tag's value would start at 0.
    file[4] = 0x15;
    assert_eq!(judge(&file), Err(4));
    // A value from offset 4 on is in bounds, the next tag at 3 is not, though it is 00.
    let file = [0x01, 0x38, 0, 0, 1, 1, 1, 1, 0x15, 0xB4];
    assert_eq!(judge(&file), Err(4));
    // A value from offset 3 on is out of bounds.
    let file = [0x01, 0x38, 0, 0, 1, 1, 1, 0x15, 0xB4];
    assert_eq!(judge(&file), Err(4));
    assert_eq!(judge(&[0x01, 0x38, 0, 0, 0x01, 0xB4]), Err(4));
    // 4 before 5: the list is read whole first.
    let file = [0x01, 0x38, 0, 0, 1, 1, 1, 1, 0x0A, 0xB4];
    assert_eq!(judge(&file), Err(4));
}

#[test]
fn the_real_test_is_never_a_case_of_8() {
    for value in [1, 3, 0xFFFF_FFFF] {
        let mut made = plan(&[], &[facility("a", 0, 0, 0, 0)]);
        made.nearer_end = vec![(0x08, value)];
        assert!(made.judge().is_ok());
        made.facilities[0].flags = 2;
        assert_eq!(refused(made.judge()), 14);
    }
}

// ---- Bounds ----

#[test]
fn empty_bodies_may_start_at_the_end_and_not_past_it() {
    let made = plan(&[], &[]).make();
    for tag in [0x02, 0x04] {
        assert!(judge(&with_item(&made.file, tag, 4)).is_ok());
        assert!(judge(&with_item(&made.file, tag, made.end)).is_ok());
        assert_eq!(judge(&with_item(&made.file, tag, made.end + 1)), Err(8));
        assert_eq!(judge(&with_item(&made.file, tag, 3)), Err(8));
    }
}

#[test]
fn heads_and_bodies_end_before_the_end() {
    // The head of 03 alone, for n = 0, at the very end.
    let mut made = plan(&[], &[]);
    made.rest = vec![0; 8];
    let made = made.make();
    assert!(judge(&with_item(&made.file, 0x03, made.end - 8)).is_ok());
    for start in made.end - 7..=made.end + 1 {
        assert_eq!(judge(&with_item(&made.file, 0x03, start)), Err(8));
    }
    // The head of 06, for m = 0.
    let mut made = plan(&[], &[]);
    made.rest = vec![0; 12];
    let made = made.make();
    assert!(judge(&with_item(&made.file, 0x06, made.end - 12)).is_ok());
    for start in made.end - 11..=made.end + 1 {
        assert_eq!(judge(&with_item(&made.file, 0x06, start)), Err(8));
    }
    // A head that passes T is 8, whatever its count would be.
    let mut made = plan(&[], &[]);
    made.rest = vec![0xFF; 11];
    let made = made.make();
    assert_eq!(judge(&with_item(&made.file, 0x06, made.end - 11)), Err(8));
    // Sync and geometry of one facility.
    let mut made = plan(&[], &[facility("a", 0, 0, 0, 0)]);
    made.rest = vec![0; 16];
    let made = made.make();
    for (tag, length) in [(0x02, 4), (0x04, 16)] {
        assert!(judge(&with_item(&made.file, tag, made.end - length)).is_ok());
        assert_eq!(
            judge(&with_item(&made.file, tag, made.end - length + 1)),
            Err(8)
        );
    }
    // The whole body of 06.
    let mut made = plan(&[], &[]);
    made.rest = [1_u32, 0, 100, 4, 10]
        .iter()
        .flat_map(|word| word.to_be_bytes())
        .collect();
    let whole = made.make();
    assert!(judge(&with_item(&whole.file, 0x06, whole.end - 20)).is_ok());
    made.rest.pop();
    let short = made.make();
    assert_eq!(judge(&with_item(&short.file, 0x06, short.end - 19)), Err(8));
}

#[test]
fn eight_is_tested_before_nine() {
    // Sync and geometry of 4,096 zero entries, names of 4,096 empty suffixes, in one zero region.
    let mut made = plan(&[], &[]);
    made.rest = vec![0; 8 + 16 * 4_097];
    let made = made.make();
    let start = made.end as usize - 16 * 4_097;
    let with_count = |n: u32| {
        let mut file = with_item(&made.file, 0x02, start as u32);
        file = with_item(&file, 0x04, start as u32);
        file = with_item(&file, 0x03, start as u32 - 8);
        set_word(&mut file, start - 8, n);
        set_word(&mut file, start - 4, u32::MAX);
        file
    };
    assert_eq!(
        judge(&with_count(4_096)).map(|made| made.facilities),
        Ok(4_096)
    );
    assert_eq!(judge(&with_count(4_097)), Err(9));
    assert_eq!(judge(&with_count(4_098)), Err(8));
    // 4n fits, 16n doesn't.
    assert_eq!(
        judge(&with_item(&with_count(4_097), 0x04, start as u32 + 1)),
        Err(8)
    );
}

#[test]
fn c_from_4_to_t() {
    let made = plan(&[], &[]).make();
    for c in [4, 5, made.end] {
        assert!(judge(&with_item(&made.file, 0x01, c)).is_ok());
    }
    for c in [1, 3, made.end + 1, u32::MAX] {
        assert_eq!(judge(&with_item(&made.file, 0x01, c)), Err(8));
    }
    // C = T passes 8. Then any root with a sync entry other than 0 is 15.
    let made = plan(&[0x03, 0x02], &[facility("a", 0, 0, 0, 4)]).make();
    assert_eq!(judge(&with_item(&made.file, 0x01, made.end)), Err(15));
}

#[test]
fn timescale_and_initial_value() {
    for (byte, scale) in [
        (-21_i8, -21),
        (-22, -9),
        (2, 2),
        (3, -9),
        (0, 0),
        (127, -9),
        (-128, -9),
    ] {
        let mut made = plan(&[], &[]);
        made.timescale = Some(byte as u8);
        assert_eq!(made.judge().map(|summary| summary.timescale), Ok(scale));
    }
    for (byte, code) in [(0, 0), (2, 2), (8, 8), (9, 3), (255, 3)] {
        let mut made = plan(&[], &[facility("a", 1, 0, 0, 0)]);
        made.initial = Some(byte);
        assert_eq!(made.judge().map(|summary| summary.initial), Ok(code));
        let mut bits = [b'?'; 3];
        let value = value_at(&made.file(), 0, i64::MAX, &mut bits);
        assert_eq!(value, found(Value::Bits { width: 2 }, 0));
        let symbol = SYMBOLS[usize::from(code)];
        assert_eq!(bits, [symbol, symbol, b'?']);
    }
    // Present and out of bounds: 8.
    for tag in [0x05, 0x07] {
        let mut made = plan(&[], &[]);
        made.nearer_end = vec![(tag, 4)];
        assert!(made.judge().is_ok());
        let end = made.make().end;
        made.nearer_end = vec![(tag, end - 1)];
        assert!(made.judge().is_ok());
        for start in [1, 3, end, u32::MAX] {
            made.nearer_end = vec![(tag, start)];
            assert_eq!(refused(made.judge()), 8);
        }
    }
}

#[test]
fn bodies_may_overlap_and_changes_may_lie_in_bodies() {
    // An alias's sync entry and its msb are no part of the rules: changes may lie there.
    let mut made = plan(&[], &[facility("a", 0, 0, 0, 0), alias("b", 0)]);
    let places = made.make();
    let lower = places.geometry + 16 + 4;
    let upper = places.sync + 4;
    made.facilities[1].msb = i32::from_be_bytes([0x13, 0, lower as u8 - 2, 0]);
    made.facilities[1].sync = u32::from_be_bytes([0x04, (upper - lower) as u8 - 2, 0, 0]);
    made.facilities[0].sync = upper;
    let file = made.file();
    assert_eq!(full_list(&file, &[0, 1]), Ok(vec![(0, upper), (0, lower)]));
}

// ---- Names, geometry, aliases ----

#[test]
fn names_may_be_equal_or_empty_and_hold_any_byte_but_0() {
    let mut made = plan(
        &[],
        &[
            facility("", 0, 0, 0, 0),
            facility("", 0, 0, 0, 0),
            facility("a b", 0, 0, 0, 0),
            facility("", 0, 0, 0, 0),
            facility("", 0, 0, 0, 0),
        ],
    );
    made.facilities[3].prefix = 3;
    made.facilities[4].suffix = vec![0xFF, 0x0A, 0x01];
    made.memory = 1 + 1 + 4 + 4 + 4;
    let file = made.file();
    let mut names = [9; 1_023];
    assert_eq!(name(&file, 0, &mut names), Ok(0));
    assert_eq!(names, [0; 1_023]);
    assert_eq!(name(&file, 3, &mut names), Ok(3));
    assert_eq!(&names[..4], b"a b\0");
    assert_eq!(name(&file, 4, &mut names), Ok(3));
    assert_eq!(&names[..4], &[0xFF, 0x0A, 0x01, 0]);
    made.memory -= 1;
    assert_eq!(refused(made.judge()), 10);
    // The first name's prefix is taken from an empty name.
    made.memory += 1;
    made.facilities[0].prefix = 1;
    assert_eq!(refused(made.judge()), 10);
}

#[test]
fn without_facilities_any_memory_is_fine() {
    let mut made = plan(&[], &[]);
    for memory in [0, 1, u32::MAX] {
        made.memory = memory;
        assert!(made.judge().is_ok());
    }
    // Nothing after the head is read: it may end at T.
    let file = made.file();
    assert_eq!(dump(&file), b"done 0\n");
    assert_eq!(facts(&file, 0), Err(18));
    assert_eq!(start_walk(&file, &[], &mut [], &mut []), Ok(()));
    assert_eq!(carry_on(&file, &mut [], &mut [], &mut [], 0), Ok((0, true)));
    let mut output = [5; 4];
    assert_eq!(
        carry_on(&file, &mut [], &mut [], &mut output, 2),
        Ok((0, true))
    );
    assert_eq!(output, [5; 4]);
}

#[test]
fn the_name_before_is_the_expanded_one() {
    let mut made = plan(
        &[],
        &[
            facility("abcdef", 0, 0, 0, 0),
            facility("x", 0, 0, 0, 0),
            facility("y", 0, 0, 0, 0),
        ],
    );
    made.facilities[1].prefix = 5;
    made.facilities[2].prefix = 6;
    let mut names = [0; 1_023];
    assert_eq!(name(&made.file(), 2, &mut names), Ok(7));
    assert_eq!(&names[..7], b"abcdexy");
    made.facilities[2].prefix = 7;
    assert_eq!(refused(made.judge()), 10);
}

#[test]
fn the_longest_name() {
    let mut made = plan(&[], &[facility("", 0, 0, 0, 0), facility("", 0, 0, 0, 0)]);
    made.facilities[0].suffix = vec![b'n'; 1_000];
    made.facilities[1].suffix = vec![b'm'; 23];
    made.facilities[1].prefix = 1_000;
    let file = made.file();
    let mut names = [0; 1_023];
    assert_eq!(name(&file, 1, &mut names), Ok(1_023));
    assert_eq!(names[1_022], b'm');
    assert_eq!(name(&file, 1, &mut names[..1_022]), Err(21));
    // Names always need 1,023 bytes of room; 18 comes first.
    assert_eq!(name(&file, 2, &mut names[..1_022]), Err(18));
    made.facilities[1].suffix.push(b'm');
    assert_eq!(refused(made.judge()), 10);
}

#[test]
fn names_end_before_the_end() {
    // The names stand last. With one byte less the zero of the last is missing.
    let mut made = plan(&[], &[facility("a", 0, 0, 0, 0), facility("b", 0, 0, 0, 0)]);
    let body = [0, 0, 0, 2, 0, 0, 0, 4, 0, 0, b'a', 0, 0, 0, b'b', 0];
    for length in 8..=body.len() {
        made.rest = body[..length].to_vec();
        let places = made.make();
        let file = with_item(&places.file, 0x03, places.end - length as u32);
        let expected = if length == body.len() {
            Ok(())
        } else {
            Err(10)
        };
        assert_eq!(judge(&file).map(|_| ()), expected, "{length} bytes");
    }
}

#[test]
fn flags_rows_and_widths() {
    let answer = |rows, msb, lsb, flags| {
        let mut made = plan(&[], &[facility("a", msb, lsb, flags, 0)]);
        made.facilities[0].rows = rows;
        made.real_test = Some(crate::tables::REAL_TEST);
        let file = made.file();
        facts(&file, 0)
    };
    let bits = |width, msb, lsb| {
        Ok(Facts {
            width,
            msb,
            lsb,
            kind: Kind::Bits,
        })
    };
    assert_eq!(answer(0, 0, 0, 0), bits(1, 0, 0));
    assert_eq!(answer(0, 4_095, 0, 0), bits(4_096, 4_095, 0));
    assert_eq!(answer(0, -1, -4_096, 0), bits(4_096, -1, -4_096));
    assert_eq!(
        answer(0, i32::MIN, i32::MIN + 7, 0),
        bits(8, i32::MIN, i32::MIN + 7)
    );
    assert_eq!(answer(0, 4_096, 0, 0), Err(11));
    assert_eq!(answer(0, -1, 4_095, 0), Err(11));
    assert_eq!(
        answer(0, 9, 9, 1),
        Ok(Facts {
            width: 32,
            msb: 31,
            lsb: 0,
            kind: Kind::Integer
        })
    );
    // Integers, reals and texts have their own msb and lsb, whatever the entry says.
    for (flags, kind) in [(2, Kind::Real), (4, Kind::Text)] {
        assert_eq!(
            answer(0, i32::MAX, i32::MIN, flags),
            Ok(Facts {
                width: 0,
                msb: 0,
                lsb: 0,
                kind
            })
        );
    }
    for flags in [3, 5, 6, 7, 0x10, 0x11, 0x100, 0x8000_0000] {
        assert_eq!(answer(0, 0, 0, flags), Err(11));
    }
    for flags in [0, 1, 2, 4] {
        assert_eq!(answer(1, 0, 0, flags), Err(11));
    }
    // With bit 3 set rows is a target; an alias of itself is a cycle.
    assert_eq!(answer(0, 0, 0, 8), Err(12));
    assert_eq!(answer(1, 0, 0, 8), Err(12));
}

#[test]
fn aliases_reach_their_root() {
    let mut made = plan(
        &[0x03, 0x02, 0x04, 0x00],
        &[
            alias("a", 2),
            facility("b", 1, 0, 0, 6),
            alias("c", 3),
            facility("d", 0, 0, 4, 0),
            alias("e", 1),
        ],
    );
    // With bit 3 set all else in the entry but rows is ignored.
    made.facilities[4].flags = 0xFFFF_FFFF;
    made.facilities[4].msb = i32::MAX;
    made.facilities[4].lsb = i32::MIN;
    let file = made.file();
    let roots: Vec<_> = (0..5).map(|number| root(&file, number)).collect();
    assert_eq!(roots, [Ok(3), Ok(1), Ok(3), Ok(3), Ok(1)]);
    assert_eq!(facts(&file, 0).map(|facts| facts.kind), Ok(Kind::Text));
    assert_eq!(
        facts(&file, 4),
        Ok(Facts {
            width: 2,
            msb: 1,
            lsb: 0,
            kind: Kind::Bits
        })
    );
    // An alias has a name of its own; its changes and values are its root's.
    let mut names = [0; 1_023];
    assert_eq!(name(&file, 4, &mut names), Ok(1));
    assert_eq!(names[0], b'e');
    assert_eq!(change_before(&file, 4, 6), Ok(4));
    assert_eq!(symbols(&file, 4, 4), "00");
    assert_eq!(symbols(&file, 4, 6), "11");
    assert_eq!(
        String::from_utf8(dump(&file)).expect("text"),
        "facility 0 a alias 3\nfacility 1 b bits 2\nfacility 2 c alias 3\nfacility 3 d text 0\n\
         facility 4 e alias 1\nchange 1 6 10 11\nchange 1 4 10 00\ndone 2\n"
    );
}

#[test]
fn alias_targets_and_cycles() {
    let made = plan(
        &[],
        &[alias("a", 1), alias("b", 2), facility("c", 0, 0, 0, 0)],
    );
    assert!(made.judge().is_ok());
    for (number, target) in [(0, 3), (0, u32::MAX), (1, 0), (1, 1), (0, 0)] {
        let mut broken = made.clone();
        broken.facilities[number].rows = target;
        assert_eq!(refused(broken.judge()), 12);
    }
    // All facilities pass 11 before any alias is followed.
    let mut broken = made.clone();
    broken.facilities[0].rows = 3;
    broken.facilities[2].rows = 1;
    assert_eq!(refused(broken.judge()), 11);
}

// ---- Times ----

#[test]
fn without_entries_first_and_last_are_free() {
    let mut made = plan(&[], &[facility("a", 0, 0, 0, 0)]);
    made.positions.clear();
    made.times.clear();
    made.first = 9;
    made.last = 3;
    assert!(made.judge().is_ok());
    // A root's sync entry needs an entry: 13, before any 15.
    made.facilities[0].sync = 1;
    assert_eq!(refused(made.judge()), 13);
    // An alias's sync entry doesn't.
    let mut made = plan(&[], &[facility("a", 0, 0, 0, 0), alias("b", 0)]);
    made.positions.clear();
    made.times.clear();
    assert!(made.judge().is_ok());
}

#[test]
fn time_rules() {
    let base = plan(&[0x03, 0x02], &[facility("a", 0, 0, 0, 4)]);
    let answer = |positions: &[u32], times: &[i64], first, last| {
        let mut made = base.clone();
        made.positions = positions.to_vec();
        made.times = times.to_vec();
        made.first = first;
        made.last = last;
        made.judge().map(|_| ())
    };
    assert_eq!(answer(&[4], &[0], 0, 0), Ok(()));
    assert_eq!(answer(&[3], &[0], 0, 0), Err(13));
    assert_eq!(answer(&[0], &[0], 0, 0), Err(13));
    assert_eq!(answer(&[4, 1], &[0, 1], 0, 1), Ok(()));
    assert_eq!(answer(&[4, 0], &[0, 1], 0, 1), Ok(()));
    assert_eq!(answer(&[4, 1], &[0, 0], 0, 1), Ok(()));
    assert_eq!(answer(&[4, 0], &[0, 0], 0, 1), Ok(()));
    // first <= each time <= last
    assert_eq!(answer(&[4], &[7], 7, 7), Ok(()));
    assert_eq!(answer(&[4], &[7], 8, 8), Err(13));
    assert_eq!(answer(&[4], &[7], 6, 6), Err(13));
    assert_eq!(answer(&[4, 1], &[7, 1], 7, 7), Err(13));
    let most = u32::MAX.into();
    assert_eq!(answer(&[4], &[most], 0x8000_0000, most), Ok(()));
    // every position below T
    let end = base.make().end;
    assert_eq!(answer(&[end - 1], &[0], 0, 0), Ok(()));
    assert_eq!(answer(&[end], &[0], 0, 0), Err(13));
}

#[test]
fn the_time_of_a_change() {
    // Changes at 4, 6, 8 and 10; entries at 6 and 9.
    let mut made = plan(
        &[0x03, 0x02, 0x04, 0x00, 0x03, 0x00, 0x04, 0x00],
        &[facility("a", 0, 0, 0, 10)],
    );
    made.positions = vec![6, 3];
    made.times = vec![20, 10];
    let file = made.file();
    let time = |offset| change(&file, 0, offset, &mut [0]).map(|read| read.time);
    assert_eq!(time(4), Ok(20), "before the first position: entry 0");
    assert_eq!(time(6), Ok(20));
    assert_eq!(time(8), Ok(20));
    assert_eq!(time(10), Ok(30));
    // The change of highest offset with time <= t.
    assert_eq!(symbol_at(&file, 19), b'X');
    assert_eq!(symbol_at(&file, 20), b'0');
    assert_eq!(symbol_at(&file, 29), b'0');
    assert_eq!(symbol_at(&file, 30), b'1');
}

// ---- Zero deltas (Ask 2) ----

#[test]
fn examples_2_a_to_2_i() {
    // Position deltas, time deltas and first; the lines of the changes and the symbols at the times
    // 0 to 6, or none where refused.
    type Example = (
        &'static [u32],
        &'static [u32],
        u32,
        Option<([&'static str; 2], &'static [u8; 7])>,
    );
    let examples: [Example; 9] = [
        (
            &[4, 0],
            &[0, 5],
            0,
            Some((["0 6 5 0", "0 4 5 1"], b"XXXXX00")),
        ),
        (
            &[5, 0],
            &[1, 4],
            0,
            Some((["0 6 5 0", "0 4 1 1"], b"X111100")),
        ),
        (
            &[6, 0, 0],
            &[1, 1, 1],
            0,
            Some((["0 6 3 0", "0 4 1 1"], b"X110000")),
        ),
        (
            &[4, 2],
            &[5, 0],
            0,
            Some((["0 6 5 0", "0 4 5 1"], b"XXXXX00")),
        ),
        (
            &[4, 2, 0],
            &[0, 5, 0],
            0,
            Some((["0 6 5 0", "0 4 0 1"], b"1111100")),
        ),
        (&[0, 4], &[0, 5], 0, None),
        (&[3, 0], &[0, 5], 0, None),
        (&[4, 0], &[0, 5], 1, None),
        (
            &[67, 0],
            &[0, 5],
            0,
            Some((["0 6 0 0", "0 4 0 1"], b"0000000")),
        ),
    ];
    for ((positions, times, first, expected), letter) in examples.into_iter().zip('A'..) {
        let file = small_trace_with(first, positions, times);
        assert_eq!(file.len(), 79 + 8 * positions.len(), "2-{letter}");
        let printed = String::from_utf8(dump(&file)).expect("text");
        let Some((changes, symbols)) = expected else {
            assert_eq!(printed, "refused 13\n", "2-{letter}");
            assert_eq!(judge(&file), Err(13), "2-{letter}");
            assert_eq!(change(&file, 0, 6, &mut [0]), Err(13), "2-{letter}");
            assert_eq!(value_at(&file, 0, 5, &mut [0]), Err(13), "2-{letter}");
            let (mut numbers, mut offsets) = ([0], [6]);
            let start = start_walk(&file, &[1], &mut numbers, &mut offsets);
            assert_eq!(start, Err(13), "2-{letter}");
            let carried = carry_on(&file, &mut numbers, &mut offsets, &mut [0; 2], 1);
            assert_eq!(carried, Err(13), "2-{letter}");
            continue;
        };
        let [newer, older] = changes;
        let lines = format!("facility 0 a bits 1\nchange {newer}\nchange {older}\ndone 2\n");
        assert_eq!(printed, lines, "2-{letter}");
        let shown = [0, 1, 2, 3, 4, 5, 6].map(|time| symbol_at(&file, time));
        assert_eq!(shown, *symbols, "2-{letter}");
        assert_eq!(symbol_at(&file, i64::MAX), symbols[6], "2-{letter}");
        let end = judge(&file).map(|summary| summary.end);
        assert_eq!(end, Ok(52 + 8 * positions.len() as u32), "2-{letter}");
        let list = vec![(0, 6), (0, 4)];
        assert_eq!(walk(&file, &[1], 9), (list, true), "2-{letter}");
        assert_eq!(walk(&file, &[1], 1), (vec![(0, 6)], false), "2-{letter}");
    }
}

/// Changes at 4, 6, 8 and 10: 0, 1, Z and X.
fn four_changes(positions: &[u32], times: &[i64]) -> Plan {
    let mut made = plan(
        &[0x03, 0x02, 0x04, 0x00, 0x05, 0x00, 0x06, 0x00],
        &[facility("a", 0, 0, 0, 10)],
    );
    made.positions = positions.to_vec();
    made.times = times.to_vec();
    made.initial = Some(8);
    made
}

#[test]
fn of_equal_positions_the_last_decides_from_there_on() {
    let times = |positions: &[u32], times: &[i64]| {
        let file = four_changes(positions, times).file();
        [4, 6, 8, 10].map(|offset| change(&file, 0, offset, &mut [0]).map(|read| read.time))
    };
    // Before the changes, at each of them, between two and behind all.
    assert_eq!(times(&[4, 0, 0], &[1, 1, 1]), [3, 3, 3, 3].map(Ok));
    assert_eq!(times(&[6, 0, 0], &[1, 1, 1]), [1, 3, 3, 3].map(Ok));
    assert_eq!(times(&[7, 0, 0], &[1, 1, 1]), [1, 1, 3, 3].map(Ok));
    assert_eq!(times(&[10, 0, 0], &[1, 1, 1]), [1, 1, 1, 3].map(Ok));
    assert_eq!(times(&[11, 0, 0], &[1, 1, 1]), [1, 1, 1, 1].map(Ok));
    // In the middle and at the end of a table, with others around.
    assert_eq!(times(&[4, 2, 0, 3], &[1, 1, 1, 1]), [1, 3, 3, 4].map(Ok));
    assert_eq!(times(&[4, 2, 4, 0], &[1, 1, 1, 1]), [1, 2, 2, 4].map(Ok));
    assert_eq!(times(&[4, 0, 4, 0], &[1, 1, 1, 1]), [2, 2, 4, 4].map(Ok));
    // Equal times among them, the first time delta 0 too.
    assert_eq!(times(&[6, 0, 2, 0], &[0, 7, 0, 0]), [0, 7, 7, 7].map(Ok));
    assert_eq!(times(&[5, 0, 0, 3], &[0, 0, 0, 0]), [0, 0, 0, 0].map(Ok));
    // The values on either side of the times that do not count.
    let file = four_changes(&[6, 0, 3, 0], &[1, 2, 2, 2]).file();
    let shown = [0, 1, 2, 3, 4, 5, 6, 7, 8].map(|time| symbol_at(&file, time));
    assert_eq!(shown, *b"-00ZZZZXX");
    assert_eq!(
        Judged::new(&file).map(|judged| judged.entries()),
        Ok(vec![(6, 1), (6, 3), (9, 5), (9, 7)])
    );
}

/// Every table of three entries at 4 to 11 with three different times, against the words of the rule:
/// tag 06 with the times 0 to 2, and tag 09 with these, around 0 and at both ends of the range.
#[test]
fn all_small_tables() {
    let mut tables = 0;
    let rising = |least: u32, most: u32| {
        let mut lists = Vec::new();
        for first in least..=most {
            for second in first..=most {
                lists.extend((second..=most).map(|third| [first, second, third]));
            }
        }
        lists
    };
    let kinds = [
        (0x06, 0),
        (0x09, 0),
        (0x09, -1),
        (0x09, i64::MIN),
        (0x09, i64::MAX - 2),
    ];
    for (tag, lowest) in kinds {
        for positions in rising(4, 11) {
            for times in rising(0, 2) {
                let times = times.map(|time| lowest + i64::from(time));
                small_table(tag, lowest, positions, times);
                tables += 1;
            }
        }
    }
    assert_eq!(tables, 5 * 1_200);
}

fn small_table(tag: u8, lowest: i64, positions: [u32; 3], times: [i64; 3]) {
    let [one, two, three] = positions;
    let [first, second, third] = times;
    let deltas = [first, second - first, third - second];
    let mut made = four_changes(&[one, two - one, three - two], &deltas);
    (made.times_tag, made.first, made.last) = (tag, lowest, lowest + 2);
    let file = made.file();
    let judged = Judged::new(&file).expect("an accepted file");
    let time = |offset: u32| {
        let last = (0..3).rev().find(|entry| positions[*entry] <= offset);
        times[last.unwrap_or(0)]
    };
    for offset in [4, 6, 8, 10] {
        let read = judged.change(0, offset, &mut [0]).expect("a change");
        assert_eq!(read.time, time(offset), "{positions:?} {times:?}");
    }
    let around = [-1, 0, 1, 2, 3].map(|more| lowest.saturating_add(more));
    for at in around.into_iter().chain([i64::MIN, i64::MAX]) {
        let (symbol, visited) = match [10, 8, 6, 4].iter().find(|offset| time(**offset) <= at) {
            Some(10) => (b'X', 1),
            Some(8) => (b'Z', 2),
            Some(6) => (b'1', 3),
            Some(_) => (b'0', 4),
            None => (b'-', 4),
        };
        let mut bits = [b'?'];
        let lookup = judged.value_at(0, at, &mut bits).expect("a value");
        let shown = (bits, lookup.visited);
        assert_eq!(shown, ([symbol], visited), "{positions:?} {times:?} {at}");
    }
}

/// What stays refused beside zero deltas, and each neighbour that is accepted.
#[test]
fn time_rules_beside_zero_deltas() {
    let answer = |positions: &[u32], times: &[i64], first, last| {
        let mut made = four_changes(positions, times);
        (made.first, made.last) = (first, last);
        made.judge().map(|_| ())
    };
    // The first position, whatever follows.
    for below in 0..4 {
        assert_eq!(answer(&[below, 0], &[0, 1], 0, 1), Err(13));
        assert_eq!(answer(&[below, 0, 0, 9], &[0, 0, 0, 0], 0, 1), Err(13));
        assert_eq!(answer(&[below, 4 - below], &[0, 1], 0, 1), Err(13));
        assert_eq!(answer(&[4, below], &[0, 1], 0, 1), Ok(()));
    }
    assert_eq!(answer(&[4, 0, 0, 9], &[0, 0, 0, 0], 0, 1), Ok(()));
    // Each time, also of an entry that never decides: the first and the middle one of a position, and
    // the last above all changes.
    assert_eq!(answer(&[4, 0, 0], &[3, 1, 1], 3, 5), Ok(()));
    assert_eq!(answer(&[4, 0, 0], &[3, 1, 1], 4, 5), Err(13));
    assert_eq!(answer(&[4, 0, 0], &[3, 0, 1], 4, 5), Err(13));
    assert_eq!(answer(&[4, 0, 0], &[3, 1, 1], 5, 5), Err(13));
    assert_eq!(answer(&[4, 0, 0], &[3, 1, 1], 3, 4), Err(13));
    assert_eq!(answer(&[4, 7, 0], &[3, 1, 0], 3, 4), Ok(()));
    assert_eq!(answer(&[4, 7, 0], &[3, 0, 1], 3, 3), Err(13));
    // Equal times at both bounds.
    assert_eq!(answer(&[4, 0, 3], &[7, 0, 0], 7, 7), Ok(()));
    assert_eq!(answer(&[4, 0, 3], &[7, 0, 0], 8, 8), Err(13));
    assert_eq!(answer(&[4, 0, 3], &[7, 0, 0], 6, 6), Err(13));
    let most = i64::from(u32::MAX);
    assert_eq!(answer(&[4, 0, 0], &[most, 0, 0], most, most), Ok(()));
    // Sums past 2^32 behind zeros: they never wrap.
    assert_eq!(answer(&[4, 0, 0], &[most, 0, 1], 0, most), Err(13));
    assert_eq!(answer(&[4, 0, 0], &[5, 0, most], 0, most), Err(13));
    let most = u32::MAX;
    assert_eq!(answer(&[6, 0, most], &[0, 0, 0], 0, 9), Err(13));
    assert_eq!(answer(&[6, most, 0, 0], &[0, 0, 0, 0], 0, 9), Err(13));
    // Positions below T: the last of three entries is at T - 1, at T, or stays at T.
    let end = four_changes(&[4; 3], &[0; 3]).make().end;
    assert_eq!(answer(&[end - 1, 0, 0], &[0, 0, 0], 0, 0), Ok(()));
    assert_eq!(answer(&[end - 1, 0, 1], &[0, 0, 0], 0, 0), Err(13));
    assert_eq!(answer(&[end, 0, 0], &[0, 0, 0], 0, 0), Err(13));
}

// ---- Reals ----

/// The real test of a byte order: byte i, lowest first, of every real is data byte order[i].
fn real_test(order: [usize; 8]) -> [u8; 8] {
    let mut test = [0; 8];
    for (byte, place) in order.iter().enumerate() {
        test[*place] = crate::tables::REAL_TEST[byte];
    }
    test
}

#[test]
fn the_byte_order_of_reals() {
    assert_eq!(
        Ok(f64::from_le_bytes(crate::tables::REAL_TEST)),
        "3.14159".parse()
    );
    let answer = |test| {
        let mut made = plan(
            &[0x00, 0x02, 1, 2, 3, 4, 5, 6, 7, 8],
            &[facility("r", 5, 9, 2, 4)],
        );
        made.real_test = Some(test);
        change(&made.file(), 0, 4, &mut [])
    };
    assert_eq!(
        answer(real_test([0, 1, 2, 3, 4, 5, 6, 7])),
        clean_at_10(Value::Real {
            bits: 0x0807_0605_0403_0201
        })
    );
    assert_eq!(
        answer(real_test([7, 6, 5, 4, 3, 2, 1, 0])),
        clean_at_10(Value::Real {
            bits: 0x0102_0304_0506_0708
        })
    );
    // A 3-cycle, which is not its own inverse: the lowest byte is data byte 1, the next is data
    // byte 2, the third data byte 0.
    let test = real_test([1, 2, 0, 3, 4, 5, 6, 7]);
    assert_eq!(test, [0x1B, 0x6E, 0x86, 0xF0, 0xF9, 0x21, 0x09, 0x40]);
    assert_eq!(
        answer(test),
        clean_at_10(Value::Real {
            bits: 0x0807_0605_0401_0302
        })
    );
    // Read with its own order, the test is 3.14159 again.
    let mut made = plan(&[], &[facility("r", 0, 0, 2, 4)]);
    made.changes = [&[0x0F, 0x02], &test[..]].concat();
    made.real_test = Some(test);
    assert_eq!(
        value_at(&made.file(), 0, 10, &mut []),
        found(
            Value::Real {
                bits: u64::from_le_bytes(crate::tables::REAL_TEST)
            },
            1
        )
    );
    // Wrong byte, byte twice.
    assert_eq!(
        answer([0x6E, 0x86, 0x1B, 0xF0, 0xF9, 0x21, 0x09, 0x41]),
        Err(14)
    );
    assert_eq!(
        answer([0x6E, 0x86, 0x1B, 0xF0, 0xF9, 0x21, 0x09, 0x09]),
        Err(14)
    );
}

#[test]
fn a_real_facility_needs_the_test_with_or_without_changes() {
    let mut made = plan(&[], &[facility("r", 0, 0, 2, 0)]);
    assert_eq!(refused(made.judge()), 14);
    made.real_test = Some(crate::tables::REAL_TEST);
    let file = made.file();
    assert_eq!(value_at(&file, 0, 0, &mut []), found(Value::NotDriven, 0));
    made.nearer_end = vec![(0x08, 0)];
    assert_eq!(refused(made.judge()), 14);
    // At the end, and one byte past it.
    let end = made.make().end;
    made.nearer_end = vec![(0x08, end - 8)];
    assert!(made.judge().is_ok());
    made.nearer_end = vec![(0x08, end - 7)];
    assert_eq!(refused(made.judge()), 14);
    made.nearer_end = vec![(0x08, 3)];
    assert_eq!(refused(made.judge()), 14);
    // At offset 4.
    made.changes = crate::tables::REAL_TEST.to_vec();
    made.nearer_end = vec![(0x08, 4)];
    assert!(made.judge().is_ok());
    // 13 comes before 14.
    made.nearer_end = vec![(0x08, 3)];
    made.first = 11;
    assert_eq!(refused(made.judge()), 13);
}

#[test]
fn all_bits_of_a_real_survive() {
    let nan = 0x7FF4_0000_DEAD_BEEF_u64;
    let mut made = plan(&[], &[facility("r", 0, 0, 2, 4)]);
    made.changes = [&[0x00, 0x02], &nan.to_le_bytes()[..]].concat();
    made.real_test = Some(crate::tables::REAL_TEST);
    let file = made.file();
    assert_eq!(
        change(&file, 0, 4, &mut []),
        clean_at_10(Value::Real { bits: nan })
    );
    assert_eq!(
        dump(&file),
        b"facility 0 r real 0\nchange 0 4 10 7ff40000deadbeef\ndone 1\n"
    );
}

// ---- Changes ----

/// The judgement of one root whose only or newest change is at 4.
fn one_change(changes: &[u8], msb: i32, flags: u32) -> Result<(), u8> {
    let mut made = plan(changes, &[facility("a", msb, 0, flags, 4)]);
    made.real_test = Some(crate::tables::REAL_TEST);
    made.judge().map(|_| ())
}

/// The same where the changes stand last, so that T follows them.
fn one_change_at_end(change: &[u8], msb: i32, flags: u32) -> Result<(), u8> {
    let mut made = plan(&[], &[facility("a", msb, 0, flags, 0)]);
    made.real_test = Some(crate::tables::REAL_TEST);
    let start = made.make().end;
    made.facilities[0].sync = start;
    // The first delta byte is set so that the previous offset is 0.
    made.rest = change.to_vec();
    if let Some(delta) = made.rest.get_mut(1) {
        *delta = start as u8 - 2;
    }
    made.judge().map(|_| ())
}

#[test]
fn commands_by_kind() {
    for command in 0..=0xFF {
        let high = command & 0xC0 != 0;
        let allowed = |good: bool| if good && !high { Ok(()) } else { Err(16) };
        // k delta bytes, of which the last makes the previous offset 0.
        let k = usize::from(command >> 4 & 3) + 1;
        let mut changes = vec![0; 1 + k + 16];
        changes[0] = command;
        changes[k] = 2;
        let low = command & 0x0F;
        assert_eq!(one_change(&changes, 6, 0), allowed(low <= 0x0B));
        assert_eq!(
            one_change(&changes, 0, 1),
            allowed(low == 0 || low == 3 || low == 4)
        );
        assert_eq!(one_change(&changes, 0, 2), allowed(true));
        assert_eq!(one_change(&changes, 0, 4), allowed(true));
    }
}

#[test]
fn flash_commands_and_integers() {
    for (command, symbol) in (3..=0x0B).zip(SYMBOLS) {
        let file = plan(&[command, 0x02], &[facility("a", 2, 0, 0, 4)]).file();
        let expected = String::from_utf8(vec![symbol; 3]).expect("symbols");
        assert_eq!(symbols(&file, 0, 4), expected);
    }
    let file = plan(
        &[0x00, 0x02, 0x80, 0x00, 0x00, 0x05],
        &[facility("a", 0, 0, 1, 4)],
    )
    .file();
    assert_eq!(symbols(&file, 0, 4), "10000000000000000000000000000101");
    let file = plan(&[0x04, 0x02], &[facility("a", 0, 0, 1, 4)]).file();
    assert_eq!(symbols(&file, 0, 4), "1".repeat(32));
    // Integers show the initial symbol at all 32 places and need the room.
    let mut made = plan(&[0x04, 0x02], &[facility("a", 0, 0, 1, 4)]);
    made.initial = Some(8);
    let file = made.file();
    let mut bits = [b'?'; 33];
    assert_eq!(
        value_at(&file, 0, 9, &mut bits),
        found(Value::Bits { width: 32 }, 1)
    );
    assert_eq!(&bits[..32], &[b'-'; 32]);
    assert_eq!(bits[32], b'?');
    assert_eq!(value_at(&file, 0, 9, &mut bits[..31]), Err(21));
}

#[test]
fn start_from_c_to_t_minus_1() {
    let made = plan(&[0x00, 0x00, 0x04, 0x04], &[facility("a", 0, 0, 0, 6)]);
    assert!(made.judge().is_ok());
    for c in [5, 6] {
        let mut later = made.clone();
        later.c = c;
        assert!(later.judge().is_ok());
    }
    let mut later = made.clone();
    later.c = 7;
    assert_eq!(refused(later.judge()), 15);
    for sync in [1, 3, made.make().end, made.make().end + 1, u32::MAX] {
        let mut other = made.clone();
        other.facilities[0].sync = sync;
        assert_eq!(refused(other.judge()), 15);
    }
    // At T - 1 the delta byte would be END itself.
    assert_eq!(one_change_at_end(&[0x03], 0, 0), Err(15));
    assert_eq!(one_change_at_end(&[0x03, 0], 0, 0), Ok(()));
    // The command byte comes before the end: 16 though the change passes T.
    assert_eq!(one_change_at_end(&[0x0C], 0, 0), Err(16));
}

#[test]
fn the_whole_change_ends_before_t() {
    // 9 bits take 2, 3 and 5 bytes; an integer 4, a real 8.
    for (command, msb, flags, length) in [
        (0x00, 8, 0, 2),
        (0x01, 8, 0, 3),
        (0x02, 8, 0, 5),
        (0x0B, 8, 0, 0),
        (0x00, 0, 1, 4),
        (0x03, 0, 1, 0),
        (0x0E, 0, 2, 8),
        (0x0E, 0, 4, 1),
    ] {
        let mut change = vec![0; 2 + length];
        change[0] = command;
        assert_eq!(one_change_at_end(&change, msb, flags), Ok(()));
        change.pop();
        assert_eq!(one_change_at_end(&change, msb, flags), Err(15));
    }
    // For a text a zero before T; it may be the byte before END.
    assert_eq!(one_change_at_end(&[0x00, 0, b'x', 0], 0, 4), Ok(()));
    assert_eq!(one_change_at_end(&[0x00, 0, b'x', b'y'], 0, 4), Err(15));
    // The delta bytes must be before T, too.
    for k in 1..=4_u8 {
        let mut made = plan(&[], &[facility("a", 0, 0, 0, 0)]);
        let start = made.make().end;
        made.facilities[0].sync = start;
        made.rest = vec![0; usize::from(k)];
        made.rest[0] = (k - 1) << 4 | 3;
        assert_eq!(refused(made.judge()), 15);
        made.rest.push(start as u8 - 2);
        assert!(made.judge().is_ok());
    }
    // Whole change (15) before data (16) before previous (15).
    assert_eq!(one_change_at_end(&[0x02, 0, 0x89], 3, 0), Err(15));
    assert_eq!(one_change_at_end(&[0x02, 0, 0x89, 0x88], 3, 0), Err(16));
    assert_eq!(one_change(&[0x02, 0xFF, 0x89], 1, 0), Err(16));
    assert_eq!(one_change(&[0x02, 0xFF, 0x88], 1, 0), Err(15));
    // Rubbish in the padding is no fault, so the previous offset is looked at.
    assert_eq!(one_change(&[0x00, 0xFF, 0x01], 6, 0), Err(15));
}

#[test]
fn codes_are_at_most_8() {
    for width in 1..=5_usize {
        for place in 0..width {
            for code in 0..16_u8 {
                let mut changes = vec![2, 2];
                changes.extend(vec![0; width.div_ceil(2)]);
                changes[2 + place / 2] = code << (4 - 4 * (place % 2));
                let expected = if code <= 8 { Ok(()) } else { Err(16) };
                assert_eq!(one_change(&changes, width as i32 - 1, 0), expected);
                // Rubbish in the unused nibble of an odd width helps nothing.
                *changes.last_mut().expect("data") |= if width % 2 == 1 { 0x0F } else { 0 };
                assert_eq!(one_change(&changes, width as i32 - 1, 0), expected);
            }
        }
    }
}

// ---- Padding (Ask 6) ----

/// The file of the examples 6-A to 6-K: facility "a", one change at 4 with the previous offset 0.
fn padded(width: u32, command: u8, data: &[u8]) -> Vec<u8> {
    let mut file = vec![0x01, 0x38, 0x00, 0x04, command, 0x02];
    file.extend(data);
    let mut starts = Vec::new();
    let sections: [(u8, &[u32]); 4] = [
        (3, &[1, 2, 0x0000_6100]),
        (4, &[0, width - 1, 0, 0]),
        (2, &[4]),
        // m, first, last, the position 4, the time 7
        (6, &[1, 0, 9, 4, 7]),
    ];
    for (tag, words) in sections {
        starts.push((tag, file.len() as u32));
        for word in words {
            file.extend(word.to_be_bytes());
        }
    }
    starts.push((1, 4));
    starts.sort_unstable();
    file.push(0);
    for (tag, start) in starts {
        file.extend(start.to_be_bytes());
        file.push(tag);
    }
    file.push(0xB4);
    file
}

#[test]
fn examples_6_a_to_6_k() {
    let first = "01380004000260000000010000000200006100000000000000000200000000000000000000000400000001\
                 000000000000000900000004000000070000000004010000002302000000070300000013040000002706b4";
    let first: Vec<u8> = (0..first.len() / 2)
        .map(|at| u8::from_str_radix(&first[2 * at..2 * at + 2], 16).expect("hexadecimal"))
        .collect();
    assert_eq!(padded(3, 0x00, &[0x60]), first);

    // Width, command byte and data; the symbols and whether the padding is clean, or the refusal.
    type Example = (u32, u8, &'static [u8], Result<(&'static str, bool), u8>);
    let examples: [Example; 11] = [
        (3, 0x00, &[0x60], Ok(("011", true))),
        (3, 0x00, &[0x7F], Ok(("011", false))),
        (1, 0x00, &[0x01], Ok(("0", false))),
        (8, 0x00, &[0x01], Ok(("00000001", true))),
        (3, 0x01, &[0xB4], Ok(("ZX1", true))),
        (3, 0x01, &[0xB7], Ok(("ZX1", false))),
        (3, 0x02, &[0x01, 0x20], Ok(("01Z", true))),
        (3, 0x02, &[0x01, 0x2F], Ok(("01Z", false))),
        (3, 0x02, &[0x01, 0x9F], Err(16)),
        (3, 0x07, &[], Ok(("HHH", true))),
        (3, 0x40, &[0x60], Err(16)),
    ];
    for ((width, command, data, expected), letter) in examples.into_iter().zip('A'..) {
        let file = padded(width, command, data);
        let mut bits = vec![b'?'; width as usize + 1];
        let read = change(&file, 0, 4, &mut bits);
        let (symbols, clean) = match expected {
            Ok(expected) => expected,
            Err(number) => {
                assert_eq!(
                    (read, judge(&file)),
                    (Err(number), Err(number)),
                    "6-{letter}"
                );
                assert_eq!(dump(&file), format!("refused {number}\n").into_bytes());
                // Carrying on refuses the same record by 20.
                let carried = carry_on(&file, &mut [0], &mut [4], &mut [0; 2], 1);
                assert_eq!(carried, Err(20), "6-{letter}");
                continue;
            }
        };
        let value = Value::Bits { width };
        let (time, end) = (7, 58 + data.len() as u32);
        assert_eq!(read, Ok(Changed { time, value, clean }), "6-{letter}");
        assert_eq!(bits, format!("{symbols}?").into_bytes(), "6-{letter}");
        let summary = Summary {
            facilities: 1,
            changes: 4,
            end,
            timescale: -9,
            initial: 3,
            clean,
        };
        assert_eq!(judge(&file), Ok(summary), "6-{letter}");

        // The value at a time, the walk and the program show the symbols and no rubbish.
        bits.fill(b'?');
        let lookup = value_at(&file, 0, 7, &mut bits);
        assert_eq!(lookup, found(value, 1), "6-{letter}");
        assert_eq!(bits, format!("{symbols}?").into_bytes(), "6-{letter}");
        assert_eq!(walk(&file, &[1], 2), (vec![(0, 4)], true), "6-{letter}");
        let printed = format!("facility 0 a bits {width}\nchange 0 4 7 {symbols}\ndone 1\n");
        assert_eq!(dump(&file), printed.into_bytes(), "6-{letter}");
    }
}

/// Each bit of the data of each packing by itself: an unused one makes the change dirty and shows in
/// no symbol.
#[test]
fn every_unused_bit_is_looked_at_and_no_other() {
    for width in 1..=9 {
        for (command, symbol) in [(0, 1), (1, 2), (2, 4)] {
            let used = (width * symbol) as usize;
            let length = used.div_ceil(8);
            for bit in 0..8 * length {
                let mut data = vec![0; length];
                data[bit / 8] |= 0x80 >> (bit % 8);
                let file = padded(width, command, &data);
                let clean = bit < used;
                assert_eq!(judge(&file).map(|it| it.clean), Ok(clean));
                let mut bits = [b'?'; 9];
                let read = change(&file, 0, 4, &mut bits).expect("a change");
                assert_eq!(read.clean, clean);
                let code = 1 << (symbol as usize - 1 - bit % symbol as usize);
                let mut expected = vec![b'0'; width as usize];
                if let Some(shown) = expected.get_mut(bit / symbol as usize) {
                    *shown = SYMBOLS[code];
                }
                assert_eq!(bits[..width as usize], expected);
            }
        }
    }
    // Every byte as the last one, where the used nibble is a code.
    for byte in 0..=0xFF {
        let file = padded(3, 0x02, &[0x01, byte]);
        let expected = if byte >> 4 > 8 {
            Err(16)
        } else {
            Ok(byte & 0x0F == 0)
        };
        assert_eq!(judge(&file).map(|it| it.clean), expected);
    }
}

/// 6.2: what has no unused bits is clean whatever its bytes are, and so is a file without changes.
#[test]
fn what_has_no_padding_is_clean() {
    let mut made = plan(
        &[
            // a real, a text, an integer, bits of width 8, 4 and 2 in the three packings
            &[0x0F, 0x02, 0xFF, 0xFF, 0xFF, 0xFF, 0xFF, 0xFF, 0xFF, 0xFF][..],
            &[0x00, 0x0C, 0xFF, 0x01, 0x00],
            &[0x00, 0x11, 0xFF, 0xFF, 0xFF, 0xFF],
            &[0x00, 0x17, 0xFF],
            &[0x01, 0x1A, 0xFF],
            &[0x02, 0x1D, 0x88],
        ]
        .concat(),
        &[
            facility("r", 0, 0, 2, 4),
            facility("t", 0, 0, 4, 14),
            facility("i", 0, 0, 1, 19),
            facility("eight", 7, 0, 0, 25),
            facility("four", 3, 0, 0, 28),
            facility("two", 1, 0, 0, 31),
        ],
    );
    made.real_test = Some(crate::tables::REAL_TEST);
    let file = made.file();
    assert_eq!(judge(&file).map(|it| it.clean), Ok(true));
    for (number, chain) in chains(&file).expect("chains").into_iter().enumerate() {
        let read = change(&file, number as u32, chain[0], &mut [0; 32]);
        assert_eq!(read.map(|it| it.clean), Ok(true));
    }
    assert_eq!(plan(&[], &[]).judge().map(|it| it.clean), Ok(true));
    let none = plan(&[0x00, 0x02, 0xFF], &[facility("a", 0, 0, 0, 0)]);
    assert_eq!(none.judge().map(|it| it.clean), Ok(true));
}

/// Two roots of three bits with two changes each, at 4 and 10 and at 7 and 13; an alias; and rubbish of
/// the data bytes.
fn padded_chains(rubbish: [u8; 4]) -> Plan {
    let mut changes = vec![0x00, 0x02, 0x40, 0x00, 0x05, 0x80];
    changes.extend([0x00, 0x04, 0xA0, 0x00, 0x04, 0xE0]);
    for (place, rubbish) in rubbish.into_iter().enumerate() {
        changes[3 * place + 2] |= rubbish;
    }
    plan(
        &changes,
        &[
            facility("a", 2, 0, 0, 10),
            alias("b", 2),
            facility("c", 2, 0, 0, 13),
        ],
    )
}

/// 6.6: on the chains of all roots, newest to oldest; each change says it of itself.
#[test]
fn clean_is_of_every_change_of_every_root() {
    for dirty in 0..16_u8 {
        let rubbish = [0, 1, 2, 3].map(|place| (dirty >> place & 1) << place);
        let file = padded_chains(rubbish).file();
        assert_eq!(judge(&file).map(|it| it.clean), Ok(dirty == 0));
        for (place, symbols_there) in ["010", "100", "101", "111"].into_iter().enumerate() {
            let (root, offset) = (2 * (place as u32 % 2), 4 + 3 * place as u32);
            let read = change(&file, root, offset, &mut [0; 3]).expect("a change");
            assert_eq!(read.clean, rubbish[place] == 0);
            assert_eq!(symbols(&file, root, offset), symbols_there);
            if root == 2 {
                assert_eq!(change(&file, 1, offset, &mut [0; 3]), Ok(read), "the alias");
            }
        }
        // 6.4: walks of any size hand out all four.
        let all = vec![(2, 13), (0, 10), (2, 7), (0, 4)];
        assert_eq!(walk(&file, &[1; 3], 4), (all, true));
        assert_eq!(walk(&file, &[1, 0, 0], 1), (vec![(0, 10)], false));
    }
    // Out of reach: chains cut above the dirty change, a sync entry of 0, that of an alias, a gap.
    let mut cut = padded_chains([0, 0x1F, 0, 0]);
    assert_eq!(cut.judge().map(|it| it.clean), Ok(false));
    cut.changes[10] = 11;
    assert_eq!(cut.judge().map(|it| it.clean), Ok(true));
    let mut unused = padded_chains([0, 0x1F, 0, 0]);
    unused.facilities[1].sync = 7;
    unused.facilities[2].sync = 0;
    assert_eq!(unused.judge().map(|it| it.clean), Ok(true));
    let mut gap = padded_chains([0; 4]);
    gap.changes.extend([0x00, 0x0E, 0xFF]);
    assert_eq!(gap.judge().map(|it| it.clean), Ok(true));
}

/// 6.7: files that rubbish refused by 16 before now come to 17, and to the faults of a later change.
#[test]
fn rubbish_hides_no_later_refusal() {
    // Both roots reach the dirty change at 13.
    let mut met = padded_chains([1, 1, 1, 1]);
    met.facilities[0].sync = 13;
    assert_eq!(refused(met.judge()), 17);
    // The dirty byte of the newest change is the command byte of another root's.
    let mut shared = padded_chains([1, 0, 0, 0x13]);
    assert_eq!(shared.judge().map(|it| it.clean), Ok(false));
    shared.changes[11] = 0x13;
    shared.changes.extend([0x00, 0x0D]);
    shared.facilities.push(facility("d", 2, 0, 0, 15));
    assert_eq!(refused(shared.judge()), 17);
    // The same change one byte further on shares nothing.
    shared.changes.truncate(12);
    shared.changes.extend([0x13, 0x00, 0x0E]);
    shared.facilities[3].sync = 16;
    assert_eq!(shared.judge().map(|it| it.clean), Ok(false));
    // A dirty change of the first root, then a command byte (16) or a start (15) of the other.
    let mut later = padded_chains([1, 0, 0, 0]);
    later.changes[9] = 0x0C;
    assert_eq!(refused(later.judge()), 16);
    later = padded_chains([1, 0, 0, 0]);
    later.facilities[2].sync = 3;
    assert_eq!(refused(later.judge()), 15);
}

#[test]
fn texts_are_parts_of_the_file() {
    let made = plan(
        &[0x0C, 0x02, 0x00, 0x0D, 0x01, b'h', 0xFF, 0x00],
        &[facility("t", 0, 0, 4, 7)],
    );
    let file = made.file();
    assert_eq!(
        change(&file, 0, 7, &mut []),
        clean_at_10(Value::Text {
            start: 9,
            length: 2
        })
    );
    assert_eq!(
        change(&file, 0, 4, &mut []),
        clean_at_10(Value::Text {
            start: 6,
            length: 0
        })
    );
    assert_eq!(value_at(&file, 0, 9, &mut []), found(Value::NotDriven, 2));
    assert_eq!(
        dump(&file),
        b"facility 0 t text 0\nchange 0 7 10 68ff\nchange 0 4 10 \ndone 2\n"
    );
}

#[test]
fn previous_0_ends_the_chain_also_where_c_is_above_4() {
    let mut made = plan(
        &[0, 0, 0, 0, 0x03, 0x06, 0x04, 0x08],
        &[facility("a", 0, 0, 0, 10)],
    );
    made.c = 8;
    assert_eq!(full_list(&made.file(), &[1]), Ok(vec![(0, 10)]));
    // Previous 8 is C, 7 is below it.
    made.changes[7] = 0;
    assert_eq!(full_list(&made.file(), &[1]), Ok(vec![(0, 10), (0, 8)]));
    for delta in 1..=7 {
        made.changes[7] = delta;
        assert_eq!(refused(made.judge()), 15);
    }
    made.changes[7] = 9;
    assert_eq!(refused(made.judge()), 15);
}

#[test]
fn roots_in_order_newest_change_first() {
    // Root 0: a newest change that is sound and an older one with bit 7 (16). Root 1: at T (15).
    let mut made = plan(
        &[0x83, 0x02, 0x03, 0x00],
        &[facility("a", 0, 0, 0, 6), facility("b", 0, 0, 0, 0xFFFF)],
    );
    assert_eq!(refused(made.judge()), 16);
    made.facilities.swap(0, 1);
    assert_eq!(refused(made.judge()), 15);
    // 17 only after all of 15 and 16: roots 0 and 1 share a change, root 2 has a fault.
    let mut made = plan(
        &[0x03, 0x02, 0x43, 0x04],
        &[
            facility("a", 0, 0, 0, 4),
            facility("b", 0, 0, 0, 4),
            facility("c", 0, 0, 0, 6),
        ],
    );
    assert_eq!(refused(made.judge()), 16);
    made.changes[2] = 0x03;
    assert_eq!(refused(made.judge()), 17);
    made.facilities[1].sync = 0;
    assert!(made.judge().is_ok());
    // An alias's sync entry is no chain.
    made.facilities[1] = alias("b", 0);
    made.facilities[1].sync = 4;
    assert!(made.judge().is_ok());
    // Roots that meet with another width are two changes as well.
    made.facilities[1] = facility("b", 3, 0, 0, 4);
    assert_eq!(refused(made.judge()), 17);
}

#[test]
fn changes_share_no_byte() {
    // A text at 4 to 8 and a change right behind it, or on its zero.
    let mut made = plan(
        &[0x00, 0x02, b'x', b'y', 0x00, 0x03, 0x07],
        &[facility("t", 0, 0, 4, 4), facility("b", 0, 0, 0, 9)],
    );
    assert!(made.judge().is_ok());
    made.changes = vec![0x00, 0x02, b'x', b'y', 0x00, 0x06, 0x80];
    made.facilities[1].sync = 8;
    assert_eq!(refused(made.judge()), 17);
    // Data of one root that hold a change of the same root.
    let made = plan(
        &[0x00, 0x02, 0x03, 0x00, 0x00, 0x00],
        &[facility("i", 0, 0, 1, 6)],
    );
    assert_eq!(refused(made.judge()), 17);
}

// ---- Questions and the walk ----

/// Two roots and two aliases; facility 3 is a root with two changes, facility 1 one with one.
fn four_facilities() -> Plan {
    plan(
        &[0x03, 0x02, 0x04, 0x04, 0x04, 0x02],
        &[
            alias("a", 2),
            facility("b", 1, 0, 0, 6),
            alias("c", 3),
            facility("d", 0, 0, 0, 8),
        ],
    )
}

#[test]
fn questions_are_refused_in_order_and_change_nothing() {
    let file = four_facilities().file();
    let mut bits = [b'?'; 1];
    // 18 before 19 before 21.
    assert_eq!(change(&file, 4, 5, &mut bits), Err(18));
    assert_eq!(change(&file, 1, 4, &mut bits), Err(19));
    assert_eq!(change(&file, 1, 0, &mut bits), Err(19));
    assert_eq!(change(&file, 1, 6, &mut bits), Err(21));
    assert_eq!(value_at(&file, 1, 0, &mut bits), Err(21));
    assert_eq!(bits, [b'?']);
    let mut names = [b'?'; 1_022];
    assert_eq!(name(&file, 0, &mut names), Err(21));
    assert_eq!(names, [b'?'; 1_022]);
    // A start: 21 before 22; asked bytes must be exactly n.
    let (mut numbers, mut offsets) = ([7; 5], [9; 5]);
    assert_eq!(
        start_walk(&file, &[], &mut numbers[..3], &mut offsets[..3]),
        Err(21)
    );
    for length in [0, 3, 5] {
        assert_eq!(
            start_walk(&file, &vec![1; length], &mut numbers, &mut offsets),
            Err(22)
        );
    }
    assert_eq!((numbers, offsets), ([7; 5], [9; 5]));
    // The file comes first.
    assert_eq!(start_walk(&[], &[], &mut [], &mut []), Err(1));
    assert_eq!(facts(&file[1..], u32::MAX), Err(2));
}

#[test]
fn an_alias_asks_for_its_root() {
    let file = four_facilities().file();
    let record = |asked: &[u8]| {
        let (mut numbers, mut offsets) = ([7; 5], [9; 5]);
        start_walk(&file, asked, &mut numbers, &mut offsets).expect("a start");
        assert_eq!(numbers, [0, 1, 2, 3, 7], "pairs past n stay");
        assert_eq!(offsets[4], 9, "pairs past n stay");
        [offsets[0], offsets[1], offsets[2], offsets[3]]
    };
    assert_eq!(record(&[0, 0, 0, 0]), [0, 0, 0, 0]);
    assert_eq!(record(&[255, 0, 0, 0]), [0, 0, 0, 8]);
    assert_eq!(record(&[0, 0, 1, 1]), [0, 0, 0, 8]);
    assert_eq!(record(&[0, 2, 0, 0]), [0, 6, 0, 0]);
    assert_eq!(record(&[1, 1, 1, 1]), [0, 6, 0, 8]);
    assert_eq!(
        walk(&file, &[1; 4], 3),
        (vec![(3, 8), (1, 6), (3, 4)], true)
    );
    assert_eq!(walk(&file, &[1; 4], 2), (vec![(3, 8), (1, 6)], false));
}

#[test]
fn carrying_on_step_by_step() {
    let file = four_facilities().file();
    let (mut numbers, mut offsets) = ([0; 4], [0; 4]);
    start_walk(&file, &[1; 4], &mut numbers, &mut offsets).expect("a start");
    let mut output = [55; 5];
    let mut step = |offsets: &mut [u32; 4], output: &mut [u32; 5], size| {
        carry_on(&file, &mut numbers, offsets, output, size)
    };
    // Size 0 hands out none and answers done truthfully.
    assert_eq!(step(&mut offsets, &mut output, 0), Ok((0, false)));
    assert_eq!((offsets, output), ([0, 6, 0, 8], [55; 5]));
    // Output shorter than 2s numbers.
    assert_eq!(step(&mut offsets, &mut output, 3), Err(21));
    assert_eq!((offsets, output), ([0, 6, 0, 8], [55; 5]));
    assert_eq!(step(&mut offsets, &mut output, 1), Ok((1, false)));
    assert_eq!((offsets, output), ([0, 6, 0, 4], [3, 8, 55, 55, 55]));
    // Exactly the rest: done. Output past the pairs written stays.
    assert_eq!(step(&mut offsets, &mut output, 2), Ok((2, true)));
    assert_eq!((offsets, output), ([0; 4], [1, 6, 3, 4, 55]));
    assert_eq!(step(&mut offsets, &mut output, 2), Ok((0, true)));
    assert_eq!(step(&mut offsets, &mut output, 0), Ok((0, true)));
    assert_eq!((offsets, output), ([0; 4], [1, 6, 3, 4, 55]));
}

#[test]
fn carrying_on_checks_the_record() {
    let file = four_facilities().file();
    let attempt = |numbers: &[u32], offsets: &[u32], size: u64| {
        let (mut new_numbers, mut new_offsets) = (numbers.to_vec(), offsets.to_vec());
        let mut output = [55; 4];
        let answer = carry_on(&file, &mut new_numbers, &mut new_offsets, &mut output, size);
        if answer.is_err() {
            assert_eq!((&new_numbers[..], &new_offsets[..]), (numbers, offsets));
            assert_eq!(output, [55; 4]);
        }
        answer
    };
    let sound = [0, 1, 2, 3];
    assert_eq!(attempt(&sound, &[0, 6, 0, 8], 2), Ok((2, false)));
    // Fewer than n pairs is 21 and is tested before 20; 20 comes before the output's 21.
    assert_eq!(attempt(&[9, 9, 9], &[5, 5, 5], 2), Err(21));
    assert_eq!(attempt(&[0, 1, 2, 2], &[0; 4], 9), Err(20));
    assert_eq!(attempt(&sound, &[0, 6, 0, 8], 9), Err(21));
    // Pair i must hold number i, also of an alias and with nothing pending.
    for place in 0..4 {
        let mut numbers = sound;
        numbers[place] += 1;
        assert_eq!(attempt(&numbers, &[0; 4], 0), Err(20));
    }
    // Pairs past n are not looked at.
    assert_eq!(
        attempt(&[0, 1, 2, 3, 0], &[0, 0, 0, 0, 77], 0),
        Ok((0, true))
    );
    // A pending offset of an alias.
    assert_eq!(attempt(&sound, &[4, 0, 0, 0], 0), Err(20));
    assert_eq!(attempt(&sound, &[0, 0, 4, 0], 0), Err(20));
    // One that is not on the root's own chain but reads well downwards.
    assert_eq!(attempt(&sound, &[0, 8, 0, 0], 2), Ok((2, true)));
    // Chains downwards that break 15 or 16.
    for offset in [1, 3, 5, u32::MAX] {
        assert_eq!(attempt(&sound, &[0, offset, 0, 0], 0), Err(20));
    }
}

#[test]
fn what_a_record_leads_to() {
    let file = four_facilities().file();
    let tables = Tables::new(&file).expect("tables");
    assert_eq!((tables.facilities(), tables.changes()), (4, 4));
    let downwards = tables.downwards();
    let rest = |offsets: [u32; 4]| {
        let record = [0, 1, 2, 3].map(|it| (it, offsets[it as usize]));
        downwards.rest(&record)
    };
    assert_eq!(rest([0; 4]), Ok(vec![]));
    assert_eq!(rest([0, 6, 0, 8]), Ok(vec![(3, 8), (1, 6), (3, 4)]));
    assert_eq!(rest([0, 8, 0, 8]), Ok(vec![(1, 8), (3, 8), (1, 4), (3, 4)]));
    assert_eq!(rest([0, 0, 6, 0]), Err(RecordFault::PendingOfAlias));
    let broken = |offset| rest([0, offset, 0, 0]);
    let end = tables.end();
    assert_eq!(broken(3), Err(RecordFault::Chain(Fault::StartBelowC)));
    assert_eq!(broken(end), Err(RecordFault::Chain(Fault::StartFromT)));
    // At 5 stand 02 04 04: two symbols of 4 bits, and the previous offset -1.
    assert_eq!(broken(5), Err(RecordFault::Chain(Fault::PreviousBelow0)));
    let swapped = [(1, 0), (0, 0), (2, 0), (3, 0)];
    assert_eq!(downwards.rest(&swapped), Err(RecordFault::WrongNumber));
    // Of a chain that breaks further down, what is above.
    assert_eq!(downwards.sound_part(3, 8), (vec![8, 4], None));
    let mut made = four_facilities();
    made.changes[0] = 0x43;
    let file = made.file();
    let tables = Tables::new(&file).expect("tables");
    let downwards = tables.downwards();
    assert_eq!(downwards.chain(3, 8), Err(Fault::HighBits));
    assert_eq!(downwards.sound_part(3, 8), (vec![8], Some(Fault::HighBits)));
}

#[test]
fn of_equal_offsets_the_lowest_facility_goes_first() {
    // Carrying on over a file that 17 refuses is legal.
    let mut made = four_facilities();
    made.facilities[0] = facility("a", 0, 0, 0, 8);
    let file = made.file();
    assert_eq!(judge(&file), Err(17));
    let mut numbers = [0, 1, 2, 3];
    let mut offsets = [8, 8, 0, 8];
    let mut output = [0; 12];
    assert_eq!(
        carry_on(&file, &mut numbers, &mut offsets, &mut output, 5),
        Ok((5, false))
    );
    assert_eq!(output[..10], [0, 8, 1, 8, 3, 8, 0, 4, 1, 4]);
    assert_eq!(offsets, [0, 0, 0, 4]);
    // So it is over one that 15 or 16 refuses, where the record is sound.
    made.facilities[1].sync = 5;
    let file = made.file();
    assert_eq!(judge(&file), Err(15));
    assert_eq!(
        carry_on(&file, &mut numbers, &mut offsets, &mut output, 5),
        Ok((1, true))
    );
    // Checks 1 to 14 are made.
    made.first = 99;
    assert_eq!(
        carry_on(&made.file(), &mut [], &mut [], &mut output, 5),
        Err(13)
    );
}

#[test]
fn a_second_walk_that_asks_for_more_holds_the_first() {
    let file = four_facilities().file();
    let less = full_list(&file, &[0, 0, 1, 0]).expect("a list");
    let more = full_list(&file, &[1, 1, 0, 0]).expect("a list");
    let kept: Vec<_> = more.into_iter().filter(|(root, _)| *root == 3).collect();
    assert_eq!(kept, less);
}

// ---- The small program ----

#[test]
fn the_small_program_leaves_empty_names_in_their_place() {
    let file = plan(&[0x03, 0x02], &[facility("", 0, 0, 0, 4)]).file();
    assert_eq!(
        dump(&file),
        b"facility 0  bits 1\nchange 0 4 10 0\ndone 1\n"
    );
}

#[test]
fn the_small_program_prints_only_the_refusal() {
    assert_eq!(dump(&[]), b"refused 1\n");
    assert_eq!(dump(&[0x01, 0x38, 0x00, 0x04, 0x00, 0xB4]), b"refused 7\n");
    let mut made = plan(&[0x03, 0x02], &[facility("", 0, 0, 0, 4)]);
    let length = made.file().len();
    made.rest = vec![0; 65_536 - length];
    let mut file = made.file();
    assert_eq!(file.len(), 65_536);
    assert!(dump(&file).starts_with(b"facility"));
    // One byte longer it is refused here, though the reader takes it.
    made.rest.push(0);
    file = made.file();
    assert!(judge(&file).is_ok());
    assert_eq!(dump(&file), b"refused 1\n");
}
