//! Stray bytes: each sentence of the definition in a small file, with the count worked out by hand.

use super::*;

/// One facility of one bit with changes at 4 and 6, then the tables without gaps, then so many bytes of
/// rest up to T.
fn with_rest(rest: &[u8]) -> Plan {
    let mut made = plan(&[0x04, 0x02, 0x03, 0x00], &[facility("a", 0, 0, 0, 6)]);
    made.rest = rest.to_vec();
    made
}

/// Puts bytes into a file behind its changes: sections from there on move.
fn with_bytes_at(file: &[u8], at: u32, bytes: &[u8]) -> Vec<u8> {
    let mut file = file.to_vec();
    let mut tag = file.len() - 2;
    while file[tag] != 0 {
        let value = word_at(&file, tag - 4);
        if value >= at {
            set_word(&mut file, tag - 4, value + bytes.len() as u32);
        }
        tag -= 5;
    }
    let at = at as usize;
    file.splice(at..at, bytes.iter().copied());
    file
}

fn word_at(file: &[u8], at: usize) -> u32 {
    u32::from_be_bytes([file[at], file[at + 1], file[at + 2], file[at + 3]])
}

#[test]
fn files_without_gaps_have_none() {
    assert_eq!(stray_bytes(&small_trace()), Ok(0));
    let file = small_trace_09(-5, 5, &[4, 2], &[-5, 10]);
    assert_eq!(stray_bytes(&file), Ok(0));
    assert_eq!(stray_bytes(&with_rest(&[]).file()), Ok(0));
    // No entries: the tables of times are 12 and 20 bytes.
    for times_tag in [0x06, 0x09] {
        let mut made = plan(&[], &[facility("a", 0, 0, 0, 0)]);
        made.times_tag = times_tag;
        (made.positions, made.times) = (vec![], vec![]);
        assert_eq!(stray_bytes(&made.file()), Ok(0));
    }
    // Every kind, an alias, and all sections.
    let mut changes = vec![0x00, 0x02, 0x80]; // at 4: three bits
    changes.extend([0x10, 0x00, 0x05, 1, 2, 3, 4]); // at 7: an integer, two delta bytes
    changes.extend([0x05, 0x0C, 1, 2, 3, 4, 5, 6, 7, 8]); // at 14: a real
    changes.extend([0x05, 0x16, b'h', b'i', 0]); // at 24: a text
    let mut made = plan(
        &changes,
        &[
            facility("bits", 2, 0, 0, 4),
            facility("integer", 0, 0, 1, 7),
            facility("real", 0, 0, 2, 14),
            facility("text", 0, 0, 4, 24),
            alias("alias", 0),
        ],
    );
    made.facilities[1].prefix = 2;
    made.real_test = Some(REAL_TEST_BYTES);
    (made.timescale, made.initial) = (Some(0), Some(0));
    assert_eq!(stray_bytes(&made.file()), Ok(0));
}

const REAL_TEST_BYTES: [u8; 8] = [0x6E, 0x86, 0x1B, 0xF0, 0xF9, 0x21, 0x09, 0x40];

#[test]
fn a_refused_file_has_its_refusal() {
    let mut file = small_trace();
    file[7] = 1;
    assert_eq!(stray_bytes(&file), Err(15));
    assert_eq!(stray_bytes(&[]), Err(1));
    assert_eq!(stray_bytes(&[0x01, 0x38, 0, 4, 0, 0xB4]), Err(7));
}

#[test]
fn gaps_at_every_place() {
    for count in [0, 1, 5] {
        let gap = vec![0xEE; count];
        let stray = Ok(count as u32);
        // Before END.
        assert_eq!(stray_bytes(&with_rest(&gap).file()), stray);
        // Between the changes and the names, behind the names and each other table.
        let made = with_rest(&[]).make();
        for at in [made.names, made.geometry, made.sync, made.times, made.end] {
            let file = with_bytes_at(&made.file, at, &gap);
            assert_eq!(stray_bytes(&file), stray, "{at}");
        }
        // Before the first change, for each C from 4 up to it.
        let first = 4 + count as u32;
        let mut changes = gap.clone();
        changes.extend([0x04, first as u8 - 2]);
        for c in 4..=first {
            let mut made = plan(&changes, &[facility("a", 0, 0, 0, first)]);
            made.c = c;
            assert_eq!(stray_bytes(&made.file()), stray);
        }
        // Between two changes.
        let mut changes = vec![0x04, 0x02];
        changes.extend(&gap);
        changes.extend([0x03, count as u8]);
        let made = plan(&changes, &[facility("a", 0, 0, 0, 6 + count as u32)]);
        assert_eq!(stray_bytes(&made.file()), stray);
    }
}

#[test]
fn a_change_that_no_root_leads_to_is_none() {
    // The newer change ends the chain, so the older one of 2 bytes is stray.
    let mut file = small_trace();
    file[7] = 4;
    assert_eq!(stray_bytes(&file), Ok(2));
    // The sync entry leads to the older one; to none of both.
    let mut file = small_trace();
    file[0x27] = 4;
    assert_eq!(stray_bytes(&file), Ok(2));
    file[0x27] = 0;
    assert_eq!(stray_bytes(&file), Ok(4));
    // An alias's sync entry leads to nothing: of its text, 2 + 5 bytes.
    let changes = [0x00, 0x02, b't', b'e', b'x', b't', 0];
    let mut made = plan(&changes, &[facility("a", 0, 0, 4, 4), alias("b", 0)]);
    assert_eq!(stray_bytes(&made.file()), Ok(0));
    made.facilities[0].sync = 0;
    made.facilities[1].sync = 4;
    assert_eq!(stray_bytes(&made.file()), Ok(7));
}

#[test]
fn without_facilities_there_are_no_changes_and_no_names() {
    // The four bytes of changes, and what were a name, geometry and a sync entry: 4, 4 + 16 and 4.
    let mut made = with_rest(&[]).make();
    let names = made.names as usize;
    set_word(&mut made.file, names, 0);
    assert_eq!(stray_bytes(&made.file), Ok(4 + 4 + 16 + 4));
    // Tables of no bytes lie anywhere, at T too.
    let made = plan(&[], &[]).make();
    assert_eq!(stray_bytes(&made.file), Ok(0));
    for tag in [0x02, 0x04] {
        let file = with_item(&made.file, tag, made.end);
        assert_eq!(stray_bytes(&file), Ok(0));
    }
}

#[test]
fn shared_bytes_are_no_stray_bytes_and_count_once() {
    // Bytes of 05 and 07 in a rest of 9, which starts at 60, in a change (5) and in the names (9).
    for (fifth, seventh, stray) in [
        (60, 60, 8),
        (60, 61, 7),
        (60, 68, 7),
        (68, 68, 8),
        (5, 68, 8),
        (63, 9, 8),
        (5, 9, 9),
        (5, 5, 9),
    ] {
        let mut made = with_rest(&[1; 9]);
        assert_eq!(made.make().end, 60 + 9);
        made.nearer_end = vec![(0x05, fifth), (0x07, seventh)];
        assert_eq!(stray_bytes(&made.file()), Ok(stray), "{fifth} {seventh}");
    }
    // A facility of one bit without changes: names, geometry and sync in zeros that they share. The names
    // have 11 bytes, of which the last three are the first of the geometry.
    let made = plan(&[], &[facility("", 0, 0, 0, 0)]).make();
    let geometry = made.names + 8;
    let file = with_item(&made.file, 0x04, geometry);
    // 13 bytes of the geometry lie behind the names, the last 3 of its old place are stray.
    assert_eq!(stray_bytes(&file), Ok(3));
    let file = with_item(&file, 0x02, geometry);
    // The old sync entry too.
    assert_eq!(stray_bytes(&file), Ok(3 + 4));
}

#[test]
fn changes_within_bodies() {
    // Both changes lie in a section 14 of 8 bytes, with 4 bytes around them: none is stray.
    let changes = [0xEE, 0x04, 0x03, 0xEE, 0xEE, 0x03, 0x02, 0xEE];
    let mut made = plan(&changes, &[facility("a", 0, 0, 0, 9)]);
    assert_eq!(stray_bytes(&made.file()), Ok(4));
    made.nearer_end = vec![(0x14, 4)];
    assert_eq!(stray_bytes(&made.file()), Ok(0));
    // From 5 on it leaves byte 4, and its last byte is one of the names.
    made.nearer_end = vec![(0x14, 5)];
    assert_eq!(stray_bytes(&made.file()), Ok(1));
    // From 3 on it is no section.
    made.nearer_end = vec![(0x14, 3)];
    assert_eq!(stray_bytes(&made.file()), Ok(4));
}

/// The stray bytes of a file with a rest of 30 zeros before T, and this item beside a section list that
/// has none of the tag. The value is from T.
fn of_rest(tag: u8, from_end: i64) -> u32 {
    let mut made = with_rest(&[0; 30]);
    let end = i64::from(made.make().end);
    made.nearer_end = vec![(tag, (end + from_end) as u32)];
    stray_bytes(&made.file()).expect("an accepted file")
}

#[test]
fn bodies_of_eight_bytes_at_the_ends() {
    for tag in [0x08, 0x14] {
        assert_eq!(of_rest(tag, -30), 22);
        assert_eq!(of_rest(tag, -20), 22);
        assert_eq!(of_rest(tag, -8), 22);
        // One past T, and farther.
        for from_end in [-7, -1, 0, 1, 1_000] {
            assert_eq!(of_rest(tag, from_end), 30);
        }
        // Over the last five bytes of the times.
        assert_eq!(of_rest(tag, -35), 27);
        // Absent: by no item, or by a 0 nearer END.
        let mut made = with_rest(&[0; 30]);
        let rest = made.make().end - 30;
        made.nearer_end = vec![(tag, 0), (tag, rest)];
        assert_eq!(stray_bytes(&made.file()), Ok(30));
        made.nearer_end = vec![(tag, rest), (tag, 0)];
        assert_eq!(stray_bytes(&made.file()), Ok(22));
        made.nearer_end = vec![(tag, u32::MAX), (tag, rest)];
        assert_eq!(stray_bytes(&made.file()), Ok(30));
    }
    // Both at one place.
    let mut made = with_rest(&[0; 30]);
    let rest = made.make().end - 30;
    made.nearer_end = vec![(0x08, rest), (0x14, rest)];
    assert_eq!(stray_bytes(&made.file()), Ok(22));
}

/// The stray bytes of a file with a rest of 40 bytes before T, the word k at a place in it and 13 there.
fn of_count(place: usize, k: u32) -> u32 {
    let mut made = with_rest(&[0; 40]);
    let start = made.make().end - 40 + place as u32;
    made.rest[place..place + 4].copy_from_slice(&k.to_be_bytes());
    made.nearer_end = vec![(0x13, start)];
    stray_bytes(&made.file()).expect("an accepted file")
}

#[test]
fn the_count_of_13() {
    // 36 bytes are 4 and twice 16.
    for (place, k, stray) in [
        (0, 0, 36),
        (0, 1, 20),
        (0, 2, 4),
        (4, 2, 4),
        (5, 2, 40),
        (0, 3, 40),
        (36, 0, 36),
        (36, 1, 40),
        (20, 1, 20),
        (21, 1, 40),
        (0, u32::MAX, 40),
        (0, 0x1000_0000, 40), // 16 times this is 2^32
        (0, 0x1000_0001, 40),
        (36, 0xFFFF_FFFF, 40),
    ] {
        assert_eq!(of_count(place, k), stray, "{k} at {place}");
    }
    // Its count passes T, or it starts at T or behind.
    for from_end in [-3, -2, -1, 0, 1] {
        assert_eq!(of_rest(0x13, from_end), 30);
    }
    assert_eq!(of_rest(0x13, -4), 26);
    // Below 4 it is no section: the zeros from 4 on stay stray.
    let mut made = plan(&[0; 8], &[facility("a", 0, 0, 0, 0)]);
    for (start, stray) in [(1, 8), (2, 8), (3, 8), (4, 4), (8, 4)] {
        made.nearer_end = vec![(0x13, start)];
        assert_eq!(stray_bytes(&made.file()), Ok(stray), "{start}");
    }
    made.nearer_end = vec![(0x13, 0), (0x13, 4)];
    assert_eq!(stray_bytes(&made.file()), Ok(8));
}

#[test]
fn other_tags_have_no_body() {
    for tag in 0x15..=0xFF {
        assert_eq!(of_rest(tag, -30), 30, "{tag}");
    }
    // C, with no change behind it.
    let mut made = plan(&[], &[facility("a", 0, 0, 0, 0)]);
    made.rest = vec![0; 30];
    for from_end in [0, 8, 30] {
        made.c = made.make().end - from_end;
        assert_eq!(stray_bytes(&made.file()), Ok(30));
    }
}
