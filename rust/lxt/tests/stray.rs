//! Stray bytes through the C interface: small files with counts worked out by hand, generated ones against
//! the independent reader, and traces that were saved over longer ones.

use lxt::{Refusal, Trace};
use lxt_compare::judge::TRACE;
use lxt_compare::overlays::{accepted, found, overlays};
use lxt_compare::stray::{compare, Seen};
use lxt_compare::times::small_trace_09;
use lxt_compare::{generated, traces, MADE};
use lxt_generate::{change_bytes, Draft, Large, Random, DAMAGES, LONG_TIMES, SHORT_TIMES};

/// The small trace of paper 01 with bytes put in at its seven places: before, between and behind its two
/// changes, and behind the names, the geometry, the sync table and the times. All offsets move with them.
fn with_gaps(gaps: [&[u8]; 7]) -> Draft {
    let mut draft = Draft::new(4);
    draft.append(gaps[0]);
    let older = draft.append(&change_bytes(draft.end(), 0, 4, 1, &[]));
    draft.append(gaps[1]);
    let newer = draft.append(&change_bytes(draft.end(), older, 3, 1, &[]));
    draft.append(gaps[2]);
    let names = draft.append_words(&[1, 2]);
    draft.append(&[0, 0, b'a', 0]);
    draft.append(gaps[3]);
    let geometry = draft.append_words(&[0; 4]);
    draft.append(gaps[4]);
    let sync = draft.append_words(&[newer as u32]);
    draft.append(gaps[5]);
    let times = draft.append_words(&[2, 0, 5, older as u32, (newer - older) as u32, 0, 5]);
    draft.append(gaps[6]);
    let starts = [(1, 4), (2, sync), (3, names), (4, geometry), (6, times)];
    draft.items = starts.map(|(tag, start)| (tag, start as u32)).to_vec();
    draft
}

fn stray(draft: &Draft) -> Result<u32, Refusal> {
    lxt::stray_bytes(&draft.bytes())
}

#[test]
fn the_small_trace_has_none() {
    assert_eq!(with_gaps([&[]; 7]).bytes(), TRACE);
    assert_eq!(lxt::stray_bytes(&TRACE), Ok(0));
    let long = small_trace_09(-5, 5, &[4, 2], &[-5, 10]);
    assert_eq!(lxt::stray_bytes(&long), Ok(0));
}

#[test]
fn a_gap_counts_its_bytes_at_every_place() {
    for gap in [&[0][..], &[0xFF], &[3, 0], &[7; 9], &[0; 120]] {
        for place in 0..7 {
            let mut gaps = [&[][..]; 7];
            gaps[place] = gap;
            let mut draft = with_gaps(gaps);
            assert_eq!(stray(&draft), Ok(gap.len() as u32), "{place}");
            // C is 4, or where the older change is.
            if place == 0 {
                draft.set_item(0x01, 4 + gap.len() as u32);
                assert_eq!(stray(&draft), Ok(gap.len() as u32));
            }
        }
    }
    // One byte at some places, none at the others.
    for places in 0..128_u32 {
        let gaps = std::array::from_fn(|place| &[9][..(places >> place & 1) as usize]);
        assert_eq!(stray(&with_gaps(gaps)), Ok(places.count_ones()));
    }
}

#[test]
fn a_change_that_no_root_leads_to_counts_its_bytes() {
    // By themselves well formed: to 1; to 0 and to 1 with data; to 1 with four delta bytes and data.
    let changes: [&[u8]; 4] = [
        &[0x04, 0x02],
        &[0x00, 0x02, 0x00],
        &[0x10, 0x00, 0x04, 0x80],
        &[0x30, 0, 0, 0, 2, 0x80],
    ];
    for change in changes {
        for place in 0..7 {
            let mut gaps = [&[][..]; 7];
            gaps[place] = change;
            let count = change.len() as u32;
            assert_eq!(stray(&with_gaps(gaps)), Ok(count), "{place}");
        }
    }
    // The newer change ends its chain; the sync entry leads to the older one; it leads to none.
    for (at, value, count) in [(7, 4, 2), (39, 4, 2), (39, 0, 4)] {
        let mut file = TRACE;
        file[at] = value;
        assert_eq!(lxt::stray_bytes(&file), Ok(count), "{at} {value}");
    }
    // No facility: the changes, a name, a geometry and a sync entry, 4 + 4 + 16 + 4 bytes.
    let mut file = TRACE;
    file[11] = 0;
    assert_eq!(lxt::stray_bytes(&file), Ok(28));
}

/// The small trace with 40 bytes behind its times, from 68 up to T at 108: a word at an offset of theirs,
/// zeros else. The items are nearer END than others.
fn with_40_bytes((at, word): (usize, u32), items: &[(u8, u32)]) -> Draft {
    let mut draft = with_gaps([&[], &[], &[], &[], &[], &[], &[0; 40]]);
    assert_eq!(draft.end(), 108);
    draft.set_word(at, word);
    for (tag, value) in items.iter().rev() {
        draft.add_nearest_end(*tag, *value);
    }
    draft
}

#[test]
fn sections_of_one_byte() {
    for (items, expected) in [
        (&[][..], 40),
        (&[(5, 68)], 39),
        (&[(7, 107)], 39),
        (&[(5, 0)], 40),
        // Taken back by a 0 nearer END, and the other way round.
        (&[(5, 0), (5, 68)], 40),
        (&[(5, 68), (5, 0)], 39),
        // One byte that both share; two; one in a change, in the names, in the times.
        (&[(5, 80), (7, 80)], 39),
        (&[(5, 80), (7, 81)], 38),
        (&[(5, 4), (7, 80)], 39),
        (&[(5, 8), (7, 67)], 40),
    ] {
        let draft = with_40_bytes((68, 0), items);
        assert_eq!(stray(&draft), Ok(expected), "{items:?}");
    }
    for tag in [5, 7] {
        for outside in [1, 2, 3, 108, 109, u32::MAX] {
            let draft = with_40_bytes((68, 0), &[(tag, outside)]);
            assert_eq!(stray(&draft), Err(Refusal::Place), "{tag} {outside}");
        }
    }
}

#[test]
fn sections_of_eight_bytes() {
    for tag in [0x08, 0x14] {
        for (start, expected) in [
            (68, 32),
            (69, 32),
            (100, 32),
            // One past T, and more.
            (101, 40),
            (107, 40),
            (108, 40),
            (109, 40),
            (u32::MAX - 6, 40),
            (u32::MAX, 40),
            // Over the last bytes of the times, over all of it.
            (64, 36),
            (60, 40),
            (0, 40),
        ] {
            let draft = with_40_bytes((68, 0xFFFF_FFFF), &[(tag, start)]);
            assert_eq!(stray(&draft), Ok(expected), "{tag} {start}");
        }
        let taken_back = with_40_bytes((68, 0), &[(tag, 0), (tag, 68)]);
        assert_eq!(stray(&taken_back), Ok(40));
    }
    // Both, at one place, sharing four bytes, touching, and apart.
    for (start, expected) in [(80, 32), (84, 28), (88, 24), (90, 24)] {
        let draft = with_40_bytes((68, 0), &[(0x08, 80), (0x14, start)]);
        assert_eq!(stray(&draft), Ok(expected), "{start}");
    }
}

#[test]
fn the_section_with_a_count() {
    for (at, count, expected) in [
        (68, 0, 36),
        (68, 1, 20),
        (68, 2, 4),
        (68, 3, 40),
        // 36 bytes up to T, and one past it.
        (72, 2, 4),
        (73, 2, 40),
        (104, 0, 36),
        (104, 1, 40),
        // 16 times these is 2^32, 16 more, and 16 less.
        (68, 0x1000_0000, 40),
        (68, 0x1000_0001, 40),
        (68, 0x0FFF_FFFF, 40),
        (68, u32::MAX, 40),
    ] {
        let draft = with_40_bytes((at, count), &[(0x13, at as u32)]);
        assert_eq!(stray(&draft), Ok(expected), "{count} at {at}");
    }
    // The count itself passes T.
    for start in [105, 106, 107, 108, 109, u32::MAX] {
        let draft = with_40_bytes((68, 0), &[(0x13, start)]);
        assert_eq!(stray(&draft), Ok(40), "{start}");
    }
    // It counts the names' 1 as its own and goes on over the geometry: 8 to 28.
    let draft = with_40_bytes((68, 0), &[(0x13, 8)]);
    assert_eq!(stray(&draft), Ok(40));
    // 14 within it, 14 over its end by 4, 13 taken back.
    for (items, expected) in [
        (&[(0x13, 68), (0x14, 72)][..], 20),
        (&[(0x13, 68), (0x14, 84)], 16),
        (&[(0x13, 0), (0x13, 68)], 40),
        (&[(0x13, 0), (0x13, 68), (0x14, 72)], 32),
    ] {
        let draft = with_40_bytes((68, 1), items);
        assert_eq!(stray(&draft), Ok(expected), "{items:?}");
    }
}

#[test]
fn other_tags_have_no_section() {
    for tag in 0x15..=0xFF {
        let draft = with_40_bytes((68, 1), &[(tag, 68)]);
        assert_eq!(stray(&draft), Ok(40), "{tag}");
    }
    // Nor has 01: C, with no change behind it, and then the two are stray.
    let mut draft = with_40_bytes((68, 0), &[(0x01, 68)]);
    draft.set_word(36, 0);
    assert_eq!(stray(&draft), Ok(40 + 4));
}

#[test]
fn sections_from_below_4_are_none() {
    // Ten zeros from 4 on.
    for (tag, start, expected) in [
        (0x08, 4, 2),
        (0x13, 4, 6),
        (0x14, 4, 2),
        (0x08, 3, 10),
        (0x13, 3, 10),
        (0x14, 3, 10),
        (0x14, 1, 10),
    ] {
        let mut draft = with_gaps([&[0; 10], &[], &[], &[], &[], &[], &[]]);
        draft.add_nearest_end(tag, start);
        assert_eq!(stray(&draft), Ok(expected), "{tag} {start}");
    }
}

#[test]
fn shared_bytes_count_for_each_section_and_are_never_counted_twice() {
    // The sync entry lies in the zeros of the geometry: no changes. Stray are the changes and where it was.
    let mut draft = with_gaps([&[]; 7]);
    draft.set_item(0x02, 20);
    assert_eq!(stray(&draft), Ok(4 + 4));
    // Both changes in a section 14, with four bytes around them; from 5 on it leaves one.
    let mut draft = with_gaps([&[9], &[9, 9], &[9], &[], &[], &[], &[]]);
    assert_eq!(stray(&draft), Ok(4));
    for (start, expected) in [(4, 0), (5, 1), (3, 4)] {
        draft.set_item(0x14, start);
        assert_eq!(stray(&draft), Ok(expected), "{start}");
    }
    // The change at 4 and the four bytes behind it, of which it takes the first as its count.
    let mut draft = with_gaps([&[], &[9; 6], &[], &[], &[], &[], &[]]);
    draft.set(6, &[0, 0, 0, 0, 9, 9]);
    draft.set_item(0x13, 6);
    assert_eq!(stray(&draft), Ok(2));
}

/// Every refusal of a file is given, by each way to earn it.
#[test]
fn every_refusal_of_a_file_is_given() {
    let mut given = [0; 18];
    for damage in DAMAGES {
        let mut made = 0;
        for seed in 0..400 {
            let base = lxt_generate::valid(seed);
            let neighbours = (damage.apply)(&base, &mut Random::new(seed));
            if let (Some(neighbours), 0..3) = (neighbours, made) {
                let answer = stray(&neighbours.over).map_err(Refusal::number);
                assert_eq!(answer, Err(damage.number), "{} {seed}", damage.name);
                given[usize::from(damage.number)] += 1;
                made += 1;
            }
        }
    }
    assert!(given[1..].iter().all(|count| *count > 0), "{given:?}");
}

#[test]
fn every_one_byte_change_of_the_small_traces() {
    let long = small_trace_09(-5, 5, &[4, 2], &[-5, 10]);
    for (name, trace) in [("tag 06", TRACE.to_vec()), ("tag 09", long)] {
        let mut seen = Seen::default();
        for at in 0..trace.len() {
            for value in 0..=255 {
                let mut file = trace.clone();
                file[at] = value;
                let what = format!("{name}, byte {at} is {value}");
                let _ = compare(&file, &what, &mut seen);
            }
        }
        println!("{seen:?}");
        assert!(seen.with > 0 && seen.without > 0 && seen.answers.len() > 10);
    }
}

#[test]
fn generated_files_with_stray_bytes() {
    let mut seen = Seen::default();
    for seed in 800_000..820_000 {
        let made = lxt_generate::strays(seed);
        let what = format!("seed {seed}, {}", made.case().origin);
        let answer = compare(&made.draft.bytes(), &what, &mut seen);
        assert_eq!(answer, made.expected, "{what}");
    }
    println!("{seen:?}");
    assert!(seen.with > 10_000 && seen.without > 1_000, "{seen:?}");
    assert!(seen.answers[&8] > 500, "{seen:?}");
}

#[test]
fn other_generated_files() {
    let mut seen = Seen::default();
    for (what, file) in generated(0..20_000, usize::MAX) {
        let _ = compare(&file, &what, &mut seen);
    }
    println!("{seen:?}");
    for number in 1..=17 {
        let least = if number == 9 { 1 } else { 50 };
        assert!(seen.answers[&number] >= least, "{number}: {seen:?}");
    }
    assert!(seen.with > 2_000 && seen.without > 1_000, "{seen:?}");

    for (name, make) in MADE {
        for seed in 500_000..501_000 {
            let case = make(seed);
            let what = format!("{name} of seed {seed}, {}", case.origin);
            let _ = compare(&case.bytes, &what, &mut seen);
        }
    }
    for case in lxt_generate::hostile() {
        let _ = compare(&case.bytes, &case.origin, &mut seen);
    }
    for hostile in lxt_generate::hostile_chains(65_536) {
        let _ = compare(&hostile.case.bytes, &hostile.case.origin, &mut seen);
    }
}

/// A byte behind each change: as many as there are changes.
#[test]
fn large_files() {
    for (facilities, times_tag) in [(1, SHORT_TIMES), (122, LONG_TIMES), (4_096, SHORT_TIMES)] {
        let shape = Large {
            bytes: 1_000_000,
            facilities,
            width: 8,
            entries: 1_000,
            times_tag,
        };
        for gap in [0, 1, 2] {
            let file = lxt_generate::large_with_gaps(&shape, gap);
            let changes = Trace::open(&file).and_then(|trace| trace.walk_all());
            let changes = changes.expect("a walk").in_batches_of(u32::MAX).count();
            assert!(changes > 100_000);
            let expected = Ok((gap * changes) as u32);
            assert_eq!(lxt::stray_bytes(&file), expected);
            assert_eq!(lxt_reference::stray_bytes(&file).ok(), expected.ok());
        }
    }
}

/// The traces of independent writers: those accepted have none.
#[test]
fn traces_of_the_folder() {
    let mut seen = Seen::default();
    for (name, file) in traces(usize::MAX) {
        let answer = compare(&file, &name, &mut seen);
        assert_eq!(answer.unwrap_or(0), 0, "{name}");
    }
    println!("{seen:?}");
    assert!(seen.without >= 25, "{seen:?}");
}

/// Shorter traces of the folder over the start of longer ones.
#[test]
fn a_trace_saved_over_a_longer_one_is_refused_or_has_stray_bytes() {
    let traces = accepted(traces(usize::MAX));
    let (mut count, mut accepted, mut with_changes) = (0, 0, 0);
    for overlay in overlays(&traces) {
        let what = format!("{} over {}", overlay.shorter, overlay.longer);
        let expected = lxt_reference::stray_bytes(&overlay.bytes);
        let found = found(&overlay.bytes);
        let stray = found.map(|it| it.stray).map_err(Refusal::number);
        assert_eq!(stray, expected, "{what}");
        count += 1;
        if let Ok(found) = found {
            assert!(found.stray > 0, "{what}");
            accepted += 1;
            with_changes += u32::from(found.changes > 0);
        }
    }
    println!("{count} overlays, {accepted} accepted, {with_changes} of them with changes");
    assert!(count >= 300 && accepted >= 12 && with_changes >= 6);
}

/// By hand: the oldest change of the longer trace, at 4, becomes that of the shorter one, with less data. One
/// without data leaves all of the old ones, one of one bit a symbol a part of them.
#[test]
fn what_is_left_of_an_overwritten_change_is_stray() {
    let all = traces(usize::MAX);
    let trace = |name: &str| {
        let found = all.iter().find(|it| it.0 == name);
        &found.expect("a trace").1
    };
    let (no_data, one_bit) = ([0x03, 0x02], [0x00, 0x02]);
    // 1,922 symbols of two bits are 481 bytes, and of one bit 241; 239 symbols of four bits are 120 bytes.
    for (shorter, start, longer, width, expected) in [
        ("gpsim_onereg", no_data, "lxtgen_wide_5", 1_922, 481),
        ("lxtgen_zerodelta", one_bit, "lxtgen_wide_5", 1_922, 240),
        ("gpsim_onereg", no_data, "lxtgen_many_7", 239, 120),
    ] {
        let shorter = trace(&format!("{shorter}.lxt"));
        assert_eq!(shorter[4..6], start);
        let mut file = trace(&format!("{longer}.lxt")).clone();
        let oldest = Trace::open(&file).and_then(|it| it.walk_all());
        let oldest = oldest.expect("a walk").last().expect("a change");
        let facts = lxt::facts(&file, oldest.facility);
        assert_eq!((oldest.offset, facts.map(|it| it.width)), (4, Ok(width)));
        file[..shorter.len()].copy_from_slice(shorter);
        assert_eq!(lxt::stray_bytes(&file), Ok(expected), "{longer}");
    }
}
