//! Stray bytes of generated files: the reference reader counts as many as the generator has placed, and there
//! are some and none at every kind of place.

use std::ops::Range;

use lxt_generate::*;
use lxt_reference as reader;
use met::Met;

#[allow(dead_code)]
mod met;

/// What lies between offset 4 and T.
#[derive(Clone, Copy, Debug, PartialEq, Eq)]
enum Part {
    Change,
    Names,
    /// Another section, by its tag.
    Section(u8),
}

/// The parts of a valid draft that have bytes, by rising offset.
fn parts(draft: &Draft) -> Vec<(Range<usize>, Part)> {
    let changes = draft.changes.iter();
    let changes = changes.map(|change| (change.offset..change.end, Part::Change));
    let sections = (0x02..=0x09).chain([0x13, 0x14]).map(|tag| {
        let part = match tag {
            0x03 => Part::Names,
            _ => Part::Section(tag),
        };
        (
            draft.start(tag)..draft.start(tag) + draft.body_length(tag),
            part,
        )
    });
    let mut parts = Vec::from_iter(changes.chain(sections));
    parts.retain(|(bytes, _)| bytes.start >= 4 && bytes.end <= draft.end() && !bytes.is_empty());
    parts.sort_by_key(|(bytes, _)| bytes.start);
    parts
}

/// The gaps between neighbours, and before END: the kind of place, and how many bytes.
fn gaps(draft: &Draft) -> Vec<(&'static str, usize)> {
    let mut gaps = Vec::new();
    let (mut reached, mut below) = (4, None);
    for (bytes, part) in parts(draft) {
        if bytes.start >= reached {
            let place = match (below, part) {
                (None, Part::Change) if draft.value(0x01) == 4 => "before the first change, C 4",
                (None, Part::Change) => "before the first change, C above 4",
                (None, _) => "before the first section",
                (Some(Part::Names), _) => "after the names",
                (Some(Part::Change), Part::Change) => "between changes",
                (Some(Part::Change), _) => "between a change and a section",
                (_, Part::Change) => "between a section and a change",
                _ => "between sections",
            };
            gaps.push((place, bytes.start - reached));
        }
        if bytes.end > reached {
            (reached, below) = (bytes.end, Some(part));
        }
    }
    gaps.push(("before END", draft.end() - reached));
    gaps
}

/// How the bytes of two parts lie to each other, where they share some.
fn sharing(one: &Range<usize>, other: &Range<usize>) -> Option<&'static str> {
    let within = |inner: &Range<usize>, outer: &Range<usize>| {
        outer.start <= inner.start && inner.end <= outer.end
    };
    match () {
        _ if one.end <= other.start || other.end <= one.start => None,
        _ if one == other => Some("are at one place"),
        _ if within(one, other) || within(other, one) => Some("one within the other"),
        _ => Some("share some bytes"),
    }
}

/// Counts the kinds of gaps and of shared bytes in a draft.
fn meet_places(draft: &Draft, met: &mut Met) {
    for (place, gap) in gaps(draft) {
        let size = match gap {
            0 => "none",
            1 => "1 byte",
            _ => "more",
        };
        met.meet(format!("gap {place}: {size}"), true);
    }
    let parts = parts(draft);
    for (place, (bytes, part)) in parts.iter().enumerate() {
        for (other_bytes, other) in &parts[..place] {
            let Some(how) = sharing(bytes, other_bytes) else {
                continue;
            };
            let what = match (part, other) {
                (Part::Change, Part::Change) => panic!("changes that share a byte"),
                (Part::Change, _) | (_, Part::Change) => "a change and a section",
                _ => "sections",
            };
            met.meet(format!("{what} {how}"), true);
        }
    }
}

/// By all ways of placing sections, the counts are as meant; both answers are frequent.
#[test]
fn counts_are_as_meant() {
    let mut met = Met::default();
    for seed in 0..20_000 {
        let made = strays(seed);
        let what = made.case().origin;
        let bytes = made.draft.bytes();
        assert_eq!(reader::stray_bytes(&bytes), made.expected, "{seed} {what}");
        let answer = match made.expected {
            Ok(0) => "no stray byte".to_string(),
            Ok(1) => "1 stray byte".to_string(),
            Ok(_) => "more stray bytes".to_string(),
            Err(number) => format!("refused {number}"),
        };
        met.meet(answer, true);
        for words in &made.made {
            met.meet(format!("made: {words}"), true);
        }
        let beside = made.draft.end().checked_sub(made.draft.body_length(0x13));
        let most = made.draft.value(0x13) == 4 && beside.is_some_and(|bytes| bytes < 24);
        met.meet("13 over nearly all", most);
        met.meet("several windows", made.draft.end() > 2 * WINDOW);
        met.meet("64-bit times", made.draft.times_tag() == LONG_TIMES);
        met.meet("no facilities", made.draft.facilities.is_empty());
        if made.expected.is_ok() {
            meet_places(&made.draft, &mut met);
        }
    }
    met.least(15);
    met.least_of("no stray byte", 1_000);
    // Six edits, the ways to put each of five sections, and for one of them the counts of 13.
    assert_eq!(met.kinds("made: "), 6 + 5 * 12 - 1 + 10);
    // With C above 4 there is always a gap before the first change.
    assert_eq!(met.kinds("gap "), 9 * 3 - 1);
    assert_eq!(met.kinds("sections "), 3);
    assert_eq!(met.kinds("a change and a section "), 3);
}

/// The valid traces: no edit, and larger ones.
#[test]
fn valid_traces_have_as_many_as_were_placed() {
    let mut met = Met::default();
    for seed in 0..3_000 {
        let draft = valid(seed);
        let placed = draft.stray_bytes() as u32;
        assert_eq!(reader::stray_bytes(&draft.bytes()), Ok(placed), "{seed}");
        met.meet("no stray byte", placed == 0);
        met.meet("some stray bytes", placed > 0);
    }
    for answer in ["no stray byte", "some stray bytes"] {
        met.least_of(answer, 500);
    }
}

/// Large traces have so many behind each change.
#[test]
fn large_traces_have_gaps() {
    for times_tag in [SHORT_TIMES, LONG_TIMES] {
        let shape = Large {
            bytes: 200_000,
            facilities: 122,
            width: 8,
            entries: 2_000,
            times_tag,
        };
        for gap in [0, 1, 3] {
            let file = large_with_gaps(&shape, gap);
            assert!(file.len() <= shape.bytes && file.len() > shape.bytes - 20);
            let judged = reader::Judged::new(&file).expect("a trace");
            let changes: usize = judged.chains().iter().map(Vec::len).sum();
            assert!(changes > 20_000);
            assert_eq!(judged.stray_bytes() as usize, gap * changes);
        }
    }
}
