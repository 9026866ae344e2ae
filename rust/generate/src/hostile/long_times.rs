//! Files with 64-bit times at every boundary of their rules, each refused one beside an accepted one.

use super::{case, shared_position, steps, with_times, Deltas};
use crate::draft::Draft;
use crate::times::{other_times, LONG_TIMES, SHORT_TIMES};
use crate::Case;

const LEAST: i64 = i64::MIN;
const MOST: i64 = i64::MAX;

fn long(first: i64, last: i64, deltas: &[Deltas]) -> Draft {
    with_times(LONG_TIMES, first, last, deltas)
}

pub fn cases() -> Vec<Case> {
    let mut cases = sums();
    cases.extend(bounds());
    cases.extend(positions());
    cases.extend(places());
    cases.extend(counts());
    cases.extend(which_counts());
    cases.extend(many_entries());
    cases
}

/// The whole range, and sums that leave it.
fn sums() -> Vec<Case> {
    let rows: [(&str, &[Deltas], Result<(), u8>); 18] = [
        ("the least number", &[(4, LEAST)], Ok(())),
        ("the greatest number", &[(4, MOST)], Ok(())),
        (
            "from the least to the greatest",
            &[(4, LEAST), (1, MOST), (1, MOST), (1, 1)],
            Ok(()),
        ),
        (
            "from the least past the greatest",
            &[(4, LEAST), (1, MOST), (1, MOST), (1, 2)],
            Err(13),
        ),
        ("from the least to -1", &[(4, LEAST), (0, MOST)], Ok(())),
        ("from the least by 2^63", &[(4, LEAST), (0, LEAST)], Err(13)),
        ("up to the greatest", &[(4, MOST - 1), (1, 1)], Ok(())),
        ("past the greatest", &[(4, MOST), (1, 1)], Err(13)),
        (
            "stays at the greatest",
            &[(4, MOST), (0, 0), (1, 0)],
            Ok(()),
        ),
        (
            "past the greatest behind zeros",
            &[(4, MOST), (0, 0), (1, 0), (0, 1)],
            Err(13),
        ),
        ("past the greatest by all", &[(4, MOST), (1, MOST)], Err(13)),
        (
            "twice past the greatest",
            &[(4, 9), (1, MOST), (1, MOST)],
            Err(13),
        ),
        ("a step of 0", &[(4, 10), (1, 0)], Ok(())),
        ("a step of -1", &[(4, 10), (1, -1)], Err(13)),
        ("a step of -1 to -1", &[(4, 0), (1, -1)], Err(13)),
        (
            "a step of -1 behind others",
            &[(4, 10), (1, 5), (0, -1)],
            Err(13),
        ),
        (
            "a step of -1 below the least",
            &[(4, LEAST), (1, -1)],
            Err(13),
        ),
        (
            "steps past 32 bits",
            &[(4, -0x1_0000_0000), (1, 0x1_FFFF_FFFF), (1, 0x8000_0000)],
            Ok(()),
        ),
    ];
    let named = rows.into_iter().map(|(name, deltas, expected)| {
        let file = long(LEAST, MOST, deltas).bytes();
        case(format!("64-bit times: {name}"), file, expected)
    });
    named.collect()
}

/// First and last, by their signs and by both halves of their bytes.
fn bounds() -> Vec<Case> {
    let mut cases = Vec::new();
    let mut add = |first: i64, last: i64, time: i64, expected| {
        let origin = format!("64-bit times: {time} from {first} to {last}");
        cases.push(case(
            origin,
            long(first, last, &[(4, time)]).bytes(),
            expected,
        ));
    };
    for time in [LEAST + 1, -0x1_0000_0000, -1, 0, 1, 0x1_0000_0000, MOST - 1] {
        add(time, time, time, Ok(()));
        add(time + 1, MOST, time, Err(13));
        add(LEAST, time - 1, time, Err(13));
        add(MOST, LEAST, time, Err(13));
    }
    add(LEAST, LEAST, LEAST, Ok(()));
    add(LEAST + 1, MOST, LEAST, Err(13));
    add(MOST, MOST, MOST, Ok(()));
    add(LEAST, MOST - 1, MOST, Err(13));
    add(-5, 5, -5, Ok(()));
    add(0, -1, -1, Err(13));
    add(5, 9, 0x1_0000_0007, Err(13));
    add(0x1_0000_0005, 0x1_0000_0009, 7, Err(13));
    add(0x1_0000_0005, 0x1_0000_0009, 0x1_0000_0007, Ok(()));
    for (first, last) in [(5, -5), (MOST, LEAST), (0, 0)] {
        let origin = format!("64-bit times: none from {first} to {last}");
        cases.push(case(origin, long(first, last, &[]).bytes(), Ok(())));
        // A change needs an entry.
        let mut draft = long(first, last, &[]);
        draft.append_change(0, 3, 1, &[]);
        let origin = format!("64-bit times: none from {first} to {last}, and a change");
        cases.push(case(origin, draft.bytes(), Err(13)));
    }
    cases
}

/// Positions have the rules that they have in 06.
fn positions() -> Vec<Case> {
    let end = long(0, 9, &[(4, 0); 2]).end() as u32;
    let rows = [
        ([(4, 0), (0, 1)], Ok(())),
        ([(3, 0), (1, 1)], Err(13)),
        ([(0, 0), (4, 1)], Err(13)),
        ([(end - 1, 0), (0, 1)], Ok(())),
        ([(end - 1, 0), (1, 1)], Err(13)),
        ([(end, 0), (0, 1)], Err(13)),
        ([(8, 0), (0xFFFF_FFFC, 1)], Err(13)),
        ([(0xFFFF_FFFF, 0), (9, 1)], Err(13)),
    ];
    let named = rows.map(|(deltas, expected)| {
        let origin = format!(
            "64-bit times: positions by {} and {}",
            deltas[0].0, deltas[1].0
        );
        case(origin, long(0, 9, &deltas).bytes(), expected)
    });
    named.into()
}

/// Where the table starts and ends: from 4 on, and up to T.
fn places() -> Vec<Case> {
    let mut cases = Vec::new();
    let whole = long(-5, 5, &[(4, -5), (2, 10)]);
    let empty = long(5, -5, &[]);
    for (what, draft, length) in [("two entries", &whole, 44), ("a head", &empty, 20)] {
        let origin = format!("64-bit times: {what} up to T");
        cases.push(case(origin, draft.bytes(), Ok(())));
        for cut in [1, 4, 8, length - 1, length] {
            let mut draft = draft.clone();
            draft.body.truncate(draft.end() - cut);
            let origin = format!("64-bit times: {what} without {cut} bytes");
            cases.push(case(origin, draft.bytes(), Err(8)));
        }
        let start = draft.value(LONG_TIMES);
        let below = [
            1,
            2,
            3,
            start + 1,
            draft.end() as u32,
            draft.end() as u32 + 1,
        ];
        let wrapping = [0, 1, 3, 19, 20, 43, 44].map(|less| 0xFFFF_FFFF - less);
        for start in below.into_iter().chain(wrapping) {
            let mut draft = draft.clone();
            draft.set_item(LONG_TIMES, start);
            let origin = format!("64-bit times: {what} from {start}");
            cases.push(case(origin, draft.bytes(), Err(8)));
        }
    }
    cases
}

/// Counts whose bytes pass T, though 12m may wrap to few.
fn counts() -> Vec<Case> {
    let whole = long(-5, 5, &[(4, -5), (2, 10)]);
    let counts = [
        3,
        357_913_942,
        357_913_943,
        0x4000_0000,
        0x4000_0002,
        0x8000_0002,
        0xFFFF_FFFF,
    ];
    let named = counts.map(|count| {
        let mut draft = whole.clone();
        draft.set_word(draft.times_at(), count);
        case(
            format!("64-bit times: {count} counted"),
            draft.bytes(),
            Err(8),
        )
    });
    named.into()
}

/// Which of 06 and 09 counts.
fn which_counts() -> Vec<Case> {
    let mut cases = Vec::new();
    let mut add = |name: &str, draft: &Draft, expected| {
        cases.push(case(format!("times: {name}"), draft.bytes(), expected));
    };
    for tag in [SHORT_TIMES, LONG_TIMES] {
        let other = other_times(tag);
        let mut one = with_times(tag, 1, 9, &[(4, 1), (0, 8)]);
        one.items.retain(|(_, value)| *value != 0);
        let with = |value| {
            let mut draft = one.clone();
            draft.set_item(other, value);
            draft
        };
        let start = one.value(tag);
        add(&format!("{tag} alone"), &one, Ok(()));
        add(&format!("{tag}, {other} of 0"), &with(0), Ok(()));
        for value in [1, start, 0x8000_0000, 0xFFFF_FFFF] {
            let both = with(value);
            add(&format!("{tag}, {other} of {value}"), &both, Err(6));
            for (absent, expected) in [(0x01, Err(6)), (tag, Err(8))] {
                let mut draft = both.clone();
                draft.set_item(absent, 0);
                // Only the other is there, and not at a table.
                if absent == tag && value == start {
                    continue;
                }
                let name = format!("{tag}, {other} of {value}, {absent} absent");
                add(&name, &draft, expected);
            }
            let mut draft = both.clone();
            draft.set_item(0x0A, 1);
            add(
                &format!("{tag}, {other} of {value}, compressed"),
                &draft,
                Err(5),
            );
            let mut draft = both.clone();
            draft.add_nearest_end(other, 0);
            let name = format!("{tag}, {other} of 0 nearer END than {value}");
            add(&name, &draft, Ok(()));
            draft.add_nearest_end(tag, 0);
            add(&format!("{name}, {tag} of 0 too"), &draft, Err(7));
        }
        let mut draft = one.clone();
        draft.add_nearest_end(tag, 0);
        add(&format!("{tag} of 0 nearer END"), &draft, Err(7));
        draft.set_item(tag, start);
        add(&format!("{tag} twice"), &draft, Ok(()));
    }
    cases
}

/// Many entries: rising, at one position, of one time, and the last of them wrong.
fn many_entries() -> Vec<Case> {
    let mut cases = Vec::new();
    for (name, bounds, first, step, expected) in [
        ("rise", (LEAST, LEAST + 8_000), (4, LEAST), (1, 1), Ok(())),
        (
            "rise too late",
            (LEAST, LEAST + 7_999),
            (4, LEAST),
            (1, 1),
            Err(13),
        ),
        (
            "rise too early",
            (LEAST + 1, MOST),
            (4, LEAST),
            (1, 1),
            Err(13),
        ),
        (
            "at one position",
            (-4_000, 4_000),
            (4, -4_000),
            (0, 1),
            Ok(()),
        ),
        (
            "at position 3",
            (-4_000, 4_000),
            (3, -4_000),
            (0, 1),
            Err(13),
        ),
        ("of one time", (MOST, MOST), (4, MOST), (1, 0), Ok(())),
        (
            "of one time, too late",
            (LEAST, MOST - 1),
            (4, MOST),
            (1, 0),
            Err(13),
        ),
        ("fall", (-4_000, 4_000), (4, 4_000), (0, -1), Err(13)),
    ] {
        let deltas = steps(first, 8_000, step);
        let file = long(bounds.0, bounds.1, &deltas).bytes();
        cases.push(case(format!("8,001 64-bit times {name}"), file, expected));
    }
    for (name, last, expected) in [
        ("one that is equal", (0, 0), Ok(())),
        ("the greatest", (1, 1), Ok(())),
        ("one past the greatest", (1, 2), Err(13)),
        ("one before", (0, -1), Err(13)),
        ("one far before", (0, LEAST), Err(13)),
    ] {
        let mut deltas = steps((4, MOST - 1), 8_000, (0, 0));
        deltas.push(last);
        let file = long(LEAST, MOST, &deltas).bytes();
        cases.push(case(
            format!("8,001 equal 64-bit times, then {name}"),
            file,
            expected,
        ));
    }
    for (place, name) in ["the first", "the second", "the third", "none"]
        .into_iter()
        .enumerate()
    {
        let file = shared_position(LONG_TIMES, -750, 1_500, place);
        let origin = format!("1,500 64-bit times at {name} of three changes");
        cases.push(case(origin, file, Ok(())));
    }
    cases
}

/// Nearly as many entries as the longest file has room for.
pub fn most_entries() -> Vec<Case> {
    let rows = [
        ("", -650_000, 0, Ok(())),
        (", the first too early", -649_999, 0, Err(13)),
        (", the last before the others", -650_000, -1, Err(13)),
    ];
    let named = rows.map(|(name, first, last_step, expected)| {
        let mut deltas = steps((4, -650_000), 1_299_998, (0, 1));
        deltas.push((0, last_step));
        let origin = format!("1,300,000 64-bit times at one position{name}");
        case(origin, long(first, MOST, &deltas).bytes(), expected)
    });
    named.into()
}
