//! A whole column at once, through the C interface: worked out by hand with all of the lent memory, on either side of
//! each refusal, beside the single questions, and against the independent reader.

use std::ptr;

use lxt::{
    ColumnValue, Item, ItemValue, Kind, NewValue, Reading, Refusal, TextAt, Trace, Value, Writer,
    LONGEST_COLUMN,
};
use lxt_compare::column::{compare, Seen};
use lxt_compare::questions::sample;
use lxt_compare::{generated, traces};
use lxt_generate::{large, valid, Large, Random, DAMAGES, LONG_TIMES, SHORT_TIMES};
use lxt_reference::Judged;

mod filled;
mod mixed;
#[allow(dead_code)]
mod tied;
#[allow(dead_code)]
mod wide;

use filled::filled;

/// An item that no column writes.
const MARK: Item = Item {
    what: 0xA1A1_A1A1_A1A1_A1A1,
    start: 0xB2B2_B2B2_B2B2_B2B2,
    length: 0xC3C3_C3C3_C3C3_C3C3,
    real: 0xD4D4_D4D4_D4D4_D4D4,
};

fn item(what: u64, start: u64, length: u64, real: u64) -> Item {
    Item {
        what,
        start,
        length,
        real,
    }
}

fn bits(start: u64, width: u64) -> Item {
    item(0, start, width, 0)
}

fn real(number: f64) -> Item {
    item(1, 0, 0, number.to_bits())
}

fn text(start: u64, length: u64) -> Item {
    item(2, start, length, 0)
}

fn not_driven() -> Item {
    item(3, 0, 0, 0)
}

fn lent(length: u64) -> Item {
    item(4, 0, length, 0)
}

/// The sum, or the refusal's number; then the lent bits, `#` where they stayed, and the lent items, marks where they
/// stayed.
type Answer = (Result<u64, u8>, String, Vec<Item>);

/// Asks with so much room in the middle of marks, which stay.
fn with_text(file: &[u8], list: &[u32], time: i64, text: &[u8], room: [usize; 2]) -> Answer {
    let mut symbols = vec![b'#'; 5 + room[0] + 5];
    let mut items = vec![MARK; 2 + room[1] + 2];
    let lent = (&mut symbols[5..5 + room[0]], &mut items[2..2 + room[1]]);
    let sum = lxt::column(file, time, list, text, lent.0, lent.1);
    let around = [&symbols[..5], &symbols[5 + room[0]..]].concat();
    assert_eq!(around, [b'#'; 10]);
    let around = [&items[..2], &items[2 + room[1]..]].concat();
    assert_eq!(around, [MARK; 4]);
    let symbols = symbols[5..5 + room[0]].to_vec();
    let symbols = String::from_utf8(symbols).expect("symbols");
    let items = items[2..2 + room[1]].to_vec();
    (sum.map_err(Refusal::number), symbols, items)
}

/// The same with the text `none`.
fn asked(file: &[u8], list: &[u32], time: i64, room: [usize; 2]) -> Answer {
    with_text(file, list, time, b"none", room)
}

fn answered<const N: usize>(sum: u64, symbols: &str, items: [Item; N]) -> Answer {
    (Ok(sum), symbols.to_string(), items.to_vec())
}

/// A refusal, with all that was lent as it was.
fn refused(number: u8, room: [usize; 2]) -> Answer {
    (Err(number), "#".repeat(room[0]), vec![MARK; room[1]])
}

// ---- Worked out by hand ----

#[test]
fn examples_of_the_mixed_trace() {
    let file = mixed::file();
    // 4-A
    assert_eq!(
        asked(&file, &[0, 3, 1, 2, 0], 25, [10, 6]),
        answered(
            8,
            "011011011#",
            [
                bits(0, 3),
                bits(3, 3),
                item(1, 0, 0, 0x3FF8_0000_0000_0000),
                text(9, 2),
                bits(6, 3),
                MARK
            ]
        )
    );
    // 4-B
    assert_eq!(
        asked(&file, &[4, 0], 9, [35, 2]),
        answered(2, &"Z".repeat(35), [bits(0, 32), bits(32, 3)])
    );
    // 4-C, with the text of Ask 11
    assert_eq!(
        asked(&file, &[1, 2], 9, [0, 2]),
        answered(2, "", [not_driven(), lent(4)])
    );
    // 4-D
    assert_eq!(asked(&file, &[], 9, [0, 0]), answered(0, "", []));
    // 4-E to 4-J
    for (list, room, number) in [
        (&[0, 5][..], [0, 0], 18),
        (&[0, 0], [5, 2], 21),
        (&[0, 0], [6, 1], 21),
        (&[0; 4_097], [0, 0], 35),
        (&[9; 4_097], [0, 0], 35),
        (&[9; 4_096], [0, 0], 18),
    ] {
        assert_eq!(asked(&file, list, 25, room), refused(number, room));
    }
    // 11-A
    assert_eq!(
        asked(&file, &[2, 1, 0, 2], 9, [3, 4]),
        answered(5, "ZZZ", [lent(4), not_driven(), bits(0, 3), lent(4)])
    );
    // 11-B
    assert_eq!(
        asked(&file, &[2, 1, 2], 20, [0, 3]),
        answered(3, "", [text(9, 2), real(1.5), text(9, 2)])
    );
}

#[test]
fn past_the_items_all_stays() {
    let file = mixed::file();
    for more in [0, 1, 7, 100] {
        let (symbols, items) = ("ZX1".to_string() + &"#".repeat(more), vec![MARK; more]);
        let items = [vec![real(1.5), bits(0, 3), text(9, 2)], items].concat();
        let answer = asked(&file, &[1, 0, 2], 30, [3 + more, 3 + more]);
        assert_eq!(answer, (Ok(3), symbols, items));
        // Nothing is written for an empty list.
        let answer = asked(&file, &[], 30, [more, more]);
        assert_eq!(answer, (Ok(0), "#".repeat(more), vec![MARK; more]));
    }
}

#[test]
fn each_repeat_has_its_own_symbols() {
    let file = mixed::file();
    assert_eq!(
        asked(&file, &[0, 0, 0, 0], 30, [12, 4]),
        answered(
            4,
            "ZX1ZX1ZX1ZX1",
            [bits(0, 3), bits(3, 3), bits(6, 3), bits(9, 3)]
        )
    );
    // Each counts: four times two changes.
    let (sum, ..) = asked(&file, &[0, 0, 0, 0], 9, [12, 4]);
    assert_eq!(sum, Ok(8));
}

#[test]
fn one_kind_alone() {
    let file = mixed::file();
    for (time, reals, texts, sum) in [
        (19, not_driven(), lent(4), 3),
        (20, real(1.5), text(9, 2), 3),
    ] {
        let answer = asked(&file, &[1; 3], time, [2, 3]);
        assert_eq!(answer, answered(sum, "##", [reals; 3]));
        let answer = asked(&file, &[2; 3], time, [2, 3]);
        assert_eq!(answer, answered(sum, "##", [texts; 3]));
    }
    let integers = asked(&file, &[4, 4], 30, [64, 2]);
    let expected = answered(0, &"Z".repeat(64), [bits(0, 32), bits(32, 32)]);
    assert_eq!(integers, expected);
}

#[test]
fn every_kind_before_and_after_its_change() {
    let mut writer = Writer::new(-9, 5).expect("a writer");
    let kinds = [Kind::Text, Kind::Real, Kind::Integer, Kind::Bits];
    for kind in kinds.into_iter().chain(kinds) {
        writer.facility(b"f", kind, 4, 0).expect("a facility");
    }
    let ones = [b'1'; 32];
    let values = [
        NewValue::Text(b""),
        NewValue::Real(0x8000_0000_0000_0000),
        NewValue::Symbols(&ones),
        NewValue::Symbols(b"01ZX-"),
    ];
    for (facility, value) in values.into_iter().enumerate() {
        let made = writer.change(facility as u32, 7, value);
        made.expect("a change");
    }
    let file = writer.write().expect("a file");
    // Facilities 0 to 3 change at 7, and 4 to 7 never. The text is empty, and the real is -0.
    let list = [7, 3, 6, 2, 5, 1, 4, 0];
    let before = "U".repeat(5 + 5 + 32 + 32);
    assert_eq!(
        asked(&file, &list, 6, [74, 8]),
        answered(
            4,
            &before,
            [
                bits(0, 5),
                bits(5, 5),
                bits(10, 32),
                bits(42, 32),
                not_driven(),
                not_driven(),
                lent(4),
                lent(4)
            ]
        )
    );
    let after = ["UUUUU", "01ZX-", &"U".repeat(32), &"1".repeat(32)].concat();
    let (sum, symbols, items) = asked(&file, &list, 7, [74, 8]);
    assert_eq!((sum, symbols), (Ok(4), after));
    assert_eq!(items[4..7], [not_driven(), real(-0.0), lent(4)]);
    // The driven text is empty, and is a part of the file.
    let Value::Text { start, length: 0 } =
        lxt::value_at(&file, 0, 7, &mut []).expect("a value").value
    else {
        panic!("no empty text");
    };
    assert_eq!(items[7], text(start.into(), 0));
}

#[test]
fn an_alias_is_asked_as_its_root() {
    // 3 is an alias of the text and 4 one of that; then of the real and of the bits.
    let file = mixed::with_aliases(2, 3);
    assert_eq!(
        asked(&file, &[3, 2, 4], 20, [0, 3]),
        answered(3, "", [text(9, 2); 3])
    );
    assert_eq!(
        asked(&file, &[4, 3, 2], 19, [0, 3]),
        answered(3, "", [lent(4); 3])
    );
    let file = mixed::with_aliases(1, 0);
    assert_eq!(
        asked(&file, &[4, 3, 0, 1], 25, [6, 4]),
        answered(6, "011011", [bits(0, 3), real(1.5), bits(3, 3), real(1.5)])
    );
}

// ---- Refused ----

/// The mixed trace is refused so, with any of these rooms.
fn refused_with(list: &[u32], rooms: &[[usize; 2]], number: u8) {
    let file = mixed::file();
    for room in rooms {
        for time in [i64::MIN, 25, i64::MAX] {
            let answer = asked(&file, list, time, *room);
            assert_eq!(answer, refused(number, *room), "{} {room:?}", list.len());
        }
    }
}

#[test]
fn a_list_of_4_096_numbers_and_of_one_more() {
    let file = mixed::file();
    // Texts need no bits.
    let answer = asked(&file, &[2; 4_096], 20, [3, 4_097]);
    let items = [vec![text(9, 2); 4_096], vec![MARK]].concat();
    assert_eq!(answer, (Ok(4_096), "###".to_string(), items));
    let answer = asked(&file, &[0; 4_096], 30, [3 * 4_096, 4_096]);
    let items = Vec::from_iter((0..4_096).map(|place| bits(3 * place, 3)));
    assert_eq!(answer, (Ok(4_096), "ZX1".repeat(4_096), items));
    let rooms = [[0, 0], [20_000, 5_000], [0, 5_000], [20_000, 0]];
    for number in [0, 2, 5, u32::MAX] {
        for count in [4_097, 4_098, 8_192, 65_536 + 3] {
            refused_with(&vec![number; count], &rooms, 35);
        }
    }
    // One short of the room of so many.
    let rooms = [[3 * 4_096 - 1, 4_096], [3 * 4_096, 4_095]];
    refused_with(&[0; 4_096], &rooms, 21);
}

#[test]
fn a_number_that_is_not_below_n_at_any_place() {
    let rooms = [[0, 0], [100_000, 0], [0, 5_000], [100_000, 5_000]];
    for wrong in [5, 6, 0x8000_0000, u32::MAX] {
        for length in [1, 2, 3, 7] {
            for place in 0..length {
                let mut list = vec![4; length];
                list[place] = wrong;
                refused_with(&list, &rooms, 18);
            }
        }
        let mut list = [0; 4_096];
        for place in [0, 2_048, 4_095] {
            list[place] = wrong;
            refused_with(&list, &rooms, 18);
            list[place] = 0;
        }
    }
    // The last number below n is answered.
    let answer = asked(&mixed::file(), &[4], 30, [32, 1]);
    assert_eq!(answer, answered(0, &"Z".repeat(32), [bits(0, 32)]));
}

#[test]
fn too_little_room() {
    // 3 + 32 bytes and four items.
    let list = [1, 0, 4, 2];
    let file = mixed::file();
    let (sum, ..) = asked(&file, &list, 25, [35, 4]);
    assert_eq!(sum, Ok(4));
    let rooms = [
        [34, 4],
        [35, 3],
        [34, 3],
        [0, 4],
        [35, 0],
        [0, 0],
        [3, 9],
        [99, 3],
    ];
    refused_with(&list, &rooms, 21);
    // Repeats need room each time, and reals and texts none.
    refused_with(&[0, 3, 0], &[[8, 3], [9, 2]], 21);
    let (sum, ..) = asked(&file, &[0, 3, 0], 25, [9, 3]);
    assert_eq!(sum, Ok(6));
    refused_with(&[1, 2], &[[0, 1], [9, 0]], 21);
}

#[test]
fn without_facilities() {
    let file = Writer::new(-9, 3)
        .and_then(|it| it.write())
        .expect("a file");
    assert_eq!(lxt::judge(&file).map(|it| it.facilities), Ok(0));
    for room in [[0, 0], [4, 3]] {
        let (symbols, items) = ("#".repeat(room[0]), vec![MARK; room[1]]);
        let nothing = (Ok(0), symbols, items);
        assert_eq!(asked(&file, &[], 0, room), nothing);
        for list in [&[0][..], &[u32::MAX], &[0; 4_096]] {
            assert_eq!(asked(&file, list, 0, room), refused(18, room));
        }
        assert_eq!(asked(&file, &[0; 4_097], 0, room), refused(35, room));
    }
}

/// The file is refused so, whatever is asked with whatever room.
fn refused_file(file: &[u8], number: u8, what: &str) {
    for list in [&[][..], &[0], &[0, u32::MAX], &[0; 4_097]] {
        for room in [[0, 0], [40, 2]] {
            let answer = asked(file, list, 0, room);
            assert_eq!(answer, refused(number, room), "{what}");
        }
    }
}

#[test]
fn a_refused_file_comes_first() {
    let file = mixed::file();
    for length in 0..file.len() {
        let cut = &file[..length];
        let number = lxt_reference::judge(cut).expect_err("a refusal");
        refused_file(cut, number, &format!("{length} bytes"));
    }
    let mut accepted = 0;
    for damage in DAMAGES {
        let bases = (0..400).map(|seed| (seed, valid(seed)));
        let bases = bases.filter(|(_, base)| base.end() <= 20_000);
        let both = bases.filter_map(|(seed, base)| (damage.apply)(&base, &mut Random::new(seed)));
        let mut made = 0;
        for neighbours in both.take(3) {
            made += 1;
            refused_file(&neighbours.over.bytes(), damage.number, damage.name);
            if neighbours.near_answer.is_ok() {
                let near = neighbours.near.bytes();
                let (sum, ..) = asked(&near, &[], 0, [0, 0]);
                assert_eq!(sum, Ok(0), "{}", damage.name);
                accepted += 1;
            }
        }
        assert!(made >= 1, "{}", damage.name);
    }
    assert!(accepted >= 50, "{accepted}");
}

// ---- What is lent ----

#[test]
fn any_text_may_be_lent() {
    let file = mixed::file();
    let (zeros, long) = (vec![0; 300], vec![b'x'; lxt::LONGEST_FILE + 1]);
    let list = [2, 0, 1, 2];
    for text in [
        &b""[..],
        b"\0",
        b"a\0b\0",
        &zeros,
        &long,
        // In the file: the text that is driven, an empty part of it, the part behind it, and the whole file.
        &file[9..11],
        &file[9..9],
        &file[11..40],
        &file,
    ] {
        let before = text.to_vec();
        let length = text.len() as u64;
        let answer = with_text(&file, &list, 19, text, [3, 4]);
        let items = [lent(length), bits(0, 3), not_driven(), lent(length)];
        assert_eq!(answer, answered(5, "011", items));
        let answer = with_text(&file, &list, 20, text, [3, 4]);
        let items = [self::text(9, 2), bits(0, 3), real(1.5), self::text(9, 2)];
        assert_eq!(answer, answered(5, "011", items));
        assert!(text == before);
    }
    assert_eq!(file, mixed::file());
}

#[test]
fn the_longest_text_of_the_longest_file() {
    let written = |text: &[u8]| {
        let mut writer = Writer::new(-9, 3).expect("a writer");
        let made = writer.facility(b"text", Kind::Text, 0, 0);
        let facility = made.expect("a facility");
        let made = writer.change(facility, 5, NewValue::Text(text));
        made.expect("a change");
        writer.write().expect("a file")
    };
    let length = lxt::LONGEST_FILE - written(b"").len();
    let file = written(&vec![b'x'; length]);
    assert_eq!(file.len(), lxt::LONGEST_FILE);
    let answer = asked(&file, &[0, 0], 5, [0, 2]);
    assert_eq!(answer, answered(2, "", [text(6, length as u64); 2]));
    let answer = asked(&file, &[0, 0], 4, [0, 2]);
    assert_eq!(answer, answered(2, "", [lent(4); 2]));
}

// ---- Sums and widths ----

#[test]
fn a_sum_past_32_bits() {
    for (changes, sum) in [
        (1_048_575, 0xFFFF_F000),
        (1_048_576, 0x1_0000_0000),
        (1_048_577, 0x1_0000_1000),
    ] {
        let file = filled(changes, 0, false);
        let symbols = "X".repeat(4_096);
        let items = Vec::from_iter((0..4_096).map(|place| bits(place, 1)));
        for time in [i64::MIN, 9] {
            let answer = asked(&file, &[0; 4_096], time, [4_096, 4_096]);
            assert_eq!(answer, (Ok(sum), symbols.clone(), items.clone()));
        }
        // From the change's time on the newest alone.
        let (sum, ..) = asked(&file, &[0; 4_096], 10, [4_096, 4_096]);
        assert_eq!(sum, Ok(4_096));
    }
}

#[test]
fn the_greatest_sum() {
    let changes = (lxt::LONGEST_FILE - filled(0, 0, false).len()) / 2;
    let file = filled(changes, 0, false);
    assert_eq!((file.len(), changes), (lxt::LONGEST_FILE, 8_388_566));
    let (sum, symbols, _) = asked(&file, &[0; 4_096], 9, [4_096, 4_096]);
    assert_eq!((sum, symbols), (Ok(4_096 * 8_388_566), "X".repeat(4_096)));
}

/// Compares a column of these numbers with the independent reader's, with the exact room of all, with a byte less and
/// with an item less.
fn whole(file: &[u8], list: &[u32], time: i64, widths: usize) {
    let judged = Judged::new(file).expect("an accepted trace");
    let (mut symbols, mut items) = (vec![b'#'; widths], vec![MARK; list.len()]);
    for (less, items_less) in [(1, 0), (0, 1)] {
        let lent = (&mut symbols[less..], &mut items[items_less..]);
        let sum = lxt::column(file, time, list, b"none", lent.0, lent.1);
        assert_eq!(sum, Err(Refusal::Room));
    }
    assert!(symbols.iter().all(|it| *it == b'#') && items.iter().all(|it| *it == MARK));
    let sum = lxt::column(file, time, list, b"none", &mut symbols, &mut items);
    let (mut expected, mut records) = (vec![b'#'; widths], vec![None; list.len()]);
    let theirs = judged.column(time, list, b"none", &mut expected, &mut records);
    assert_eq!(sum.map_err(Refusal::number), theirs);
    assert!(symbols == expected);
    let mut next = 0;
    for (ours, theirs) in items.into_iter().zip(records) {
        let Some(lxt_reference::Item::Bits { start, width }) = theirs else {
            panic!("{theirs:?}");
        };
        assert_eq!(ours, bits(next, width.into()));
        assert_eq!(ours.start, start as u64);
        next += u64::from(width);
    }
    assert_eq!(next, widths as u64);
}

#[test]
fn the_widest_column() {
    for times_tag in [SHORT_TIMES, LONG_TIMES] {
        let file = large(&Large {
            bytes: 2_000_000,
            facilities: 4_096,
            width: 4_096,
            entries: 100,
            times_tag,
        });
        let mut list = Vec::from_iter(0..4_096);
        whole(&file, &list, 500, 1 << 24);
        // In any order, and one of them as often as it goes.
        Random::new(4).shuffle(&mut list);
        whole(&file, &list, i64::MAX, 1 << 24);
        whole(&file, &[4_095; 4_096], 1_000, 1 << 24);
    }
}

// ---- Times ----

/// The symbol of the small trace's bit at a time, by a column of it three times over.
fn symbol(file: &[u8], time: i64) -> char {
    let (sum, symbols, items) = asked(file, &[0, 0, 0], time, [3, 3]);
    let symbol = symbols.chars().next().expect("a symbol");
    assert_eq!(symbols, String::from_iter([symbol; 3]));
    assert_eq!(items, [bits(0, 1), bits(1, 1), bits(2, 1)]);
    // Of two changes, to 1 and then to 0.
    let visited = if symbol == '0' { 1 } else { 2 };
    assert_eq!(sum, Ok(3 * visited), "{time}");
    symbol
}

#[test]
fn examples_of_zero_deltas() {
    for example in tied::EXAMPLES {
        let (file, what) = (example.file(), format!("2-{}", example.letter));
        let Some(answer) = &example.answer else {
            refused_file(&file, 13, &what);
            continue;
        };
        for (time, expected) in answer.values.chars().enumerate() {
            assert_eq!(symbol(&file, time as i64), expected, "{what} at {time}");
        }
        let ends = [i64::MIN, -1, i64::MAX].map(|time| symbol(&file, time));
        assert_eq!(ends, ['X', 'X', '0'], "{what}");
    }
}

#[test]
fn examples_of_64_bit_times() {
    let mut below_0 = 0;
    for example in wide::examples() {
        let answer = match &example.answer {
            Ok(answer) => answer,
            Err(number) => {
                refused_file(&example.file, *number, example.name);
                continue;
            }
        };
        for (time, expected) in answer.values {
            let shown = symbol(&example.file, *time);
            assert_eq!(shown, *expected, "{} at {time}", example.name);
            below_0 += u32::from(*time < 0);
        }
    }
    assert!(below_0 >= 8, "{below_0}");
}

#[test]
fn the_ends_of_the_range() {
    for (file, values) in wide::range_ends() {
        for (time, expected) in values {
            assert_eq!(symbol(&file, time), expected, "{file:02X?} at {time}");
        }
    }
}

// ---- The trace's own column ----

#[test]
fn a_column_of_a_trace() {
    let file = mixed::file();
    let trace = Trace::open(&file).expect("an accepted trace");
    let none = String::from("none");
    let column = trace.column(25, &[0, 3, 1, 2, 0], none.as_bytes());
    let column = column.expect("a column");
    assert_eq!(
        (column.len(), column.is_empty(), column.visited()),
        (5, false, 8)
    );
    let values = [
        ColumnValue::Bits(b"011"),
        ColumnValue::Bits(b"011"),
        ColumnValue::Real(1.5),
        ColumnValue::Text(b"hi"),
        ColumnValue::Bits(b"011"),
    ];
    assert_eq!(Vec::from_iter(column.iter()), values);
    for (place, value) in values.into_iter().enumerate() {
        assert_eq!(column.get(place), Some(value));
    }
    assert_eq!([5, usize::MAX].map(|place| column.get(place)), [None; 2]);
    let mut iter = column.iter();
    assert_eq!((iter.len(), iter.next_back()), (5, Some(values[4])));
    assert_eq!((iter.len(), iter.next()), (4, Some(values[0])));
    let shown = Vec::from_iter(column.iter().map(|it| it.to_string()));
    assert_eq!(shown, ["011", "011", "1.5", "\"hi\"", "011"]);
    // The text is a part of the file, not a copy.
    let Some(ColumnValue::Text(text)) = column.get(3) else {
        panic!("{column:?}");
    };
    assert!(ptr::eq(text, &file[9..11]));

    let column = trace.column(9, &[2, 1, 0, 2], none.as_bytes());
    let column = column.expect("a column");
    let values = [
        ColumnValue::LentText(b"none"),
        ColumnValue::NotDriven,
        ColumnValue::Bits(b"ZZZ"),
        ColumnValue::LentText(b"none"),
    ];
    assert_eq!(
        (Vec::from_iter(column.iter()), column.visited()),
        (values.to_vec(), 5)
    );
    let shown = Vec::from_iter(column.clone().iter().map(|it| format!("{it:>10}")));
    assert_eq!(
        shown,
        ["    \"none\"", "not driven", "       ZZZ", "    \"none\""]
    );
    let Some(ColumnValue::LentText(text)) = column.get(0) else {
        panic!("{column:?}");
    };
    assert!(ptr::eq(text, none.as_bytes()));

    let empty = trace.column(9, &[], b"").expect("a column");
    assert_eq!(
        (empty.len(), empty.is_empty(), empty.visited()),
        (0, true, 0)
    );
    assert_eq!((empty.iter().count(), empty.get(0)), (0, None));
}

#[test]
fn a_refused_column_of_a_trace() {
    let file = mixed::file();
    let trace = Trace::open(&file).expect("an accepted trace");
    for (list, refusal) in [
        (&[5][..], Refusal::NoFacility),
        (&[0, u32::MAX], Refusal::NoFacility),
        (&[0; LONGEST_COLUMN + 1], Refusal::LongColumn),
        (&[9; LONGEST_COLUMN + 1], Refusal::LongColumn),
    ] {
        assert_eq!(trace.column(0, list, b"").err(), Some(refusal));
        let lent = (&mut [], &mut []);
        let into = trace.column_into(0, list, b"", lent.0, lent.1);
        assert_eq!(into, Err(refusal));
    }
    let longest = trace.column(0, &[0; LONGEST_COLUMN], b"");
    assert_eq!(longest.map(|it| it.len()).ok(), Some(4_096));
    let (mut symbols, mut items) = ([b'#'; 4], [MARK; 2]);
    let into = trace.column_into(30, &[3], b"", &mut symbols, &mut items);
    assert_eq!(
        (into, symbols, items),
        (Ok(1), *b"ZX1#", [bits(0, 3), MARK])
    );
    let into = trace.column_into(30, &[3, 3], b"", &mut symbols, &mut items);
    assert_eq!(into, Err(Refusal::Room));
    assert_eq!((symbols, items), (*b"ZX1#", [bits(0, 3), MARK]));
}

/// A text of the file, kept when the column, the trace and the lent text are gone.
fn kept(file: &[u8]) -> &[u8] {
    let trace = Trace::open(file).expect("an accepted trace");
    let default = String::from("none");
    let column = trace.column(20, &[2], default.as_bytes());
    match column.expect("a column").get(0) {
        Some(ColumnValue::Text(text)) => text,
        other => panic!("{other:?}"),
    }
}

/// The lent text, kept when the column and the file are gone.
fn kept_lent(text: &[u8]) -> &[u8] {
    let file = mixed::file();
    let trace = Trace::open(&file).expect("an accepted trace");
    let column = trace.column(19, &[2], text);
    match column.expect("a column").get(0) {
        Some(ColumnValue::LentText(text)) => text,
        other => panic!("{other:?}"),
    }
}

#[test]
fn either_text_outlives_the_other() {
    let (file, text) = (mixed::file(), String::from("none"));
    assert!(ptr::eq(kept(&file), &file[9..11]));
    assert!(ptr::eq(kept_lent(text.as_bytes()), text.as_bytes()));
}

#[test]
fn an_item_says_what_it_is() {
    let (start, length) = (7, 9);
    for (what, expected) in [
        (0, ItemValue::Bits { start, width: 9 }),
        (
            1,
            ItemValue::Real {
                number: 1.5,
                bits: 1.5_f64.to_bits(),
            },
        ),
        (2, ItemValue::Text { start, length }),
        (3, ItemValue::NotDriven),
        (4, ItemValue::LentText { length }),
        // No column writes these.
        (5, ItemValue::NotDriven),
        (u64::MAX, ItemValue::NotDriven),
    ] {
        let item = item(what, 7, 9, 1.5_f64.to_bits());
        assert_eq!(item.value(), expected);
    }
    // A real that is no number keeps its bits.
    let ItemValue::Real { number, bits } = item(1, 0, 0, 0x7FF8_0000_0000_0001).value() else {
        panic!("no real");
    };
    assert!(number.is_nan() && bits == 0x7FF8_0000_0000_0001);
}

// ---- Beside the single questions ----

/// How many items of a column were compared with single questions: bits, reals, texts of the file, lent texts and
/// those that are not driven.
#[derive(Debug, Default)]
struct Met([u32; 5]);

/// A column of a list at a time, each of whose values is that of asking for it alone, with the sum of what they visit.
fn one_by_one(trace: &Trace, list: &[u32], time: i64, met: &mut Met) {
    let column = trace.column(time, list, b"none").expect("a column");
    let mut visited = 0;
    for (facility, value) in list.iter().zip(column.iter()) {
        let lookup = trace.value_at(*facility, time).expect("a value");
        visited += u64::from(lookup.visited);
        let what = format!("{facility} at {time}");
        let sort = match (value, &lookup.value) {
            (ColumnValue::Bits(ours), Reading::Bits(theirs)) => {
                assert_eq!(ours, theirs, "{what}");
                0
            }
            (ColumnValue::Real(ours), Reading::Real(theirs)) => {
                assert_eq!(ours.to_bits(), theirs.to_bits(), "{what}");
                1
            }
            (ColumnValue::Text(ours), Reading::Text(theirs)) => {
                assert!(ptr::eq(ours, *theirs), "{what}");
                2
            }
            (ColumnValue::LentText(ours), Reading::NotDriven) => {
                let text = trace.text_at(*facility, time, b"none");
                assert_eq!(text, Ok(TextAt::Lent(ours)), "{what}");
                3
            }
            (ColumnValue::NotDriven, Reading::NotDriven) => {
                let text = trace.text_at(*facility, time, b"none");
                assert_eq!(text, Ok(TextAt::OtherKind), "{what}");
                4
            }
            other => panic!("{what}: {other:?}"),
        };
        met.0[sort] += 1;
    }
    assert_eq!(column.visited(), visited, "at {time}");
    assert_eq!(column.len(), list.len());
}

#[test]
fn traces_of_the_folder_one_by_one() {
    let (mut accepted, mut met) = (0, Met::default());
    for (name, file) in traces(usize::MAX) {
        let Ok(trace) = Trace::open(&file) else {
            continue;
        };
        let judged = Judged::new(&file).expect("an accepted trace");
        let all = Vec::from_iter(trace.facilities());
        let entries = Vec::from_iter(judged.entries().into_iter().map(|it| it.1));
        // All facilities at several times, and of large traces some of them.
        let (list, most) = match file.len() {
            0..=30_000 => (all.clone(), 5),
            30_001..=200_000 => (sample(&all, 60), 3),
            _ => (sample(&all, 40), 2),
        };
        let mut times = sample(&entries, most);
        times.extend([i64::MIN, -1, i64::MAX]);
        for time in times {
            one_by_one(&trace, &list, time, &mut met);
        }
        // All of them beside the independent reader, at every time of a sample of the table.
        for time in sample(&entries, 20) {
            let column = trace.column(time, &all, b"none").expect("a column");
            let mut symbols = vec![0; lxt::WIDEST * all.len()];
            let mut items = vec![None; all.len()];
            let sum = judged.column(time, &all, b"none", &mut symbols, &mut items);
            assert_eq!(Ok(column.visited()), sum, "{name} at {time}");
            for (value, item) in column.iter().zip(items) {
                use lxt_reference::Item as Of;
                let same = match (value, item.expect("an item")) {
                    (ColumnValue::Bits(ours), Of::Bits { start, width }) => {
                        *ours == symbols[start..][..width as usize]
                    }
                    (ColumnValue::Real(ours), Of::Real { bits }) => ours.to_bits() == bits,
                    (ColumnValue::Text(ours), Of::Text { start, length }) => {
                        ptr::eq(ours, &file[start as usize..][..length as usize])
                    }
                    (ColumnValue::LentText(ours), Of::LentText { length }) => ours.len() == length,
                    (ColumnValue::NotDriven, Of::NotDriven) => true,
                    _ => false,
                };
                assert!(same, "{name} at {time}: {value:?} {item:?}");
            }
        }
        accepted += 1;
    }
    println!("{accepted} traces, {met:?}");
    assert!(accepted >= 20, "{accepted}");
    assert!(met.0.iter().all(|count| *count >= 20), "{met:?}");
}

// ---- Against the independent reader ----

/// Fails unless every sort of column was met so often.
fn least(seen: &Seen, what: &str, least: u64) {
    seen.report(what);
    for (met, count) in seen.met() {
        assert!(count >= least, "{met}: {count}");
    }
}

#[test]
fn generated_files() {
    let mut seen = Seen::default();
    for (what, file) in generated(700_000..704_000, usize::MAX) {
        compare(&file, &what, &mut seen);
    }
    least(&seen, "generated", 50);
    let answers = Vec::from_iter(seen.answers());
    for number in (0..=18).chain([21, 35]) {
        let count = answers.iter().find(|it| it.0 == number);
        assert!(count.is_some_and(|it| it.1 >= 50), "{number}: {count:?}");
    }
}

#[test]
fn hostile_files() {
    let mut seen = Seen::default();
    for case in lxt_generate::hostile() {
        if case.bytes.len() <= 60_000 {
            compare(&case.bytes, &case.origin, &mut seen);
        }
    }
    seen.report("hostile");
    let answered = seen.answers().find(|it| it.0 == 0);
    assert!(answered.is_some_and(|it| it.1 >= 500), "{answered:?}");
}

/// Lines, trees and rings of aliases.
#[test]
fn aliases() {
    let mut seen = Seen::default();
    for seed in 800_000..800_400 {
        let case = lxt_generate::aliases(seed);
        let what = format!("aliases of seed {seed}, {}", case.origin);
        compare(&case.bytes, &what, &mut seen);
    }
    seen.report("aliases");
    let with_root = "columns with an alias and its root";
    let met = seen.met().find(|it| it.0 == with_root);
    assert!(met.is_some_and(|it| it.1 >= 500), "{met:?}");
}

#[test]
fn shortened_and_damaged_traces() {
    let mut seen = Seen::default();
    for (name, file) in traces(600) {
        for length in 0..file.len() {
            // An exact-size copy, so that a read past the slice would leave its allocation.
            let cut = file[..length].to_vec().into_boxed_slice();
            compare(&cut, &format!("{length} bytes of {name}"), &mut seen);
        }
        for at in 0..file.len() {
            for value in [file[at] ^ 0x01, file[at] ^ 0x80, file[at].wrapping_add(2)] {
                let mut damaged = file.clone();
                damaged[at] = value;
                let what = format!("{name}, byte {at} is {value}");
                compare(&damaged, &what, &mut seen);
            }
        }
    }
    seen.report("damaged");
    let refused = seen.answers().filter(|it| (1..=17).contains(&it.0));
    assert!(refused.count() >= 10);
}
