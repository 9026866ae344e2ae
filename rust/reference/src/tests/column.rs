//! A whole column at once (Ask 4), with the lent text of Ask 11 and the sum of Ask 7, worked out by hand.

use super::visited::mixed;
use super::*;

fn bits(start: usize, width: u32) -> Option<Item> {
    Some(Item::Bits { start, width })
}

fn real(number: f64) -> Option<Item> {
    let bits = number.to_bits();
    Some(Item::Real { bits })
}

fn text(start: u32, length: u32) -> Option<Item> {
    Some(Item::Text { start, length })
}

fn lent(length: usize) -> Option<Item> {
    Some(Item::LentText { length })
}

const NOT_DRIVEN: Option<Item> = Some(Item::NotDriven);

/// What a column of `#` and of records that are nothing holds after a call, and the sum.
type Column = (String, Vec<Option<Item>>, u64);

/// A column with so many bytes and records of room and the lent text `none`. A refused one has changed nothing.
fn asked(file: &[u8], list: &[u32], time: i64, room: [usize; 2]) -> Result<Column, u8> {
    let (mut symbols, mut items) = (vec![b'#'; room[0]], vec![None; room[1]]);
    let sum = column(file, time, list, b"none", &mut symbols, &mut items);
    let symbols = String::from_utf8(symbols).expect("symbols");
    if sum.is_err() {
        assert_eq!(symbols, "#".repeat(room[0]));
        assert_eq!(items, vec![None; room[1]]);
    }
    sum.map(|sum| (symbols, items, sum))
}

fn answer<const N: usize>(symbols: &str, items: [Option<Item>; N], sum: u64) -> Result<Column, u8> {
    Ok((symbols.to_string(), items.to_vec(), sum))
}

#[test]
fn examples_4_a_to_4_d_and_11_a_and_11_b() {
    let file = mixed();
    assert_eq!(
        asked(&file, &[0, 3, 1, 2, 0], 25, [10, 6]),
        answer(
            "011011011#",
            [
                bits(0, 3),
                bits(3, 3),
                real(1.5),
                text(9, 2),
                bits(6, 3),
                None
            ],
            8
        )
    );
    assert_eq!(1.5_f64.to_bits(), 0x3FF8_0000_0000_0000);
    assert_eq!(
        asked(&file, &[4, 0], 9, [35, 2]),
        answer(&"Z".repeat(35), [bits(0, 32), bits(32, 3)], 2)
    );
    // By 11.6 the text is the lent one, and the real is not driven.
    assert_eq!(
        asked(&file, &[1, 2], 9, [0, 2]),
        answer("", [NOT_DRIVEN, lent(4)], 2)
    );
    assert_eq!(asked(&file, &[], 9, [0, 0]), answer("", [], 0));
    assert_eq!(
        asked(&file, &[2, 1, 0, 2], 9, [3, 4]),
        answer("ZZZ", [lent(4), NOT_DRIVEN, bits(0, 3), lent(4)], 5)
    );
    assert_eq!(
        asked(&file, &[2, 1, 2], 20, [0, 3]),
        answer("", [text(9, 2), real(1.5), text(9, 2)], 3)
    );
}

#[test]
fn examples_4_e_to_4_j() {
    let file = mixed();
    assert_eq!(asked(&file, &[0, 5], 25, [0, 0]), Err(18));
    assert_eq!(asked(&file, &[0, 0], 25, [5, 2]), Err(21));
    assert_eq!(asked(&file, &[0, 0], 25, [6, 1]), Err(21));
    assert_eq!(asked(&file, &[0; 4_097], 25, [0, 0]), Err(35));
    assert_eq!(asked(&file, &[9; 4_097], 25, [0, 0]), Err(35));
    assert_eq!(asked(&file, &[9; 4_096], 25, [0, 0]), Err(18));
}

#[test]
fn both_sides_of_each_boundary() {
    let file = mixed();
    // 4,096 numbers, of a real, need no bits.
    let column = asked(&file, &[1; 4_096], 20, [0, 4_096]).expect("a column");
    assert_eq!(column, (String::new(), vec![real(1.5); 4_096], 4_096));
    assert_eq!(asked(&file, &[1; 4_097], 20, [0, 4_097]), Err(35));
    // A number not below n at any place, with and without room.
    for list in [[5, 0, 0], [0, 5, 0], [0, 0, 5], [0, u32::MAX, 5]] {
        for room in [[0, 0], [9, 2], [8, 3], [100, 100]] {
            assert_eq!(asked(&file, &list, 25, room), Err(18), "{list:?} {room:?}");
        }
    }
    // The room of the bits and that of the records, each exact and one short.
    let list = [0, 1, 4];
    assert!(asked(&file, &list, 25, [35, 3]).is_ok());
    for room in [[34, 3], [35, 2], [34, 2], [0, 3], [35, 0]] {
        assert_eq!(asked(&file, &list, 25, room), Err(21), "{room:?}");
    }
    // The file comes first.
    for length in 0..file.len() {
        let cut = &file[..length];
        let number = refused(judge(cut));
        for list in [&[][..], &[0], &[5], &[0; 4_097]] {
            assert_eq!(asked(cut, list, 25, [0, 0]), Err(number), "{length}");
        }
    }
}

#[test]
fn past_the_items_all_stays() {
    let file = mixed();
    assert_eq!(asked(&file, &[], 9, [2, 2]), answer("##", [None, None], 0));
    assert_eq!(
        asked(&file, &[2, 0], 30, [5, 4]),
        answer("ZX1##", [text(9, 2), bits(0, 3), None, None], 2)
    );
    // Records that were something before.
    let mut items = [NOT_DRIVEN; 3];
    let sum = column(&file, 30, &[1], b"", &mut [], &mut items);
    assert_eq!((sum, items), (Ok(1), [real(1.5), NOT_DRIVEN, NOT_DRIVEN]));
}

#[test]
fn without_facilities_only_an_empty_list_is_answered() {
    let file = plan(&[], &[]).file();
    assert_eq!(judge(&file).map(|it| it.facilities), Ok(0));
    assert_eq!(asked(&file, &[], 0, [0, 0]), answer("", [], 0));
    assert_eq!(asked(&file, &[0], 0, [0, 0]), Err(18));
    assert_eq!(asked(&file, &[0; 4_096], 0, [0, 0]), Err(18));
    assert_eq!(asked(&file, &[0; 4_097], 0, [0, 0]), Err(35));
}

#[test]
fn an_alias_and_its_root_are_two_items() {
    // Facilities 0 and 2 are aliases of 3, which has two changes at one time; 1 has one, here to 0.
    let mut made = four_facilities();
    made.changes[2] = 0x03;
    let file = made.file();
    assert_eq!(
        asked(&file, &[0, 1, 3, 2], 10, [5, 4]),
        answer("10011", [bits(0, 1), bits(1, 2), bits(3, 1), bits(4, 1)], 4)
    );
    assert_eq!(
        asked(&file, &[3, 0, 0, 1], 9, [5, 4]),
        answer("XXXXX", [bits(0, 1), bits(1, 1), bits(2, 1), bits(3, 2)], 7)
    );
}

/// Each item and the sum are those of asking one by one, at every time of the mixed trace.
#[test]
fn a_column_is_asking_one_by_one() {
    let file = mixed();
    let list = [0, 4, 3, 1, 2, 2, 0, 1, 4];
    for time in (8..33).chain([i64::MIN, -1, 0, i64::MAX]) {
        let (symbols, items, sum) = asked(&file, &list, time, [74, 9]).expect("a column");
        let (mut joined, mut visited) = (String::new(), 0);
        for (facility, item) in list.into_iter().zip(items) {
            let mut room = [b'?'; 32];
            let lookup = value_at(&file, facility, time, &mut room).expect("a value");
            visited += u64::from(lookup.visited);
            let expected = match lookup.value {
                Value::Bits { width } => {
                    let start = joined.len();
                    let symbols = &room[..width as usize];
                    joined += std::str::from_utf8(symbols).expect("symbols");
                    bits(start, width)
                }
                Value::Real { bits } => Some(Item::Real { bits }),
                Value::Text { start, length } => text(start, length),
                Value::NotDriven if facility == 2 => lent(4),
                Value::NotDriven => NOT_DRIVEN,
            };
            assert_eq!(item, expected, "{facility} at {time}");
        }
        assert_eq!((symbols, sum), (joined + "#", visited), "{time}");
    }
}
