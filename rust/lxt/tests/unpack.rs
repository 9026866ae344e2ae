//! Values of packed symbols through the C interface: every byte, every number of symbols in the last byte, and
//! nothing written past the last symbol.

use lxt::Value;
use lxt_generate::Random;
use packed::{any_data, data_length, one_change, symbols, BITS, INTEGER};

mod packed;

/// Both calls that read the value give these symbols and leave what stands behind them, and so does the
/// independent reader.
fn reads(file: &[u8], expected: &[u8], what: &str) {
    let width = expected.len();
    for room in [width, width + 1, width + 9] {
        let mut held = vec![b'?'; room];
        held[..width].copy_from_slice(expected);
        let value = Value::Bits {
            width: width as u32,
        };
        let mut bits = vec![b'?'; room];
        let read = lxt::change(file, 0, 4, &mut bits).map(|it| it.value);
        assert_eq!(read, Ok(value), "{what}");
        assert!(bits == held, "{what}, a change, room for {room}");
        let mut bits = vec![b'?'; room];
        let read = lxt::value_at(file, 0, 7, &mut bits).map(|it| it.value);
        assert_eq!(read, Ok(value), "{what}");
        assert!(bits == held, "{what}, a value at a time, room for {room}");
        let mut bits = vec![b'?'; room];
        let read = lxt_reference::change(file, 0, 4, &mut bits);
        assert!(read.is_ok() && bits == held, "{what}, independent");
    }
    // One symbol less: nothing is written.
    let mut bits = vec![b'?'; width - 1];
    let read = lxt::change(file, 0, 4, &mut bits);
    assert_eq!(read, Err(lxt::Refusal::Room), "{what}");
    assert!(bits.iter().all(|it| *it == b'?'), "{what}");
}

#[test]
fn examples_3_a_to_3_h() {
    for (letter, flags, data, expected) in [
        ('A', BITS, &[0xFE, 0x60][..], "11111110011"),
        ('B', BITS, &[0x80], "1"),
        ('C', BITS, &[0xA5], "10100101"),
        ('D', BITS, &[0xA5, 0x80], "101001011"),
        (
            'E',
            INTEGER,
            &[0, 0, 0xFF, 0xFF],
            "00000000000000001111111111111111",
        ),
        ('F', BITS, &[0xFF], "111"),
    ] {
        let file = one_change(flags, expected.len() as u32, 0, data);
        reads(&file, expected.as_bytes(), &format!("3-{letter}"));
    }
    let symbols = b"10100101".repeat(512);
    for (letter, width) in [('G', 4_095), ('H', 4_096)] {
        let file = one_change(BITS, width, 0, &[0xA5; 512]);
        reads(&file, &symbols[..width as usize], &format!("3-{letter}"));
    }
}

#[test]
fn every_byte_at_the_first_a_middle_and_the_last_place() {
    let mut random = Random::new(3);
    for command in 0..3 {
        for byte in 0..=255 {
            if command == 2 && (byte >> 4 > 8 || byte & 15 > 8) {
                continue;
            }
            for place in 0..3 {
                let width = 3 * 8 / packed::SIZES[usize::from(command)];
                let mut data = any_data(command, width, |below| random.below(below));
                data[place] = byte;
                let file = one_change(BITS, width as u32, command, &data);
                let what = format!("command {command}, byte {byte:02X} at {place}");
                reads(&file, &symbols(command, width, &data), &what);
            }
        }
    }
}

#[test]
fn every_width() {
    let mut random = Random::new(4);
    for command in 0..3 {
        for width in (1..=200).chain(4_000..=4_096) {
            let data = any_data(command, width, |below| random.below(below));
            assert_eq!(data.len(), data_length(command, width));
            let file = one_change(BITS, width as u32, command, &data);
            let what = format!("command {command}, {width} symbols");
            reads(&file, &symbols(command, width, &data), &what);
        }
    }
}
