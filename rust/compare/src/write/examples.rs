//! The worked examples of writing, byte for byte.

use lxt_generate::{Input, BITS, INTEGER, REAL, TEXT};

/// An input and the file that it is to become.
pub struct Example {
    pub name: &'static str,
    pub input: Input,
    pub file: Vec<u8>,
}

fn example(name: &'static str, input: Input, digits: &str) -> Example {
    let digits: Vec<u8> = digits.bytes().filter(u8::is_ascii_hexdigit).collect();
    let byte = |pair: &[u8]| u8::from_str_radix(&String::from_utf8_lossy(pair), 16);
    let file = digits.chunks(2).map(|pair| byte(pair).expect("a byte"));
    Example {
        name,
        input,
        file: file.collect(),
    }
}

/// E1 to E7. Where no initial symbol and timescale are named they are X and -9.
pub fn examples() -> [Example; 7] {
    [
        one_bit(),
        nothing(),
        forms_of_bits(),
        integer(),
        reals(),
        texts_and_prefixes(),
        two_of_one_name(),
    ]
}

fn one_bit() -> Example {
    let mut input = Input::new();
    input.facility(b"a", BITS, 0, 0);
    input.change(0, 0, b"1");
    input.change(0, 5, b"0");
    example(
        "E1",
        input,
        "01380004 0402 0300 00000001 00000002 0000 6100 00000000 00000000 00000000 00000000 00000006 \
         00000002 00000000 00000005 00000004 00000002 00000000 00000005 F7 03 00 \
         0000000401 0000002402 0000000803 0000001404 0000004405 0000002806 0000004507 B4",
    )
}

fn nothing() -> Example {
    let input = Input {
        initial: 0,
        timescale: 0,
        ..Input::new()
    };
    example(
        "E2",
        input,
        "01380004 00000000 00000000 00000000 00000000 00000000 00 00 00 \
         0000000401 0000000C02 0000000403 0000000C04 0000001805 0000000C06 0000001907 B4",
    )
}

fn forms_of_bits() -> Example {
    let mut input = Input::new();
    input.facility(b"", BITS, 2, 0);
    for value in [b"010", b"0ZX", b"0HX", b"XXX", b"---"] {
        input.change(0, 9, value);
    }
    example(
        "E3",
        input,
        "01380004 | 00 02 40 | 01 01 2C | 02 01 04 30 | 06 02 | 0B 00 | 00000001 00000001 0000 00 \
         | 00000000 00000002 00000000 00000000 | 00000010 \
         | 00000001 00000009 00000009 00000004 00000009 | F7 03 00 \
         0000000401 0000002D02 0000001203 0000001D04 0000004505 0000003106 0000004607 B4",
    )
}

fn integer() -> Example {
    let mut input = Input::new();
    input.facility(b"i", INTEGER, 7, -7);
    input.change(0, 1, &[b'0'; 32]);
    input.change(0, 1, &[b'1'; 32]);
    let mut ends = [b'0'; 32];
    (ends[0], ends[31]) = (b'1', b'1');
    input.change(0, 2, &ends);
    example(
        "E4",
        input,
        "01380004 | 03 02 | 04 00 | 00 00 80 00 00 01 | 00000001 00000002 0000 69 00 \
         | 00000000 0000001F 00000000 00000001 | 00000008 \
         | 00000002 00000001 00000002 00000004 00000004 00000001 00000001 | F7 03 00 \
         0000000401 0000002A02 0000000E03 0000001A04 0000004A05 0000002E06 0000004B07 B4",
    )
}

fn reals() -> Example {
    let mut input = Input::new();
    input.facility(b"r", REAL, 0, 0);
    // 3.14159, a NaN, and 0 with its sign.
    input.change(0, 0, &0x4009_21F9_F01B_866E_u64.to_le_bytes());
    input.change(0, 3, &0x7FF0_0000_0000_0001_u64.to_le_bytes());
    input.change(0, 3, &(-0.0_f64).to_le_bytes());
    example(
        "E5",
        input,
        "01380004 | 00 02 6E861BF0F9210940 | 00 08 010000000000F07F | 00 08 0000000000000080 \
         | 00000001 00000002 0000 72 00 | 00000000 00000000 00000000 00000002 | 00000018 \
         | 00000002 00000000 00000003 00000004 0000000A 00000000 00000003 | F7 03 6E861BF0F9210940 00 \
         0000000401 0000003E02 0000002203 0000002E04 0000005E05 0000004206 0000005F07 0000006008 B4",
    )
}

fn texts_and_prefixes() -> Example {
    let mut input = Input::new();
    for name in ["alpha", "apple", "application", "zero"] {
        input.facility(name.as_bytes(), TEXT, 0, 0);
    }
    input.change(3, 4, b"hi");
    input.change(0, 4, b"");
    let geometry = "00000000 00000000 00000000 00000004".repeat(4);
    let digits = format!(
        "01380004 | 00 02 686900 | 00 07 00 | 00000004 0000001D 0000616C70686100 000170706C6500 \
         000469636174696F6E00 00007A65726F00 | {geometry} | 00000009 00000000 00000000 00000004 \
         | 00000001 00000004 00000004 00000004 00000004 | F7 03 00 \
         0000000401 0000007402 0000000C03 0000003404 0000009805 0000008406 0000009907 B4"
    );
    example("E6", input, &digits)
}

fn two_of_one_name() -> Example {
    let mut input = Input::new();
    input.facility(b"ck", BITS, 0, 0);
    input.facility(b"ck", BITS, 1, 0);
    input.change(0, 0, b"0");
    input.change(1, 0, b"0Z");
    input.change(0, 1, b"1");
    input.change(1, u32::MAX, b"01");
    example(
        "E7",
        input,
        "01380004 | 03 02 | 01 04 20 | 04 03 | 00 03 40 | 00000002 00000006 0000 636B 00 0002 00 \
         | 00000000 00000000 00000000 00000000 00000000 00000001 00000000 00000000 | 00000009 0000000B \
         | 00000003 00000000 FFFFFFFF 00000004 00000005 00000002 00000000 00000001 FFFFFFFE | F7 03 00 \
         0000000401 0000003E02 0000000E03 0000001E04 0000006A05 0000004606 0000006B07 B4",
    )
}
