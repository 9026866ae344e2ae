//! The words of the refusals: the table of docs/FORMAT.md, the header and Rust say the same, and the
//! table's examples are refused so.

use lxt::{Pair, Refusal};
use lxt_compare::judge::TRACE;
use lxt_compare::write::{examples, Rows};

const FORMAT: &str = include_str!("../../../docs/FORMAT.md");
const HEADER: &str = include_str!("../../../include/lxt.h");

/// The part of the page that is about refusals.
fn refusals() -> &'static str {
    FORMAT.split("\n## Refusals\n").nth(1).expect("the heading")
}

/// The rows of the table: number, words and example.
fn rows() -> Vec<(u8, &'static str, &'static str)> {
    let lines = refusals().lines().filter(|line| line.starts_with("| "));
    let rows = lines.filter_map(|line| {
        let cells = Vec::from_iter(line.trim_matches('|').split('|').map(str::trim));
        let number = cells[0].parse().ok()?;
        assert_eq!(cells.len(), 3, "{line}");
        Some((number, cells[1], cells[2]))
    });
    rows.collect()
}

#[test]
fn the_table_has_the_words_of_rust() {
    let table = rows().into_iter().map(|(number, words, _)| (number, words));
    let ours = Refusal::ALL.iter().map(|it| (it.number(), it.words()));
    assert_eq!(Vec::from_iter(table), Vec::from_iter(ours));
    for &refusal in Refusal::ALL {
        let shown = format!("refused {}: {}", refusal.number(), refusal.words());
        assert_eq!(refusal.to_string(), shown);
    }
}

/// A name as C writes constants: `LastByte` is `LAST_BYTE`.
fn upper(name: &str) -> String {
    let mut upper = String::new();
    for (place, letter) in name.char_indices() {
        if place > 0 && letter.is_uppercase() {
            upper.push('_');
        }
        upper.push(letter.to_ascii_uppercase());
    }
    upper
}

#[test]
fn the_header_has_the_words_and_names_of_rust() {
    let cases = HEADER.split("enum lxt_refusal {").nth(1).expect("the enum");
    let cases = cases.split("};").next().expect("its end");
    let (first, cases) = cases.split_once(',').expect("a case");
    assert_eq!(first.trim(), "LXT_ACCEPTED = 0");
    let joined = Vec::from_iter(cases.split_whitespace()).join(" ");
    let ours = Refusal::ALL.iter().map(|it| {
        let (name, number) = (upper(&format!("{it:?}")), it.number());
        format!("/* {} */ LXT_REFUSED_{name} = {number}", it.words())
    });
    assert_eq!(joined, Vec::from_iter(ours).join(", "));
}

fn hex(digits: &str) -> Vec<u8> {
    let bytes = digits.split_whitespace();
    let bytes = bytes.map(|byte| u8::from_str_radix(byte, 16).expect("a byte"));
    bytes.collect()
}

/// A file of 4,097 facilities that breaks no rule before 9: all tables are zeros, at one place.
fn too_many() -> Vec<u8> {
    let mut file = hex("01 38 00 04");
    let tables = file.len() as u32;
    file.resize(file.len() + 16 * 4_097, 0);
    let names = file.len() as u32;
    file.extend(hex("00 00 10 01 00 00 00 00"));
    file.push(0);
    for (start, tag) in [(4, 1), (tables, 2), (names, 3), (tables, 4), (tables, 6)] {
        file.extend(start.to_be_bytes());
        file.push(tag);
    }
    file.push(0xB4);
    file
}

/// The file that an example describes, where it is about one.
fn file_of(example: &str) -> Option<Vec<u8>> {
    let mut file = TRACE.to_vec();
    if let Some(rest) = example.strip_prefix("byte ") {
        let rest = rest.split(':').next().expect("an edit");
        let (place, value) = rest.split_once(" made ").expect("a byte and its value");
        let place: usize = place.parse().expect("a place");
        let value = u8::from_str_radix(value, 16).expect("a byte");
        assert_ne!(file[place], value, "{example}");
        file[place] = value;
    } else if let Some(rest) = example.strip_prefix("the six bytes `") {
        file = hex(rest.split('`').next().expect("bytes"));
        assert_eq!(file.len(), 6);
    } else if let Some(rest) = example.strip_prefix("only the first ") {
        let (length, _) = rest.split_once(' ').expect("a length");
        file.truncate(length.parse().expect("a length"));
    } else if example.starts_with("4,097 names counted") {
        file = too_many();
    } else {
        return None;
    }
    Some(file)
}

#[test]
fn the_examples_are_refused_as_the_table_says() {
    let trace = refusals().lines().filter(|line| line.starts_with("    "));
    let trace = Vec::from_iter(trace).join(" ");
    assert_eq!(hex(&trace), TRACE);
    assert!(lxt::judge(&TRACE).is_ok());
    let mut files = 0;
    for (number, _, example) in rows() {
        let refusal = Refusal::of_number(number).expect("a refusal");
        assert_eq!(
            file_of(example).is_some(),
            refusal.is_of_file(),
            "{example}"
        );
        if let Some(file) = file_of(example) {
            assert_eq!(lxt::judge(&file), Err(refusal), "{example}");
            files += 1;
        }
    }
    assert_eq!(files, 17);

    // The questions, as the other examples have them.
    let examples = Vec::from_iter(rows().into_iter().map(|(_, _, example)| example));
    let expected = [
        "a question about facility 1",
        "the change at offset 5",
        "a record whose first pair has the number 1",
        "a name with 1,022 bytes of room",
        "a walk with two asked bytes",
        "these changes written with a timescale of 3",
        "these changes written into 106 bytes: the file has 107",
        "a column of 4,097 numbers",
    ];
    assert_eq!(examples[17..], expected);
    assert_eq!(lxt::root(&TRACE, 1), Err(Refusal::NoFacility));
    let change = lxt::change(&TRACE, 0, 5, &mut [0]);
    assert_eq!(change, Err(Refusal::NoChange));
    let mut record = [Pair {
        number: 1,
        offset: 0,
    }];
    let carried = lxt::carry_on(&TRACE, &mut record, 0, &mut []);
    assert_eq!(carried, Err(Refusal::Record));
    let name = lxt::name(&TRACE, 0, &mut [0; 1_022]).map(<[u8]>::to_vec);
    assert_eq!(name, Err(Refusal::Room));
    let started = lxt::start_walk(&TRACE, &[1, 1], &mut record);
    assert_eq!(started, Err(Refusal::Asked));
    let column = lxt::column(&TRACE, 0, &[0; 4_097], b"", &mut [], &mut []);
    assert_eq!(column, Err(Refusal::LongColumn));
}

/// The examples of 24 and 25: the changes of the trace, which are written as they stand in it.
#[test]
fn the_examples_of_writing_are_refused_as_the_table_says() {
    let [first, ..] = examples();
    assert_eq!(first.file[..68], TRACE[..68]);
    let (input, rows) = (&first.input, Rows::of(&first.input));
    let write = |timescale, room: usize| {
        let (facilities, changes) = (&rows.facilities, &rows.changes);
        let (names, values) = (&input.names, &input.values);
        let mut out = vec![0; room];
        lxt::write(facilities, names, changes, values, 3, timescale, &mut out)
    };
    assert_eq!(write(-9, 107), Ok(107));
    assert_eq!(write(3, 107), Err(Refusal::WriterInput));
    assert_eq!(write(-9, 106), Err(Refusal::WriterRoom));
}
