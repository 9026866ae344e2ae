//! The small program, as it is built, against expected outputs and the independent reader's dump.
//! `rt run` in `crates/lxt_dump` builds it.

use std::collections::BTreeMap;
use std::fs;
use std::io::Write;
use std::path::{Path, PathBuf};
use std::process::{Command, Stdio};
use std::thread;

use lxt_compare::times::Entries;
use lxt_compare::write::{examples, proved, Rows};
use lxt_generate::{Input, Random, BITS, INTEGER, REAL};
use lxt_reference::Judged;

#[allow(dead_code)]
mod packed;
#[allow(dead_code)]
mod tied;
#[allow(dead_code)]
mod wide;

/// The longest trace that the program reads.
const LONGEST: usize = 65_536;

fn repository() -> PathBuf {
    Path::new(env!("CARGO_MANIFEST_DIR")).join("../..")
}

/// What the program prints for an input.
fn printed(input: &[u8]) -> Vec<u8> {
    let program = repository().join("crates/lxt_dump/out/lxt_dump");
    let mut child = Command::new(&program)
        .stdin(Stdio::piped())
        .stdout(Stdio::piped())
        .spawn()
        .unwrap_or_else(|error| {
            panic!(
                "{}: {error}: run `rt run` in crates/lxt_dump first",
                program.display()
            )
        });
    let mut pipe = child.stdin.take().expect("the program's input");
    let bytes = input.to_vec();
    // The program stops reading after one byte more than it takes, which breaks the pipe.
    let writer = thread::spawn(move || drop(pipe.write_all(&bytes)));
    let output = child.wait_with_output().expect("the program's output");
    writer.join().expect("the input's writer");
    assert!(output.status.success(), "{:?}", output.status);
    output.stdout
}

/// Compares with the independent reader and counts the answer: 0 for an accepted file.
fn compare(input: &[u8], what: &str, seen: &mut BTreeMap<u8, u32>) {
    let expected = lxt_reference::dump(input);
    assert!(printed(input) == expected, "{what}");
    let refusal = expected.strip_prefix(b"refused ").map_or(0, |rest| {
        let digits = String::from_utf8_lossy(rest);
        digits.trim_end().parse().expect("a refusal's number")
    });
    *seen.entry(refusal).or_default() += 1;
}

#[test]
fn packed_symbols() {
    let mut random = Random::new(5);
    for command in 0..3 {
        for width in [1, 2, 3, 4, 5, 7, 8, 9, 15, 16, 17, 64, 65, 4_095, 4_096] {
            let data = packed::any_data(command, width, |below| random.below(below));
            let file = packed::one_change(packed::BITS, width as u32, command, &data);
            let symbols = packed::symbols(command, width, &data);
            let symbols = String::from_utf8(symbols).expect("symbols");
            let expected = format!("facility 0 a bits {width}\nchange 0 4 7 {symbols}\ndone 1\n");
            let lines = printed(&file);
            assert_eq!(
                String::from_utf8_lossy(&lines),
                expected,
                "command {command}"
            );
        }
    }
}

#[test]
fn prints_the_expected_output_of_every_trace() {
    let (mut compared, mut over) = (0, 0);
    for entry in fs::read_dir(repository().join("traces")).expect("the folder of traces") {
        let path = entry.expect("an entry of the folder").path();
        if path.extension().and_then(|part| part.to_str()) != Some("lxt") {
            continue;
        }
        let file = fs::read(&path).expect("a trace");
        if file.len() > LONGEST {
            assert_eq!(printed(&file), b"refused 1\n", "{}", path.display());
            over += 1;
            continue;
        }
        let expected = fs::read(path.with_extension("expected")).expect("an expected output");
        assert!(printed(&file) == expected, "{} differs", path.display());
        compared += 1;
    }
    println!("{compared} compared, {over} over the limit");
    assert!(compared >= 30 && over >= 1);
}

#[test]
fn prints_the_examples_of_zero_deltas() {
    for example in tied::EXAMPLES {
        let printed = printed(&example.file());
        let printed = String::from_utf8(printed).expect("text");
        assert_eq!(printed, example.lines(), "2-{}", example.letter);
    }
}

#[test]
fn prints_the_examples_of_64_bit_times() {
    for example in wide::examples() {
        let printed = printed(&example.file);
        let printed = String::from_utf8(printed).expect("text");
        assert_eq!(printed, example.lines(), "{}", example.name);
    }
}

/// The lines of the first worked example of writing, and of generated inputs, as they were given: the facilities,
/// then the changes from the last to the first.
#[test]
fn prints_what_was_written() {
    let [first, ..] = examples();
    let lines = "facility 0 a bits 1\nchange 0 6 5 0\nchange 0 4 0 1\ndone 2\n";
    assert_eq!(String::from_utf8_lossy(&printed(&first.file)), lines);
    let mut compared = 0;
    for seed in 0..400 {
        let input = lxt_generate::sound_input(&mut Random::new(seed));
        let rows = Rows::of(&input);
        let mut out = vec![0; LONGEST];
        let Ok(length) = proved(&input, &rows, &mut out) else {
            continue;
        };
        let file = &out[..length as usize];
        assert!(printed(file) == lines_of(&input, file), "seed {seed}");
        compared += 1;
    }
    assert!(compared > 300, "{compared}");
}

/// The lines that the program is to print of an input and the file that was written of it. Only the offsets are
/// the file's.
fn lines_of(input: &Input, file: &[u8]) -> Vec<u8> {
    let mut lines = Vec::new();
    for (facility, row) in input.facilities.iter().enumerate() {
        let kind = ["bits", "integer", "real", "text"][row[2] as usize];
        lines.extend(format!("facility {facility} ").bytes());
        lines.extend(input.name_of(facility));
        lines.extend(format!(" {kind} {}\n", input.width_of(facility)).bytes());
    }
    let judged = Judged::new(file).expect("an accepted file");
    let all = judged.full_list(&vec![1; input.facilities.len()]);
    let all = all.expect("a list");
    let given = input.changes.iter().enumerate().rev();
    for ((place, [facility, time, ..]), (_, offset)) in given.zip(&all) {
        lines.extend(format!("change {facility} {offset} {time} ").bytes());
        let value = input.value_of(place);
        match input.facilities[*facility as usize][2] {
            BITS | INTEGER => lines.extend(value),
            // The highest byte first.
            REAL => lines.extend(value.iter().rev().flat_map(|it| hexadecimal(*it))),
            _ => lines.extend(value.iter().flat_map(|it| hexadecimal(*it))),
        }
        lines.push(b'\n');
    }
    lines.extend(format!("done {}\n", all.len()).bytes());
    lines
}

fn hexadecimal(byte: u8) -> Vec<u8> {
    format!("{byte:02x}").into_bytes()
}

#[test]
fn refuses_one_byte_more_than_the_limit() {
    let file = fs::read(repository().join("traces/lxtgen_big_1.lxt")).expect("a trace");
    for length in [LONGEST - 1, LONGEST, LONGEST + 1, LONGEST + 2, 4 * LONGEST] {
        // Zeros before a trace: within the limit it is refused by another rule.
        let mut longer = vec![0; length - file.len()];
        longer.extend_from_slice(&file);
        compare(&longer, &format!("{length} bytes"), &mut BTreeMap::new());
        let expected: &[u8] = b"refused 1\n";
        assert_eq!(printed(&longer) == expected, length > LONGEST, "{length}");
    }
}

#[test]
fn prints_what_the_independent_reader_prints_of_generated_files() {
    let (mut seen, mut dirty, mut shared, mut below_0) = (BTreeMap::new(), 0, 0, 0);
    for seed in 0..4_000 {
        let case = lxt_generate::case(seed);
        if let Ok(judged) = Judged::new(&case.bytes) {
            dirty += u32::from(!judged.summary().clean);
            shared += u32::from(Entries::of(&judged).share_position());
            let times = Entries::of(&judged).times();
            below_0 += u32::from(times.first().is_some_and(|time| *time < 0));
        }
        compare(
            &case.bytes,
            &format!("seed {seed}, {}", case.origin),
            &mut seen,
        );
    }
    println!("{seen:?}");
    for number in (0..=17).filter(|number| *number != 9) {
        assert!(seen.contains_key(&number), "{number}: {seen:?}");
    }
    // Rubbish in the padding, which is not printed, time entries at one position, and times below 0.
    let counts = [dirty, shared, below_0];
    assert!(counts.iter().all(|count| *count >= 200), "{counts:?}");
}

#[test]
fn prints_what_the_independent_reader_prints_of_hostile_files() {
    let mut seen = BTreeMap::new();
    for case in lxt_generate::hostile() {
        compare(&case.bytes, &case.origin, &mut seen);
    }
    println!("{seen:?}");
    assert!(seen.values().sum::<u32>() >= 140, "{seen:?}");
}
