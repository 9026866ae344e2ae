//! The slowest files that we know, judged and carried on with.

use std::cmp::Reverse;
use std::hint::black_box;

use crate::timing::{grouped, seconds, used};
use lxt::Pair;
use lxt_generate::{hostile_chains, Hostile};
use lxt_reference::Tables;

/// The longest input of the small program, and the longest file.
const SMALL: usize = 65_536;
const LONGEST: usize = 16_777_216;

/// How many changes a carry-on call hands out.
const HANDED_OUT: u32 = 64;

/// The slowest of some runs, of one where it takes long.
fn worst(mut run: impl FnMut()) -> f64 {
    let first = seconds(&mut run);
    let more = if first > 2.0 { 0 } else { 4 };
    (0..more).map(|_| seconds(&mut run)).fold(first, f64::max)
}

/// Milliseconds, whatever they are.
fn shown(time: f64) -> String {
    let places = if time < 0.01 { 3 } else { 1 };
    format!("{:.places$} ms", time * 1e3)
}

/// The times of all rows: of judging, and of carrying on, with the file's name.
#[derive(Default)]
struct Slowest([(f64, String); 2]);

impl Slowest {
    fn add(&mut self, times: [f64; 2], name: &str) {
        for (slowest, time) in self.0.iter_mut().zip(times) {
            if time > slowest.0 {
                *slowest = (time, name.to_string());
            }
        }
    }
}

fn number<T>(answer: Result<T, u8>) -> u8 {
    answer.err().unwrap_or(0)
}

/// Prints a file's row, and gives what judging and carrying on answer. Both readers' answers are alike, where
/// the independent one is asked.
fn row(
    name: &str,
    file: &[u8],
    pending: &[u32],
    independent: bool,
    slowest: &mut Slowest,
) -> [u8; 2] {
    let judged = number(lxt::judge(file).map_err(|it| it.number()));
    let judging = worst(|| used(lxt::judge(black_box(file))));

    let pair = |(number, offset): (usize, &u32)| Pair {
        number: number as u32,
        offset: *offset,
    };
    let record = Vec::from_iter(pending.iter().enumerate().map(pair));
    let mut pairs = record.clone();
    let mut output = vec![0; 2 * HANDED_OUT as usize];
    let mut carried = 0;
    let carrying = worst(|| {
        pairs.copy_from_slice(&record);
        let answer = lxt::carry_on(black_box(file), &mut pairs, HANDED_OUT, &mut output);
        carried = number(answer.map_err(|it| it.number()));
    });
    slowest.add([judging, carrying], name);

    let [other_judging, other_carrying] = match independent {
        false => ["-", "-"].map(str::to_string),
        true => {
            assert_eq!(number(lxt_reference::judge(file)), judged, "{name}");
            let judging = worst(|| used(lxt_reference::judge(black_box(file))));
            let numbers = Vec::from_iter(0..pending.len() as u32);
            let (mut of, mut offsets) = (numbers.clone(), pending.to_vec());
            let mut other = 0;
            let carrying = worst(|| {
                of.copy_from_slice(&numbers);
                offsets.copy_from_slice(pending);
                let size = HANDED_OUT.into();
                let answer =
                    lxt_reference::carry_on(file, &mut of, &mut offsets, &mut output, size);
                other = number(answer);
            });
            assert_eq!(other, carried, "{name}");
            [judging, carrying].map(shown)
        }
    };
    println!(
        "| {name} | {} | {judged} | {} | {carried} | {} | {other_judging} | {other_carrying} |",
        grouped(file.len()),
        shown(judging),
        shown(carrying),
    );
    [judged, carried]
}

/// The row of a file whose roots' sync entries are the record.
fn row_of_sync(name: &str, file: &[u8], independent: bool, slowest: &mut Slowest) {
    let tables = Tables::new(file);
    let n = tables.as_ref().map_or(0, Tables::facilities);
    let sync = |facility: usize| match &tables {
        Ok(tables) if tables.is_root(facility) => tables.sync(facility),
        _ => 0,
    };
    let pending = Vec::from_iter((0..n).map(sync));
    row(name, file, &pending, independent, slowest);
}

/// The row of a file that is made to be answered so.
fn row_of_chains(hostile: &Hostile, slowest: &mut Slowest) {
    let name = &hostile.case.origin;
    let file = &hostile.case.bytes;
    // There the independent reader reads a chain once for each root.
    let slow = hostile.many_forms && file.len() > SMALL;
    let answers = row(name, file, &hostile.pending, !slow, slowest);
    let expected = hostile.case.expected.expect("an answer");
    assert_eq!(
        answers,
        [expected, hostile.carried_on].map(number),
        "{name}"
    );
}

/// The five slowest of 64 KiB among the hostile files of the tests, then chains of 64 KiB and of 16 MiB that
/// roots share, that run over each other, or that are at fault at the bottom.
pub fn print() {
    println!("\nHostile files: judging, and carrying on by {HANDED_OUT} with all roots led into the chains;");
    println!("the slowest of five runs, or of one of more than two seconds\n");
    println!(
        "| File | Bytes | Refusal | Judge | Refusal of carrying on | Carry on | Independent judge | Independent carry on |"
    );
    println!("|---|---|---|---|---|---|---|---|");
    let mut slowest = Slowest::default();
    let mut small = lxt_generate::hostile();
    small.retain(|case| case.bytes.len() <= SMALL);
    small.sort_by_cached_key(|case| {
        let time = seconds(|| used(lxt::judge(&case.bytes)));
        Reverse((time * 1e9) as u64)
    });
    for case in &small[..5] {
        row_of_sync(&case.origin, &case.bytes, true, &mut slowest);
    }
    for hostile in hostile_chains(SMALL) {
        row_of_chains(&hostile, &mut slowest);
    }
    for roots in [1, 16, 64, 4_096] {
        let file = lxt_generate::most_visits(LONGEST, roots);
        let name = format!(
            "names, geometry and chain of zeros, {} roots",
            grouped(roots)
        );
        row_of_sync(&name, &file, true, &mut slowest);
    }
    let file = lxt_generate::widest_sharing(LONGEST, 64);
    row_of_sync("1-bit values, 64 widths", &file, true, &mut slowest);
    for hostile in hostile_chains(LONGEST) {
        row_of_chains(&hostile, &mut slowest);
    }
    let [judging, carrying] = slowest.0;
    println!("\nThe slowest: judging {}, {}", shown(judging.0), judging.1);
    println!("carrying on {}, {}", shown(carrying.0), carrying.1);
}
