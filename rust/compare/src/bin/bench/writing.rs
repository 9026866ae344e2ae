//! Writing: the proved function against the independent writer, safe Rust that makes the same checks, and
//! against copying the file's bytes.

use std::cell::RefCell;
use std::hint::black_box;

use crate::ratios::LONGEST;
use crate::timing::{alone, grouped, medians, shown, used};
use lxt_compare::write::{independent, proved, Rows};
use lxt_generate::{Input, Random, BITS, TEXT};

const SYMBOLS: [u8; 9] = *b"01ZXHUWL-";

/// Values of one kind of facility.
#[derive(Clone, Copy)]
enum Values {
    /// As many symbols of the first so many codes.
    Symbols(usize),
    /// Symbols of which some are all alike, some have two codes, and fewer have four or nine.
    Mixed,
    /// Texts of up to 40 bytes.
    Texts,
}

impl Values {
    fn one(self, random: &mut Random, width: usize) -> Vec<u8> {
        let symbols = |random: &mut Random, codes: usize| {
            let symbol = |_| SYMBOLS[random.below(codes)];
            Vec::from_iter((0..width).map(symbol))
        };
        match self {
            Values::Symbols(codes) => symbols(random, codes),
            Values::Mixed => match random.below(10) {
                0..=3 => symbols(random, 2),
                4 => symbols(random, 4),
                5 => symbols(random, 9),
                _ => vec![SYMBOLS[random.below(4)]; width],
            },
            Values::Texts => {
                let length = random.below(41);
                (0..length).map(|_| random.within(1, 255) as u8).collect()
            }
        }
    }
}

/// An input of nearly the greatest file: changes of any facility, twenty at each time. Of wide values there
/// are a thousand different ones.
fn input(facilities: usize, width: usize, values: Values) -> Input {
    let mut random = Random::new((facilities + width) as u64);
    let mut input = Input::new();
    for facility in 0..facilities {
        let name = format!("top.block_{}.signal_{facility}", facility / 16);
        let kind = match values {
            Values::Texts => TEXT,
            _ => BITS,
        };
        input.facility(name.as_bytes(), kind, width as i32 - 1, 0);
    }
    // A change of b data bytes takes two bytes or more beside them.
    let most = match values {
        Values::Symbols(2) => LONGEST / (2 + width.div_ceil(8)),
        Values::Symbols(_) => LONGEST / (2 + width.div_ceil(4)),
        Values::Mixed => LONGEST / 3,
        Values::Texts => LONGEST / 20,
    };
    let different = if width > 64 { 1_000 } else { most };
    for place in 0..most {
        let (facility, time) = (random.below(facilities) as u32, place as u32 / 20);
        match place < different {
            true => {
                let value = values.one(&mut random, width);
                input.change(facility, time, &value);
            }
            false => {
                let [_, _, start, length] = input.changes[random.below(different)];
                input.changes.push([facility, time, start, length]);
            }
        }
    }
    shortened(input)
}

/// With as many of the changes as fit into a file.
fn shortened(mut input: Input) -> Input {
    let (mut fits, mut too_many) = (0, input.changes.len() + 1);
    let all = std::mem::take(&mut input.changes);
    while too_many - fits > 1 {
        let count = fits.midpoint(too_many);
        input.changes = all[..count].to_vec();
        match independent(&input, &mut []) {
            Err(25) => fits = count,
            _ => too_many = count,
        }
    }
    input.changes = all;
    input.changes.truncate(fits);
    input
}

fn row(name: &str, input: &Input) {
    let rows = Rows::of(input);
    let (mut ours, mut theirs) = (vec![1; LONGEST], vec![2; LONGEST]);
    let length = proved(input, &rows, &mut ours).expect("a file") as usize;
    assert_eq!(independent(input, &mut theirs), Ok(length as u32));
    assert!(ours[..length] == theirs[..length]);
    let file = ours[..length].to_vec();
    let (ours, theirs) = (RefCell::new(ours), RefCell::new(theirs));
    let [writing, reference] = medians(
        || used(proved(black_box(input), &rows, &mut ours.borrow_mut())),
        || used(independent(black_box(input), &mut theirs.borrow_mut())),
    );
    let copying = alone(|| {
        let mut out = ours.borrow_mut();
        out[..length].copy_from_slice(black_box(&file));
        used(&mut out[0]);
    });
    println!(
        "| {name} | {} | {} | {} | {} | {} | {:.2} | {} | {:.1} | {:.0} |",
        grouped(length),
        grouped(input.facilities.len()),
        grouped(input.changes.len()),
        shown(writing),
        shown(reference),
        writing / reference,
        shown(copying),
        writing / copying,
        length as f64 / writing / 1e6,
    );
}

pub fn print() {
    println!(
        "\nWriting: proved against safe Rust with the same checks, and against copying the file\n"
    );
    println!(
        "| Input | Bytes | Facilities | Changes | Proved | Safe Rust | Ratio | Copying | Proved / copying | MB/s |"
    );
    println!("|---|---|---|---|---|---|---|---|---|---|");
    for facilities in [1, 122, 4_096] {
        row("8-bit signals", &input(facilities, 8, Values::Mixed));
    }
    for (name, codes) in [("0 and 1", 2), ("0 1 Z X", 4), ("all nine", 9)] {
        let name = format!("4,096-bit buses, {name}");
        row(&name, &input(122, 4_096, Values::Symbols(codes)));
    }
    row("one-bit signals", &input(4_096, 1, Values::Symbols(4)));
    row("texts", &input(16, 1, Values::Texts));
}
