//! Unpacking: a value of 4,096 bits by each form, read by a change and by a value at a time, against safe Rust
//! and against storing the symbols, and beside another archive where one is named.

use std::hint::black_box;

use crate::before;
use crate::timing::{seconds, shown, used};
use lxt_compare::write::independent;
use lxt_generate::{Input, Random, BITS};

const WIDTH: usize = 4_096;
const SYMBOLS: [u8; 9] = *b"01ZXHUWL-";

/// The word by which the other program is asked for its times.
pub const TIMES: &str = "unpacking-times";

/// A way in which symbols are packed, a file whose one facility has two values of it, and their data.
struct Form {
    name: &'static str,
    file: Vec<u8>,
    data: Vec<u8>,
    unpack: fn(&[u8], &mut [u8]),
}

/// The forms by how many of the symbols a value has; a value of one symbol has no data.
fn forms() -> [Form; 4] {
    [
        (
            "0 and 1, 1 bit each",
            2,
            unpack_bits as fn(&[u8], &mut [u8]),
        ),
        ("0 1 Z X, 2 bits each", 4, unpack_pairs),
        ("all nine, 4 bits each", 9, unpack_codes),
        ("one symbol, no data", 1, |_, bits| {
            bits.fill(black_box(b'X'))
        }),
    ]
    .map(|(name, codes, unpack)| {
        let mut random = Random::new(codes as u64);
        let mut input = Input::new();
        input.facility(b"bus", BITS, WIDTH as i32 - 1, 0);
        for time in 0..2 {
            let symbol = |_| SYMBOLS[random.below(codes)];
            input.change(0, time, &Vec::from_iter((0..WIDTH).map(symbol)));
        }
        let mut file = vec![0; 4 * WIDTH];
        let length = independent(&input, &mut file).expect("a file") as usize;
        file.truncate(length);
        // The first change stands at 4: a command byte, one delta byte, the data.
        let size = (WIDTH * [0, 0, 1, 0, 2, 0, 0, 0, 0, 4][codes]).div_ceil(8);
        let data = file[6..6 + size].to_vec();
        let mut bits = vec![0; WIDTH];
        unpack(&data, &mut bits);
        assert!(size == 0 || bits == input.value_of(0));
        Form {
            name,
            file,
            data,
            unpack,
        }
    })
}

// ---- Unpacking a byte at a time in safe Rust ----

fn unpack_bits(data: &[u8], bits: &mut [u8]) {
    for (byte, symbols) in data.iter().zip(bits.chunks_exact_mut(8)) {
        for (place, symbol) in symbols.iter_mut().enumerate() {
            *symbol = b'0' + (byte >> (7 - place) & 1);
        }
    }
}

fn unpack_pairs(data: &[u8], bits: &mut [u8]) {
    for (byte, symbols) in data.iter().zip(bits.chunks_exact_mut(4)) {
        for (place, symbol) in symbols.iter_mut().enumerate() {
            *symbol = SYMBOLS[usize::from(byte >> (6 - 2 * place) & 3)];
        }
    }
}

fn unpack_codes(data: &[u8], bits: &mut [u8]) {
    for (byte, symbols) in data.iter().zip(bits.chunks_exact_mut(2)) {
        for (place, symbol) in symbols.iter_mut().enumerate() {
            *symbol = SYMBOLS[usize::from(byte >> (4 - 4 * place) & 15)];
        }
    }
}

// ---- Measuring ----

/// The least seconds of a run in many short ones.
fn least(mut run: impl FnMut()) -> f64 {
    let short = |_| seconds(|| (0..200).for_each(|_| run())) / 200.0;
    (0..60).map(short).fold(f64::INFINITY, f64::min)
}

/// The seconds of both calls on each form, which take a file and the lent bits: a change, and a value at a time.
fn calls(
    forms: &[Form],
    change: impl Fn(&[u8], &mut [u8]),
    value: impl Fn(&[u8], &mut [u8]),
) -> Vec<[f64; 2]> {
    let mut bits = vec![0; WIDTH];
    let calls = forms.iter().map(|form| {
        [
            least(|| change(black_box(&form.file), &mut bits)),
            least(|| value(black_box(&form.file), &mut bits)),
        ]
    });
    calls.collect()
}

fn proved(forms: &[Form]) -> Vec<[f64; 2]> {
    calls(
        forms,
        |file, bits| used(lxt::change(file, 0, 4, bits)),
        |file, bits| used(lxt::value_at(file, 0, 0, bits)),
    )
}

fn reference(forms: &[Form]) -> Vec<[f64; 2]> {
    calls(
        forms,
        |file, bits| used(lxt_reference::change(file, 0, 4, bits)),
        |file, bits| used(lxt_reference::value_at(file, 0, 0, bits)),
    )
}

/// Prints the times of the calls, for the program that asked.
pub fn print_times() {
    before::print_rows(&proved(&forms()));
}

// ---- The tables ----

pub fn print() {
    let forms = forms();
    let (mut now, mut before, mut theirs) = (Vec::new(), Vec::new(), Vec::new());
    for _ in 0..5 {
        now.push(proved(&forms));
        before.extend(before::rows(TIMES));
        theirs.push(reference(&forms));
    }
    let now = before::medians(&now).expect("times");
    let theirs = before::medians(&theirs).expect("times");
    let before = before::medians(&before);

    println!("\nUnpacking: calls that read a value of {WIDTH} bits, each with judging its file\n");
    println!(
        "| Symbols | Call | Before | Before / proved | Proved | Safe Rust | Proved / safe Rust |"
    );
    println!("|---|---|---|---|---|---|---|");
    for (place, form) in forms.iter().enumerate() {
        for (call, what) in ["a change", "a value at a time"].into_iter().enumerate() {
            let (ours, other) = (now[place][call], theirs[place][call]);
            println!(
                "| {} | {what} | {} | {} | {} | {:.2} |",
                form.name,
                before::against(before.as_ref().map(|it| it[place][call]), ours),
                shown(ours),
                shown(other),
                ours / other,
            );
        }
    }

    // A value of one symbol is judged, found and stored alike: what a call takes longer is its unpacking.
    println!("\nUnpacking alone: a change less one of one symbol, with storing the symbols\n");
    println!("| Symbols | Before | Before / proved | Proved | Safe Rust | Proved / safe Rust | Storing | Proved / storing |");
    println!("|---|---|---|---|---|---|---|---|");
    let (stored, forms) = forms.split_last().expect("forms");
    let mut bits = vec![0; WIDTH];
    let storing = least(|| (stored.unpack)(&[], black_box(&mut bits)));
    let alone = |all: &[[f64; 2]], place: usize| all[place][0] - all[forms.len()][0] + storing;
    for (place, form) in forms.iter().enumerate() {
        let ours = alone(&now, place);
        let safe = least(|| (form.unpack)(black_box(&form.data), black_box(&mut bits)));
        println!(
            "| {} | {} | {} | {} | {:.2} | {} | {:.1} |",
            form.name,
            before::against(before.as_ref().map(|it| alone(it, place)), ours),
            shown(ours),
            shown(safe),
            ours / safe,
            shown(storing),
            ours / storing,
        );
    }
}
