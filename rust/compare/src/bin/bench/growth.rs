//! How the cost of a call grows with the number of changes N, of facilities n and of time entries m.

use std::hint::black_box;

use crate::ratios::Input;
use crate::timing::{alone, grouped, shown, used};
use lxt::Pair;
use lxt_generate::{large, Large, SHORT_TIMES};

fn row(series: &str, shape: &Large) {
    let input = Input::new(series, large(shape));
    let file = &input.file;
    let (n, changes) = (input.facilities, input.changes);
    let judging = alone(|| used(lxt::judge(black_box(file))));
    let mut bits = vec![0; 4_096];
    let value = alone(|| used(lxt::value_at(file, 0, i64::MAX, &mut bits)));
    let asked = vec![1; n];
    let mut pairs = vec![Pair::default(); n];
    let mut output = vec![1; 2 * changes];
    let start = alone(|| used(lxt::start_walk(file, &asked, &mut pairs)));
    let started = pairs.clone();
    let carry = alone(|| {
        pairs.copy_from_slice(&started);
        let size = changes as u32;
        let _ = black_box(lxt::carry_on(file, &mut pairs, size, &mut output));
    });
    let a_change = |time: f64| format!("{:.1}", time / changes as f64 * 1e9);
    println!(
        "| {series} | {} | {} | {} | {} | {} | {} | {} | {} | {} |",
        grouped(changes),
        grouped(n),
        grouped(shape.entries),
        shown(judging),
        a_change(judging),
        shown(value),
        shown(start),
        shown(carry),
        a_change(carry),
    );
}

pub fn print() {
    println!("\nGrowth: the proved functions, 8-bit signals; carrying on takes the whole walk in one call\n");
    println!(
        "| Series | N | n | m | Judge | ns a change | Value at a time | Start | Carry on | ns a change |"
    );
    println!("|---|---|---|---|---|---|---|---|---|---|");
    let shape = Large {
        bytes: 4 << 20,
        facilities: 122,
        width: 8,
        entries: 1_000,
        times_tag: SHORT_TIMES,
    };
    for bytes in [1 << 20, 2 << 20, 4 << 20, 8 << 20, 16 << 20] {
        row("N", &Large { bytes, ..shape });
    }
    for facilities in [1, 16, 256, 1_024, 4_096] {
        row(
            "n",
            &Large {
                facilities,
                ..shape
            },
        );
    }
    for entries in [1, 1_000, 10_000, 100_000, 250_000] {
        // As many changes each time.
        let bytes = shape.bytes + 8 * entries;
        row(
            "m",
            &Large {
                bytes,
                entries,
                ..shape
            },
        );
    }
}
