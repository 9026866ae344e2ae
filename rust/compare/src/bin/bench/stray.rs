//! Counting stray bytes against judging, both proved, in one run.

use std::hint::black_box;

use crate::ratios::{shape, Input, LONGEST, MB};
use crate::timing::{alone, grouped, medians, shown, used};
use lxt_generate::large_with_gaps;

fn inputs() -> Vec<Input> {
    let mut inputs = Vec::new();
    for (name, file) in lxt_compare::traces(usize::MAX) {
        if name.starts_with("des") {
            inputs.push(Input::new(name.trim_end_matches(".lxt"), file));
        }
    }
    for bytes in [MB, LONGEST] {
        for facilities in [122, 4_096] {
            inputs.push(Input::of_shape("8-bit signals", bytes, facilities, 8));
        }
    }
    let file = large_with_gaps(&shape(LONGEST, 122, 8), 1);
    inputs.push(Input::new("a stray byte behind each change", file));
    inputs
}

fn row(input: &Input) {
    let file = &input.file;
    let stray = lxt::stray_bytes(file).expect("accepted");
    assert_eq!(lxt_reference::stray_bytes(file), Ok(stray));
    let [counting, judging] = medians(
        || used(lxt::stray_bytes(black_box(file))),
        || used(lxt::judge(black_box(file))),
    );
    let independent = alone(|| used(lxt_reference::stray_bytes(black_box(file))));
    println!(
        "| {} | {} | {} | {} | {} | {} | {} | {:.2} | {} |",
        input.name,
        grouped(file.len()),
        grouped(input.facilities),
        grouped(input.changes),
        grouped(stray as usize),
        shown(counting),
        shown(judging),
        counting / judging,
        shown(independent),
    );
}

pub fn print() {
    println!(
        "\nStray bytes: counting them against judging alone, and the independent reader's count\n"
    );
    println!(
        "| Input | Bytes | Facilities | Changes | Stray bytes | Stray | Judge | Ratio | Independent stray |"
    );
    println!("|---|---|---|---|---|---|---|---|---|");
    for input in inputs() {
        row(&input);
    }
}
