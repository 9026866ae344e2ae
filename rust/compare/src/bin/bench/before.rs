//! Another archive measured in turn: where `LXT_BENCH_BEFORE` names this program linked with it
//! (`LXT_ARCHIVE_DIR`), what that program measures is shown as before.

use std::env;
use std::process::Command;

use crate::timing::{median, shown};

/// Prints rows of seconds, for the program that asked.
pub fn print_rows<const N: usize>(rows: &[[f64; N]]) {
    for row in rows {
        println!("{}", row.map(|time| format!("{time:e}")).join(" "));
    }
}

/// The rows that the program linked with another archive measures where it is asked by a word, if one is named.
pub fn rows<const N: usize>(word: &str) -> Option<Vec<[f64; N]>> {
    let program = env::var_os("LXT_BENCH_BEFORE")?;
    let output = Command::new(program).arg(word).output();
    let output = output.expect("the program of LXT_BENCH_BEFORE runs");
    let printed = String::from_utf8(output.stdout).expect("its times");
    let rows = printed.lines().map(|line| {
        let mut words = line.split(' ').map(|word| word.parse().expect("a time"));
        [(); N].map(|()| words.next().expect("a time"))
    });
    Some(rows.collect())
}

/// Place by place the medians of several measurements, if there are some.
pub fn medians<const N: usize>(all: &[Vec<[f64; N]>]) -> Option<Vec<[f64; N]>> {
    let of = |row: usize, place: usize| median(all.iter().map(|one| one[row][place]).collect());
    let rows = 0..all.first()?.len();
    Some(
        rows.map(|row| std::array::from_fn(|place| of(row, place)))
            .collect(),
    )
}

/// A time before, and how often the time now goes into it.
pub fn against(before: Option<f64>, now: f64) -> String {
    match before {
        Some(before) => format!("{} | {:.2}", shown(before), before / now),
        None => "- | -".to_string(),
    }
}
