//! Lookups: the value at a time by how many changes are visited, beside judging alone and safe Rust, and beside
//! another archive where one is named.

use std::hint::black_box;

use crate::before;
use crate::ratios::{shape, LONGEST, MB};
use crate::timing::{alone, grouped, shown, used};
use lxt_generate::large;
use lxt_reference::Judged;

/// The word by which the other program is asked for its times.
pub const TIMES: &str = "lookup-times";

/// A file, the facility of it that has most changes, and times at which a lookup visits one of them, about half
/// and all.
struct Asked {
    name: String,
    file: Vec<u8>,
    facility: u32,
    changes: usize,
    times: [i64; 3],
    visited: [u32; 3],
}

impl Asked {
    fn new(name: &str, file: Vec<u8>) -> Self {
        let judged = Judged::new(&file).expect("an accepted trace");
        let chains = judged.chains();
        let longest = (0..chains.len()).max_by_key(|root| chains[*root].len());
        let facility = longest.expect("a facility") as u32;
        let chain = &chains[facility as usize];
        let mut bits = vec![0; 4_096];
        let middle = judged.change(facility, chain[chain.len() / 2], &mut bits);
        let times = [i64::MAX, middle.expect("a change").time, i64::MIN];
        let visited = times.map(|time| {
            let lookup = judged.value_at(facility, time, &mut bits);
            lookup.expect("a value").visited
        });
        let changes = chain.len();
        Asked {
            name: name.to_string(),
            file,
            facility,
            changes,
            times,
            visited,
        }
    }
}

fn inputs() -> Vec<Asked> {
    let mut inputs = Vec::new();
    for (name, file) in lxt_compare::traces(usize::MAX) {
        if name.starts_with("gpsim_fib400k") || name.starts_with("des") {
            inputs.push(Asked::new(name.trim_end_matches(".lxt"), file));
        }
    }
    for bytes in [MB, LONGEST] {
        let file = large(&shape(bytes, 1, 8));
        inputs.push(Asked::new("8-bit signals", file));
    }
    inputs
}

/// The seconds of the three lookups, and of judging alone.
fn proved(inputs: &[Asked]) -> Vec<[f64; 4]> {
    let mut bits = vec![0; 4_096];
    let rows = inputs.iter().map(|asked| {
        let (file, facility) = (&asked.file, asked.facility);
        let mut lookup = |time| {
            let file = black_box(file);
            used(lxt::value_at(file, facility, time, &mut bits));
        };
        let [one, half, all] = asked.times.map(|time| alone(|| lookup(time)));
        [one, half, all, alone(|| used(lxt::judge(black_box(file))))]
    });
    rows.collect()
}

/// Prints the times, for the program that asked.
pub fn print_times() {
    before::print_rows(&proved(&inputs()));
}

fn rows(asked: &Asked, before: Option<&[f64; 4]>, now: &[f64; 4]) {
    let file = &asked.file;
    let mut bits = vec![0; 4_096];
    for (place, visited) in asked.visited.into_iter().enumerate() {
        let (facility, time) = (asked.facility, asked.times[place]);
        let lookup = lxt::value_at(file, facility, time, &mut bits);
        assert_eq!(lookup.expect("a value").visited, visited);
        let safe = alone(|| {
            let file = black_box(file);
            used(lxt_reference::value_at(file, facility, time, &mut bits));
        });
        // Of few changes the time is lost in that of judging.
        let each = match visited {
            10_000.. => format!("{:.1}", (now[place] - now[3]) * 1e9 / f64::from(visited)),
            _ => "-".to_string(),
        };
        println!(
            "| {} | {} | {} | {} | {} | {} | {} | {} | {} | {:.2} |",
            asked.name,
            grouped(file.len()),
            grouped(asked.changes),
            grouped(visited as usize),
            before::against(before.map(|it| it[place]), now[place]),
            shown(now[place]),
            shown(now[3]),
            each,
            shown(safe),
            now[place] / safe,
        );
    }
}

pub fn print() {
    let inputs = inputs();
    let (mut now, mut before) = (Vec::new(), Vec::new());
    for _ in 0..5 {
        now.push(proved(&inputs));
        before.extend(before::rows(TIMES));
    }
    let now = before::medians(&now).expect("times");
    let before = before::medians(&before);
    println!("\nLookups: the value at a time of the facility with most changes, by how many are visited\n");
    println!(
        "| Input | Bytes | Its changes | Visited | Before | Before / proved | Proved | Judging alone | ns a visited change | Safe Rust | Proved / safe Rust |"
    );
    println!("|---|---|---|---|---|---|---|---|---|---|---|");
    for (place, asked) in inputs.iter().enumerate() {
        rows(asked, before.as_ref().map(|it| &it[place]), &now[place]);
    }
}
