//! Compares all calls about new generated files, and writing generated inputs, for so many seconds, or from a
//! seed on:
//!
//! ```text
//! cargo run --release --offline -p lxt-compare -- SECONDS [SEED]
//! ```
//!
//! A difference ends the run with the seed, the call and both answers.

use std::time::{Duration, Instant, SystemTime, UNIX_EPOCH};

use lxt_compare::{Compared, CALLS};

fn main() {
    let mut words = std::env::args().skip(1);
    let number = |word: String| word.parse::<u64>().ok();
    let seconds = words.next().and_then(number);
    let Some(seconds) = seconds else {
        eprintln!("compare SECONDS [SEED]");
        std::process::exit(2);
    };
    let first = words.next().and_then(number).unwrap_or_else(|| {
        let now = SystemTime::now().duration_since(UNIX_EPOCH);
        // Far from the seeds of the tests.
        now.map_or(1 << 40, |now| (now.as_nanos() as u64) | 1 << 40)
    });
    println!("from seed {first}, {seconds} s");

    let start = Instant::now();
    let mut compared = Compared::default();
    let mut seed = first;
    while start.elapsed() < Duration::from_secs(seconds) {
        let case = lxt_generate::case(seed);
        let what = format!("seed {seed}, {}", case.origin);
        compared.file(&case.bytes, &what);
        let case = lxt_generate::input_case(seed);
        let what = format!("seed {seed}, {}", case.origin);
        compared.input(&case, &what);
        seed = seed.wrapping_add(1);
    }

    let answers = compared.answers();
    let calls: u64 = answers.values().sum();
    println!(
        "{} files, {} inputs, {calls} calls compared, all alike",
        compared.files, compared.inputs
    );
    println!("{:>13}  answered, then refused 1 to 25, and 35", "");
    for call in CALLS {
        let numbers = (0..=25).chain([35]);
        let counts = numbers.map(|number| answers.get(&(call, number)).unwrap_or(&0).to_string());
        println!("{call:>13}  {}", Vec::from_iter(counts).join(" "));
    }
    let missing = missing(&compared);
    if !missing.is_empty() {
        eprintln!("did not occur: {}", missing.join(", "));
        std::process::exit(1);
    }
}

/// Prints what occurred, and gives what did not although there were enough files or inputs: then the run says
/// nothing about padding, stray bytes, such times, changes visited, texts, columns or what was written.
fn missing(compared: &Compared) -> Vec<String> {
    let mut missing = Vec::new();
    let enough = compared.files >= 1_000;
    for (call, counts) in compared.padding() {
        let [clean, dirty] = counts;
        println!("{call:>13}  padding clean {clean}, dirty {dirty}");
        if enough && counts.contains(&0) {
            missing.push(format!("clean and dirty padding of {call}"));
        }
    }
    let met = compared.stray().into_iter();
    let met = met.chain(compared.zero_deltas());
    let met = met.chain(compared.long_times());
    let met = met.chain(compared.visited());
    let met = met.chain(compared.texts());
    let met = met.chain(compared.columns());
    let met = met.map(|(what, count)| (what.to_string(), count, enough));
    let enough = compared.inputs >= 5_000;
    let written = compared.written().into_iter();
    let written = written.map(|(what, count)| (what, count, enough));
    for (what, count, enough) in met.chain(written) {
        println!("{count:>13}  {what}");
        if enough && count == 0 {
            missing.push(what);
        }
    }
    missing
}
