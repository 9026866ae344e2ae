//! Medians of alternating runs.

use std::hint::black_box;
use std::time::Instant;

/// Takes an answer, so that the call is made.
pub fn used<T>(answer: T) {
    black_box(answer);
}

/// Seconds of a run.
pub fn seconds(run: impl FnOnce()) -> f64 {
    let start = Instant::now();
    run();
    start.elapsed().as_secs_f64()
}

pub fn median(mut times: Vec<f64>) -> f64 {
    times.sort_by(f64::total_cmp);
    times[times.len() / 2]
}

/// The median seconds of a run of each side. Short runs are made several times in one measurement.
pub fn medians(mut proved: impl FnMut(), mut reference: impl FnMut()) -> [f64; 2] {
    // The first runs are not counted; they tell how long one takes.
    let longer = seconds(&mut proved).max(seconds(&mut reference));
    let repeated = (0.01 / longer).clamp(1.0, 1_000.0) as u32;
    let rounds = if longer > 1.0 { 5 } else { 7 };
    let mut times = [Vec::new(), Vec::new()];
    for _ in 0..rounds {
        let mut measure = |side: usize, run: &mut dyn FnMut()| {
            let all = seconds(|| (0..repeated).for_each(|_| run()));
            times[side].push(all / f64::from(repeated));
        };
        measure(0, &mut proved);
        measure(1, &mut reference);
    }
    times.map(median)
}

/// The median seconds of a run of one side.
pub fn alone(mut run: impl FnMut()) -> f64 {
    let first = seconds(&mut run);
    let repeated = (0.01 / first).clamp(1.0, 1_000.0) as u32;
    let rounds = if first > 1.0 { 3 } else { 7 };
    let times = (0..rounds).map(|_| {
        let all = seconds(|| (0..repeated).for_each(|_| run()));
        all / f64::from(repeated)
    });
    median(times.collect())
}

/// Seconds in a unit that suits them.
pub fn shown(seconds: f64) -> String {
    let (number, unit) = match seconds {
        s if s >= 1.0 => (s, "s"),
        s if s >= 1e-3 => (s * 1e3, "ms"),
        s if s >= 1e-6 => (s * 1e6, "us"),
        s => (s * 1e9, "ns"),
    };
    let places = match number {
        it if it >= 100.0 => 0,
        it if it >= 10.0 => 1,
        _ => 2,
    };
    format!("{number:.places$} {unit}")
}

/// A number with commas.
pub fn grouped(number: usize) -> String {
    let digits = number.to_string();
    let mut shown = String::new();
    for (place, digit) in digits.chars().enumerate() {
        if place > 0 && (digits.len() - place).is_multiple_of(3) {
            shown.push(',');
        }
        shown.push(digit);
    }
    shown
}
