//! Prints the facility of a trace that changes most, and its last value.

use lxt::{Refusal, Trace};

pub fn busiest(bytes: &[u8]) -> Result<String, Refusal> {
    let trace = Trace::open(bytes)?; // accepted, or a numbered refusal
    let mut changes = vec![0; trace.facilities().len()];
    for change in trace.walk_all()? {
        changes[change.facility as usize] += 1; // every change, newest first
    }
    let most = trace.facilities().max_by_key(|it| changes[*it as usize]);
    let Some(facility) = most else {
        return Ok("no facilities".to_string());
    };
    let name = trace.name(facility)?;
    let value = trace.value_at(facility, i64::MAX)?.value;
    let changes = changes[facility as usize];
    Ok(format!(
        "{} changes {changes} times, last to {value}",
        name.escape_ascii()
    ))
}

fn main() -> Result<(), Box<dyn std::error::Error>> {
    let path = std::env::args().nth(1).ok_or("usage: busiest TRACE")?;
    println!("{}", busiest(&std::fs::read(path)?)?);
    Ok(())
}
