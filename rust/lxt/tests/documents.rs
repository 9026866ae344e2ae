//! What the documents show of Rust: the README's program, and links of the interface's own pages.

use std::path::Path;
use std::process::Command;

use lxt::Refusal;
use lxt_compare::traces;
use lxt_reference::{Judged, Value};

#[allow(dead_code)]
#[path = "../examples/busiest.rs"]
mod example;

#[test]
fn the_readme_shows_the_example_whole() {
    let readme = include_str!("../../../README.md");
    let blocks = Vec::from_iter(readme.split("```rust\n").skip(1));
    assert_eq!(blocks.len(), 1);
    let shown = blocks[0].split("```").next().expect("its end");
    assert_eq!(shown, include_str!("../examples/busiest.rs"));
}

/// What the example is to say of a file, by the independent reader.
fn expected(file: &[u8]) -> Result<String, Refusal> {
    let judged = match Judged::new(file) {
        Ok(judged) => judged,
        Err(number) => return Err(Refusal::of_number(number).expect("a refusal")),
    };
    let chains = judged.chains();
    let counts = chains.iter().map(Vec::len).enumerate();
    let Some((facility, count)) = counts.max_by_key(|(_, count)| *count) else {
        return Ok("no facilities".to_string());
    };
    let mut bits = vec![0; 4_096];
    let lookup = judged.value_at(facility as u32, i64::MAX, &mut bits);
    let value = match lookup.expect("a value").value {
        Value::Bits { width } => bits[..width as usize].escape_ascii().to_string(),
        Value::Real { bits } => f64::from_bits(bits).to_string(),
        Value::Text { start, length } => {
            let text = &file[start as usize..][..length as usize];
            format!("\"{}\"", text.escape_ascii())
        }
        Value::NotDriven => "not driven".to_string(),
    };
    let name = judged.name_of(facility as u32).escape_ascii();
    Ok(format!("{name} changes {count} times, last to {value}"))
}

#[test]
fn the_example_runs_on_every_trace() {
    let mut accepted = 0;
    for (name, file) in traces(usize::MAX) {
        let said = example::busiest(&file);
        assert_eq!(said, expected(&file), "{name}");
        accepted += u32::from(said.is_ok());
    }
    assert!(accepted >= 20, "{accepted}");
}

#[test]
fn the_pages_of_the_interface_have_no_broken_links() {
    let cargo = std::env::var("CARGO").unwrap_or_else(|_| "cargo".to_string());
    let target = Path::new(env!("CARGO_TARGET_TMPDIR")).join("documents");
    let made = Command::new(cargo)
        .args(["doc", "--offline", "--no-deps", "--document-private-items"])
        .arg("--target-dir")
        .arg(target)
        .current_dir(env!("CARGO_MANIFEST_DIR"))
        .env("RUSTDOCFLAGS", "-Dwarnings")
        .output()
        .expect("cargo");
    assert!(
        made.status.success(),
        "{}",
        String::from_utf8_lossy(&made.stderr)
    );
}
