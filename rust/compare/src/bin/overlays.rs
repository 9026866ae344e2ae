//! Saves each shorter trace of a folder over the start of each longer one, and prints what the proved reader
//! says of the files: refused, or accepted with so many stray bytes.
//!
//! ```text
//! cargo run --release --offline -p lxt-compare --bin overlays -- ../traces
//! ```

use std::collections::BTreeMap;
use std::path::Path;

use lxt_compare::overlays::{accepted, found, overlays, Found, Overlay};
use lxt_compare::traces_in;

/// The overlays by what was found in them.
#[derive(Default)]
struct Counts {
    /// By the refusal's number.
    refused: BTreeMap<u8, u32>,
    no_facilities: u32,
    no_changes: u32,
    /// A row for each that has changes.
    changes: Vec<String>,
    /// Of all accepted ones.
    stray: Vec<u32>,
}

impl Counts {
    fn add(&mut self, overlay: &Overlay) {
        let found = match found(&overlay.bytes) {
            Err(refusal) => return *self.refused.entry(refusal.number()).or_default() += 1,
            Ok(found) => found,
        };
        let Found {
            facilities,
            changes,
            stray,
        } = found;
        self.stray.push(stray);
        match (facilities, changes) {
            (0, _) => self.no_facilities += 1,
            (_, 0) => self.no_changes += 1,
            _ => self.changes.push(format!(
                "| {} | {} | {facilities} | {changes} | {stray} |",
                overlay.shorter, overlay.longer
            )),
        }
    }

    fn print(&self) {
        let refused: u32 = self.refused.values().sum();
        let accepted = self.stray.len();
        println!("| overlays | {} |", refused as usize + accepted);
        println!("| overlays refused | {refused} |");
        for (number, count) in &self.refused {
            println!("| - as {number} | {count} |");
        }
        println!("| overlays accepted | {accepted} |");
        println!("| - without facilities | {} |", self.no_facilities);
        println!(
            "| - with facilities, without changes | {} |",
            self.no_changes
        );
        println!("| - with changes | {} |", self.changes.len());
        let without = self.stray.iter().filter(|stray| **stray == 0).count();
        println!("| - without stray bytes | {without} |");
        let least = self.stray.iter().min().map(u32::to_string);
        let least = least.unwrap_or("-".to_string());
        println!("| - least stray bytes of one | {least} |");
        println!("\nAccepted with changes: bytes of one run under names of the other\n");
        println!("| Shorter | Over | Facilities | Changes | Stray bytes |");
        println!("|---|---|---|---|---|");
        for row in &self.changes {
            println!("{row}");
        }
    }
}

fn main() {
    let folder = std::env::args().nth(1);
    let Some(folder) = folder else {
        eprintln!("overlays FOLDER");
        std::process::exit(2);
    };
    let all = match traces_in(Path::new(&folder)) {
        Ok(all) => all,
        Err(error) => {
            eprintln!("{folder}: {error}");
            std::process::exit(2);
        }
    };
    let count = all.len();
    let traces = accepted(all);
    println!("Traces, and overlays: a shorter one saved over the start of a longer one\n");
    println!("| What | Count |");
    println!("|---|---|");
    println!("| traces | {count} |");
    println!("| traces accepted | {} |", traces.len());
    let stray = |file: &[u8]| lxt::stray_bytes(file).unwrap_or(0);
    let strays = Vec::from_iter(traces.iter().filter(|(_, file)| stray(file) > 0));
    println!(
        "| - without stray bytes | {} |",
        traces.len() - strays.len()
    );
    for (name, file) in strays {
        println!("| - stray bytes of {name} | {} |", stray(file));
    }
    let mut counts = Counts::default();
    for overlay in overlays(&traces) {
        counts.add(&overlay);
    }
    counts.print();
}
