//! Counts of what generated files have, so that a test can ask for enough of each.

use std::collections::BTreeMap;

/// How many times each thing was met.
#[derive(Default)]
pub struct Met(pub BTreeMap<String, u32>);

impl Met {
    pub fn meet(&mut self, what: impl Into<String>, met: bool) {
        *self.0.entry(what.into()).or_default() += u32::from(met);
    }

    pub fn least(&self, least: u32) {
        for (what, count) in &self.0 {
            println!("{count:7} {what}");
        }
        for (what, count) in &self.0 {
            assert!(*count >= least, "{what}: {count} of {least}");
        }
    }

    pub fn least_of(&self, what: &str, least: u32) {
        let count = self.0.get(what).copied().unwrap_or(0);
        assert!(count >= least, "{what}: {count} of {least}");
    }

    /// How many different things were met whose words start so.
    pub fn kinds(&self, start: &str) -> usize {
        self.0.keys().filter(|what| what.starts_with(start)).count()
    }
}
