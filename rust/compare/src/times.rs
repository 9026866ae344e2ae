//! The time entries of a file: what it has of both kinds of tables, and entries that share a position or a
//! time, and where they show.

use std::ops::Range;

use lxt_reference::Judged;

use crate::judge::TRACE;

/// The small trace of paper 01 with other times: first, the position deltas and the time deltas; last is 5.
/// They stand before END, which moves with their number.
pub fn small_trace(first: u32, positions: &[u32], times: &[u32]) -> Vec<u8> {
    let (table, end) = (0x28, 0x44);
    let mut file = TRACE[..table].to_vec();
    let head = [positions.len() as u32, first, 5];
    for word in head.iter().chain(positions).chain(times) {
        file.extend(word.to_be_bytes());
    }
    file.extend(&TRACE[end..]);
    file
}

/// The same with 64-bit times, of tag 09: first, last, the position deltas and the time deltas.
pub fn small_trace_09(first: i64, last: i64, positions: &[u32], times: &[i64]) -> Vec<u8> {
    let (table, end) = (0x28, 0x44);
    let mut file = TRACE[..table].to_vec();
    file.extend((positions.len() as u32).to_be_bytes());
    file.extend([first, last].map(i64::to_be_bytes).concat());
    file.extend(positions.iter().flat_map(|delta| delta.to_be_bytes()));
    file.extend(times.iter().flat_map(|delta| delta.to_be_bytes()));
    file.extend(&TRACE[end..]);
    // The tag of the times stands before B4.
    let tag = file.len() - 2;
    file[tag] = 0x09;
    file
}

/// The position and time of each entry of an accepted file, in the order of the table.
#[derive(Default)]
pub struct Entries(Vec<(u32, i64)>);

/// Entries of differing times at the position that decides for a change, so that it shows which of them
/// does.
pub struct Shared<'a> {
    entries: &'a [(u32, i64)],
    /// Whether the change lies before every position: entry 0 decides, and not the last of them.
    pub before_all: bool,
}

impl Entries {
    pub fn of(judged: &Judged) -> Self {
        Entries(judged.entries())
    }

    /// Their times.
    pub fn times(&self) -> Vec<i64> {
        self.0.iter().map(|entry| entry.1).collect()
    }

    /// Whether several share a position.
    pub fn share_position(&self) -> bool {
        self.0.windows(2).any(|pair| pair[0].0 == pair[1].0)
    }

    /// Whether several have one time.
    pub fn share_time(&self) -> bool {
        self.0.windows(2).any(|pair| pair[0].1 == pair[1].1)
    }

    /// The entries of differing times that share the position which decides for a change.
    pub fn shared(&self, offset: u32) -> Option<Shared<'_>> {
        let lowest = self.0.first()?.0;
        let not_above = self.0.iter().rev().find(|entry| entry.0 <= offset);
        let position = not_above.map_or(lowest, |entry| entry.0);
        let mut groups = self.0.chunk_by(|one, other| one.0 == other.0);
        let entries = groups.find(|group| group[0].0 == position)?;
        let differ = entries.iter().any(|entry| entry.1 != entries[0].1);
        differ.then_some(Shared {
            entries,
            before_all: not_above.is_none(),
        })
    }
}

impl Shared<'_> {
    /// The times of the entries, each once.
    pub fn times(&self) -> Vec<i64> {
        let mut times = Vec::from_iter(self.entries.iter().map(|entry| entry.1));
        times.dedup();
        times
    }

    /// The times at which the change is there by one of the entries and not yet by another.
    pub fn between(&self) -> Range<i64> {
        self.entries[0].1..self.entries[self.entries.len() - 1].1
    }
}
