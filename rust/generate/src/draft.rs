//! A trace file in parts that can still be edited, with what it means.

use crate::times::{other_times, table_length, time_length, TimeTable, LONG_TIMES, SHORT_TIMES};

/// The kind of a facility.
#[derive(Clone, Copy, Debug, PartialEq, Eq)]
pub enum Kind {
    Bits,
    Integer,
    Real,
    Text,
}

/// A value as it was meant when the trace was made.
#[derive(Clone, Debug, PartialEq, Eq)]
pub enum Meant {
    /// The symbols as ASCII, one byte each.
    Symbols(Vec<u8>),
    Real(u64),
    Text(Vec<u8>),
}

/// A facility as it was meant.
#[derive(Clone, Debug)]
pub struct Facility {
    /// The expanded name.
    pub name: Vec<u8>,
    /// The offset of its prefix bytes.
    pub name_at: usize,
    /// The target of an alias.
    pub target: Option<usize>,
    pub root: usize,
    /// Of the root.
    pub kind: Kind,
    pub width: u32,
    pub msb: i32,
    pub lsb: i32,
}

/// A change as it was placed and meant.
#[derive(Clone, Debug)]
pub struct Change {
    pub root: usize,
    pub offset: usize,
    pub command: u8,
    /// The number of delta bytes.
    pub k: usize,
    pub data: usize,
    pub end: usize,
    pub previous: usize,
    pub time: i64,
    pub value: Meant,
    /// Whether its unused bits are all 0.
    pub clean: bool,
}

/// A trace in parts: the bytes before END, the END byte, the items of the section list from END
/// towards B4, and the last byte.
///
/// `facilities` and `changes` tell what a valid draft means. A damaged draft keeps those of the draft
/// it was made from, as a map of where things lie.
#[derive(Clone, Debug)]
pub struct Draft {
    /// The header's four bytes, then all bodies. Its length is T.
    pub body: Vec<u8>,
    /// The END byte, 00.
    pub stop: u8,
    /// Tag and value.
    pub items: Vec<(u8, u32)>,
    /// B4.
    pub last: u8,
    pub facilities: Vec<Facility>,
    /// By rising offset.
    pub changes: Vec<Change>,
    pub timescale: i8,
    pub initial: u8,
}

impl Draft {
    /// A draft of the header alone.
    pub fn new(version: u16) -> Self {
        let [high, low] = version.to_be_bytes();
        Draft {
            body: vec![0x01, 0x38, high, low],
            stop: 0,
            items: Vec::new(),
            last: 0xB4,
            facilities: Vec::new(),
            changes: Vec::new(),
            timescale: -9,
            initial: 3,
        }
    }

    /// The file.
    pub fn bytes(&self) -> Vec<u8> {
        let mut bytes = self.body.clone();
        bytes.push(self.stop);
        for (tag, value) in &self.items {
            bytes.extend(value.to_be_bytes());
            bytes.push(*tag);
        }
        bytes.push(self.last);
        bytes
    }

    /// T
    pub fn end(&self) -> usize {
        self.body.len()
    }

    /// The value that counts for a tag: that nearest END; 0 means absent.
    pub fn value(&self, tag: u8) -> u32 {
        let found = self.items.iter().find(|(other, _)| *other == tag);
        found.map_or(0, |(_, value)| *value)
    }

    pub fn start(&self, tag: u8) -> usize {
        self.value(tag) as usize
    }

    /// Sets the value that counts for a tag.
    pub fn set_item(&mut self, tag: u8, value: u32) {
        match self.items.iter_mut().find(|(other, _)| *other == tag) {
            Some(item) => item.1 = value,
            None => self.items.insert(0, (tag, value)),
        }
    }

    /// Adds an item that counts.
    pub fn add_nearest_end(&mut self, tag: u8, value: u32) {
        self.items.insert(0, (tag, value));
    }

    /// Adds an item that counts only if the tag isn't there yet.
    pub fn add_nearest_b4(&mut self, tag: u8, value: u32) {
        self.items.push((tag, value));
    }

    /// Puts bytes before END and gives their offset.
    pub fn append(&mut self, bytes: &[u8]) -> usize {
        let start = self.end();
        self.body.extend_from_slice(bytes);
        start
    }

    pub fn append_words(&mut self, words: &[u32]) -> usize {
        let start = self.end();
        for word in words {
            self.body.extend(word.to_be_bytes());
        }
        start
    }

    /// The bytes of a part of the body; those past its end are missing.
    pub fn part(&self, start: usize, length: usize) -> &[u8] {
        let from = start.min(self.end());
        let to = start.saturating_add(length).min(self.end());
        &self.body[from..to]
    }

    /// The 4-byte number at `at`, with 0 for bytes past the end.
    pub fn word(&self, at: usize) -> u32 {
        let mut word = [0; 4];
        let part = self.part(at, 4);
        word[..part.len()].copy_from_slice(part);
        u32::from_be_bytes(word)
    }

    pub fn byte(&self, at: usize) -> u8 {
        self.part(at, 1).first().copied().unwrap_or(0)
    }

    /// Sets bytes; those past the end of the body are left out.
    pub fn set(&mut self, at: usize, bytes: &[u8]) {
        for (place, byte) in bytes.iter().enumerate() {
            if let Some(old) = self.body.get_mut(at + place) {
                *old = *byte;
            }
        }
    }

    pub fn set_word(&mut self, at: usize, word: u32) {
        self.set(at, &word.to_be_bytes());
    }

    /// n, as the names' head says.
    pub fn count(&self) -> u32 {
        self.word(self.start(0x03))
    }

    /// The tag of the times that count: 06 or 09.
    pub fn times_tag(&self) -> u8 {
        match (self.value(SHORT_TIMES), self.value(LONG_TIMES)) {
            (0, 1..) => LONG_TIMES,
            _ => SHORT_TIMES,
        }
    }

    /// Where the times that count start.
    pub fn times_at(&self) -> usize {
        self.start(self.times_tag())
    }

    /// m, as the head of the times says.
    pub fn entries(&self) -> u32 {
        self.word(self.times_at())
    }

    /// The time, or delta of one, at `at` in the times that count, with 0 for bytes past the end.
    pub fn time(&self, at: usize) -> i64 {
        let low = i64::from(self.word(at + time_length(self.times_tag()) - 4));
        match self.times_tag() {
            SHORT_TIMES => low,
            _ => i64::from(self.word(at)) << 32 | low,
        }
    }

    /// Puts a table of times before END, which counts; one of the other kind is then absent. Gives its
    /// start.
    pub fn append_times(&mut self, table: &TimeTable) -> usize {
        let start = self.append(&table.bytes());
        self.set_item(table.tag, start as u32);
        if self.value(other_times(table.tag)) != 0 {
            self.set_item(other_times(table.tag), 0);
        }
        start
    }

    /// The tags that must be there in this draft.
    pub fn needed(&self) -> [u8; 5] {
        [0x01, 0x02, 0x03, 0x04, self.times_tag()]
    }

    /// The length of the body of a section. Of 03 that is all names.
    pub fn body_length(&self, tag: u8) -> usize {
        match tag {
            0x02 => 4 * self.facilities.len(),
            0x03 => match self.facilities.last() {
                None => 8,
                Some(last) => {
                    let mut at = last.name_at + 2;
                    while self.byte(at) != 0 {
                        at += 1;
                    }
                    // In a damaged draft the names may have been replaced by others further on.
                    (at + 1).saturating_sub(self.start(0x03))
                }
            },
            0x04 => 16 * self.facilities.len(),
            SHORT_TIMES | LONG_TIMES => table_length(tag, self.word(self.start(tag)) as usize),
            0x08 | 0x14 => 8,
            // A count, then 16 bytes each.
            0x13 => 4 + 16 * self.word(self.start(tag)) as usize,
            _ => 1,
        }
    }

    /// Of each byte before T whether it is stray: from offset 4 on, in no change and in no section that lies
    /// wholly there.
    pub fn stray(&self) -> Vec<bool> {
        let mut stray = vec![true; self.end()];
        stray[..4].fill(false);
        for change in &self.changes {
            stray[change.offset..change.end].fill(false);
        }
        for tag in (0x02..=0x09).chain([0x13, 0x14]) {
            let (start, length) = (self.start(tag), self.body_length(tag));
            if start >= 4 && start + length <= self.end() {
                stray[start..start + length].fill(false);
            }
        }
        stray
    }

    /// How many bytes are stray.
    pub fn stray_bytes(&self) -> usize {
        self.stray().iter().filter(|stray| **stray).count()
    }

    /// Moves a body, by copying it, to the end, so that it ends at T. Gives its new start.
    pub fn move_to_end(&mut self, tag: u8) -> usize {
        let old = self.start(tag);
        let copy = self.part(old, self.body_length(tag)).to_vec();
        let start = self.append(&copy);
        self.set_item(tag, start as u32);
        if tag == 0x03 {
            for facility in &mut self.facilities {
                facility.name_at = (facility.name_at + start).saturating_sub(old);
            }
        }
        start
    }

    pub fn geometry_at(&self, facility: usize) -> usize {
        self.start(0x04) + 16 * facility
    }

    pub fn sync_at(&self, facility: usize) -> usize {
        self.start(0x02) + 4 * facility
    }

    /// The facilities that are roots.
    pub fn roots(&self) -> Vec<usize> {
        (0..self.facilities.len())
            .filter(|number| self.facilities[*number].target.is_none())
            .collect()
    }

    /// Whether any change lies on a root's chain.
    pub fn has_changes(&self, root: usize) -> bool {
        self.changes.iter().any(|change| change.root == root)
    }

    /// Bits for each symbol of a change; 0 where there are no data or no symbols.
    pub fn bits_a_symbol(&self, change: &Change) -> usize {
        match (self.facilities[change.root].kind, change.command) {
            (Kind::Bits | Kind::Integer, 0) => 1,
            (Kind::Bits, 1) => 2,
            (Kind::Bits, 2) => 4,
            _ => 0,
        }
    }

    /// How many bits of the last data byte of a change no symbol uses.
    pub fn unused_bits(&self, change: &Change) -> usize {
        let width = self.facilities[change.root].width as usize;
        unused_bits(width * self.bits_a_symbol(change))
    }

    /// Appends a change to the end of the body as the newest of its root. Gives its offset.
    pub fn append_change(&mut self, root: usize, command: u8, k: usize, data: &[u8]) -> usize {
        let offset = self.end();
        let previous = self.word(self.sync_at(root)) as usize;
        let bytes = change_bytes(offset, previous, command, k, data);
        self.append(&bytes);
        self.set_word(self.sync_at(root), offset as u32);
        offset
    }
}

/// How many bits of the last byte are left by so many used ones.
pub fn unused_bits(used: usize) -> usize {
    used.next_multiple_of(8) - used
}

/// The least number of bytes that hold a delta.
pub fn least_k(delta: usize) -> usize {
    match delta {
        0..=0xFF => 1,
        0x100..=0xFFFF => 2,
        0x1_0000..=0xFF_FFFF => 3,
        _ => 4,
    }
}

/// A change: command byte, k delta bytes, data. k is raised where the delta needs it.
pub fn change_bytes(offset: usize, previous: usize, command: u8, k: usize, data: &[u8]) -> Vec<u8> {
    // In a damaged draft the previous offset may lie behind; then the delta is what comes of it.
    let delta = (offset as u32)
        .wrapping_sub(previous as u32)
        .wrapping_sub(2);
    let k = k.max(least_k(delta as usize));
    let mut bytes = vec![(k as u8 - 1) << 4 | command];
    bytes.extend(&delta.to_be_bytes()[4 - k..]);
    bytes.extend(data);
    bytes
}
