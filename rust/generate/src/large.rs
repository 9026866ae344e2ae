//! Large valid traces of a given shape, for measuring.

use crate::draft::Draft;
use crate::random::Random;
use crate::times::{head_length, table_length, time_bytes, time_length, time_range};
use crate::valid::pack;

/// A trace whose facilities change in any order, with named facilities all of one width.
#[derive(Clone, Copy, Debug)]
pub struct Large {
    /// The length of the file, at most.
    pub bytes: usize,
    pub facilities: usize,
    pub width: u32,
    /// The number of time entries.
    pub entries: usize,
    /// The tag of the times: 06 or 09.
    pub times_tag: u8,
}

/// The file of a shape that leaves room for changes.
pub fn large(shape: &Large) -> Vec<u8> {
    large_with_gaps(shape, 0)
}

/// The same with so many stray bytes behind each change. The sections stand before the changes.
pub fn large_with_gaps(shape: &Large, gap: usize) -> Vec<u8> {
    let mut random = Random::new(shape.facilities as u64);
    let n = shape.facilities;
    let mut draft = Draft::new(4);
    let names = append_names(&mut draft, n);
    let geometry = draft.end();
    for _ in 0..n {
        draft.append_words(&[0, shape.width - 1, 0, 0]);
    }
    let sync = draft.append(&vec![0; 4 * n]);
    let tag = shape.times_tag;
    let times = draft.append(&vec![0; table_length(tag, shape.entries)]);
    let changes = draft.end();
    draft.items = vec![
        (0x01, changes as u32),
        (0x02, sync as u32),
        (0x03, names as u32),
        (0x04, geometry as u32),
        (tag, times as u32),
    ];
    append_changes(&mut random, &mut draft, shape, gap);
    fill_times(&mut random, &mut draft, shape);
    draft.bytes()
}

/// The names of so many facilities; gives where they start.
fn append_names(draft: &mut Draft, n: usize) -> usize {
    let mut names = Vec::new();
    let mut memory = 0;
    let mut before = String::new();
    for facility in 0..n {
        let name = format!("top.block_{}.signal_{facility}", facility / 16);
        let kept = name.bytes().zip(before.bytes());
        let kept = kept.take_while(|(one, other)| one == other).count();
        names.extend((kept as u16).to_be_bytes());
        names.extend(name[kept..].bytes());
        names.push(0);
        memory += name.len() as u32 + 1;
        before = name;
    }
    let start = draft.append_words(&[n as u32, memory]);
    draft.append(&names);
    start
}

/// Changes of any facility, up to the length of the file.
fn append_changes(random: &mut Random, draft: &mut Draft, shape: &Large, gap: usize) {
    // Behind the body: END, five items, B4.
    let end = shape.bytes - (1 + 5 * 5 + 1);
    let width = shape.width as usize;
    // A change of 4-bit symbols is the longest.
    while draft.end() + 5 + width.div_ceil(2) + gap <= end {
        let root = random.below(shape.facilities);
        let command = random.pick(&[0, 0, 0, 0, 1, 2, 3, 4, 4, 6]);
        let (symbol, codes) = [(1, 2), (2, 4), (4, 9)]
            .get(command)
            .copied()
            .unwrap_or((0, 0));
        let data = match symbol {
            0 => Vec::new(),
            _ => {
                let codes: Vec<u8> = (0..width).map(|_| random.below(codes) as u8).collect();
                pack(&codes, symbol)
            }
        };
        draft.append_change(root, command as u8, 1, &data);
        draft.append(&vec![0; gap]);
    }
}

/// Entries evenly over the changes.
fn fill_times(random: &mut Random, draft: &mut Draft, shape: &Large) {
    let (tag, times, changes) = (shape.times_tag, draft.times_at(), draft.start(0x01));
    let room = draft.end() - changes;
    let position = |entry: usize| changes + entry * room / shape.entries;
    draft.set_word(times, shape.entries as u32);
    let bytes = time_length(tag);
    draft.set(times + 4 + bytes, &time_bytes(tag, time_range(tag).1));
    let positions_at = times + head_length(tag);
    for entry in 0..shape.entries {
        let step = match entry {
            0 => changes,
            _ => position(entry) - position(entry - 1),
        };
        draft.set_word(positions_at + 4 * entry, step as u32);
        let time_at = positions_at + 4 * shape.entries + bytes * entry;
        draft.set(time_at, &time_bytes(tag, random.within_signed(1, 20)));
    }
}
