//! Chains so dense that they run together, overlap and spoil each other.

use crate::draft::{change_bytes, Draft};
use crate::random::Random;
use crate::tables::{append_tables, bits, Geometry, INTEGER, REAL, TEXT};

/// Some roots whose changes were written over each other in a small region. The tables are sound, so
/// that judging comes to 15, 16, 17 or accepts, and so that carrying on reads such chains.
pub fn dense(seed: u64) -> Draft {
    let mut random = Random::new(seed);
    let mut geometry: Vec<Geometry> = Vec::new();
    for _ in 0..random.within(1, 5) {
        let width = random.pick(&[1, 2, 3, 8, 9, 32]);
        geometry.push(match random.below(8) {
            0 => INTEGER,
            1 => TEXT,
            2 => REAL,
            _ => bits(width),
        });
    }

    let mut draft = Draft::new(4);
    let changes_last = random.chance(1, 2);
    if changes_last {
        append_tables(&mut draft, &geometry);
    }
    let start = draft.end();
    let fill = random.pick(&[0, 0, 0, 3, 255]);
    let length = random.within(4, 60) as usize;
    draft.append(&vec![fill; length]);
    if !changes_last {
        append_tables(&mut draft, &geometry);
    }

    // Changes at rising offsets; the gap decides how much they spoil each other.
    let widest_gap = random.pick(&[3, 6, 12]);
    let mut starts = Vec::new();
    let mut offset = start + random.below(3);
    while offset < start + length {
        let previous = match starts.is_empty() || random.chance(1, 4) {
            true => 0,
            false => random.pick(&starts),
        };
        if offset >= previous + 2 {
            let command = match random.below(12) {
                0 => 0x0C,
                1 => 1,
                2 => 2,
                3..=5 => 0,
                _ => random.pick(&[3, 4]),
            };
            let mut bytes = change_bytes(offset, previous, command, 1, &[]);
            if random.chance(1, 30) {
                bytes[0] |= 0x40;
            }
            // The tables behind the region stay sound.
            bytes.truncate(start + length - offset);
            draft.set(offset, &bytes);
            starts.push(offset);
        }
        offset += random.within(1, widest_gap) as usize;
    }

    let c = match random.below(8) {
        0 => start as u64 + random.within(0, 6),
        1 => start as u64,
        _ => 4,
    };
    draft.set_item(0x01, c.min(draft.end() as u64) as u32);
    for root in 0..geometry.len() {
        if !starts.is_empty() && random.chance(3, 4) {
            let sync = random.pick(&starts) as u32;
            draft.set_word(draft.sync_at(root), sync);
        }
    }
    draft
}
