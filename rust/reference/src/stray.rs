//! Stray bytes: those from offset 4 up to T that belong to nothing.
//!
//! Of an accepted file they are the offsets from 4 to T - 1 that lie in no change on the chain of a root
//! and in no body of a section that is present and lies wholly inside: its start is 4 or above, and start
//! and length together are at most T. A byte in two of these is simply not stray.

use std::ops::Range;

use crate::questions::Judged;
use crate::tables::{lies_within, word, Trace};

impl Judged<'_> {
    pub fn stray_bytes(&self) -> u32 {
        let trace = self.trace();
        // By offset: whether the byte belongs to something.
        let mut belongs = vec![false; trace.end];
        for (start, end) in self.spans() {
            belongs[start as usize..end as usize].fill(true);
        }
        for body in bodies(trace) {
            belongs[body].fill(true);
        }
        belongs[4..].iter().filter(|belongs| !**belongs).count() as u32
    }
}

/// How many stray bytes a file has.
pub fn stray_bytes(file: &[u8]) -> Result<u32, u8> {
    Ok(Judged::new(file)?.stray_bytes())
}

/// The bodies of the sections that are read or skipped: of 06 and 09 only one is present. 08 counts where
/// there is no real facility too, and whatever its bytes.
fn bodies(trace: &Trace) -> Vec<Range<usize>> {
    let n = trace.count() as u64;
    let m = trace.times.len() as u64;
    let lengths = [
        (0x02, Some(4 * n)),
        (0x03, Some(names_length(trace))),
        (0x04, Some(16 * n)),
        (0x05, Some(1)),
        (0x06, Some(12 + 8 * m)),
        (0x07, Some(1)),
        (0x08, Some(8)),
        (0x09, Some(20 + 12 * m)),
        (0x13, length_of_13(trace)),
        (0x14, Some(8)),
    ];
    let mut bodies = Vec::new();
    for (tag, length) in lengths {
        let start = trace.list.value(tag);
        match length {
            Some(length) if start != 0 && lies_within(start, length, trace.end) => {
                bodies.push(start as usize..start as usize + length as usize);
            }
            _ => {}
        }
    }
    bodies
}

/// The head of the names and all names, each two bytes of its prefix, its suffix and a zero. Bytes after
/// the last name are no part of the body.
fn names_length(trace: &Trace) -> u64 {
    let start = trace.list.value(0x03) as usize;
    let mut at = start + 8;
    for _ in 0..trace.count() {
        at += 2;
        while trace.file[at] != 0 {
            at += 1;
        }
        at += 1;
    }
    (at - start) as u64
}

/// A count k of 4 bytes, then 16 k bytes; none where the 4 bytes are not inside.
fn length_of_13(trace: &Trace) -> Option<u64> {
    let start = trace.list.value(0x13);
    lies_within(start, 4, trace.end).then(|| 4 + 16 * u64::from(word(trace.file, start as usize)))
}
