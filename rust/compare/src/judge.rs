//! The proved judge against the independent reader, answer by answer.

use std::collections::BTreeMap;

use lxt_reference::Judged;

use crate::times::Entries;

/// The small trace of paper 01, 95 bytes.
pub const TRACE: [u8; 95] = [
    0x01, 0x38, 0x00, 0x04, 0x04, 0x02, 0x03, 0x00, 0x00, 0x00, 0x00, 0x01, 0x00, 0x00, 0x00, 0x02,
    0x00, 0x00, 0x61, 0x00, 0x00, 0x00, 0x00, 0x00, 0x00, 0x00, 0x00, 0x00, 0x00, 0x00, 0x00, 0x00,
    0x00, 0x00, 0x00, 0x00, 0x00, 0x00, 0x00, 0x06, 0x00, 0x00, 0x00, 0x02, 0x00, 0x00, 0x00, 0x00,
    0x00, 0x00, 0x00, 0x05, 0x00, 0x00, 0x00, 0x04, 0x00, 0x00, 0x00, 0x02, 0x00, 0x00, 0x00, 0x00,
    0x00, 0x00, 0x00, 0x05, 0x00, 0x00, 0x00, 0x00, 0x04, 0x01, 0x00, 0x00, 0x00, 0x24, 0x02, 0x00,
    0x00, 0x00, 0x08, 0x03, 0x00, 0x00, 0x00, 0x14, 0x04, 0x00, 0x00, 0x00, 0x28, 0x06, 0xB4,
];

/// What was judged.
#[derive(Debug, Default)]
pub struct Seen {
    /// By the answer: 0 for an accepted file, else the refusal's number.
    pub answers: BTreeMap<u8, u32>,
    /// The accepted files by whether all their padding is clean.
    pub padding: BTreeMap<bool, u32>,
    pub times: Times,
}

/// The accepted files by their time entries.
#[derive(Clone, Copy, Debug, Default)]
pub struct Times {
    /// Positions and times rise.
    pub rising: u32,
    /// Several entries share a position.
    pub shared: u32,
    /// Several entries have one time.
    pub equal: u32,
    /// The times have 64 bits.
    pub long: u32,
}

/// Judges a file both ways and counts the answer.
pub fn compare(file: &[u8], what: &str, seen: &mut Seen) {
    let proved = lxt::judge(file).map(|summary| lxt_reference::Summary {
        facilities: summary.facilities,
        changes: summary.changes,
        end: summary.end,
        timescale: summary.timescale,
        initial: summary.initial,
        clean: summary.clean,
    });
    let proved = proved.map_err(|refusal| refusal.number());
    let judged = Judged::new(file);
    let expected = judged.as_ref().map(Judged::summary).map_err(|it| *it);
    assert_eq!(proved, expected, "{what}");
    let answer = expected.err().unwrap_or(0);
    *seen.answers.entry(answer).or_default() += 1;
    if let (Ok(judged), Ok(summary)) = (judged, expected) {
        *seen.padding.entry(summary.clean).or_default() += 1;
        let entries = Entries::of(&judged);
        let (shared, equal) = (entries.share_position(), entries.share_time());
        seen.times.rising += u32::from(!shared && !equal);
        seen.times.shared += u32::from(shared);
        seen.times.equal += u32::from(equal);
        seen.times.long += u32::from(judged.has_long_times());
    }
}
