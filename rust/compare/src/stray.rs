//! The proved count of stray bytes against the independent reader.

use std::collections::BTreeMap;

/// What was counted.
#[derive(Debug, Default)]
pub struct Seen {
    /// By the answer: 0 for an accepted file, else the refusal's number.
    pub answers: BTreeMap<u8, u64>,
    /// The accepted files with stray bytes, and those without.
    pub with: u64,
    pub without: u64,
}

/// Counts a file's stray bytes both ways, and gives the answer.
pub fn compare(file: &[u8], what: &str, seen: &mut Seen) -> Result<u32, u8> {
    let proved = lxt::stray_bytes(file).map_err(|refusal| refusal.number());
    let expected = lxt_reference::stray_bytes(file);
    assert_eq!(proved, expected, "stray bytes of {what}");
    let answer = expected.err().unwrap_or(0);
    *seen.answers.entry(answer).or_default() += 1;
    seen.with += u64::from(expected.is_ok_and(|stray| stray > 0));
    seen.without += u64::from(expected == Ok(0));
    expected
}
