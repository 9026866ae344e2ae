//! Plain tables for files that are about other things.

use crate::draft::Draft;
use crate::valid::REAL_TEST;

/// rows, msb, lsb, flags
pub(crate) type Geometry = [u32; 4];

pub(crate) const INTEGER: Geometry = [0, 0, 0, 1];
pub(crate) const REAL: Geometry = [0, 0, 0, 2];
pub(crate) const TEXT: Geometry = [0, 0, 0, 4];

pub(crate) fn bits(width: u32) -> Geometry {
    [0, width - 1, 0, 0]
}

pub(crate) fn alias(target: usize) -> Geometry {
    [target as u32, 0, 0, 8]
}

/// Appends the tables and makes the section list: facilities with empty names, all sync entries 0,
/// one time entry, the real test. C is the end of the tables.
pub(crate) fn append_tables(draft: &mut Draft, geometry: &[Geometry]) {
    let n = geometry.len() as u32;
    let names = draft.append_words(&[n, n]);
    draft.append(&vec![0; 3 * geometry.len()]);
    let geometry = draft.append_words(&geometry.concat());
    let sync = draft.append(&vec![0; 4 * n as usize]);
    let times = draft.append_words(&[1, 0, 9, 4, 9]);
    let real_test = draft.append(&REAL_TEST);
    draft.items = vec![
        (0x01, draft.end() as u32),
        (0x02, sync as u32),
        (0x03, names as u32),
        (0x04, geometry as u32),
        (0x06, times as u32),
        (0x08, real_test as u32),
    ];
}
