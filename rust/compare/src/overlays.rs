//! Traces of which a shorter one was saved over the start of a longer one.

use lxt::{Refusal, Trace};

/// A file by its name.
type Named = (String, Vec<u8>);

/// The shorter trace's bytes, then those of the longer one from there on.
pub struct Overlay<'a> {
    pub shorter: &'a str,
    pub longer: &'a str,
    pub bytes: Vec<u8>,
}

/// What is found in a file that is accepted.
#[derive(Clone, Copy, Debug, PartialEq, Eq)]
pub struct Found {
    pub facilities: usize,
    pub changes: usize,
    pub stray: u32,
}

/// The traces that are accepted.
pub fn accepted(mut traces: Vec<Named>) -> Vec<Named> {
    traces.retain(|(_, file)| lxt::judge(file).is_ok());
    traces
}

/// Every overlay of two traces that differ in their length.
pub fn overlays(traces: &[Named]) -> impl Iterator<Item = Overlay<'_>> {
    let pairs = traces.iter().flat_map(|longer| {
        let shorter = traces.iter().filter(|it| it.1.len() < longer.1.len());
        shorter.map(move |shorter| (shorter, longer))
    });
    pairs.map(|(shorter, longer)| {
        let mut bytes = longer.1.clone();
        bytes[..shorter.1.len()].copy_from_slice(&shorter.1);
        Overlay {
            shorter: &shorter.0,
            longer: &longer.0,
            bytes,
        }
    })
}

/// What the proved reader finds in a file.
pub fn found(file: &[u8]) -> Result<Found, Refusal> {
    let trace = Trace::open(file)?;
    Ok(Found {
        facilities: trace.facilities().len(),
        changes: trace.walk_all()?.in_batches_of(u32::MAX).count(),
        stray: trace.stray_bytes()?,
    })
}
