//! Starting a walk and carrying on.

use crate::chains::{ChainFollower, ChangeReader, Fault};
use crate::questions::Judged;
use crate::tables::{read_tables, Trace};
use crate::Facts;
use std::cmp::Reverse;
use std::collections::BinaryHeap;

impl Trace<'_> {
    /// Whether the asked bytes ask for this root, itself or by an alias. Never for an alias.
    pub(crate) fn asks_for(&self, asked: &[u8], root: usize) -> bool {
        self.is_root(root)
            && asked
                .iter()
                .zip(&self.roots)
                .any(|(asked, asked_root)| *asked != 0 && *asked_root == root)
    }
}

/// How many pairs the record holds.
fn pairs(numbers: &[u32], offsets: &[u32]) -> usize {
    numbers.len().min(offsets.len())
}

/// Starts a walk. Pair i of the record is (numbers[i], offsets[i]); the two have one length. After
/// the file: 21 (fewer than n pairs), then 22 (asked bytes not n long).
pub fn start_walk(
    file: &[u8],
    asked: &[u8],
    numbers: &mut [u32],
    offsets: &mut [u32],
) -> Result<(), u8> {
    let judged = Judged::new(file)?;
    let trace = judged.trace();
    let n = trace.count();
    if pairs(numbers, offsets) < n {
        return Err(21);
    }
    if asked.len() != n {
        return Err(22);
    }
    for facility in 0..n {
        numbers[facility] = facility as u32;
        offsets[facility] = match trace.asks_for(asked, facility) {
            true => trace.sync[facility],
            false => 0,
        };
    }
    Ok(())
}

/// Carries on with a walk: up to `size` times the highest pending offset is handed out and replaced
/// by its previous one. Answers how many were handed out and whether all pending offsets are 0.
///
/// Only the checks 1 to 14 are made of the file. Then 21 (fewer than n pairs), 20, and 21 (output
/// shorter than 2 * `size`).
pub fn carry_on(
    file: &[u8],
    numbers: &mut [u32],
    offsets: &mut [u32],
    output: &mut [u32],
    size: u64,
) -> Result<(u32, bool), u8> {
    let trace = read_tables(file)?;
    let n = trace.count();
    if pairs(numbers, offsets) < n {
        return Err(21);
    }
    let mut follower = ChainFollower::new(&trace);
    check_record(&trace, &mut follower, &numbers[..n], &offsets[..n]).map_err(|_| 20)?;
    if (output.len() as u128) < 2 * u128::from(size) {
        return Err(21);
    }

    // The highest offset first; of equal offsets the lowest facility.
    let mut pending: BinaryHeap<(u32, Reverse<usize>)> = (0..n)
        .filter(|facility| offsets[*facility] != 0)
        .map(|facility| (offsets[facility], Reverse(facility)))
        .collect();
    let mut count: usize = 0;
    while (count as u64) < size {
        let Some((offset, Reverse(facility))) = pending.pop() else {
            break;
        };
        output[2 * count] = facility as u32;
        output[2 * count + 1] = offset;
        count += 1;
        // The whole chain down from a pending offset has been read, so this isn't refused.
        let change = follower
            .reader
            .read(&trace.facts[facility], offset)
            .map_err(|_| 20)?;
        offsets[facility] = change.previous;
        if change.previous != 0 {
            pending.push((change.previous, Reverse(facility)));
        }
    }
    Ok((count as u32, pending.is_empty()))
}

/// What is wrong with a record: a case of 20.
#[derive(Clone, Copy, Debug, PartialEq, Eq, PartialOrd, Ord)]
pub enum RecordFault {
    WrongNumber,
    PendingOfAlias,
    /// The chain down from the pending offset breaks this rule.
    Chain(Fault),
}

/// 20: a pair has a wrong number, or a pending offset not 0 of an alias or whose chain downwards
/// breaks a rule of 15 or 16. It need not be on the root's own chain.
fn check_record(
    trace: &Trace,
    follower: &mut ChainFollower,
    numbers: &[u32],
    offsets: &[u32],
) -> Result<(), RecordFault> {
    for facility in 0..trace.count() {
        if numbers[facility] as usize != facility {
            return Err(RecordFault::WrongNumber);
        }
        let pending = offsets[facility];
        if pending == 0 {
            continue;
        }
        if !trace.is_root(facility) {
            return Err(RecordFault::PendingOfAlias);
        }
        follower
            .follow(&trace.facts[facility], pending, |_| {})
            .map_err(RecordFault::Chain)?;
    }
    Ok(())
}

/// A file that passed the checks 1 to 14, those that carrying on makes.
#[derive(Debug)]
pub struct Tables<'a> {
    trace: Trace<'a>,
}

impl<'a> Tables<'a> {
    pub fn new(file: &'a [u8]) -> Result<Self, u8> {
        let trace = read_tables(file)?;
        Ok(Tables { trace })
    }

    /// n
    pub fn facilities(&self) -> usize {
        self.trace.count()
    }

    /// C
    pub fn changes(&self) -> u32 {
        self.trace.changes as u32
    }

    /// T
    pub fn end(&self) -> u32 {
        self.trace.end as u32
    }

    pub fn is_root(&self, facility: usize) -> bool {
        self.trace.is_root(facility)
    }

    /// The sync entry of a facility; an alias's means nothing.
    pub fn sync(&self, facility: usize) -> u32 {
        self.trace.sync[facility]
    }

    pub fn downwards(&self) -> Downwards<'_> {
        Downwards {
            trace: &self.trace,
            reader: ChangeReader::new(&self.trace),
        }
    }
}

/// Reads chains down from any offset, each by itself.
pub struct Downwards<'a> {
    trace: &'a Trace<'a>,
    reader: ChangeReader<'a>,
}

impl Downwards<'_> {
    /// The offsets of a root's chain from this one down; none for 0. Or the first fault.
    pub fn chain(&self, root: usize, from: u32) -> Result<Vec<u32>, Fault> {
        match self.sound_part(root, from) {
            (chain, None) => Ok(chain),
            (_, Some(fault)) => Err(fault),
        }
    }

    /// The offsets of a root's chain from this one down to its end or its first fault.
    pub fn sound_part(&self, root: usize, from: u32) -> (Vec<u32>, Option<Fault>) {
        let mut chain = Vec::new();
        let mut offset = from;
        while offset != 0 {
            match self.reader.read(&self.trace.facts[root], offset) {
                Ok(change) => {
                    chain.push(offset);
                    offset = change.previous;
                }
                Err(fault) => return (chain, Some(fault)),
            }
        }
        (chain, None)
    }

    /// Start and end of each change of a root's chain from this one down to its end or its first fault.
    pub fn spans(&self, root: usize, from: u32) -> Vec<(u32, u32)> {
        let (chain, _) = self.sound_part(root, from);
        let read = |offset: &u32| self.reader.read(&self.trace.facts[root], *offset).ok();
        let changes = chain.iter().filter_map(read);
        changes.map(|change| (change.offset, change.end)).collect()
    }

    /// The facts of a root.
    pub fn facts(&self, root: usize) -> Facts {
        self.trace.facts[root]
    }

    /// What a record of at least n pairs is to hand out: the chain of each pending offset, all pairs by
    /// falling offset, of equal offsets the lowest facility first. Or its first fault.
    pub fn rest(&self, record: &[(u32, u32)]) -> Result<Vec<(u32, u32)>, RecordFault> {
        let mut list = Vec::new();
        for (facility, (number, pending)) in record[..self.trace.count()].iter().enumerate() {
            if *number as usize != facility {
                return Err(RecordFault::WrongNumber);
            }
            if *pending != 0 && !self.trace.is_root(facility) {
                return Err(RecordFault::PendingOfAlias);
            }
            let chain = self.chain(facility, *pending).map_err(RecordFault::Chain)?;
            list.extend(chain.into_iter().map(|offset| (*number, offset)));
        }
        list.sort_unstable_by_key(|(number, offset)| (Reverse(*offset), *number));
        Ok(list)
    }
}

/// The full list of a walk, made from the file and the asked bytes alone: see `Judged::full_list`.
pub fn full_list(file: &[u8], asked: &[u8]) -> Result<Vec<(u32, u32)>, u8> {
    Judged::new(file)?.full_list(asked)
}
