//! Checks 15 to 17: one change, the chain of a root, and that changes share no byte.

use crate::tables::Trace;
use crate::{Facts, Kind};

/// A change that is well formed for the kind and width it was read with.
#[derive(Clone, Copy, Debug)]
pub(crate) struct Change {
    pub offset: u32,
    /// Bits 3 to 0 of the command byte.
    pub command: u8,
    /// The offset of the first data byte.
    pub data: u32,
    /// The offset after the last byte.
    pub end: u32,
    /// The offset of the previous change; 0 ends the chain.
    pub previous: u32,
    /// Whether every unused bit of the last data byte is 0.
    pub clean: bool,
}

/// The rule that a change breaks, in the order of the tests.
#[derive(Clone, Copy, Debug, PartialEq, Eq, PartialOrd, Ord)]
pub enum Fault {
    StartBelowC,
    StartFromT,
    HighBits,
    Command,
    PassesT,
    CodeAbove8,
    PreviousBelow0,
    PreviousBelowC,
}

impl Fault {
    /// Every rule.
    pub const ALL: [Fault; 8] = [
        Fault::StartBelowC,
        Fault::StartFromT,
        Fault::HighBits,
        Fault::Command,
        Fault::PassesT,
        Fault::CodeAbove8,
        Fault::PreviousBelow0,
        Fault::PreviousBelowC,
    ];

    /// 15 or 16.
    pub fn number(self) -> u8 {
        match self {
            Fault::HighBits | Fault::Command | Fault::CodeAbove8 => 16,
            _ => 15,
        }
    }
}

/// Where the previous change would be, as a plain number: offset - delta - 2.
pub fn previous_offset(offset: u32, delta: u32) -> i64 {
    i64::from(offset) - i64::from(delta) - 2
}

/// How many bits one symbol takes in the data of a command; 0 where there are no data.
pub(crate) fn bits_a_symbol(command: u8) -> usize {
    match command {
        0 => 1,
        1 => 2,
        2 => 4,
        _ => 0,
    }
}

/// Reads changes of one trace, each in constant time. Two tables make that possible: a text or the
/// codes of a wide value would else be read again at each change of a chain.
pub(crate) struct ChangeReader<'a> {
    trace: &'a Trace<'a>,
    /// For each offset up to T, that of the first zero byte from there on; T where none is before
    /// T. Empty where no root is of kind text.
    next_zero: Vec<u32>,
    /// For each offset up to T, how many bytes before it hold a 4-bit code above 8. Empty where no
    /// root is of kind bits.
    wrong_codes: Vec<u32>,
}

impl<'a> ChangeReader<'a> {
    pub fn new(trace: &'a Trace<'a>) -> Self {
        let has = |kind| trace.facts.iter().any(|facts| facts.kind == kind);
        let mut next_zero = Vec::new();
        if has(Kind::Text) {
            next_zero = vec![trace.end as u32; trace.end + 1];
            for at in (0..trace.end).rev() {
                next_zero[at] = match trace.file[at] {
                    0 => at as u32,
                    _ => next_zero[at + 1],
                };
            }
        }
        let mut wrong_codes = Vec::new();
        if has(Kind::Bits) {
            wrong_codes = vec![0; trace.end + 1];
            for at in 0..trace.end {
                let byte = trace.file[at];
                let wrong = byte >> 4 > 8 || byte & 0x0F > 8;
                wrong_codes[at + 1] = wrong_codes[at] + u32::from(wrong);
            }
        }
        ChangeReader {
            trace,
            next_zero,
            wrong_codes,
        }
    }

    /// The change at `offset`, read with a root's facts. The tests stand in the paper's order: start
    /// (15), command byte (16), whole change before T (15), data (16), previous offset (15).
    #[inline(always)]
    pub fn read(&self, facts: &Facts, offset: u32) -> Result<Change, Fault> {
        let file = self.trace.file;
        let end = self.trace.end;
        let at = offset as usize;

        if at < self.trace.changes {
            return Err(Fault::StartBelowC);
        }
        if at >= end {
            return Err(Fault::StartFromT);
        }

        let command_byte = file[at];
        let command = command_byte & 0x0F;
        let allowed = match facts.kind {
            Kind::Bits => command <= 0x0B,
            Kind::Integer => matches!(command, 0 | 3 | 4),
            Kind::Real | Kind::Text => true,
        };
        if command_byte & 0xC0 != 0 {
            return Err(Fault::HighBits);
        }
        if !allowed {
            return Err(Fault::Command);
        }

        let delta_bytes = usize::from(command_byte >> 4) + 1;
        let data = at + 1 + delta_bytes;
        let symbol = bits_a_symbol(command);
        let used_bits = facts.width as usize * symbol;
        let change_end = match facts.kind {
            Kind::Bits | Kind::Integer => data + used_bits.div_ceil(8),
            Kind::Real => data + 8,
            Kind::Text => match self.next_zero.get(data) {
                Some(zero) if (*zero as usize) < end => *zero as usize + 1,
                _ => return Err(Fault::PassesT),
            },
        };
        if change_end > end {
            return Err(Fault::PassesT);
        }

        let mut clean = true;
        if matches!(facts.kind, Kind::Bits | Kind::Integer) && symbol > 0 {
            // Unused bits may be anything; whether all of them are 0 is an answer.
            let used_in_last = used_bits % 8;
            clean = used_in_last == 0 || file[change_end - 1] & (0xFF >> used_in_last) == 0;
            if symbol == 4 {
                // Codes 0 to 8; of an odd width the last nibble is padding, no code.
                let whole = facts.width as usize / 2;
                if self.wrong_codes[data + whole] != self.wrong_codes[data] {
                    return Err(Fault::CodeAbove8);
                }
                if used_in_last != 0 && file[change_end - 1] >> 4 > 8 {
                    return Err(Fault::CodeAbove8);
                }
            }
        }

        let mut delta: u32 = 0;
        for byte in &file[at + 1..data] {
            delta = delta << 8 | u32::from(*byte);
        }
        let previous = previous_offset(offset, delta);
        if previous < 0 {
            return Err(Fault::PreviousBelow0);
        }
        if previous >= 1 && previous < self.trace.changes as i64 {
            return Err(Fault::PreviousBelowC);
        }

        Ok(Change {
            offset,
            command,
            data: data as u32,
            end: change_end as u32,
            previous: previous as u32,
            clean,
        })
    }
}

/// Follows chains and remembers where they passed.
///
/// Chains of different roots may run together, and only 17 refuses that, after all of 15 and 16. A
/// chain that meets a change already passed with the same kind and width is sound from there on, so
/// it isn't read again.
pub(crate) struct ChainFollower<'a> {
    pub reader: ChangeReader<'a>,
    /// By offset: the form, see `form`, with which the last chain passed there, or 0.
    passed: Vec<u16>,
}

/// A number above 0 for the kind and width, on which alone the reading of a change depends.
fn form(facts: &Facts) -> u16 {
    match facts.kind {
        Kind::Bits => facts.width as u16,
        Kind::Integer => 5_001,
        Kind::Real => 5_002,
        Kind::Text => 5_003,
    }
}

impl<'a> ChainFollower<'a> {
    pub fn new(trace: &'a Trace<'a>) -> Self {
        ChainFollower {
            reader: ChangeReader::new(trace),
            passed: vec![0; trace.end],
        }
    }

    /// Follows the chain from `start` down and shows each change that isn't known yet. Answers the first
    /// fault, else whether the chain met a change where another had passed.
    pub fn follow(
        &mut self,
        facts: &Facts,
        start: u32,
        mut show: impl FnMut(&Change),
    ) -> Result<bool, Fault> {
        let form = form(facts);
        let mut met = false;
        let mut offset = start;
        while offset != 0 {
            let passed = self.passed.get(offset as usize).copied().unwrap_or(0);
            if passed == form {
                return Ok(true);
            }
            let change = self.reader.read(facts, offset)?;
            met |= passed != 0;
            self.passed[offset as usize] = form;
            show(&change);
            offset = change.previous;
        }
        Ok(met)
    }
}

/// The chain of each root, newest change first; empty for an alias.
pub(crate) type Chains = Vec<Vec<Change>>;

/// 15 and 16: roots in order, newest change first. Then 17: two changes share a byte.
pub(crate) fn read_chains(trace: &Trace) -> Result<Chains, u8> {
    let mut follower = ChainFollower::new(trace);
    let mut chains: Chains = vec![Vec::new(); trace.count()];
    let mut met = false;
    for (root, chain) in chains.iter_mut().enumerate() {
        if !trace.is_root(root) {
            continue;
        }
        let followed = follower.follow(&trace.facts[root], trace.sync[root], |change| {
            // Once two roots reach one offset the file is refused, and the chains aren't needed.
            if !met {
                chain.push(*change);
            }
        });
        met |= followed.map_err(Fault::number)?;
    }
    if met {
        return Err(17);
    }
    let mut spans = spans_of(&chains);
    spans.sort_unstable();
    // In the order of their starts, some neighbours share a byte if any two changes do.
    if spans.windows(2).any(|pair| pair[0].1 > pair[1].0) {
        return Err(17);
    }
    Ok(chains)
}

/// Start and end of each change.
pub(crate) fn spans_of(chains: &Chains) -> Vec<(u32, u32)> {
    chains
        .iter()
        .flatten()
        .map(|change| (change.offset, change.end))
        .collect()
}
