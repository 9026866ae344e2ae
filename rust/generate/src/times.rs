//! The two tables of times: they differ in the tag, the bytes of a time and its sign.

/// The tag of 32-bit times, without sign, and that of 64-bit times, with one.
pub const SHORT_TIMES: u8 = 0x06;
pub const LONG_TIMES: u8 = 0x09;

/// The other one of the two tags.
pub fn other_times(tag: u8) -> u8 {
    match tag {
        SHORT_TIMES => LONG_TIMES,
        _ => SHORT_TIMES,
    }
}

/// The bytes of a time.
pub fn time_length(tag: u8) -> usize {
    match tag {
        SHORT_TIMES => 4,
        _ => 8,
    }
}

/// The bytes of the count, first and last.
pub fn head_length(tag: u8) -> usize {
    4 + 2 * time_length(tag)
}

/// The bytes of a table of so many entries.
pub fn table_length(tag: u8, entries: usize) -> usize {
    head_length(tag) + (4 + time_length(tag)) * entries
}

/// The least and the greatest time that a table of this tag can have.
pub fn time_range(tag: u8) -> (i64, i64) {
    match tag {
        SHORT_TIMES => (0, 0xFFFF_FFFF),
        _ => (i64::MIN, i64::MAX),
    }
}

/// A time, or a delta of one, as a table of this tag has it: the lowest bytes, the highest first.
pub fn time_bytes(tag: u8, time: i64) -> Vec<u8> {
    time.to_be_bytes()[8 - time_length(tag)..].to_vec()
}

/// A table of times: first, last, and the deltas of the positions and of the times.
#[derive(Clone, Debug)]
pub struct TimeTable {
    pub tag: u8,
    pub first: i64,
    pub last: i64,
    pub positions: Vec<u32>,
    pub times: Vec<i64>,
}

impl TimeTable {
    pub fn bytes(&self) -> Vec<u8> {
        let times = |list: &[i64]| {
            let bytes = list.iter().map(|time| time_bytes(self.tag, *time));
            bytes.collect::<Vec<_>>().concat()
        };
        let count = self.positions.len() as u32;
        let positions = self.positions.iter().map(|delta| delta.to_be_bytes());
        [
            count.to_be_bytes().to_vec(),
            times(&[self.first, self.last]),
            positions.collect::<Vec<_>>().concat(),
            times(&self.times),
        ]
        .concat()
    }
}
