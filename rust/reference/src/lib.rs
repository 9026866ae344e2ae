//! A plain reader and writer of LXT traces, written from the rules of paper 01 and Asks 1, 2, 4, 5, 6, 7 and 11
//! of paper 02 alone, and from the definition of stray bytes that stands in `stray`.
//!
//! They exist to be compared, call by call, with others. So the reader follows the paper's order of
//! checks, uses memory freely and judges the whole file again in every call. The writer is also what
//! another is measured against: it is plain, and fast. A refusal is its number, 1 to 22 and 35 of the reader, 24
//! and 25 of the writer, and changes nothing lent.

#![forbid(unsafe_code)]

mod chains;
mod dump;
mod questions;
mod stray;
mod tables;
mod walk;
mod write;

#[cfg(test)]
mod tests;

pub use chains::{previous_offset, Fault};
pub use dump::dump;
pub use questions::{
    chains, change, change_before, column, facts, judge, name, root, spans, text_at, value_at,
    Judged,
};
pub use stray::stray_bytes;
pub use walk::{carry_on, full_list, start_walk, Downwards, RecordFault, Tables};
pub use write::write;

/// The limits of a file's length, in bytes.
pub const SHORTEST_FILE: usize = 6;
pub const LONGEST_FILE: usize = 16_777_216;
/// The limit of the number of facilities.
pub const MOST_FACILITIES: u32 = 4_096;
/// The limit of a name, in bytes. It is also the room that asking for a name needs.
pub const LONGEST_NAME: usize = 1_023;
/// The limit of a facility's width, in bits.
pub const WIDEST_FACILITY: u32 = 4_096;
/// The limit of the list of a column, in facility numbers (Ask 4).
pub const LONGEST_COLUMN: usize = 4_096;
/// The limit of the small program's input, in bytes.
pub const LONGEST_INPUT: usize = 65_536;

/// The symbols of the codes 0 to 8.
pub const SYMBOLS: [u8; 9] = *b"01ZXHUWL-";

/// The kind of a facility.
#[derive(Clone, Copy, Debug, PartialEq, Eq, Hash, PartialOrd, Ord)]
pub enum Kind {
    Bits,
    Integer,
    Real,
    Text,
}

/// The facts of a facility: width and kind, with msb and lsb beside them.
#[derive(Clone, Copy, Debug, PartialEq, Eq)]
pub struct Facts {
    pub width: u32,
    pub msb: i32,
    pub lsb: i32,
    pub kind: Kind,
}

/// What judging answers for an accepted file.
#[derive(Clone, Copy, Debug, PartialEq, Eq)]
pub struct Summary {
    /// n
    pub facilities: u32,
    /// C
    pub changes: u32,
    /// T
    pub end: u32,
    pub timescale: i8,
    /// The initial symbol as its code 0 to 8.
    pub initial: u8,
    /// Whether the padding of every change on the chain of every root is clean (Ask 6).
    pub clean: bool,
}

/// What reading a change answers.
#[derive(Clone, Copy, Debug, PartialEq, Eq)]
pub struct Changed {
    pub time: i64,
    pub value: Value,
    /// Whether every unused bit of its last data byte is 0; so too where there is none (Ask 6).
    pub clean: bool,
}

/// What asking for the value at a time answers.
#[derive(Clone, Copy, Debug, PartialEq, Eq)]
pub struct Lookup {
    pub value: Value,
    /// How many changes of the root have a time after the one asked for, plus the change answered, if any
    /// (Ask 7).
    pub visited: u32,
}

/// The value of a facility. The symbols of `Bits` stand in the lent bits.
#[derive(Clone, Copy, Debug, PartialEq, Eq)]
pub enum Value {
    Bits { width: u32 },
    Real { bits: u64 },
    Text { start: u32, length: u32 },
    NotDriven,
}

/// Which of the two lent slices a text is a part of (Ask 11).
#[derive(Clone, Copy, Debug, PartialEq, Eq, Hash, PartialOrd, Ord)]
pub enum Which {
    File,
    /// The text lent as the default.
    Lent,
    /// Neither: the facility's kind is another.
    OtherKind,
}

/// What asking for the text at a time answers (Ask 11): a part of the file, without its zero, or of the lent
/// text, and which of them. Of another kind the part is empty.
#[derive(Clone, Copy, Debug, PartialEq, Eq)]
pub struct TextAt {
    pub which: Which,
    pub start: usize,
    pub length: usize,
}

/// The answer of one item of a column (Asks 4 and 11). The symbols of `Bits` stand in the lent bits from `start`
/// on.
#[derive(Clone, Copy, Debug, PartialEq, Eq)]
pub enum Item {
    Bits {
        start: usize,
        width: u32,
    },
    Real {
        bits: u64,
    },
    /// A text of the file, without its zero.
    Text {
        start: u32,
        length: u32,
    },
    /// The text lent as the default.
    LentText {
        length: usize,
    },
    /// A real without a change up to the time.
    NotDriven,
}
