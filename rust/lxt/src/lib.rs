//! Safe bindings to the proved reader and writer of LXT traces.
//!
//! [`Trace`] is the way to ask a file that is in memory, [`Writer`] the way to make one, and [`Refusal`] what
//! any bytes or question may be answered instead:
//!
//! ```
//! use lxt::Trace;
//!
//! fn main() -> Result<(), Box<dyn std::error::Error>> {
//!     let bytes = std::fs::read("../../traces/gpsim_blink.lxt")?;
//!     let trace = Trace::open(&bytes)?;
//!     let mut changes = vec![0; trace.facilities().len()];
//!     for change in trace.walk_all()? {
//!         changes[change.facility as usize] += 1;
//!     }
//!     // The values of all facilities at the time 100, with `none` for texts before their first change.
//!     let all = Vec::from_iter(trace.facilities());
//!     let column = trace.column(100, &all, b"none")?;
//!     for ((facility, value), changes) in all.into_iter().zip(column.iter()).zip(changes) {
//!         let name = trace.name(facility)?;
//!         println!("{} {value} {changes} changes", name.escape_ascii());
//!     }
//!     Ok(())
//! }
//! ```
//!
//! Under it stand the functions of the C interface with slices for pointers: [`judge`], [`stray_bytes`],
//! [`facts`], [`root`], [`name`], [`change_before`], [`change`], [`value_at`], [`text_at`], [`column`](fn@column),
//! [`start_walk`], [`carry_on`] and [`write`](fn@write). They take any bytes, keep nothing between calls and
//! allocate nothing. Each that reads judges the file anew, whatever was asked before; only `carry_on` checks less
//! of it, its tables and the changes that are still to come. So many questions on one large file cost many times
//! its judging, as docs/PERFORMANCE.md has it in figures: to read all changes of a large trace, walk, and do not
//! ask for each of them; and for many facilities at one time, ask for a column, which judges once.
//!
//! All changes of a trace by these functions. A call of a walk reads again what is still to come, so
//! the output has room for many:
//!
//! ```
//! let file: &[u8] = include_bytes!("../../../traces/gpsim_blink.lxt");
//! let n = lxt::judge(file)?.facilities as usize;
//! let mut pairs = vec![lxt::Pair::default(); n];
//! lxt::start_walk(file, &vec![1; n], &mut pairs)?;
//! let mut output = vec![0; 2 * 65_536];
//! let mut changes = 0;
//! loop {
//!     let (count, done) = lxt::carry_on(file, &mut pairs, 65_536, &mut output)?;
//!     for change in output[..2 * count as usize].chunks(2) {
//!         println!("facility {} changes at offset {}", change[0], change[1]);
//!     }
//!     changes += count;
//!     if done {
//!         break;
//!     }
//! }
//! assert_eq!(changes, 298);
//! # Ok::<(), lxt::Refusal>(())
//! ```

#![deny(unsafe_code)]

mod column;
#[allow(unsafe_code)]
mod ffi;
mod refusal;
mod trace;
mod writer;

pub use column::{Column, ColumnValue};
pub use refusal::Refusal;
pub use trace::{Change, Reading, Trace, Walk};
pub use writer::{NewValue, Rule, WriteError, Writer};

use ffi::c;
use refusal::accepted;

/// What judging answers of an accepted file.
#[derive(Clone, Copy, Debug, PartialEq, Eq)]
#[non_exhaustive]
pub struct Summary {
    /// n, the number of facilities.
    pub facilities: u32,
    /// C, where the changes begin.
    pub changes: u32,
    /// T, where the sections end.
    pub end: u32,
    /// One unit of time is ten to this power seconds: -9 is nanoseconds, which also stands where the file
    /// has no timescale or one outside -21 to 2.
    pub timescale: i8,
    /// The code of the initial symbol, 0 to 8: `0 1 Z X H U W L -`.
    pub initial: u8,
    /// Whether every change of every root is [clean](Changed::clean); so too where there are no changes.
    pub clean: bool,
}

/// The kind of a facility.
#[derive(Clone, Copy, Debug, PartialEq, Eq)]
#[non_exhaustive]
pub enum Kind {
    Bits,
    Integer,
    Real,
    Text,
}

/// The facts of a facility.
#[derive(Clone, Copy, Debug, PartialEq, Eq)]
#[non_exhaustive]
pub struct Facts {
    /// The number of symbols of a value; 0 for reals and texts.
    pub width: u32,
    /// The number of the first symbol: of bits as the file has it, 31 of an integer, 0 of the others.
    pub msb: i32,
    /// The number of the last symbol: of bits as the file has it, else 0.
    pub lsb: i32,
    pub kind: Kind,
}

/// The value of a facility.
#[derive(Clone, Copy, Debug, PartialEq)]
#[non_exhaustive]
pub enum Value {
    /// The symbols `0 1 Z X H U W L -`, which stand in the first `width` bytes of the lent bits.
    Bits { width: u32 },
    /// A real, and its 64 bits, which also tell apart what `==` of `f64` does not.
    Real { number: f64, bits: u64 },
    /// A text, which stands in the file from `start` on, without its zero.
    Text { start: u32, length: u32 },
    /// A real or a text that has no change up to the time. In place of such a text, [`text_at`] and
    /// [`column`](fn@column) answer a lent one.
    NotDriven,
}

/// What reading a change answers, with its value as a [`Value`] or a [`Reading`].
#[derive(Clone, Copy, Debug, PartialEq, Eq)]
#[non_exhaustive]
pub struct Changed<V> {
    /// In units of the [timescale](Summary::timescale). In a file with 32-bit times (tag 06) it is 0 to
    /// 4,294,967,295, in one with 64-bit times (tag 09) any number, below 0 too.
    pub time: i64,
    pub value: V,
    /// Whether the change's padding is clean: the bits of its last data byte that no symbol uses are all 0.
    /// Other bits there are accepted and change no value. A real, a text and a change without data or
    /// without such bits are always clean.
    pub clean: bool,
}

/// What a value at a time answers, with the value as a [`Value`] or a [`Reading`].
#[derive(Clone, Copy, Debug, PartialEq, Eq)]
#[non_exhaustive]
pub struct Lookup<V> {
    pub value: V,
    /// How many changes the lookup went past: those of the facility's root with a later time, and the change
    /// answered, if any. An alias counts its root's. Before the first change it is all of them. It is at most half
    /// the bytes between C and T, since each change takes two bytes at least. Judging is not counted.
    pub visited: u32,
}

impl Value {
    fn of(value: c::Value) -> Value {
        match value.what {
            0 => Value::Bits {
                width: value.number as u32,
            },
            1 => Value::Real {
                number: f64::from_bits(value.number),
                bits: value.number,
            },
            2 => Value::Text {
                start: value.number as u32,
                length: value.length as u32,
            },
            _ => Value::NotDriven,
        }
    }
}

/// What the text at a time answers: a part of the file, or the lent text.
///
/// An empty part does not say which of the two it is, since a text of the file may be empty and the lent one too;
/// the case says it.
///
/// The two lifetimes are apart. A part of the file can be kept when the [`Trace`] and the lent text are gone:
///
/// ```
/// use lxt::{Kind, NewValue, TextAt, Trace, Writer};
///
/// fn main() -> Result<(), Box<dyn std::error::Error>> {
///     let mut writer = Writer::new(-9, 3)?;
///     let state = writer.facility(b"state", Kind::Text, 0, 0)?;
///     writer.change(state, 5, NewValue::Text(b"busy"))?;
///     let file = writer.write()?;
///     let kept = {
///         let trace = Trace::open(&file)?;
///         let default = String::from("idle");
///         match trace.text_at(state, 5, default.as_bytes())? {
///             TextAt::File(text) => Some(text),
///             _ => None,
///         }
///     };
///     assert_eq!(kept, Some(&b"busy"[..]));
///     Ok(())
/// }
/// ```
///
/// The lent text cannot, which is the answer at a time before that change:
///
/// ```compile_fail,E0597
/// use lxt::{Kind, NewValue, TextAt, Trace, Writer};
///
/// fn main() -> Result<(), Box<dyn std::error::Error>> {
///     let mut writer = Writer::new(-9, 3)?;
///     let state = writer.facility(b"state", Kind::Text, 0, 0)?;
///     writer.change(state, 5, NewValue::Text(b"busy"))?;
///     let file = writer.write()?;
///     let kept = {
///         let trace = Trace::open(&file)?;
///         let default = String::from("idle");
///         match trace.text_at(state, 4, default.as_bytes())? {
///             TextAt::Lent(text) => Some(text),
///             _ => None,
///         }
///     };
///     assert_eq!(kept, Some(&b"idle"[..]));
///     Ok(())
/// }
/// ```
#[derive(Clone, Copy, Debug, PartialEq, Eq)]
pub enum TextAt<'f, 't> {
    /// The text of the latest change up to the time: a part of the file, without its zero. It may be empty.
    File(&'f [u8]),
    /// No change up to the time: the whole lent text.
    Lent(&'t [u8]),
    /// The facility's values are no texts.
    OtherKind,
}

impl<'a> TextAt<'a, 'a> {
    /// The part, of the file or of the lent text; empty of another kind.
    pub fn bytes(self) -> &'a [u8] {
        match self {
            TextAt::File(text) | TextAt::Lent(text) => text,
            TextAt::OtherKind => &[],
        }
    }
}

/// One item of a column, laid out as in C. [`value`](Item::value) gives it as an enum.
#[repr(C)]
#[derive(Clone, Copy, Debug, Default, PartialEq, Eq)]
pub struct Item {
    /// 0 bits, 1 a real, 2 a text in the file, 3 not driven, 4 the lent text.
    pub what: u64,
    /// Of bits where their symbols start in the lent bits, of a text in the file where it starts there; else 0.
    pub start: u64,
    /// Of bits the width, of a text its length in bytes, in the file or of the lent one; else 0.
    pub length: u64,
    /// The 64 bits of a real; else 0.
    pub real: u64,
}

/// What an [`Item`] of a column says.
#[derive(Clone, Copy, Debug, PartialEq)]
#[non_exhaustive]
pub enum ItemValue {
    /// The symbols `0 1 Z X H U W L -`, which stand in the lent bits from `start` on.
    Bits { start: usize, width: usize },
    /// A real, and its 64 bits, which also tell apart what `==` of `f64` does not.
    Real { number: f64, bits: u64 },
    /// A text, which stands in the file from `start` on, without its zero.
    Text { start: usize, length: usize },
    /// A text that has no change up to the time: the whole lent text, of this length.
    LentText { length: usize },
    /// A real that has no change up to the time.
    NotDriven,
}

impl Item {
    /// What the item says. An item that no column wrote may say anything, and is `NotDriven` where
    /// [`what`](Item::what) is none of the five.
    pub fn value(&self) -> ItemValue {
        let (start, length) = (self.start as usize, self.length as usize);
        match self.what {
            0 => ItemValue::Bits {
                start,
                width: length,
            },
            1 => ItemValue::Real {
                number: f64::from_bits(self.real),
                bits: self.real,
            },
            2 => ItemValue::Text { start, length },
            4 => ItemValue::LentText { length },
            _ => ItemValue::NotDriven,
        }
    }
}

/// One pair of a walk's record, laid out as in C.
#[repr(C)]
#[derive(Clone, Copy, Debug, Default, PartialEq, Eq)]
pub struct Pair {
    /// The facility's number, which is the pair's place.
    pub number: u32,
    /// The offset of the facility's next change to be handed out, or 0.
    pub offset: u32,
}

/// Judges a file: any bytes are accepted exactly when the rules say so, or refused by number.
pub fn judge(file: &[u8]) -> Result<Summary, Refusal> {
    let mut summary = c::Summary::default();
    let mut timescale = 0;
    accepted(ffi::judge(file, &mut summary, &mut timescale))?;
    Ok(Summary {
        facilities: summary.facilities,
        changes: summary.changes,
        end: summary.end,
        timescale,
        initial: summary.initial as u8,
        clean: summary.clean != 0,
    })
}

/// How many stray bytes a file has: bytes from offset 4 up to T that belong to no change of a root and to no
/// section.
///
/// A section counts with its whole body where it is there and lies wholly between offset 4 and T, whether
/// it is read or passed over: tags 02 to 09, 13 and 14, and 08 also where no facility is real. So gaps are
/// stray, bytes behind the last name too, and changes that no root leads to. The rules allow them.
///
/// They are the sign of a file that is made of two: a shorter trace saved over the start of a longer one may
/// keep every rule, and bytes of the one run are then shown under the names of the other. Where there are
/// some, a program that reports on a run should send no report. 0 says that every byte has its place, not
/// that all of them are of one run: parts that fit together without a gap leave none.
pub fn stray_bytes(file: &[u8]) -> Result<u32, Refusal> {
    let mut stray = 0;
    accepted(ffi::stray(file, &mut stray))?;
    Ok(stray)
}

/// The length of the longest file, in bytes. With so much room every file can be written.
pub const LONGEST_FILE: usize = 16_777_216;

/// The most facilities that a file has.
pub const MOST_FACILITIES: usize = 4_096;

/// The room that asking for a name needs, in bytes; no name is longer.
pub const NAME_ROOM: usize = 1_023;

/// The room that any value of bits has, in bytes.
pub const WIDEST: usize = 4_096;

/// The most facility numbers that a column asks for. With [`WIDEST`] bytes for each of them every column has room.
pub const LONGEST_COLUMN: usize = 4_096;

/// The facts of a facility; an alias answers its root's.
///
/// This and every other question judges the file first, so that it may be asked of any bytes; only
/// [`carry_on`] judges less of it.
pub fn facts(file: &[u8], facility: u32) -> Result<Facts, Refusal> {
    let mut facts = c::Facility::default();
    let (mut msb, mut lsb) = (0, 0);
    accepted(ffi::facts(file, facility, &mut facts, &mut msb, &mut lsb))?;
    let kind = match facts.kind {
        0 => Kind::Bits,
        1 => Kind::Integer,
        2 => Kind::Real,
        _ => Kind::Text,
    };
    Ok(Facts {
        width: facts.width,
        msb,
        lsb,
        kind,
    })
}

/// The root of a facility, which holds its changes; a root's root is itself.
pub fn root(file: &[u8], facility: u32) -> Result<u32, Refusal> {
    let mut root = 0;
    accepted(ffi::root(file, facility, &mut root))?;
    Ok(root)
}

/// The name of a facility, written at the start of the lent names.
///
/// Needs [`NAME_ROOM`] bytes. The rest of those becomes zero, and bytes after them stay.
pub fn name<'a>(file: &[u8], facility: u32, names: &'a mut [u8]) -> Result<&'a [u8], Refusal> {
    let mut size = 0;
    accepted(ffi::name(file, facility, names, &mut size))?;
    Ok(&names[..size as usize])
}

/// The offset of the change before the change at `offset`; 0 if that is the first one.
pub fn change_before(file: &[u8], facility: u32, offset: u32) -> Result<u32, Refusal> {
    let mut before = 0;
    accepted(ffi::change_before(file, facility, offset, &mut before))?;
    Ok(before)
}

/// The time and the value of the change at `offset`, and whether its padding is clean.
///
/// This judges the whole file, as every question does: it is for some changes, not for all of a large
/// trace. Bits and integers need as many lent bytes as they are wide; other bytes stay.
pub fn change(
    file: &[u8],
    facility: u32,
    offset: u32,
    bits: &mut [u8],
) -> Result<Changed<Value>, Refusal> {
    let (mut time, mut clean) = (0, 0);
    let mut value = c::Value::default();
    accepted(ffi::change(
        file, facility, offset, bits, &mut time, &mut value, &mut clean,
    ))?;
    Ok(Changed {
        time,
        value: Value::of(value),
        clean: clean != 0,
    })
}

/// The value of a facility at a time, which may be any: before the first change it is the initial one. Beside it
/// stands how many changes were [visited](Lookup::visited). For many facilities at one time there is
/// [`column`](fn@column).
///
/// Bits and integers need as many lent bytes as they are wide; other bytes stay.
pub fn value_at(
    file: &[u8],
    facility: u32,
    time: i64,
    bits: &mut [u8],
) -> Result<Lookup<Value>, Refusal> {
    let mut value = c::Value::default();
    let mut visited = 0;
    accepted(ffi::value_at(
        file,
        facility,
        time,
        bits,
        &mut value,
        &mut visited,
    ))?;
    Ok(Lookup {
        value: Value::of(value),
        visited,
    })
}

/// The text of a facility at a time, which may be any: that of the latest change up to it, as a part of the file.
/// Where there is none, whether there are later changes or none at all, it is the whole `text`, of any bytes and
/// length. Facilities of bits, integers and reals are [of another kind](TextAt::OtherKind), driven or not.
///
/// An alias is asked as its root. Nothing is copied, and `text` is not read. After the file's refusals there is
/// [`Refusal::NoFacility`] alone. Where this answers the lent text, [`value_at`] answers
/// [`NotDriven`](Value::NotDriven).
pub fn text_at<'f, 't>(
    file: &'f [u8],
    facility: u32,
    time: i64,
    text: &'t [u8],
) -> Result<TextAt<'f, 't>, Refusal> {
    let mut part = c::Part::default();
    accepted(ffi::text_at(file, facility, time, text, &mut part))?;
    let (start, length) = (part.start as usize, part.length as usize);
    Ok(match part.from {
        0 => TextAt::File(&file[start..][..length]),
        1 => TextAt::Lent(&text[start..][..length]),
        _ => TextAt::OtherKind,
    })
}

/// A column: the values of many facilities at one time, which may be any, with the file judged once. Answers how
/// many changes were visited in all: what [`value_at`] counts for each item, together.
///
/// Items are in the order of the list, one for each number, and a number may stand there more than once. Each
/// says what [`value_at`] answers, but for a text before its first change: that is the whole `text`, as by
/// [`text_at`]. The symbols of bits and integers lie one after the other from the start of the lent bits, each
/// item with its own. Bytes after them stay, and items after the list's.
///
/// A list of more than [`LONGEST_COLUMN`] numbers is [`Refusal::LongColumn`]. Then comes [`Refusal::NoFacility`],
/// for any number of the list, and then [`Refusal::Room`] where the lent bits are fewer than all widths together,
/// or the items fewer than the numbers. An empty list needs neither.
///
/// ```
/// use lxt::{Item, ItemValue};
///
/// let file: &[u8] = include_bytes!("../../../traces/strings.gtkwave-export.unz.lxt");
/// // Facility 0 is a bit, 2 a text: `hello` from the time 0 on.
/// let list = [2, 0, 0];
/// let (mut bits, mut items) = ([0; 2], [Item::default(); 3]);
/// lxt::column(file, 0, &list, b"none", &mut bits, &mut items)?;
/// let [ItemValue::Text { start, length }, one, other] = items.map(|it| it.value()) else {
///     panic!("{items:?}");
/// };
/// assert_eq!(file[start..][..length], *b"hello");
/// assert_eq!(one, ItemValue::Bits { start: 0, width: 1 });
/// assert_eq!(other, ItemValue::Bits { start: 1, width: 1 });
/// assert_eq!(bits[0], bits[1]);
///
/// lxt::column(file, -1, &list, b"none", &mut bits, &mut items)?;
/// assert_eq!(items[0].value(), ItemValue::LentText { length: 4 });
/// # Ok::<(), lxt::Refusal>(())
/// ```
pub fn column(
    file: &[u8],
    time: i64,
    facilities: &[u32],
    text: &[u8],
    bits: &mut [u8],
    items: &mut [Item],
) -> Result<u64, Refusal> {
    let mut visited = 0;
    accepted(ffi::column(
        file,
        time,
        facilities,
        text,
        bits,
        items,
        &mut visited,
    ))?;
    Ok(visited)
}

/// Starts a walk over the changes of the facilities whose asked byte is not 0; an alias asks for its
/// root, and a root is walked once, under its own number.
///
/// Needs one asked byte and one pair for each facility. The pairs become the record of the walk;
/// pairs after them stay.
pub fn start_walk(file: &[u8], asked: &[u8], pairs: &mut [Pair]) -> Result<(), Refusal> {
    accepted(ffi::start_walk(file, asked, pairs))
}

/// Carries on with a walk: hands out the next changes, at most `size` of them, by falling offset, and
/// moves the record behind them. Answers how many were handed out and whether the walk is done.
///
/// Each is two numbers at the start of the output, the root's number and the change's offset; numbers
/// after them stay. Needs room for `size` of them. The file is judged by its tables alone (1 to 14), and
/// of its changes those that the record leads to, which gives 20.
pub fn carry_on(
    file: &[u8],
    pairs: &mut [Pair],
    size: u32,
    output: &mut [u32],
) -> Result<(u32, bool), Refusal> {
    let mut handed = c::Handed::default();
    accepted(ffi::carry_on(file, pairs, size, output, &mut handed))?;
    Ok((handed.count, handed.done != 0))
}

/// A facility that is to be written, laid out as in C.
#[repr(C)]
#[derive(Clone, Copy, Debug, Default, PartialEq, Eq)]
pub struct NewFacility {
    /// Where its name starts in the lent names.
    pub name_start: u32,
    /// The length of its name: up to 1,023 bytes, none of them 0.
    pub name_length: u32,
    /// 0 bits, 1 an integer, 2 a real, 3 a text.
    pub kind: u32,
    /// Of bits the number of the first symbol; they have |msb - lsb| + 1 symbols, up to 4,096. Of the other
    /// kinds msb and lsb may be any: 31 and 0 are written for an integer, 0 and 0 for a real or a text.
    pub msb: i32,
    /// Of bits the number of the last symbol.
    pub lsb: i32,
}

/// A change that is to be written, laid out as in C.
#[repr(C)]
#[derive(Clone, Copy, Debug, Default, PartialEq, Eq)]
pub struct NewChange {
    /// The number of its facility: the place among the facilities.
    pub facility: u32,
    /// Its time, not below that of the change before it.
    pub time: u32,
    /// Where its value starts in the lent values.
    pub value_start: u32,
    /// The length of its value: of bits and integers as many symbols, in ASCII, as they are wide; of a real its
    /// eight bytes, the lowest first; of a text its bytes, none of them 0.
    pub value_length: u32,
}

/// Writes a trace into the first bytes of `out` and answers its length; later bytes stay.
///
/// Names and values are parts of the lent names and values, which may overlap or be shared. The changes stand
/// in the file in the order in which they are given. `initial` is the code of the symbol that bits and
/// integers have before their first change, 0 to 8, and `timescale` is -21 to 2.
///
/// What breaks a rule is [`Refusal::WriterInput`], and a file that has more bytes than `out` is
/// [`Refusal::WriterRoom`]; then nothing is written. [`Writer`] says which rule it is, and where.
pub fn write(
    facilities: &[NewFacility],
    names: &[u8],
    changes: &[NewChange],
    values: &[u8],
    initial: u8,
    timescale: i8,
    out: &mut [u8],
) -> Result<u32, Refusal> {
    let given = ffi::Given {
        facilities,
        names,
        changes,
        values,
        initial,
        timescale,
    };
    let mut length = 0;
    accepted(ffi::write(given, out, &mut length))?;
    Ok(length)
}
