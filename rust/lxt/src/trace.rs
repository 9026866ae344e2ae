//! A trace to ask, and its walk as an iterator.

use std::fmt;
use std::iter::FusedIterator;
use std::ops::Range;

use crate::{
    Changed, Column, ColumnValue, Facts, Item, Lookup, Pair, Refusal, Summary, TextAt, Value,
    NAME_ROOM, WIDEST,
};

/// An accepted trace in lent bytes.
///
/// It holds the bytes and the summary, no more. So each question is one call of a proved function, and
/// that trusts nothing that was found before: it judges the whole file again, which costs as much as
/// [`open`](Trace::open) did, in time that grows with the file's length and its number of changes. To
/// read many changes, [walk](Trace::walk): a batch is one call. To ask for many facilities at one time, ask for a
/// [column](Trace::column): that is one call too. A call allocates nothing; only the vectors that are answered
/// are on the heap.
///
/// ```
/// use lxt::Trace;
///
/// fn main() -> Result<(), Box<dyn std::error::Error>> {
///     let bytes = std::fs::read("../../traces/gpsim_blink.lxt")?;
///     let trace = Trace::open(&bytes)?;
///     for facility in trace.facilities() {
///         let name = trace.name(facility)?;
///         let facts = trace.facts(facility)?;
///         println!("{} {:?} {}", name.escape_ascii(), facts.kind, facts.width);
///         println!("  at 100: {}", trace.value_at(facility, 100)?.value);
///     }
///     Ok(())
/// }
/// ```
#[derive(Clone, Copy, Debug)]
pub struct Trace<'a> {
    bytes: &'a [u8],
    summary: Summary,
}

/// The value of a facility, by itself.
///
/// Shown, it is the symbols, the real's number (`3.5`, `inf`, `NaN`), the text in quotes with escapes for
/// all that is not printable ASCII, or `not driven`; so it holds no line feed and no terminal escape.
///
/// ```
/// use lxt::Reading;
/// assert_eq!(Reading::Bits(b"01ZX".to_vec()).to_string(), "01ZX");
/// assert_eq!(Reading::Real(3.5).to_string(), "3.5");
/// assert_eq!(Reading::Text(b"two\nlines").to_string(), r#""two\nlines""#);
/// assert_eq!(Reading::NotDriven.to_string(), "not driven");
/// ```
#[derive(Clone, Debug, PartialEq)]
#[non_exhaustive]
pub enum Reading<'a> {
    /// The symbols of bits or an integer, in ASCII: `0 1 Z X H U W L -`.
    Bits(Vec<u8>),
    Real(f64),
    /// The bytes of a text in the file, without its zero.
    Text(&'a [u8]),
    /// A real or a text that has no change up to the time. In place of such a text, [`Trace::text_at`] and
    /// [`Trace::column`] answer a lent one.
    NotDriven,
}

impl fmt::Display for Reading<'_> {
    fn fmt(&self, formatter: &mut fmt::Formatter<'_>) -> fmt::Result {
        let value = match self {
            Reading::Bits(symbols) => ColumnValue::Bits(symbols),
            Reading::Real(number) => ColumnValue::Real(*number),
            Reading::Text(text) => ColumnValue::Text(text),
            Reading::NotDriven => ColumnValue::NotDriven,
        };
        value.fmt(formatter)
    }
}

/// A change that a walk hands out.
#[derive(Clone, Copy, Debug, PartialEq, Eq, Hash)]
pub struct Change {
    /// The number of the root whose change it is.
    pub facility: u32,
    /// Where it stands in the file.
    pub offset: u32,
}

impl<'a> Trace<'a> {
    /// Judges the bytes: any bytes are accepted exactly when the rules say so, or refused.
    pub fn open(bytes: &'a [u8]) -> Result<Self, Refusal> {
        let summary = crate::judge(bytes)?;
        Ok(Trace { bytes, summary })
    }

    /// The file.
    pub fn bytes(&self) -> &'a [u8] {
        self.bytes
    }

    /// What judging answered.
    pub fn summary(&self) -> Summary {
        self.summary
    }

    /// How many bytes between the first four and the end of the sections belong to nothing, as
    /// [`stray_bytes`](crate::stray_bytes) has it. With some the trace may be made of two.
    ///
    /// ```
    /// use lxt::Trace;
    ///
    /// fn main() -> Result<(), Box<dyn std::error::Error>> {
    ///     let shorter = std::fs::read("../../traces/gpsim_onereg.lxt")?;
    ///     let mut file = std::fs::read("../../traces/lxtgen_many_7.lxt")?;
    ///     assert_eq!(Trace::open(&file)?.stray_bytes()?, 0);
    ///     // The shorter one saved over the start of the longer one is accepted.
    ///     file[..shorter.len()].copy_from_slice(&shorter);
    ///     assert!(Trace::open(&file)?.stray_bytes()? > 0);
    ///     Ok(())
    /// }
    /// ```
    pub fn stray_bytes(&self) -> Result<u32, Refusal> {
        crate::stray_bytes(self.bytes)
    }

    /// The numbers of the facilities: 0 up to n - 1.
    pub fn facilities(&self) -> Range<u32> {
        0..self.summary.facilities
    }

    /// The facts of a facility; an alias answers its root's.
    pub fn facts(&self, facility: u32) -> Result<Facts, Refusal> {
        crate::facts(self.bytes, facility)
    }

    /// The root of a facility, which has its changes; a root's root is itself.
    pub fn root(&self, facility: u32) -> Result<u32, Refusal> {
        crate::root(self.bytes, facility)
    }

    /// The name of a facility. Names are bytes of any encoding.
    pub fn name(&self, facility: u32) -> Result<Vec<u8>, Refusal> {
        let mut names = [0; NAME_ROOM];
        Ok(self.name_into(facility, &mut names)?.to_vec())
    }

    /// The name of a facility at the start of the lent bytes, of which there are [`NAME_ROOM`] or more.
    /// The rest of those becomes zero; bytes after them stay.
    pub fn name_into<'b>(&self, facility: u32, names: &'b mut [u8]) -> Result<&'b [u8], Refusal> {
        crate::name(self.bytes, facility, names)
    }

    /// The offset of the change before the one at `offset`, if there is one.
    pub fn change_before(&self, facility: u32, offset: u32) -> Result<Option<u32>, Refusal> {
        let before = crate::change_before(self.bytes, facility, offset)?;
        Ok((before != 0).then_some(before))
    }

    /// The time and the value of the change at `offset`, and whether its padding is clean.
    pub fn change(&self, facility: u32, offset: u32) -> Result<Changed<Reading<'a>>, Refusal> {
        let mut bits = [0; WIDEST];
        let read = self.change_into(facility, offset, &mut bits)?;
        Ok(Changed {
            time: read.time,
            value: self.reading(read.value, &bits),
            clean: read.clean,
        })
    }

    /// The same with symbols written at the start of the lent bits, of which there are as many as the
    /// facility is wide or more; the others stay.
    pub fn change_into(
        &self,
        facility: u32,
        offset: u32,
        bits: &mut [u8],
    ) -> Result<Changed<Value>, Refusal> {
        crate::change(self.bytes, facility, offset, bits)
    }

    /// The value of a facility at a time: that of the latest change up to it, else the initial one. Beside it
    /// stands how many changes were [visited](Lookup::visited): the later ones, and the one answered, if any.
    ///
    /// ```
    /// # let bytes = std::fs::read("../../traces/gpsim_blink.lxt").expect("a trace");
    /// # let trace = lxt::Trace::open(&bytes).expect("an accepted trace");
    /// let before_all = trace.value_at(0, i64::MIN)?;
    /// let last = trace.value_at(0, i64::MAX)?;
    /// println!("from {} to {}", before_all.value, last.value);
    /// // All changes of the facility, and the newest alone.
    /// assert_eq!(before_all.visited as usize, trace.walk_of(&[0])?.count());
    /// assert_eq!(last.visited, 1);
    /// # Ok::<(), lxt::Refusal>(())
    /// ```
    pub fn value_at(&self, facility: u32, time: i64) -> Result<Lookup<Reading<'a>>, Refusal> {
        let mut bits = [0; WIDEST];
        let lookup = self.value_at_into(facility, time, &mut bits)?;
        Ok(Lookup {
            value: self.reading(lookup.value, &bits),
            visited: lookup.visited,
        })
    }

    /// The same with symbols written at the start of the lent bits, as by
    /// [`change_into`](Trace::change_into).
    pub fn value_at_into(
        &self,
        facility: u32,
        time: i64,
        bits: &mut [u8],
    ) -> Result<Lookup<Value>, Refusal> {
        crate::value_at(self.bytes, facility, time, bits)
    }

    /// The text of a facility at a time: that of the latest change up to it, a part of the file; else the whole
    /// `text`, in place of [`NotDriven`](Reading::NotDriven). Facilities that are no texts are
    /// [of another kind](TextAt::OtherKind), driven or not.
    ///
    /// ```
    /// use lxt::{TextAt, Trace};
    ///
    /// fn main() -> Result<(), Box<dyn std::error::Error>> {
    ///     let bytes = std::fs::read("../../traces/strings.gtkwave-export.unz.lxt")?;
    ///     let trace = Trace::open(&bytes)?;
    ///     // Facility 2 is a text: `hello` from the time 0 on.
    ///     assert_eq!(trace.text_at(2, -1, b"none")?, TextAt::Lent(b"none"));
    ///     assert_eq!(trace.text_at(2, 0, b"none")?, TextAt::File(b"hello"));
    ///     // At 9 it becomes empty, which is not the same as not driven.
    ///     assert_eq!(trace.text_at(2, 9, b"none")?, TextAt::File(b""));
    ///     // Facility 0 is a bit.
    ///     assert_eq!(trace.text_at(0, 0, b"none")?, TextAt::OtherKind);
    ///     println!("{}", trace.text_at(2, 0, b"none")?.bytes().escape_ascii());
    ///     Ok(())
    /// }
    /// ```
    pub fn text_at<'t>(
        &self,
        facility: u32,
        time: i64,
        text: &'t [u8],
    ) -> Result<TextAt<'a, 't>, Refusal> {
        crate::text_at(self.bytes, facility, time, text)
    }

    /// The values of many facilities at one time by one call, which judges the file once: a value for each number of
    /// the list, in its order. A number may stand there more than once. Each is what
    /// [`value_at`](Trace::value_at) answers, but that a text before its first change is the whole `text`, as by
    /// [`text_at`](Trace::text_at).
    ///
    /// All facilities of a trace can be asked for at once; a list of more than
    /// [`LONGEST_COLUMN`](crate::LONGEST_COLUMN) numbers is [`Refusal::LongColumn`], and a number not below n
    /// [`Refusal::NoFacility`].
    ///
    /// For the call there is room for the widest value of each number, [`WIDEST`] bytes, which are zeros that the
    /// allocator need not touch; the column keeps what is used.
    ///
    /// ```
    /// use lxt::{ColumnValue, Trace};
    ///
    /// fn main() -> Result<(), Box<dyn std::error::Error>> {
    ///     let bytes = std::fs::read("../../traces/strings.gtkwave-export.unz.lxt")?;
    ///     let trace = Trace::open(&bytes)?;
    ///     // Facility 0 is a bit, 2 a text: `hello` from the time 0 on.
    ///     let column = trace.column(0, &[2, 0, 2], b"none")?;
    ///     assert_eq!(column.len(), 3);
    ///     assert_eq!(column.get(0), Some(ColumnValue::Text(b"hello")));
    ///     assert_eq!(column.get(0), column.get(2));
    ///     let before = trace.column(-1, &[2], b"none")?;
    ///     assert_eq!(before.get(0), Some(ColumnValue::LentText(b"none")));
    ///
    ///     // All values of the trace at the time 5, as they are shown.
    ///     let all = Vec::from_iter(trace.facilities());
    ///     for (facility, value) in all.iter().zip(trace.column(5, &all, b"")?.iter()) {
    ///         println!("{facility} is {value}");
    ///     }
    ///     Ok(())
    /// }
    /// ```
    pub fn column<'t>(
        &self,
        time: i64,
        facilities: &[u32],
        text: &'t [u8],
    ) -> Result<Column<'a, 't>, Refusal> {
        Column::ask(self.bytes, time, facilities, text)
    }

    /// The same as items, with symbols written one after the other from the start of the lent bits, of which there
    /// are as many as all widths together or more; the others stay. Answers how many changes were
    /// [visited](Column::visited). [`column`](fn@crate::column) is the same call.
    pub fn column_into(
        &self,
        time: i64,
        facilities: &[u32],
        text: &[u8],
        bits: &mut [u8],
        items: &mut [Item],
    ) -> Result<u64, Refusal> {
        crate::column(self.bytes, time, facilities, text, bits, items)
    }

    fn reading(&self, value: Value, bits: &[u8]) -> Reading<'a> {
        match value {
            Value::Bits { width } => Reading::Bits(bits[..width as usize].to_vec()),
            Value::Real { number, .. } => Reading::Real(number),
            Value::Text { start, length } => {
                let text = &self.bytes[start as usize..];
                Reading::Text(&text[..length as usize])
            }
            Value::NotDriven => Reading::NotDriven,
        }
    }

    /// The record of a new walk, for [`carry_on`](crate::carry_on): one pair for each facility. `asked`
    /// has one truth for each facility.
    pub fn start_walk(&self, asked: &[bool]) -> Result<Vec<Pair>, Refusal> {
        let asked: Vec<u8> = asked.iter().map(|asked| u8::from(*asked)).collect();
        let mut record = vec![Pair::default(); self.summary.facilities as usize];
        crate::start_walk(self.bytes, &asked, &mut record)?;
        Ok(record)
    }

    /// The changes of the facilities that are asked for, the newest first, that is by falling offset.
    /// `asked` has one truth for each facility; an alias asks for its root, whose changes come once, under
    /// its own number.
    ///
    /// The changes are fetched in batches, each by one call. That checks the file's tables and all changes that
    /// are still to come, so few large batches are faster than many small ones. The first has
    /// [`Walk::BATCH`] changes and each further one twice as many, up to [`Walk::LARGEST_BATCH`];
    /// [`in_batches_of`](Walk::in_batches_of) sets another size.
    ///
    /// A change is where it stands; its time and value are a [question](Trace::change), and that
    /// judges the whole file. So ask for the changes that matter, and not for all of a large trace.
    ///
    /// ```
    /// use lxt::Trace;
    ///
    /// fn main() -> Result<(), Box<dyn std::error::Error>> {
    ///     let bytes = std::fs::read("../../traces/gpsim_blink.lxt")?;
    ///     let trace = Trace::open(&bytes)?;
    ///     let mut asked = vec![false; trace.facilities().len()];
    ///     asked[0] = true;
    ///     for change in trace.walk(&asked)?.take(3) {
    ///         let read = trace.change(change.facility, change.offset)?;
    ///         println!("{} at {}: {}", change.facility, read.time, read.value);
    ///     }
    ///     assert_eq!(trace.walk_all()?.count(), 298);
    ///     Ok(())
    /// }
    /// ```
    pub fn walk(&self, asked: &[bool]) -> Result<Walk<'a>, Refusal> {
        Ok(Walk {
            bytes: self.bytes,
            record: self.start_walk(asked)?,
            batch: Walk::BATCH,
            largest: Walk::LARGEST_BATCH,
            output: Vec::new(),
            next: 0,
            count: 0,
            done: false,
        })
    }

    /// The same for facilities by their numbers, in any order. A number that is not below n is refused
    /// ([`Refusal::NoFacility`]).
    pub fn walk_of(&self, facilities: &[u32]) -> Result<Walk<'a>, Refusal> {
        let mut asked = vec![false; self.summary.facilities as usize];
        for facility in facilities {
            match asked.get_mut(*facility as usize) {
                Some(asked) => *asked = true,
                None => return Err(Refusal::NoFacility),
            }
        }
        self.walk(&asked)
    }

    /// The same for all facilities.
    pub fn walk_all(&self) -> Result<Walk<'a>, Refusal> {
        self.walk(&vec![true; self.summary.facilities as usize])
    }
}

/// The changes of a walk, the newest first. A copy carries on by itself from where it was made.
#[derive(Clone, Debug)]
pub struct Walk<'a> {
    bytes: &'a [u8],
    record: Vec<Pair>,
    /// How many changes the next call fetches, and how many any call may.
    batch: u32,
    largest: u32,
    /// Two numbers for each change of a batch.
    output: Vec<u32>,
    /// The next change of the batch, and how many it has.
    next: usize,
    count: usize,
    /// Whether the batch is the last.
    done: bool,
}

impl Walk<'_> {
    /// How many changes the first call fetches where nothing else was asked for.
    pub const BATCH: u32 = 1_024;

    /// How many changes a call fetches at most where nothing else was asked for: 8 MiB.
    pub const LARGEST_BATCH: u32 = 1_048_576;

    /// The same walk, with up to so many changes in each further call; 0 counts as 1. A batch takes 8 bytes
    /// of memory for each change.
    ///
    /// A call checks the file's tables and the changes that are still to come, so a walk of N changes in
    /// batches of b checks about N * N / 2b of them. A batch of `u32::MAX` fetches all in one call, which
    /// checks each once, and takes at most four times as much memory as the file.
    pub fn in_batches_of(mut self, size: u32) -> Self {
        self.batch = size.max(1);
        self.largest = self.batch;
        self
    }

    /// Fetches the next changes.
    fn carry_on(&mut self) {
        // A change has two bytes or more, and no two share one.
        let most = (self.bytes.len() / 2) as u32;
        let size = self.batch.min(most);
        self.output.resize(2 * size as usize, 0);
        let answer = crate::carry_on(self.bytes, &mut self.record, size, &mut self.output);
        // The bytes are borrowed and the record is the last call's, so only a short output is refused.
        let (count, done) = answer.expect("a started walk carries on");
        self.next = 0;
        self.count = count as usize;
        self.done = done;
        self.batch = self.batch.saturating_mul(2).min(self.largest);
    }
}

impl Iterator for Walk<'_> {
    type Item = Change;

    fn next(&mut self) -> Option<Change> {
        if self.next == self.count && !self.done {
            self.carry_on();
        }
        if self.next == self.count {
            return None;
        }
        let change = Change {
            facility: self.output[2 * self.next],
            offset: self.output[2 * self.next + 1],
        };
        self.next += 1;
        Some(change)
    }
}

impl FusedIterator for Walk<'_> {}

#[cfg(test)]
mod tests {
    use super::{Change, Trace, Walk};

    /// The sizes of a walk's batches, and its changes.
    fn batches(mut walk: Walk) -> (Vec<usize>, Vec<Change>) {
        let (mut sizes, mut changes) = (Vec::new(), Vec::new());
        while let Some(change) = walk.next() {
            if walk.next == 1 {
                sizes.push(walk.count);
            }
            changes.push(change);
        }
        (sizes, changes)
    }

    #[test]
    fn batches_double_up_to_the_largest() {
        let bytes = include_bytes!("../../../traces/des.vcd2lxt-plain.unz.lxt");
        let trace = Trace::open(bytes).expect("a trace");
        let walk = trace.walk_all().expect("a walk");
        let (sizes, changes) = batches(walk.clone());
        let first = Walk::BATCH as usize;
        let doubled = (0..sizes.len() - 1).map(|place| first << place);
        assert_eq!(sizes[..sizes.len() - 1], Vec::from_iter(doubled));
        assert_eq!(sizes.len(), 8);

        // The same changes in one call, in calls of one size, and where the largest is soon reached.
        let (one, expected) = batches(walk.clone().in_batches_of(u32::MAX));
        assert_eq!((one, &changes), (vec![changes.len()], &expected));
        let (even, expected) = batches(walk.clone().in_batches_of(50_000));
        assert_eq!(even, [50_000, 50_000, 50_000, changes.len() - 150_000]);
        assert_eq!(changes, expected);
        let mut bounded = walk;
        bounded.largest = 3_000;
        let (sizes, expected) = batches(bounded);
        assert_eq!(sizes[..4], [first, 2 * first, 3_000, 3_000]);
        assert_eq!(changes, expected);
    }
}
