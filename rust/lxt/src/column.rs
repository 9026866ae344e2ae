//! A column that keeps its own memory.

use std::fmt;

use crate::{Item, ItemValue, Refusal, LONGEST_COLUMN, WIDEST};

/// The values of a list of facilities at one time, in the list's order, as [`Trace::column`](crate::Trace::column)
/// answers them.
///
/// It keeps the symbols of bits and borrows the file, for the texts that stand there, and the lent text. Each has its
/// own lifetime: a text of the file can be kept when the column and the lent text are gone.
///
/// ```
/// use lxt::{ColumnValue, Kind, NewValue, Trace, Writer};
///
/// fn main() -> Result<(), Box<dyn std::error::Error>> {
///     let mut writer = Writer::new(-9, 3)?;
///     let state = writer.facility(b"state", Kind::Text, 0, 0)?;
///     writer.change(state, 5, NewValue::Text(b"busy"))?;
///     let file = writer.write()?;
///     let kept = {
///         let trace = Trace::open(&file)?;
///         let default = String::from("idle");
///         let column = trace.column(5, &[state], default.as_bytes())?;
///         match column.get(0) {
///             Some(ColumnValue::Text(text)) => Some(text),
///             _ => None,
///         }
///     };
///     assert_eq!(kept, Some(&b"busy"[..]));
///     Ok(())
/// }
/// ```
#[derive(Clone, Debug)]
pub struct Column<'f, 't> {
    file: &'f [u8],
    text: &'t [u8],
    bits: Vec<u8>,
    items: Vec<Item>,
    visited: u64,
}

/// One value of a [`Column`]: bits are in the column, a text in the file or the lent one.
///
/// Shown, it is as a [`Reading`](crate::Reading) is; the lent text is shown as a text.
#[derive(Clone, Copy, Debug, PartialEq)]
#[non_exhaustive]
pub enum ColumnValue<'c, 'f, 't> {
    /// The symbols of bits or an integer, in ASCII: `0 1 Z X H U W L -`.
    Bits(&'c [u8]),
    Real(f64),
    /// The bytes of a text in the file, without its zero. It may be empty.
    Text(&'f [u8]),
    /// A text that has no change up to the time: the whole lent text.
    LentText(&'t [u8]),
    /// A real that has no change up to the time.
    NotDriven,
}

impl fmt::Display for ColumnValue<'_, '_, '_> {
    fn fmt(&self, formatter: &mut fmt::Formatter<'_>) -> fmt::Result {
        match self {
            ColumnValue::Bits(symbols) => formatter.pad(&symbols.escape_ascii().to_string()),
            ColumnValue::Real(number) => number.fmt(formatter),
            ColumnValue::Text(text) | ColumnValue::LentText(text) => {
                formatter.pad(&format!("\"{}\"", text.escape_ascii()))
            }
            ColumnValue::NotDriven => formatter.pad("not driven"),
        }
    }
}

impl<'f, 't> Column<'f, 't> {
    /// Asks with room for the widest value of each number.
    pub(crate) fn ask(
        file: &'f [u8],
        time: i64,
        facilities: &[u32],
        text: &'t [u8],
    ) -> Result<Self, Refusal> {
        // A longer list is refused, whatever the room.
        let count = facilities.len().min(LONGEST_COLUMN);
        let mut bits = vec![0; WIDEST * count];
        let mut items = vec![Item::default(); count];
        let visited = crate::column(file, time, facilities, text, &mut bits, &mut items)?;
        let used = items.iter().map(|item| match item.value() {
            ItemValue::Bits { width, .. } => width,
            _ => 0,
        });
        bits.truncate(used.sum());
        bits.shrink_to_fit();
        Ok(Column {
            file,
            text,
            bits,
            items,
            visited,
        })
    }

    /// How many values there are: as many as numbers were in the list.
    pub fn len(&self) -> usize {
        self.items.len()
    }

    /// Whether the list was empty.
    pub fn is_empty(&self) -> bool {
        self.items.is_empty()
    }

    /// The value of the number at a place of the list; none past its end.
    pub fn get(&self, place: usize) -> Option<ColumnValue<'_, 'f, 't>> {
        self.items.get(place).map(|item| self.value(item))
    }

    /// All values, in the order of the list.
    pub fn iter(
        &self,
    ) -> impl DoubleEndedIterator<Item = ColumnValue<'_, 'f, 't>> + ExactSizeIterator {
        self.items.iter().map(|item| self.value(item))
    }

    /// How many changes were visited: for each number what [`Lookup::visited`](crate::Lookup::visited) counts, all
    /// together.
    pub fn visited(&self) -> u64 {
        self.visited
    }

    fn value(&self, item: &Item) -> ColumnValue<'_, 'f, 't> {
        match item.value() {
            ItemValue::Bits { start, width } => ColumnValue::Bits(&self.bits[start..][..width]),
            ItemValue::Real { number, .. } => ColumnValue::Real(number),
            ItemValue::Text { start, length } => ColumnValue::Text(&self.file[start..][..length]),
            ItemValue::LentText { length } => ColumnValue::LentText(&self.text[..length]),
            ItemValue::NotDriven => ColumnValue::NotDriven,
        }
    }
}
