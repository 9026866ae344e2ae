//! A writer that collects facilities and changes, and says what is wrong with one where it is given.

use std::fmt;

use crate::{
    Kind, NewChange, NewFacility, Refusal, LONGEST_FILE, MOST_FACILITIES, NAME_ROOM, WIDEST,
};

/// Facilities and changes that are to become a trace.
///
/// Each facility and each change is tested as it is given, and what is refused is not added: the error
/// names it and the rule that it breaks. Writing is one call of the proved function, which tests everything
/// again; what that can still refuse is a file of more than [`LONGEST_FILE`] bytes
/// ([`Refusal::WriterInput`]), or one for which too little room was lent ([`Refusal::WriterRoom`]).
///
/// What is written is accepted and read back as the same facilities, under the same numbers, and the same
/// changes in the same order.
///
/// ```
/// use lxt::{Kind, NewValue, Trace, Writer};
///
/// fn main() -> Result<(), Box<dyn std::error::Error>> {
///     // Nanoseconds, and X before the first change.
///     let mut writer = Writer::new(-9, 3)?;
///     let clock = writer.facility(b"top.clock", Kind::Bits, 0, 0)?;
///     let state = writer.facility(b"top.state", Kind::Text, 0, 0)?;
///     writer.change(clock, 0, NewValue::Symbols(b"1"))?;
///     writer.change(state, 0, NewValue::Text(b"idle"))?;
///     writer.change(clock, 5, NewValue::Symbols(b"0"))?;
///     let file = writer.write()?;
///
///     let trace = Trace::open(&file)?;
///     assert_eq!(trace.value_at(clock, 4)?.value.to_string(), "1");
///     assert_eq!(trace.value_at(state, 4)?.value.to_string(), r#""idle""#);
///     Ok(())
/// }
/// ```
#[derive(Clone, Debug)]
pub struct Writer {
    facilities: Vec<NewFacility>,
    names: Vec<u8>,
    changes: Vec<NewChange>,
    values: Vec<u8>,
    initial: u8,
    timescale: i8,
    /// The file has no more bytes than this.
    most_bytes: usize,
}

/// The value of a change that is to be written.
#[derive(Clone, Copy, Debug, PartialEq)]
pub enum NewValue<'a> {
    /// Of bits as many of `0 1 Z X H U W L -` in ASCII as they are wide, of an integer 32 of `0 1`.
    Symbols(&'a [u8]),
    /// The 64 bits of a real, by which every NaN is kept.
    Real(u64),
    /// The bytes of a text, none of them 0.
    Text(&'a [u8]),
}

impl From<f64> for NewValue<'_> {
    fn from(number: f64) -> Self {
        NewValue::Real(number.to_bits())
    }
}

/// Makes the enum of rules and the words of each from one table.
macro_rules! rules {
    ($($name:ident $words:literal)*) => {
        /// A rule that a facility or a change breaks.
        #[derive(Clone, Copy, Debug, PartialEq, Eq, Hash)]
        #[non_exhaustive]
        pub enum Rule {
            $(
                #[doc = concat!($words, ".")]
                $name,
            )*
        }

        impl Rule {
            /// The rule in words.
            pub fn words(self) -> &'static str {
                match self {
                    $(Rule::$name => $words,)*
                }
            }
        }
    };
}

rules! {
    MostFacilities "a trace has at most 4,096 facilities"
    NameLength "a name has at most 1,023 bytes"
    ZeroInName "a name has no zero byte"
    Width "bits have a width of at most 4,096: the distance of msb and lsb, and one"
    FacilityNumber "a change is of a facility that was given before"
    Times "the time of a change is not below that of the change before it, of whatever facility"
    ValueKind "bits and integers have symbols, reals a real, and texts a text"
    SymbolCount "bits have as many symbols as they are wide, and integers 32"
    Symbol "a symbol is one of 0 1 Z X H U W L -, and of an integer 0 or 1"
    ZeroInText "a text has no zero byte"
    ValueBytes "all values together, as they are given, have less than 4,294,967,296 bytes"
}

/// Why something cannot be written.
#[derive(Clone, Copy, Debug, PartialEq, Eq)]
#[non_exhaustive]
pub enum WriteError {
    /// The timescale is outside -21 to 2.
    Timescale(i8),
    /// The code of the initial symbol is above 8.
    Initial(u8),
    /// A facility, by the number that it would have, breaks a rule.
    Facility { number: usize, rule: Rule },
    /// A change, by its place among all changes from 0 on, breaks a rule.
    Change {
        number: usize,
        facility: u32,
        rule: Rule,
    },
    /// The proved function refuses: [`Refusal::WriterInput`] where the file would be too long,
    /// [`Refusal::WriterRoom`] where the room is too short for it.
    Refused(Refusal),
}

impl fmt::Display for WriteError {
    fn fmt(&self, formatter: &mut fmt::Formatter<'_>) -> fmt::Result {
        match self {
            WriteError::Timescale(timescale) => {
                write!(formatter, "timescale {timescale}: it is from -21 to 2")
            }
            WriteError::Initial(initial) => {
                write!(
                    formatter,
                    "initial symbol {initial}: its code is from 0 to 8"
                )
            }
            WriteError::Facility { number, rule } => {
                write!(formatter, "facility {number}: {}", rule.words())
            }
            WriteError::Change {
                number,
                facility,
                rule,
            } => write!(
                formatter,
                "change {number}, of facility {facility}: {}",
                rule.words()
            ),
            WriteError::Refused(refusal) => refusal.fmt(formatter),
        }
    }
}

impl std::error::Error for WriteError {}

impl From<Refusal> for WriteError {
    fn from(refusal: Refusal) -> Self {
        WriteError::Refused(refusal)
    }
}

/// How many bytes a file has beside its changes, facilities and time entries, at most: the first four, the
/// heads of names and times, timescale, initial value, real test, END, eight items and the last byte.
const FRAME: usize = 4 + 8 + 12 + 1 + 1 + 8 + 1 + 8 * 5 + 1;

impl Writer {
    /// A writer without facilities and changes. One unit of time is ten to the power of `timescale`, -21 to 2,
    /// seconds. `initial` is the code of the symbol that bits and integers have before their first change,
    /// 0 to 8: `0 1 Z X H U W L -`.
    pub fn new(timescale: i8, initial: u8) -> Result<Self, WriteError> {
        if !(-21..=2).contains(&timescale) {
            return Err(WriteError::Timescale(timescale));
        }
        if initial > 8 {
            return Err(WriteError::Initial(initial));
        }
        Ok(Writer {
            facilities: Vec::new(),
            names: Vec::new(),
            changes: Vec::new(),
            values: Vec::new(),
            initial,
            timescale,
            most_bytes: FRAME,
        })
    }

    /// Adds a facility and gives its number, by which its changes name it. Names may be equal, or empty. Of
    /// integers, reals and texts msb and lsb may be any.
    pub fn facility(
        &mut self,
        name: &[u8],
        kind: Kind,
        msb: i32,
        lsb: i32,
    ) -> Result<u32, WriteError> {
        let number = self.facilities.len();
        let width = u64::from(msb.abs_diff(lsb)) + 1;
        let rule = match kind {
            _ if number >= MOST_FACILITIES => Some(Rule::MostFacilities),
            _ if name.len() > NAME_ROOM => Some(Rule::NameLength),
            _ if name.contains(&0) => Some(Rule::ZeroInName),
            Kind::Bits if width > WIDEST as u64 => Some(Rule::Width),
            _ => None,
        };
        if let Some(rule) = rule {
            return Err(WriteError::Facility { number, rule });
        }
        self.facilities.push(NewFacility {
            name_start: self.names.len() as u32,
            name_length: name.len() as u32,
            kind: kind as u32,
            msb,
            lsb,
        });
        self.names.extend(name);
        // Prefix, name and zero, then geometry and sync entry.
        self.most_bytes += 2 + name.len() + 1 + 16 + 4;
        Ok(number as u32)
    }

    /// Adds a change behind all others.
    pub fn change(&mut self, facility: u32, time: u32, value: NewValue) -> Result<(), WriteError> {
        if let Err(rule) = self.push(facility, time, value) {
            return Err(WriteError::Change {
                number: self.changes.len(),
                facility,
                rule,
            });
        }
        Ok(())
    }

    fn push(&mut self, facility: u32, time: u32, value: NewValue) -> Result<(), Rule> {
        let of = self.facilities.get(facility as usize);
        let of = of.ok_or(Rule::FacilityNumber)?;
        if self.changes.last().is_some_and(|before| before.time > time) {
            return Err(Rule::Times);
        }
        check_value(of, value)?;
        let real;
        let bytes = match value {
            NewValue::Symbols(bytes) | NewValue::Text(bytes) => bytes,
            NewValue::Real(bits) => {
                real = bits.to_le_bytes();
                &real
            }
        };
        let start = self.values.len();
        if u32::try_from(start + bytes.len()).is_err() {
            return Err(Rule::ValueBytes);
        }
        self.values.extend(bytes);
        self.changes.push(NewChange {
            facility,
            time,
            value_start: start as u32,
            value_length: bytes.len() as u32,
        });
        // Command, delta, data with the zero of a text, and a time entry.
        self.most_bytes += 1 + 3 + bytes.len() + 1 + 8;
        Ok(())
    }

    /// The file.
    pub fn write(&self) -> Result<Vec<u8>, WriteError> {
        let mut file = vec![0; self.most_bytes.min(LONGEST_FILE)];
        let length = self.write_into(&mut file)?;
        file.truncate(length as usize);
        file.shrink_to_fit();
        Ok(file)
    }

    /// The same in the first bytes of the lent ones, and its length; later bytes stay.
    pub fn write_into(&self, out: &mut [u8]) -> Result<u32, WriteError> {
        let length = crate::write(
            &self.facilities,
            &self.names,
            &self.changes,
            &self.values,
            self.initial,
            self.timescale,
            out,
        )?;
        Ok(length)
    }
}

/// Whether a facility can have a value.
fn check_value(facility: &NewFacility, value: NewValue) -> Result<(), Rule> {
    const BITS: u32 = Kind::Bits as u32;
    const INTEGER: u32 = Kind::Integer as u32;
    const REAL: u32 = Kind::Real as u32;
    const TEXT: u32 = Kind::Text as u32;
    match (facility.kind, value) {
        (BITS, NewValue::Symbols(symbols)) => {
            let width = facility.msb.abs_diff(facility.lsb) as usize + 1;
            check_symbols(symbols, width, b"01ZXHUWL-")
        }
        (INTEGER, NewValue::Symbols(symbols)) => check_symbols(symbols, 32, b"01"),
        (REAL, NewValue::Real(_)) => Ok(()),
        (TEXT, NewValue::Text(text)) if text.contains(&0) => Err(Rule::ZeroInText),
        (TEXT, NewValue::Text(_)) => Ok(()),
        _ => Err(Rule::ValueKind),
    }
}

fn check_symbols(symbols: &[u8], width: usize, allowed: &[u8]) -> Result<(), Rule> {
    if symbols.len() != width {
        return Err(Rule::SymbolCount);
    }
    match symbols.iter().all(|symbol| allowed.contains(symbol)) {
        true => Ok(()),
        false => Err(Rule::Symbol),
    }
}
