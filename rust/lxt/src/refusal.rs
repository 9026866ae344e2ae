//! The refusals: 1 to 22 and 35 of reading, 24 and 25 of writing.

use std::fmt;

/// Makes the enum, its list and the words of each case from one table.
macro_rules! refusals {
    ($($number:literal $name:ident $words:literal)*) => {
        /// Why a call was refused: the first rule that the file, the question or what is to be written breaks, in
        /// the order of the numbers, but that 35 comes right after the file. A refused call has changed nothing
        /// that was lent to it.
        ///
        /// 1 to 17 are about the file, 18 to 22 and 35 about the question, 24 and 25 about what is to be written.
        /// The rules behind them, with an example of each, are in docs/FORMAT.md.
        #[derive(Clone, Copy, Debug, PartialEq, Eq, Hash, PartialOrd, Ord)]
        #[repr(u8)]
        #[non_exhaustive]
        pub enum Refusal {
            $(
                #[doc = concat!(stringify!($number), ": ", $words, ".")]
                $name = $number,
            )*
        }

        impl Refusal {
            /// All refusals, by number.
            pub const ALL: &'static [Refusal] = &[$(Refusal::$name),*];

            /// The case in words.
            pub fn words(self) -> &'static str {
                match self {
                    $(Refusal::$name => $words,)*
                }
            }
        }
    };
}

refusals! {
    1 Length "the file has fewer than 6 or more than 16,777,216 bytes"
    2 FirstBytes "the first bytes are not 01 38 and a version from 0 to 4"
    3 LastByte "the last byte is not B4"
    4 SectionList "the section list runs below offset 4 before its END tag"
    5 Compressed "a section is compressed (tags 0A to 12), which is not read here"
    6 TwoTimes "there are both 32-bit times (tag 06) and 64-bit times (tag 09)"
    7 Absent "the changes, sync, names or geometry section (tags 01, 02, 03, 04) is absent, or both times sections (tags 06 and 09) are"
    8 Place "the changes start outside offset 4 to END, or the sync, names, geometry, timescale, times or initial value section does not lie there"
    9 TooManyFacilities "the names section counts more than 4,096 facilities"
    10 Names "in the names section a name passes END, takes more than the name before has or is longer than 1,023 bytes, or all need more than the stated memory"
    11 Geometry "in the geometry section the rows, flags or width of a facility are not allowed"
    12 Alias "in the geometry section an alias leads to no facility, or in a circle"
    13 Times "in the times section a position or a time is out of bounds, a time delta after the first is negative, or there is no entry although there are changes"
    14 RealTest "there is a real facility, and the real test section (tag 08) is absent, out of bounds or no reordering of 3.14159"
    15 ChangePlace "a change starts outside the changes section, passes END, or leads back to an offset that is neither 0 nor in that section"
    16 ChangeBytes "a change has a command byte or data that its facility does not allow"
    17 SharedByte "two changes share a byte, or two facilities that are no aliases share a change"
    18 NoFacility "there is no facility of that number"
    19 NoChange "the facility has no change at that offset"
    20 Record "in the walk's record a pair has a wrong number, or a pending offset that is an alias's or from which the changes downwards break a rule of 15 or 16"
    21 Room "too little room was lent: names need 1,023 bytes, bits the width, a column all widths together and an item for each number, a record a pair for each facility, an output two numbers for each change"
    22 Asked "the asked bytes are not one for each facility"
    24 WriterInput "the input of the writer breaks a limit or a rule, or its file would have more than 16,777,216 bytes"
    25 WriterRoom "the file that is to be written has more bytes than the room that was lent"
    35 LongColumn "a column asks for more than 4,096 facility numbers"
}

impl Refusal {
    /// 1 to 22, 24, 25 or 35.
    pub const fn number(self) -> u8 {
        self as u8
    }

    /// The refusal of a number; none but for 1 to 22, 24, 25 and 35.
    pub fn of_number(number: u8) -> Option<Refusal> {
        let mut all = Refusal::ALL.iter().copied();
        all.find(|refusal| refusal.number() == number)
    }

    /// Whether the file was refused, whatever was asked.
    pub const fn is_of_file(self) -> bool {
        self.number() <= 17
    }
}

impl fmt::Display for Refusal {
    fn fmt(&self, formatter: &mut fmt::Formatter<'_>) -> fmt::Result {
        write!(formatter, "refused {}: {}", self.number(), self.words())
    }
}

impl std::error::Error for Refusal {}

/// Nothing for 0, or the refusal of that number, which is one by the proved functions' promises.
pub(crate) fn accepted(number: u32) -> Result<(), Refusal> {
    match number {
        0 => Ok(()),
        number => Err(u8::try_from(number)
            .ok()
            .and_then(Refusal::of_number)
            .expect("the proved functions answer 0 or a refusal's number")),
    }
}

#[cfg(test)]
mod tests {
    use super::{accepted, Refusal};

    #[test]
    fn the_numbers_are_1_to_22_and_24_and_25_and_35() {
        let numbers = Refusal::ALL.iter().map(|it| it.number());
        let expected = (1..=22).chain([24, 25, 35]);
        assert_eq!(Vec::from_iter(numbers), Vec::from_iter(expected));
        for &refusal in Refusal::ALL {
            assert_eq!(Refusal::of_number(refusal.number()), Some(refusal));
            assert_eq!(accepted(refusal.number().into()), Err(refusal));
            assert_eq!(refusal.is_of_file(), refusal <= Refusal::SharedByte);
        }
        assert_eq!(accepted(0), Ok(()));
        for number in [0, 23, 26, 34, 36, 255] {
            assert_eq!(Refusal::of_number(number), None);
        }
    }

    #[test]
    fn a_refusal_shows_its_number_and_words() {
        assert_eq!(
            Refusal::LastByte.to_string(),
            "refused 3: the last byte is not B4"
        );
        for refusal in Refusal::ALL {
            let shown = format!("refused {}: {}", refusal.number(), refusal.words());
            assert_eq!(refusal.to_string(), shown);
        }
    }
}
