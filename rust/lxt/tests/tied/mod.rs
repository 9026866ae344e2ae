//! The examples of zero deltas: the small trace with other times, and what is answered of it.

use lxt_compare::times::small_trace;

/// A table of times, and what becomes of the two changes of the small trace.
pub struct Example {
    pub letter: char,
    pub positions: &'static [u32],
    pub times: &'static [u32],
    pub first: u32,
    /// None where the file is refused.
    pub answer: Option<Answer>,
}

pub struct Answer {
    /// The times of the change at 6, which is to 0, and of the change at 4, which is to 1.
    pub newer: i64,
    pub older: i64,
    /// The values at the times 0 to 6; that of the last holds for good.
    pub values: &'static str,
}

const fn accepted(
    letter: char,
    positions: &'static [u32],
    times: &'static [u32],
    (newer, older): (i64, i64),
    values: &'static str,
) -> Example {
    let answer = Some(Answer {
        newer,
        older,
        values,
    });
    Example {
        letter,
        positions,
        times,
        first: 0,
        answer,
    }
}

const fn refused(
    letter: char,
    positions: &'static [u32],
    times: &'static [u32],
    first: u32,
) -> Example {
    Example {
        letter,
        positions,
        times,
        first,
        answer: None,
    }
}

/// 2-A to 2-I.
pub const EXAMPLES: [Example; 9] = [
    accepted('A', &[4, 0], &[0, 5], (5, 5), "XXXXX00"),
    accepted('B', &[5, 0], &[1, 4], (5, 1), "X111100"),
    accepted('C', &[6, 0, 0], &[1, 1, 1], (3, 1), "X110000"),
    accepted('D', &[4, 2], &[5, 0], (5, 5), "XXXXX00"),
    accepted('E', &[4, 2, 0], &[0, 5, 0], (5, 0), "1111100"),
    refused('F', &[0, 4], &[0, 5], 0),
    refused('G', &[3, 0], &[0, 5], 0),
    refused('H', &[4, 0], &[0, 5], 1),
    accepted('I', &[67, 0], &[0, 5], (0, 0), "0000000"),
];

impl Example {
    pub fn file(&self) -> Vec<u8> {
        small_trace(self.first, self.positions, self.times)
    }

    /// What the small program prints.
    pub fn lines(&self) -> String {
        match &self.answer {
            None => "refused 13\n".to_string(),
            Some(Answer { newer, older, .. }) => {
                format!("facility 0 a bits 1\nchange 0 6 {newer} 0\nchange 0 4 {older} 1\ndone 2\n")
            }
        }
    }
}
