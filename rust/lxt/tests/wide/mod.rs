//! The examples of 64-bit times: the small trace with a table of tag 09, and what is answered of it.

use lxt_compare::judge::TRACE;
use lxt_compare::times::{small_trace, small_trace_09};

pub struct Example {
    pub name: &'static str,
    pub file: Vec<u8>,
    /// Or the refusal's number.
    pub answer: Result<Answer, u8>,
}

/// What becomes of the two changes of the small trace.
pub struct Answer {
    /// The times of the change at 6, which is to 0, and of the change at 4, which is to 1.
    pub newer: i64,
    pub older: i64,
    /// Times, and the symbols at them.
    pub values: &'static [(i64, char)],
}

const LEAST: i64 = i64::MIN;
const MOST: i64 = i64::MAX;

fn accepted(
    name: &'static str,
    file: Vec<u8>,
    (newer, older): (i64, i64),
    values: &'static [(i64, char)],
) -> Example {
    let answer = Ok(Answer {
        newer,
        older,
        values,
    });
    Example { name, file, answer }
}

fn refused(name: &'static str, file: Vec<u8>, number: u8) -> Example {
    let answer = Err(number);
    Example { name, file, answer }
}

/// The small trace and one more item before B4.
pub fn with_one_more(value: u32, tag: u8) -> Vec<u8> {
    let mut file = TRACE.to_vec();
    file.pop();
    file.extend(value.to_be_bytes());
    file.extend([tag, 0xB4]);
    file
}

/// 1-A to 1-L.
pub fn examples() -> Vec<Example> {
    let example_a = small_trace_09(-5, 5, &[4, 2], &[-5, 10]);
    let mut example_i = example_a.clone();
    example_i[0x28 + 3] = 3;
    let mut example_k = TRACE.to_vec();
    example_k[92] = 0;
    let mut example_l = small_trace(0, &[4, 2], &[0xFFFF_FFFE, 1]);
    example_l[0x30..0x34].fill(0xFF);
    let whole = |times: &[i64]| small_trace_09(LEAST, MOST, &[4, 2], times);
    vec![
        accepted(
            "1-A",
            example_a,
            (5, -5),
            &[
                (LEAST, 'X'),
                (-6, 'X'),
                (-5, '1'),
                (4, '1'),
                (5, '0'),
                (MOST, '0'),
            ],
        ),
        refused("1-B", whole(&[10, -1]), 13),
        refused("1-C", whole(&[MOST, 1]), 13),
        refused("1-D", whole(&[LEAST, LEAST]), 13),
        accepted(
            "1-E",
            whole(&[LEAST, MOST]),
            (-1, LEAST),
            &[(LEAST, '1'), (-2, '1'), (-1, '0'), (0, '0'), (MOST, '0')],
        ),
        refused("1-F", small_trace_09(0, -1, &[4], &[-1]), 13),
        refused("1-G", small_trace_09(5, -5, &[], &[]), 13),
        accepted(
            "1-H",
            small_trace_09(-5, 5, &[4, 2], &[3, 0]),
            (3, 3),
            &[(LEAST, 'X'), (2, 'X'), (3, '0'), (4, '0'), (MOST, '0')],
        ),
        refused("1-I", example_i, 8),
        refused("1-J", with_one_more(0x28, 0x09), 6),
        accepted(
            "1-J with 0",
            with_one_more(0, 0x09),
            (5, 0),
            &[
                (LEAST, 'X'),
                (-1, 'X'),
                (0, '1'),
                (4, '1'),
                (5, '0'),
                (MOST, '0'),
            ],
        ),
        refused("1-K", example_k, 7),
        accepted(
            "1-L",
            example_l,
            (4_294_967_295, 4_294_967_294),
            &[
                (LEAST, 'X'),
                (-2, 'X'),
                (-1, 'X'),
                (0, 'X'),
                (4_294_967_293, 'X'),
                (4_294_967_294, '1'),
                (4_294_967_295, '0'),
                (MOST, '0'),
            ],
        ),
    ]
}

impl Example {
    /// What the small program prints.
    pub fn lines(&self) -> String {
        match &self.answer {
            Err(number) => format!("refused {number}\n"),
            Ok(Answer { newer, older, .. }) => {
                format!("facility 0 a bits 1\nchange 0 6 {newer} 0\nchange 0 4 {older} 1\ndone 2\n")
            }
        }
    }
}

/// Small traces whose changes lie at the ends of the range, or at times whose lower halves are those of others, and the
/// symbols at times around them.
pub fn range_ends() -> Vec<(Vec<u8>, Vec<(i64, char)>)> {
    let of = |times: [i64; 2], values: &[(i64, char)]| {
        let file = small_trace_09(LEAST, MOST, &[4, 2], &times);
        (file, values.to_vec())
    };
    let short = [
        (LEAST, 'X'),
        (-(1 << 32), 'X'),
        (-1, 'X'),
        (0, '1'),
        (4, '1'),
        (5, '0'),
        (1 << 32, '0'),
        (MOST, '0'),
    ];
    vec![
        // From the least number on, so that there is a value at every time.
        of([LEAST, 0], &[(LEAST, '0'), (-1, '0'), (MOST, '0')]),
        of([LEAST, 1], &[(LEAST, '1'), (LEAST + 1, '0'), (MOST, '0')]),
        // At the greatest alone.
        of([MOST, 0], &[(LEAST, 'X'), (MOST - 1, 'X'), (MOST, '0')]),
        of(
            [MOST - 1, 1],
            &[(MOST - 2, 'X'), (MOST - 1, '1'), (MOST, '0')],
        ),
        of(
            [1 << 32, 1 << 32],
            &[(0xFFFF_FFFF, 'X'), (1 << 32, '1'), (1 << 33, '0')],
        ),
        of([-6, 10], &[(-7, 'X'), (-6, '1'), (4, '0')]),
        // Any time may be asked of 32-bit times.
        (small_trace(0, &[4, 2], &[0, 5]), short.to_vec()),
    ]
}
