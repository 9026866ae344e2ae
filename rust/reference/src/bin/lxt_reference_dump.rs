//! The small program of paper 01: reads a trace from standard input and prints it.

#![forbid(unsafe_code)]

use std::io::{self, Read, Write};

fn main() -> io::Result<()> {
    // One byte past the limit is enough to refuse longer input.
    let mut input = Vec::new();
    io::stdin()
        .lock()
        .take(lxt_reference::LONGEST_INPUT as u64 + 1)
        .read_to_end(&mut input)?;
    let mut out = io::stdout().lock();
    out.write_all(&lxt_reference::dump(&input))?;
    out.flush()
}
