//! What the small program of paper 01 prints.

use crate::questions::Judged;
use crate::{Kind, Value, LONGEST_INPUT, WIDEST_FACILITY};

/// Facilities, then changes in walk order with all asked for, then their number; or only the
/// refusal. Fields are joined by one space and every line ends in one 0A.
pub fn dump(input: &[u8]) -> Vec<u8> {
    if input.len() > LONGEST_INPUT {
        return refusal(1);
    }
    let judged = match Judged::new(input) {
        Ok(judged) => judged,
        Err(number) => return refusal(number),
    };
    match lines(input, &judged) {
        Ok(lines) => lines,
        Err(number) => refusal(number),
    }
}

fn refusal(number: u8) -> Vec<u8> {
    format!("refused {number}\n").into_bytes()
}

fn lines(file: &[u8], judged: &Judged) -> Result<Vec<u8>, u8> {
    let mut out = Vec::new();
    let n = judged.summary().facilities;
    for facility in 0..n {
        out.extend(format!("facility {facility} ").into_bytes());
        out.extend_from_slice(judged.name_of(facility));
        let root = judged.root(facility)?;
        if root != facility {
            out.extend(format!(" alias {root}\n").into_bytes());
            continue;
        }
        let facts = judged.facts(facility)?;
        let kind = match facts.kind {
            Kind::Bits => "bits",
            Kind::Integer => "integer",
            Kind::Real => "real",
            Kind::Text => "text",
        };
        out.extend(format!(" {kind} {}\n", facts.width).into_bytes());
    }

    let list = judged.full_list(&vec![1; n as usize])?;
    let mut bits = vec![0; WIDEST_FACILITY as usize];
    for (root, offset) in &list {
        let read = judged.change(*root, *offset, &mut bits)?;
        out.extend(format!("change {root} {offset} {} ", read.time).into_bytes());
        match read.value {
            Value::Bits { width } => out.extend_from_slice(&bits[..width as usize]),
            Value::Real { bits } => out.extend(format!("{bits:016x}").into_bytes()),
            Value::Text { start, length } => {
                for byte in &file[start as usize..(start + length) as usize] {
                    out.extend(format!("{byte:02x}").into_bytes());
                }
            }
            // A change always drives a value.
            Value::NotDriven => {}
        }
        out.push(b'\n');
    }
    out.extend(format!("done {}\n", list.len()).into_bytes());
    Ok(out)
}
