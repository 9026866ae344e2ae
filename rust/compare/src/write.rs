//! The proved writer against the independent one: every answer, and every byte of the lent memory and around
//! it, with every room around the file's length. Each file is read back by the proved reader and has to be what
//! was given.

mod examples;

pub use examples::{examples, Example};

use std::collections::BTreeMap;

use lxt::{NewChange, NewFacility, Pair, Refusal, Value};
use lxt_generate::{Input, InputCase, Random, BITS, INPUT_DAMAGES, INTEGER, REAL, TEXT};
use lxt_reference::Judged;

use crate::questions::{lent, marked, sample};

/// What was written.
#[derive(Default)]
pub struct Seen {
    /// By the answer: 0 for a file, else the refusal's number.
    pub answers: BTreeMap<u8, u64>,
    /// The inputs by their origin, and the files by what they have.
    met: BTreeMap<String, u64>,
}

impl Seen {
    fn meet(&mut self, what: impl Into<String>) {
        *self.met.entry(what.into()).or_default() += 1;
    }

    /// How many times each thing was met that a run is to have.
    pub fn met(&self) -> Vec<(String, u64)> {
        let count = |what: String| {
            let count = self.met.get(&what).copied().unwrap_or(0);
            (what, count)
        };
        expected().into_iter().map(count).collect()
    }
}

/// What a run is to have: inputs on both sides of each boundary, and files with every kind of change.
fn expected() -> Vec<String> {
    let mut all = Vec::from(["written sound", "written nonsense"].map(String::from));
    for damage in INPUT_DAMAGES {
        all.push(format!("written near {}", damage.name));
        all.push(format!("refused over {}", damage.name));
    }
    all.push("refused nonsense".to_string());
    for command in 0..=11 {
        all.push(format!("changes written as Bits by command {command}"));
    }
    for (kind, command) in [
        ("Integer", 0),
        ("Integer", 3),
        ("Integer", 4),
        ("Real", 0),
        ("Text", 0),
    ] {
        all.push(format!("changes written as {kind} by command {command}"));
    }
    for bytes in 1..=3 {
        all.push(format!("changes written with {bytes} delta bytes"));
    }
    let files = ["no facilities", "no changes", "fewer times than changes"];
    all.extend(files.map(|it| format!("files written with {it}")));
    all
}

/// An input in the rows of C.
#[derive(Clone, Debug, PartialEq, Eq)]
pub struct Rows {
    pub facilities: Vec<NewFacility>,
    pub changes: Vec<NewChange>,
}

impl Rows {
    pub fn of(input: &Input) -> Self {
        let facilities = input.facilities.iter();
        let facilities = facilities.map(|[name_start, name_length, kind, msb, lsb]| NewFacility {
            name_start: *name_start,
            name_length: *name_length,
            kind: *kind,
            msb: *msb as i32,
            lsb: *lsb as i32,
        });
        let changes = input.changes.iter();
        let changes = changes.map(|[facility, time, value_start, value_length]| NewChange {
            facility: *facility,
            time: *time,
            value_start: *value_start,
            value_length: *value_length,
        });
        Rows {
            facilities: facilities.collect(),
            changes: changes.collect(),
        }
    }
}

/// Writes by the proved function.
pub fn proved(input: &Input, rows: &Rows, out: &mut [u8]) -> Result<u32, u8> {
    let answer = lxt::write(
        &rows.facilities,
        &input.names,
        &rows.changes,
        &input.values,
        input.initial,
        input.timescale,
        out,
    );
    answer.map_err(Refusal::number)
}

/// Writes by the independent writer.
pub fn independent(input: &Input, out: &mut [u8]) -> Result<u32, u8> {
    lxt_reference::write(
        &input.facilities,
        &input.names,
        &input.changes,
        &input.values,
        input.initial,
        input.timescale,
        out,
    )
}

/// The independent writer's file.
pub fn independent_file(input: &Input) -> Result<Vec<u8>, u8> {
    let mut out = vec![0; 1 << 20];
    let answer = match independent(input, &mut out) {
        Err(25) => {
            out.resize(lxt::LONGEST_FILE, 0);
            independent(input, &mut out)
        }
        answer => answer,
    };
    out.truncate(answer? as usize);
    Ok(out)
}

/// Rows and pools, each with marks on either side that nothing may touch.
struct Lent {
    rows: Rows,
    names: Vec<u8>,
    values: Vec<u8>,
}

impl Lent {
    fn of(input: &Input) -> Self {
        let mut rows = Rows::of(input);
        let mark = 0xC3C3_C3C3;
        let facility = NewFacility {
            name_start: mark,
            ..NewFacility::default()
        };
        let change = NewChange {
            facility: mark,
            ..NewChange::default()
        };
        rows.facilities.insert(0, facility);
        rows.facilities.push(facility);
        rows.changes.insert(0, change);
        rows.changes.push(change);
        let around = |pool: &[u8]| {
            let mut buffer = marked(pool.len());
            lent(&mut buffer).copy_from_slice(pool);
            buffer
        };
        Lent {
            rows,
            names: around(&input.names),
            values: around(&input.values),
        }
    }

    fn write(&mut self, input: &Input, out: &mut [u8]) -> Result<u32, u8> {
        let Rows {
            facilities,
            changes,
        } = &self.rows;
        let answer = lxt::write(
            &facilities[1..facilities.len() - 1],
            lent(&mut self.names),
            &changes[1..changes.len() - 1],
            lent(&mut self.values),
            input.initial,
            input.timescale,
            out,
        );
        answer.map_err(Refusal::number)
    }

    /// Whether all is as it was lent.
    fn stays(&self, input: &Input) -> bool {
        let fresh = Lent::of(input);
        (&self.rows, &self.names, &self.values) == (&fresh.rows, &fresh.names, &fresh.values)
    }
}

/// Writes an input both ways with every room that matters, counts the answers, and reads the file back.
pub fn compare(case: &InputCase, what: &str, seen: &mut Seen) {
    let input = &case.input;
    let file = independent_file(input);
    if let Some(sound) = case.sound {
        assert_eq!(file.is_ok(), sound, "{what}");
    }
    let rooms = match &file {
        Ok(file) => {
            let length = file.len();
            vec![0, 4, length - 1, length, length + 1, length + 1_000]
        }
        Err(_) => vec![0, 4, 107, 70_000],
    };
    let mut lent_input = Lent::of(input);
    for room in rooms {
        let (mut ours, mut theirs) = (marked(room), marked(room));
        let proved = lent_input.write(input, lent(&mut ours));
        let expected = independent(input, lent(&mut theirs));
        assert_eq!(proved, expected, "{what}, room {room}");
        assert!(ours == theirs, "{what}, room {room}: the bytes differ");
        *seen.answers.entry(expected.err().unwrap_or(0)).or_default() += 1;
    }
    assert!(lent_input.stays(input), "{what}: what was lent has changed");
    match &file {
        Ok(file) => {
            seen.meet(format!("written {}", case.origin));
            read_back(input, file, what);
            meet_file(input, file, seen);
        }
        Err(_) => seen.meet(format!("refused {}", case.origin)),
    }
}

/// Counts what a file has.
fn meet_file(input: &Input, file: &[u8], seen: &mut Seen) {
    let judged = Judged::new(file).expect("an accepted file");
    if input.facilities.is_empty() {
        seen.meet("files written with no facilities");
    }
    if input.changes.is_empty() {
        seen.meet("files written with no changes");
    }
    if judged.entries().len() < input.changes.len() {
        seen.meet("files written with fewer times than changes");
    }
    for (root, chain) in judged.chains().iter().enumerate() {
        let kind = judged.facts(root as u32).expect("facts").kind;
        for offset in chain {
            let byte = file[*offset as usize];
            let (command, bytes) = (byte & 15, (byte >> 4) + 1);
            seen.meet(format!("changes written as {kind:?} by command {command}"));
            seen.meet(format!("changes written with {bytes} delta bytes"));
        }
    }
}

/// The facts that a facility is to have: msb and lsb as they are written.
fn facts_of(input: &Input, facility: usize) -> (lxt::Kind, usize, i32, i32) {
    let [_, _, kind, msb, lsb] = input.facilities[facility];
    let width = input.width_of(facility);
    match kind {
        BITS => (lxt::Kind::Bits, width, msb as i32, lsb as i32),
        INTEGER => (lxt::Kind::Integer, width, 31, 0),
        REAL => (lxt::Kind::Real, width, 0, 0),
        TEXT => (lxt::Kind::Text, width, 0, 0),
        other => panic!("kind {other}"),
    }
}

/// That the proved reader accepts a file, with all padding clean and no byte stray, and reads it back as what
/// was given. Every question judges the file, so of a large one only some facilities and changes are asked
/// about; the independent reader is asked about all changes.
pub fn read_back(input: &Input, file: &[u8], what: &str) {
    let summary = lxt::judge(file).expect(what);
    let n = input.facilities.len();
    assert_eq!(summary.facilities as usize, n, "{what}");
    assert_eq!((summary.changes, summary.clean), (4, true), "{what}");
    assert_eq!(summary.initial, input.initial, "{what}");
    assert_eq!(summary.timescale, input.timescale, "{what}");
    assert_eq!(lxt::stray_bytes(file), Ok(0), "{what}");

    let most = match file.len() {
        0..=3_000 => usize::MAX,
        3_001..=100_000 => 12,
        _ => 3,
    };
    for facility in sample(&Vec::from_iter(0..n), most) {
        let number = facility as u32;
        let facts = lxt::facts(file, number).expect(what);
        let ours = (facts.kind, facts.width as usize, facts.msb, facts.lsb);
        assert_eq!(ours, facts_of(input, facility), "{what}");
        assert_eq!(lxt::root(file, number), Ok(number), "{what}");
        let mut names = [0; lxt::NAME_ROOM];
        let name = lxt::name(file, number, &mut names).expect(what);
        assert_eq!(name, input.name_of(facility), "{what}");
    }

    let offsets = offsets_of(input, file, what);
    for place in sample(&Vec::from_iter(0..offsets.len()), most) {
        change_is_back(input, file, place, offsets[place], what);
    }
    all_are_back(input, file, &offsets, what);
}

/// The offsets of the changes in the order in which they were given: the walk over all facilities turned
/// round, by calls of any sizes.
fn offsets_of(input: &Input, file: &[u8], what: &str) -> Vec<u32> {
    let n = input.facilities.len();
    let mut pairs = vec![Pair::default(); n];
    lxt::start_walk(file, &vec![1; n], &mut pairs).expect(what);
    let mut random = Random::new(file.len() as u64);
    let mut walked = Vec::new();
    loop {
        // A call reads again what is still to come, so a large file is walked in few of them.
        let size = random.below(input.changes.len() + 2) + file.len() / 100;
        let mut output = vec![0; 2 * size];
        let carried = lxt::carry_on(file, &mut pairs, size as u32, &mut output);
        let (count, done) = carried.expect(what);
        walked.extend_from_slice(&output[..2 * count as usize]);
        if done {
            break;
        }
    }
    let numbers = walked.chunks(2).rev().map(|pair| pair[0]);
    let given = input.changes.iter().map(|change| change[0]);
    assert!(numbers.eq(given), "{what}: the order of the changes");
    walked.chunks(2).rev().map(|pair| pair[1]).collect()
}

/// That the proved reader answers time and value of a change as they were given.
fn change_is_back(input: &Input, file: &[u8], place: usize, offset: u32, what: &str) {
    let [facility, time, ..] = input.changes[place];
    let mut bits = [0; lxt::WIDEST];
    let read = lxt::change(file, facility, offset, &mut bits).expect(what);
    assert_eq!((read.time, read.clean), (time.into(), true), "{what}");
    let value = input.value_of(place);
    match read.value {
        Value::Bits { width } => assert_eq!(&bits[..width as usize], value, "{what}"),
        Value::Real { bits, .. } => assert_eq!(bits.to_le_bytes(), value, "{what}"),
        Value::Text { start, length } => {
            let text = &file[start as usize..][..length as usize];
            assert!(text == value, "{what}: the text at {offset}");
        }
        other => panic!("{what}: {other:?}"),
    }
}

/// That the independent reader answers time and value of all changes as they were given.
fn all_are_back(input: &Input, file: &[u8], offsets: &[u32], what: &str) {
    let judged = Judged::new(file).expect(what);
    let mut bits = [0; lxt::WIDEST];
    for (place, offset) in offsets.iter().enumerate() {
        let [facility, time, ..] = input.changes[place];
        let read = judged.change(facility, *offset, &mut bits).expect(what);
        assert_eq!(read.time, i64::from(time), "{what}");
        let value = input.value_of(place);
        let back = match read.value {
            lxt_reference::Value::Bits { width } => &bits[..width as usize] == value,
            lxt_reference::Value::Real { bits } => bits.to_le_bytes() == value,
            lxt_reference::Value::Text { start, length } => {
                &file[start as usize..][..length as usize] == value
            }
            lxt_reference::Value::NotDriven => false,
        };
        assert!(back, "{what}: the value of change {place}");
    }
}

/// Of a trace what the writer can be given: its roots, under new numbers, and their changes in the order of their
/// offsets. Aliases are left out, since the writer has none and all their changes are their root's. None
/// where a time does not fit into 32 bits.
pub fn input_of(file: &[u8], judged: &Judged) -> Option<Input> {
    let mut input = Input::new();
    let summary = judged.summary();
    (input.initial, input.timescale) = (summary.initial, summary.timescale);
    let mut numbers = Vec::new();
    for facility in 0..summary.facilities {
        let facts = judged.facts(facility).ok()?;
        numbers.push(input.facilities.len() as u32);
        if judged.root(facility) == Ok(facility) {
            let name = judged.name_of(facility);
            input.facility(name, facts.kind as u32, facts.msb, facts.lsb);
        }
    }
    let list = judged.full_list(&vec![1; numbers.len()]).ok()?;
    let mut bits = [0; lxt::WIDEST];
    for (root, offset) in list.into_iter().rev() {
        let read = judged.change(root, offset, &mut bits).ok()?;
        let time = u32::try_from(read.time).ok()?;
        let number = numbers[root as usize];
        match read.value {
            lxt_reference::Value::Bits { width } => {
                input.change(number, time, &bits[..width as usize]);
            }
            lxt_reference::Value::Real { bits } => {
                input.change(number, time, &bits.to_le_bytes());
            }
            lxt_reference::Value::Text { start, length } => {
                input.change(number, time, &file[start as usize..][..length as usize]);
            }
            lxt_reference::Value::NotDriven => return None,
        }
    }
    Some(input)
}

/// The same input with one more facility, "fill", and as its only change a text behind all others, which makes
/// the file so many bytes long.
pub fn filled(mut input: Input, length: usize) -> Input {
    let time = input.changes.last().map_or(0, |change| change[1]);
    let fill = input.facility(b"fill", TEXT, 0, 0);
    input.change(fill, time, b"");
    let without = independent_file(&input).expect("a file").len();
    input.changes.pop();
    input.change(fill, time, &vec![b'f'; length - without]);
    input
}
