//! Inputs of a writer, by the reference writer and reader: sound ones are written and read back as they were
//! given, damaged ones are refused with 24, and all kinds occur.

use std::collections::BTreeSet;

use lxt_generate::*;
use lxt_reference as reference;
use met::Met;

#[allow(dead_code)]
mod met;

fn written(input: &Input, room: usize) -> Result<Vec<u8>, u8> {
    let mut out = vec![0; room];
    let length = reference::write(
        &input.facilities,
        &input.names,
        &input.changes,
        &input.values,
        input.initial,
        input.timescale,
        &mut out,
    )?;
    out.truncate(length as usize);
    Ok(out)
}

/// The file of a sound input, which is read back as what was given.
fn read_back(input: &Input, what: &str) -> Vec<u8> {
    let file = written(input, 1 << 20).expect(what);
    let judged = reference::Judged::new(&file).expect(what);
    let summary = judged.summary();
    assert_eq!(summary.facilities as usize, input.facilities.len());
    assert_eq!(
        (summary.initial, summary.timescale, summary.clean),
        (input.initial, input.timescale, true),
        "{what}"
    );
    assert_eq!(judged.stray_bytes(), 0, "{what}");
    for facility in 0..input.facilities.len() {
        let number = facility as u32;
        assert_eq!(judged.name_of(number), input.name_of(facility), "{what}");
        let facts = judged.facts(number).expect("facts");
        let [_, _, kind, msb, lsb] = input.facilities[facility];
        let ends = match kind {
            BITS => (msb as i32, lsb as i32),
            INTEGER => (31, 0),
            _ => (0, 0),
        };
        assert_eq!(facts.kind as u32, kind, "{what}");
        assert_eq!((facts.msb, facts.lsb), ends, "{what}");
        assert_eq!(facts.width as usize, input.width_of(facility), "{what}");
    }
    changes_are_back(input, &file, &judged, what);
    file
}

fn changes_are_back(input: &Input, file: &[u8], judged: &reference::Judged, what: &str) {
    let asked = vec![1; input.facilities.len()];
    let mut walk = judged.full_list(&asked).expect("a list");
    walk.reverse();
    assert_eq!(walk.len(), input.changes.len(), "{what}");
    let mut bits = vec![0; 4_096];
    for (place, (root, offset)) in walk.into_iter().enumerate() {
        let read = judged.change(root, offset, &mut bits).expect("a change");
        let [facility, time, ..] = input.changes[place];
        assert_eq!((root, read.time), (facility, time.into()), "{what}");
        let value = match read.value {
            reference::Value::Bits { width } => bits[..width as usize].to_vec(),
            reference::Value::Real { bits } => bits.to_le_bytes().to_vec(),
            reference::Value::Text { start, length } => {
                file[start as usize..][..length as usize].to_vec()
            }
            reference::Value::NotDriven => panic!("{what}: a change without a value"),
        };
        assert_eq!(value, input.value_of(place), "{what}");
    }
}

#[test]
fn a_seed_gives_the_same_input_again() {
    for seed in 0..300 {
        assert_eq!(input_case(seed).input, input_case(seed).input);
    }
    let origins = (0..300).map(|seed| input_case(seed).origin);
    assert!(BTreeSet::from_iter(origins).len() > 30);
}

/// What the parts of a table of rows have to do with each other, and with their pool.
fn parts_met(met: &mut Met, pool: usize, parts: &[[u32; 2]]) {
    let mut pointed = vec![0; pool];
    for [start, length] in parts {
        for byte in &mut pointed[*start as usize..][..*length as usize] {
            *byte += 1;
        }
    }
    met.meet("bytes that nothing points to", pointed.contains(&0));
    met.meet(
        "bytes of several parts",
        pointed.iter().any(|count| *count > 1),
    );
    let distinct = BTreeSet::from_iter(parts.iter().filter(|part| part[1] > 0));
    let nonempty = parts.iter().filter(|part| part[1] > 0).count();
    met.meet("parts that are shared", distinct.len() < nonempty);
    let starts = |a: &[u32; 2], b: &[u32; 2]| a[0] < b[0] && b[0] < a[0] + a[1];
    let overlap = |a| distinct.iter().any(|b| starts(a, b));
    met.meet("parts that overlap", distinct.iter().any(|a| overlap(a)));
}

fn names_met(met: &mut Met, input: &Input) {
    met.meet("no facilities", input.facilities.is_empty());
    let mut before: &[u8] = &[];
    for facility in 0..input.facilities.len() {
        let name = input.name_of(facility);
        let shared = name.iter().zip(before).take_while(|(a, b)| a == b).count();
        met.meet("empty name", name.is_empty());
        met.meet("equal names", facility > 0 && name == before);
        let whole = facility > 0 && shared == before.len();
        met.meet(
            "name that goes on from the one before",
            whole && shared < name.len(),
        );
        let cut = shared == name.len() && shared < before.len();
        met.meet("name that is the start of the one before", cut);
        let both = shared > 0 && shared < name.len().min(before.len());
        met.meet("name that shares a prefix", both);
        met.meet("name above 1,000 bytes", name.len() > 1_000);
        before = name;
    }
}

fn values_met(met: &mut Met, input: &Input) {
    met.meet("no changes", input.changes.is_empty());
    for (place, change) in input.changes.iter().enumerate() {
        let facility = change[0] as usize;
        let (kind, width) = (input.facilities[facility][2], input.width_of(facility));
        if kind == BITS {
            met.meet(format!("bits of width {width}"), true);
        }
        let value = input.value_of(place);
        met.meet("empty text", kind == TEXT && value.is_empty());
        if let (REAL, Ok(bytes)) = (kind, value.try_into()) {
            met.meet("not a number", f64::from_le_bytes(bytes).is_nan());
        }
        let before = place.checked_sub(1).map(|before| input.changes[before]);
        let same_time = before.is_some_and(|before| before[1] == change[1]);
        met.meet("equal times", same_time);
        met.meet(
            "equal times of one facility",
            same_time && before.is_some_and(|before| before[0] == change[0]),
        );
        met.meet("greatest time", change[1] == u32::MAX);
    }
}

/// The commands and deltas of a file that was written.
fn bytes_met(met: &mut Met, file: &[u8]) {
    let chains = reference::chains(file).expect("an accepted file");
    let judged = reference::Judged::new(file).expect("an accepted file");
    for (root, chain) in chains.iter().enumerate() {
        let kind = judged.facts(root as u32).expect("facts").kind;
        for (place, offset) in chain.iter().enumerate() {
            let (command, k) = (file[*offset as usize] & 15, file[*offset as usize] >> 4);
            met.meet(format!("{kind:?} by command {command}"), true);
            let delta = offset - 2 - chain.get(place + 1).copied().unwrap_or(0);
            if [255, 256, 65_535, 65_536].contains(&delta) {
                met.meet(format!("delta {delta} in {} bytes", k + 1), true);
            }
        }
    }
}

/// What sound inputs and their files are to have.
fn expected() -> Vec<String> {
    let mut expected: Vec<String> = [
        "no facilities",
        "no changes",
        "empty name",
        "equal names",
        "name that goes on from the one before",
        "name that is the start of the one before",
        "name that shares a prefix",
        "name above 1,000 bytes",
        "empty text",
        "not a number",
        "equal times",
        "equal times of one facility",
        "greatest time",
        "bytes that nothing points to",
        "bytes of several parts",
        "parts that are shared",
        "parts that overlap",
        "delta 255 in 1 bytes",
        "delta 256 in 2 bytes",
        "delta 65535 in 2 bytes",
        "delta 65536 in 3 bytes",
        "Real by command 0",
        "Text by command 0",
        "Integer by command 0",
        "Integer by command 3",
        "Integer by command 4",
    ]
    .map(String::from)
    .to_vec();
    expected.extend((0..=11).map(|command| format!("Bits by command {command}")));
    for width in [1, 2, 7, 8, 9, 31, 32, 33, 4_095, 4_096] {
        expected.push(format!("bits of width {width}"));
    }
    expected
}

#[test]
fn sound_inputs_are_of_all_kinds_and_read_back() {
    let mut met = Met::default();
    for seed in 0..6_000 {
        let input = sound_input(&mut Random::new(seed));
        let file = read_back(&input, &format!("seed {seed}"));
        names_met(&mut met, &input);
        values_met(&mut met, &input);
        bytes_met(&mut met, &file);
        let names = input.facilities.iter().map(|row| [row[0], row[1]]);
        parts_met(&mut met, input.names.len(), &Vec::from_iter(names));
        let values = input.changes.iter().map(|row| [row[2], row[3]]);
        parts_met(&mut met, input.values.len(), &Vec::from_iter(values));
    }
    for what in &expected() {
        met.least_of(what, 10);
    }
}

#[test]
fn each_damage_is_refused_and_its_neighbour_is_not() {
    for damage in INPUT_DAMAGES {
        for seed in 0..60 {
            let mut random = Random::new(seed);
            let base = sound_input(&mut random);
            let sides = (damage.apply)(&base, &mut random);
            let what = format!("{}, seed {seed}", damage.name);
            assert_eq!(written(&sides.over, 1 << 20), Err(24), "{what}");
            // Whatever the room.
            assert_eq!(written(&sides.over, 4), Err(24), "{what}");
            read_back(&sides.near, &what);
            assert_eq!(written(&sides.near, 4), Err(25), "{what}");
        }
    }
}

#[test]
fn cases_are_what_they_are_said_to_be() {
    let (mut met, mut nonsense) = (Met::default(), [0; 2]);
    for seed in 0..6_000 {
        let case = input_case(seed);
        let answer = written(&case.input, 1 << 20);
        assert_ne!(answer, Err(25), "{}", case.origin);
        match case.sound {
            Some(sound) => assert_eq!(answer.is_ok(), sound, "{}", case.origin),
            None => nonsense[usize::from(answer.is_ok())] += 1,
        }
        met.meet(case.origin, true);
    }
    // Mostly refused, and not always.
    assert!(nonsense[0] > 200 && nonsense[1] > 20, "{nonsense:?}");
    let names = INPUT_DAMAGES.iter().map(|damage| damage.name);
    let origins = names.flat_map(|name| [format!("near {name}"), format!("over {name}")]);
    for origin in origins {
        met.least_of(&origin, 10);
    }
}
