//! The proved writer: the worked examples byte for byte, the traces written again, every boundary, files of
//! the greatest length, and nonsense, against the independent writer and by reading back.

use std::collections::BTreeMap;

use lxt_compare::traces;
use lxt_compare::write::{
    compare, examples, filled, independent, independent_file, input_of, proved, read_back, Rows,
    Seen,
};
use lxt_generate::{
    nonsense_input, sound_input, Input, InputCase, Random, BITS, INPUT_DAMAGES, REAL, TEXT,
};
use lxt_reference::Judged;

/// The proved writer's file.
fn written(input: &Input, room: usize) -> Result<Vec<u8>, u8> {
    let mut out = vec![0x5A; room];
    let length = proved(input, &Rows::of(input), &mut out)? as usize;
    assert!(out[length..].iter().all(|byte| *byte == 0x5A));
    out.truncate(length);
    Ok(out)
}

#[test]
fn the_examples_are_written_byte_for_byte() {
    let lengths = [107, 63, 108, 113, 146, 191, 145];
    for (example, length) in examples().iter().zip(lengths) {
        let file = written(&example.input, 1_000);
        assert_eq!(file.as_ref(), Ok(&example.file), "{}", example.name);
        assert_eq!(example.file.len(), length, "{}", example.name);
        read_back(&example.input, &example.file, example.name);
        assert_eq!(written(&example.input, length), file, "{}", example.name);
        assert_eq!(written(&example.input, length - 1), Err(25));
    }
}

#[test]
fn the_refused_neighbours_of_the_first_example() {
    let [first, ..] = examples();
    let with = |edit: fn(&mut Input)| {
        let mut input = first.input.clone();
        edit(&mut input);
        input
    };
    for (what, input) in [
        ("timescale 3", with(|it| it.timescale = 3)),
        ("timescale -22", with(|it| it.timescale = -22)),
        ("initial 9", with(|it| it.initial = 9)),
        ("facility 1", with(|it| it.changes[1][0] = 1)),
        ("11", with(|it| it.changes[0][3] = 2)),
        ("x", with(|it| it.values[0] = b'x')),
        (
            "times 5, 4",
            with(|it| (it.changes[0][1], it.changes[1][1]) = (5, 4)),
        ),
    ] {
        for room in [0, 4, 106, 107, 1_000] {
            assert_eq!(written(&input, room), Err(24), "{what}, room {room}");
        }
    }
    assert_eq!(written(&first.input, 106), Err(25));
    let mut out = [0x5A; 106];
    let refused = proved(&first.input, &Rows::of(&first.input), &mut out);
    assert_eq!((refused, out), (Err(25), [0x5A; 106]));
}

/// Every trace whose times fit is written again and read back; what was written, once more, gives the same bytes.
#[test]
fn the_traces_are_written_again_and_read_back() {
    let mut seen: BTreeMap<&str, u32> = BTreeMap::new();
    for (name, trace) in traces(usize::MAX) {
        let Ok(judged) = Judged::new(&trace) else {
            *seen.entry("refused").or_default() += 1;
            continue;
        };
        let Some(input) = input_of(&trace, &judged) else {
            println!("{name}: a time is outside 32 bits");
            *seen.entry("times outside 32 bits").or_default() += 1;
            continue;
        };
        let left_out = judged.summary().facilities as usize - input.facilities.len();
        println!(
            "{name}: {} facilities, {left_out} aliases left out, {} changes",
            input.facilities.len(),
            input.changes.len(),
        );
        let file = written(&input, trace.len() + 100_000).expect(&name);
        assert!(Ok(&file) == independent_file(&input).as_ref(), "{name}");
        read_back(&input, &file, &name);
        let judged = Judged::new(&file).expect(&name);
        let again = input_of(&file, &judged).expect(&name);
        assert!(written(&again, file.len()).as_ref() == Ok(&file), "{name}");
        *seen.entry("written").or_default() += 1;
        *seen.entry("with aliases").or_default() += u32::from(left_out > 0);
        for (what, kind) in [("with reals", REAL), ("with texts", TEXT)] {
            let some = input.facilities.iter().any(|row| row[2] == kind);
            *seen.entry(what).or_default() += u32::from(some);
        }
    }
    println!("{seen:?}");
    assert!(
        seen["written"] >= 20 && seen["with aliases"] >= 1,
        "{seen:?}"
    );
    assert!(
        seen["with reals"] >= 1 && seen["with texts"] >= 1,
        "{seen:?}"
    );
    assert!(seen["times outside 32 bits"] >= 1, "{seen:?}");
}

#[test]
fn each_damage_is_refused_and_its_neighbour_is_written() {
    let mut seen = Seen::default();
    for damage in INPUT_DAMAGES {
        for seed in 0..12 {
            let mut random = Random::new(500_000 + seed);
            let base = sound_input(&mut random);
            let sides = (damage.apply)(&base, &mut random);
            for (side, input, sound) in [("near", sides.near, true), ("over", sides.over, false)] {
                let case = InputCase {
                    origin: format!("{side} {}", damage.name),
                    input,
                    sound: Some(sound),
                };
                let what = format!("seed {seed}, {}", case.origin);
                compare(&case, &what, &mut seen);
            }
        }
    }
    let met = BTreeMap::from_iter(seen.met());
    for damage in INPUT_DAMAGES {
        assert_eq!(met[&format!("written near {}", damage.name)], 12);
        assert_eq!(met[&format!("refused over {}", damage.name)], 12);
    }
}

#[test]
fn nonsense_is_answered_alike() {
    let mut seen = Seen::default();
    for seed in 0..4_000 {
        let case = InputCase {
            origin: "nonsense".to_string(),
            input: nonsense_input(&mut Random::new(600_000 + seed)),
            sound: None,
        };
        compare(&case, &format!("nonsense, seed {seed}"), &mut seen);
    }
    let met = BTreeMap::from_iter(seen.met());
    let (written, refused) = (met["written nonsense"], met["refused nonsense"]);
    assert!(written > 50 && refused > 2_000, "{written} {refused}");
}

/// The command of symbols of which all are `one` but for one `other`, or 24 where that is no symbol.
fn command_of(one: u8, other: u8) -> Result<u8, u8> {
    let code = |symbol| b"01ZXHUWL-".iter().position(|it| *it == symbol);
    let (one, other) = (code(one).ok_or(24)?, code(other).ok_or(24)?);
    Ok(match one.max(other) {
        _ if one == other => 3 + one as u8,
        0..=1 => 0,
        2..=3 => 1,
        _ => 2,
    })
}

/// A symbol, another byte, and the first, a middle or the last place.
fn choices(width: usize) -> impl Iterator<Item = (u8, u8, usize)> {
    let pairs = b"01ZH"
        .iter()
        .flat_map(|one| b"01ZXHUWL-\0/2Yz\xFF".map(|other| (*one, other)));
    pairs.flat_map(move |(one, other)| [0, width / 2, width - 1].map(|place| (one, other, place)))
}

#[test]
fn one_symbol_at_any_place_decides_the_command() {
    for width in [1, 2, 7, 8, 9, 15, 16, 17, 33, 63, 64, 65, 129, 4_096] {
        let mut input = Input::new();
        input.facility(b"bus", BITS, width as i32 - 1, 0);
        for (one, other, place) in choices(width) {
            let mut value = vec![one; width];
            value[place] = other;
            let all_are = if width == 1 { other } else { one };
            let what = format!("{width} times {one:#x}, {other:#x} at {place}");
            input.changes.clear();
            input.change(0, 7, &value);
            let file = written(&input, 10_000);
            let command = file.as_ref().map(|file| file[4] & 15).map_err(|it| *it);
            assert_eq!(command, command_of(all_are, other), "{what}");
            assert!(file == independent_file(&input), "{what}");
            if let Ok(file) = file {
                read_back(&input, &file, &what);
            }
        }
    }
}

/// Inputs of different kinds that are then filled up to the greatest length.
fn large_inputs() -> Vec<(&'static str, Input)> {
    let mut texts = Input::new();
    texts.facility(b"t", TEXT, 0, 0);
    // Each change has its own time: two bytes or more, and eight of its entry.
    let mut times = Input::new();
    times.facility(b"clock", BITS, 0, 0);
    for time in 0..400_000 {
        times.change(0, time, [b"0", b"1"][time as usize % 2]);
    }
    // With the one that fills, the most facilities; long names, and changes that are far from each other.
    let mut names = Input::new();
    for facility in 0..4_095 {
        let name = format!("{facility:0>1023}");
        names.facility(name.as_bytes(), BITS, 8, 0);
    }
    for place in 0..200_000 {
        names.change(place * 7 % 4_095, place / 1_000, b"01ZX01ZX0");
    }
    vec![("one text", texts), ("times", times), ("names", names)]
}

#[test]
fn a_file_of_16_777_216_bytes_is_written_and_one_more_is_not() {
    const LONGEST: usize = lxt::LONGEST_FILE;
    let (mut out, mut expected) = (vec![0x5A; LONGEST + 9], vec![0x5A; LONGEST + 9]);
    for (what, input) in large_inputs() {
        let longest = filled(input.clone(), LONGEST);
        let rows = Rows::of(&longest);
        let answer = proved(&longest, &rows, &mut out);
        assert_eq!(answer, Ok(LONGEST as u32), "{what}");
        assert_eq!(independent(&longest, &mut expected), answer, "{what}");
        assert!(out == expected, "{what}");
        read_back(&longest, &out[..LONGEST], what);
        out.fill(0x5A);
        expected.fill(0x5A);
        let short = proved(&longest, &rows, &mut out[..LONGEST - 1]);
        assert_eq!(short, Err(25), "{what}");
        let over = filled(input, LONGEST + 1);
        for room in [4, LONGEST, LONGEST + 9] {
            let refused = proved(&over, &Rows::of(&over), &mut out[..room]);
            assert_eq!(refused, Err(24), "{what}, room {room}");
        }
        assert!(out == expected, "{what}: written although refused");
    }
    // The example of the ask.
    let text = |length: usize| {
        let mut input = Input::new();
        input.facility(b"t", TEXT, 0, 0);
        input.change(0, 0, &vec![b't'; length]);
        input
    };
    assert_eq!(
        written(&text(16_777_118), LONGEST).map(|it| it.len()),
        Ok(LONGEST)
    );
    assert_eq!(written(&text(16_777_119), LONGEST + 9), Err(24));
}

#[test]
fn lengths_may_sum_to_more_than_32_bits() {
    let mut input = Input::new();
    input.facility(b"t", TEXT, 0, 0);
    input.change(0, 0, &vec![b't'; 1 << 20]);
    let row = input.changes[0];
    // By 32 bits the sum of the lengths would be that of a small file.
    for count in [16, 4_095, 4_096, 4_097] {
        input.changes = vec![row; count];
        for room in [0, 1 << 20] {
            assert_eq!(written(&input, room), Err(24), "{count} texts");
        }
    }
}
