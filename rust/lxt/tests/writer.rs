//! `Writer` against the independent writer: the same files of sound inputs, and where one is refused, the facility
//! or the change at fault and its rule.

use std::collections::BTreeMap;

use lxt::{Kind, NewValue, Reading, Refusal, Rule, Trace, WriteError, Writer};
use lxt_compare::write::{examples, independent_file};
use lxt_generate::{sound_input, Input, Random, INPUT_DAMAGES};

/// A part of a pool, where it lies inside.
fn part(pool: &[u8], start: u32, length: u32) -> Option<&[u8]> {
    pool.get(start as usize..)?.get(..length as usize)
}

/// A writer with all that an input has; none where the input has what cannot be given to one: a part outside its
/// pool, a kind above 3, or a real that is not of 8 bytes.
fn writer(input: &Input) -> Option<Result<Writer, WriteError>> {
    let mut writer = match Writer::new(input.timescale, input.initial) {
        Ok(writer) => writer,
        Err(error) => return Some(Err(error)),
    };
    for [start, length, kind, msb, lsb] in &input.facilities {
        let name = part(&input.names, *start, *length)?;
        let kinds = [Kind::Bits, Kind::Integer, Kind::Real, Kind::Text];
        let kind = *kinds.get(*kind as usize)?;
        if let Err(error) = writer.facility(name, kind, *msb as i32, *lsb as i32) {
            return Some(Err(error));
        }
    }
    for [facility, time, start, length] in &input.changes {
        let value = part(&input.values, *start, *length)?;
        let kind = input.facilities.get(*facility as usize).map(|row| row[2]);
        let value = match kind {
            Some(2) => NewValue::Real(u64::from_le_bytes(value.try_into().ok()?)),
            Some(3) => NewValue::Text(value),
            _ => NewValue::Symbols(value),
        };
        if let Err(error) = writer.change(*facility, *time, value) {
            return Some(Err(error));
        }
    }
    Some(Ok(writer))
}

#[test]
fn sound_inputs_are_written_as_by_the_independent_writer() {
    for example in examples() {
        let writer = writer(&example.input).expect("given").expect("sound");
        assert_eq!(writer.write(), Ok(example.file), "{}", example.name);
    }
    for seed in 0..1_500 {
        let input = sound_input(&mut Random::new(700_000 + seed));
        let writer = writer(&input).expect("given").expect("sound");
        let file = independent_file(&input).expect("a file");
        assert!(writer.write().as_ref() == Ok(&file), "seed {seed}");
        let mut out = vec![0x5A; file.len() + 1];
        assert_eq!(writer.write_into(&mut out), Ok(file.len() as u32));
        assert!(out[..file.len()] == file && out[file.len()] == 0x5A);
        let mut short = vec![0x5A; file.len() - 1];
        let no_room = Err(WriteError::Refused(Refusal::WriterRoom));
        assert_eq!(writer.write_into(&mut short), no_room, "seed {seed}");
        assert!(short.iter().all(|byte| *byte == 0x5A), "seed {seed}");
    }
}

/// The input with the facility or the changes up to the one at fault, and without it.
fn around_fault(input: &Input, error: WriteError) -> Option<[Input; 2]> {
    let (mut with, mut without) = (input.clone(), input.clone());
    match error {
        WriteError::Facility { number, .. } => {
            with.changes.clear();
            without.changes.clear();
            with.facilities.truncate(number + 1);
            without.facilities.truncate(number);
        }
        WriteError::Change {
            number, facility, ..
        } => {
            assert_eq!(input.changes[number][0], facility);
            with.changes.truncate(number + 1);
            without.changes.truncate(number);
        }
        WriteError::Timescale(timescale) => {
            assert_eq!(timescale, input.timescale);
            without.timescale = -9;
        }
        WriteError::Initial(initial) => {
            assert_eq!(initial, input.initial);
            without.initial = 3;
        }
        _ => return None,
    }
    Some([with, without])
}

/// The rules that damages break, where it is always one.
const RULES: [(&str, &str); 18] = [
    ("4,097 facilities", "MostFacilities"),
    ("name of 1,024 bytes", "NameLength"),
    ("zero in a name", "ZeroInName"),
    ("width 4,097", "Width"),
    ("msb and lsb far apart", "Width"),
    ("facility n", "FacilityNumber"),
    ("change without facilities", "FacilityNumber"),
    ("one symbol short", "SymbolCount"),
    ("one symbol long", "SymbolCount"),
    ("byte that is no symbol", "Symbol"),
    ("lower case", "Symbol"),
    ("code in place of its symbol", "Symbol"),
    ("integer with another symbol", "Symbol"),
    ("integer of one other symbol", "Symbol"),
    ("integer of 31 or 33 symbols", "SymbolCount"),
    ("zero in a text", "ZeroInText"),
    ("time one below", "Times"),
    ("time 0 after the greatest", "Times"),
];

#[test]
fn what_is_refused_is_named() {
    let mut seen: BTreeMap<&str, BTreeMap<String, u32>> = BTreeMap::new();
    for damage in INPUT_DAMAGES {
        for seed in 0..40 {
            let mut random = Random::new(800_000 + seed);
            let base = sound_input(&mut random);
            let over = (damage.apply)(&base, &mut random).over;
            let Some(given) = writer(&over) else {
                continue;
            };
            let error = given.expect_err(damage.name);
            // Without what the error names all is sound, and with it it is not.
            let [with, without] = around_fault(&over, error).expect(damage.name);
            assert!(independent_file(&without).is_ok(), "{}", damage.name);
            assert_eq!(independent_file(&with), Err(24), "{}", damage.name);
            let rule = match error {
                WriteError::Facility { rule, .. } | WriteError::Change { rule, .. } => {
                    format!("{rule:?}")
                }
                other => format!("{other:?}"),
            };
            let rules = seen.entry(damage.name).or_default();
            *rules.entry(rule).or_default() += 1;
        }
    }
    for (damage, rule) in RULES {
        assert_eq!(seen[damage], BTreeMap::from([(rule.to_string(), 40)]));
    }
    let scales = [&seen["timescale below -21"], &seen["timescale above 2"]];
    assert!(scales
        .iter()
        .all(|it| it.keys().all(|it| it.starts_with("Timescale("))));
}

#[test]
fn an_error_says_where_and_what() {
    let mut writer = Writer::new(2, 8).expect("a writer");
    let bit = writer
        .facility(b"bit", Kind::Bits, 0, 0)
        .expect("a facility");
    let real = writer.facility(b"", Kind::Real, 9, 9).expect("a facility");
    writer
        .change(bit, 4, NewValue::Symbols(b"-"))
        .expect("a change");
    let shown = |error: Result<(), WriteError>| error.expect_err("refused").to_string();
    assert_eq!(
        shown(writer.change(bit, 3, NewValue::Symbols(b"0"))),
        "change 1, of facility 0: the time of a change is not below that of the change before it, of whatever facility"
    );
    for value in [NewValue::Symbols(b"0"), NewValue::Text(b"0")] {
        let error = writer.change(real, 4, value).expect_err("refused");
        let rule = Rule::ValueKind;
        let (number, facility) = (1, real);
        assert_eq!(
            error,
            WriteError::Change {
                number,
                facility,
                rule
            }
        );
    }
    assert_eq!(
        shown(writer.facility(b"a\0", Kind::Text, 0, 0).map(|_| ())),
        "facility 2: a name has no zero byte"
    );
    assert_eq!(
        shown(Writer::new(3, 0).map(|_| ())),
        "timescale 3: it is from -21 to 2"
    );
    assert_eq!(
        shown(Writer::new(0, 9).map(|_| ())),
        "initial symbol 9: its code is from 0 to 8"
    );
}

#[test]
fn what_was_refused_is_not_added() {
    let mut writer = Writer::new(-21, 0).expect("a writer");
    let real = writer.facility(b"", Kind::Real, 9, 9).expect("a facility");
    assert!(writer.facility(&[b'n'; 1_024], Kind::Text, 0, 0).is_err());
    writer.change(real, 4, 0.5.into()).expect("a change");
    assert!(writer.change(real, 3, 0.5.into()).is_err());
    assert!(writer.change(1, 4, NewValue::Text(b"")).is_err());
    writer.change(real, 4, f64::NAN.into()).expect("a change");
    let file = writer.write().expect("a file");
    let trace = Trace::open(&file).expect("a trace");
    assert_eq!(trace.facilities(), 0..1);
    assert_eq!(trace.walk_all().expect("a walk").count(), 2);
    let value = trace.value_at(real, 4).expect("a value").value;
    assert!(matches!(value, Reading::Real(number) if number.is_nan()));
}

#[test]
fn a_file_that_would_be_too_long_is_refused_by_the_proved_call() {
    let mut writer = Writer::new(-9, 3).expect("a writer");
    let text = writer.facility(b"t", Kind::Text, 0, 0).expect("a facility");
    let mut longer = writer.clone();
    let bytes = vec![b't'; 16_777_119];
    let longest = NewValue::Text(&bytes[1..]);
    writer.change(text, 0, longest).expect("a change");
    let file = writer.write().expect("a file");
    assert_eq!(file.len(), lxt::LONGEST_FILE);
    longer
        .change(text, 0, NewValue::Text(&bytes))
        .expect("a change");
    let too_long = WriteError::Refused(Refusal::WriterInput);
    assert_eq!(longer.write(), Err(too_long));
    assert_eq!(too_long.to_string(), Refusal::WriterInput.to_string());
}
