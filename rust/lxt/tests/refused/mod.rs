//! A file that every call refuses alike.

use lxt::{Refusal, Trace};
use lxt_compare::judge::TRACE;

/// Every call gives this refusal of the file and changes nothing.
pub fn by_every_call(file: &[u8], no: Refusal, what: &str) {
    assert_eq!(lxt::judge(file), Err(no), "{what}");
    assert_eq!(Trace::open(file).err(), Some(no), "{what}");
    assert_eq!(lxt::stray_bytes(file), Err(no), "{what}");
    assert_eq!(lxt::facts(file, 0), Err(no), "{what}");
    assert_eq!(lxt::root(file, 0), Err(no), "{what}");
    assert_eq!(lxt::change_before(file, 0, 6), Err(no), "{what}");
    let mut names = [b'?'; lxt::NAME_ROOM];
    assert_eq!(lxt::name(file, 0, &mut names), Err(no), "{what}");
    assert_eq!(names, [b'?'; lxt::NAME_ROOM], "{what}");
    let mut bits = [b'?'];
    assert_eq!(lxt::change(file, 0, 6, &mut bits), Err(no), "{what}");
    for time in [i64::MIN, 5, i64::MAX] {
        assert_eq!(lxt::value_at(file, 0, time, &mut bits), Err(no), "{what}");
        assert_eq!(lxt::text_at(file, 0, time, b"none"), Err(no), "{what}");
    }
    assert_eq!(bits, [b'?'], "{what}");
    // Of a walk the start, and the next call of one that was started over another file.
    let mut record = Trace::open(&TRACE).and_then(|trace| trace.start_walk(&[true]));
    let record = record.as_mut().expect("a start");
    let before = record.clone();
    assert_eq!(lxt::start_walk(file, &[1], record), Err(no), "{what}");
    let mut output = [77; 2];
    let carried = lxt::carry_on(file, record, 1, &mut output);
    assert_eq!(carried, Err(no), "{what}");
    assert_eq!((&*record, output), (&before, [77; 2]), "{what}");
}
