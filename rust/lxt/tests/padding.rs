//! Padding through the C interface: rubbish in every packing is accepted, shows in no value, and is told.

use lxt::{Reading, Refusal, Trace};

mod padded;

#[test]
fn a_file_with_rubbish_in_every_packing() {
    assert_eq!(padded::changes_with(7), padded::CHANGES);
    for kept in 0..8 {
        let file = padded::with_rubbish(kept);
        let trace = Trace::open(&file).expect("an accepted trace");
        let summary = trace.summary();
        assert_eq!((summary.facilities, summary.initial), (3, 3));
        assert_eq!(
            (summary.changes, summary.end, summary.timescale),
            (padded::CHANGES_START, padded::END, -9)
        );
        // One dirty change of any root, though none is its newest, is enough.
        assert_eq!(summary.clean, kept == 0, "{kept:03b}");

        let changes = padded::changes_with(kept);
        let walk = trace.walk_all().expect("a walk");
        let walked = Vec::from_iter(walk.map(|it| (it.facility, it.offset)));
        let expected = changes.iter().map(|it| (it.0, it.1));
        assert_eq!(walked, Vec::from_iter(expected));
        for (root, offset, time, symbols, clean) in changes {
            let read = trace.change(root, offset).expect("a change");
            assert_eq!(
                (read.time, read.clean),
                (time, clean),
                "{kept:03b} {offset}"
            );
            let value = Reading::Bits(symbols.into());
            assert_eq!(read.value, value, "{kept:03b} {offset}");
            let lookup = trace.value_at(root, time).map(|it| it.value);
            assert_eq!(lookup, Ok(value), "{kept:03b} {offset}");
        }
    }
}

#[test]
fn what_is_no_padding_is_refused_as_before() {
    // A code 9 in use beside rubbish; in a walk that was started it is 20.
    let mut file = padded::file();
    let mut record = Trace::open(&file).expect("a trace").start_walk(&[true; 3]);
    let record = record.as_mut().expect("a start");
    file[13] = 0x9F;
    assert_eq!(lxt::judge(&file), Err(Refusal::ChangeBytes));
    let read = lxt::change(&file, 0, 4, &mut [0; 3]);
    assert_eq!(read, Err(Refusal::ChangeBytes));
    let carried = lxt::carry_on(&file, record, 1, &mut [0; 2]);
    assert_eq!(carried, Err(Refusal::Record));
    file[13] = 0x8F;
    assert!(lxt::judge(&file).is_ok_and(|it| !it.clean));
    let carried = lxt::carry_on(&file, record, 1, &mut [0; 2]);
    assert_eq!(carried, Ok((1, false)));
    // Bits 7 and 6 of the command byte.
    for high in [0x40, 0x80] {
        let mut file = padded::with_rubbish(0);
        file[4] |= high;
        assert_eq!(lxt::judge(&file), Err(Refusal::ChangeBytes));
    }
}

#[test]
fn rubbish_leads_to_17_where_changes_share_a_byte() {
    // Byte 6 is data of `one`, with rubbish.
    let mut file = padded::file();
    file[6] = 0x03;
    assert!(lxt::judge(&file).is_ok_and(|it| !it.clean));
    // It is the command byte of a change of `two` as well.
    file[7] = 0x04;
    let sync = padded::END as usize - 28 - 12 + 4;
    assert_eq!(file[sync..sync + 4], [0, 0, 0, 17]);
    file[sync + 3] = 6;
    assert_eq!(lxt::judge(&file), Err(Refusal::SharedByte));
    assert_eq!(lxt::root(&file, 0), Err(Refusal::SharedByte));
}
