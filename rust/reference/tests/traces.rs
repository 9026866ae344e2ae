//! Every trace of the folder `traces` with an expected output: the dump equals it exactly.

use lxt_reference::{carry_on, start_walk};
use std::fs;
use std::path::Path;

fn folder() -> std::path::PathBuf {
    Path::new(env!("CARGO_MANIFEST_DIR")).join("../../traces")
}

#[test]
fn dumps_equal_the_expected_output() {
    let mut compared = 0;
    for entry in fs::read_dir(folder()).expect("the folder of traces") {
        let path = entry.expect("an entry of the folder").path();
        if path.extension().and_then(|part| part.to_str()) != Some("lxt") {
            continue;
        }
        let expected = path.with_extension("expected");
        if !expected.exists() {
            continue;
        }
        let file = fs::read(&path).expect("a trace");
        let expected = fs::read(&expected).expect("an expected output");
        assert!(
            lxt_reference::dump(&file) == expected,
            "{} differs",
            path.display()
        );
        compared += 1;
    }
    assert!(compared > 0, "no trace found");
}

/// The pairs of the lines `change NUMBER OFFSET ..` of an expected output, or its refusal.
fn expected_changes(expected: &[u8]) -> Result<Vec<(u32, u32)>, u8> {
    let mut changes = Vec::new();
    for line in expected.split(|byte| *byte == b'\n') {
        let words: Vec<_> = line.split(|byte| *byte == b' ').collect();
        let word = |at: usize| String::from_utf8_lossy(words[at]).into_owned();
        match words[0] {
            b"change" => changes.push((
                word(1).parse().expect("a number"),
                word(2).parse().expect("an offset"),
            )),
            b"refused" => return Err(word(1).parse().expect("a refusal")),
            _ => {}
        }
    }
    Ok(changes)
}

/// Walks in calls of any size hand out the changes of the expected output, in its order.
#[test]
fn walks_hand_out_the_expected_changes() {
    let (mut walks, mut refused) = (0, 0);
    for entry in fs::read_dir(folder()).expect("the folder of traces") {
        let path = entry.expect("an entry of the folder").path();
        let Ok(expected) = fs::read(path.with_extension("expected")) else {
            continue;
        };
        if path.extension().and_then(|part| part.to_str()) != Some("lxt") {
            continue;
        }
        let file = fs::read(&path).expect("a trace");
        let (mut numbers, mut offsets) = (vec![7; 5_000], vec![9; 5_000]);
        let changes = match expected_changes(&expected) {
            // The small program refuses a long trace by its length, which says nothing here.
            Err(1) => continue,
            Err(number) => {
                let start = start_walk(&file, &[], &mut numbers, &mut offsets);
                assert_eq!(start, Err(number), "{}", path.display());
                refused += 1;
                continue;
            }
            Ok(changes) => changes,
        };
        let n = lxt_reference::judge(&file).expect("a judgement").facilities as usize;
        for size in [0, 1, 7, 64, changes.len(), changes.len() + 1] {
            start_walk(&file, &vec![1; n], &mut numbers, &mut offsets).expect("a start");
            let mut output = vec![0; 2 * size];
            let mut walked = Vec::new();
            // Calls of size 1 take long where there are many changes.
            let most = if size == 0 { 1 } else { 3_000 };
            for _ in 0..most {
                let (count, done) =
                    carry_on(&file, &mut numbers, &mut offsets, &mut output, size as u64)
                        .expect("a call");
                let new = output[..2 * count as usize].chunks(2);
                walked.extend(new.map(|pair| (pair[0], pair[1])));
                assert_eq!(done, walked.len() == changes.len());
                assert!(done || count as usize == size);
                if done {
                    break;
                }
            }
            assert_eq!(walked[..], changes[..walked.len()], "{}", path.display());
            assert!(walked.len() == changes.len() || size < 2);
            assert!(numbers[n..].iter().all(|number| *number == 7));
            assert!(offsets[n..].iter().all(|offset| *offset == 9));
            walks += 1;
        }
    }
    assert!(walks >= 100, "{walks}");
    assert!(refused >= 5, "{refused}");
}

/// The traces above the small program's limit, which the reader accepts.
#[test]
fn large_traces_are_accepted() {
    for (name, facilities, changes) in [
        ("des.vcd2lxt-plain.unz.lxt", 1_432, 189_008),
        ("gpsim_fib400k.lxt", 0, 152_381),
    ] {
        let file = fs::read(folder().join(name)).expect("a trace");
        let judged = lxt_reference::Judged::new(&file).expect("an accepted trace");
        let n = judged.summary().facilities;
        if facilities != 0 {
            assert_eq!(n, facilities);
        }
        let list = judged.full_list(&vec![1; n as usize]).expect("a full list");
        assert_eq!(list.len(), changes);
    }
}

/// The traces with tables of tag 09: their entries as their bytes have them, and changes of the times.
#[test]
fn traces_with_64_bit_times() {
    let positions = [4].into_iter().chain((14..=109).step_by(5));
    let times = (0..=20).map(|step| step * 1_000_000_000);
    let even = Vec::from_iter(positions.zip(times));
    let steps = [
        (4, 0),
        (17, 10),
        (31, 19),
        (33, 23),
        (38, 31),
        (41, 43),
        (51, 45),
        (54, 52),
    ];
    let steps = steps.map(|(position, more)| (position, 4_294_967_000 + more));
    for (name, entries, changes) in [
        (
            "longtime64.vcd2lxt-plain.unz.lxt",
            even,
            [(0, 111, 20_000_000_000), (1, 4, 0), (2, 54, 9_000_000_000)],
        ),
        (
            "lxtgen_t64_2.lxt",
            steps.to_vec(),
            [
                (0, 54, 4_294_967_052),
                (1, 27, 4_294_967_010),
                (1, 4, 4_294_967_000),
            ],
        ),
    ] {
        let file = fs::read(folder().join(name)).expect("a trace");
        let judged = lxt_reference::Judged::new(&file).expect("an accepted trace");
        assert_eq!(judged.entries(), entries, "{name}");
        for (facility, offset, time) in changes {
            let read = judged.change(facility, offset, &mut [0; 32]);
            assert_eq!(read.map(|it| it.time), Ok(time), "{name}");
        }
    }
}
