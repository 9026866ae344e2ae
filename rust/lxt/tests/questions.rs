//! The proved single questions against the independent reader: every answer, and every byte of the
//! lent memory and around it.

use lxt_compare::questions::{compare, Most, Seen, ALL, QUESTIONS};
use lxt_compare::traces;

#[test]
fn traces_of_the_folder() {
    let mut seen = Seen::default();
    for (name, file) in traces(usize::MAX) {
        let most = match file.len() {
            0..=3_000 => ALL,
            3_001..=12_500 => Most {
                facilities: 40,
                changes: 25,
            },
            12_501..=60_000 => Most {
                facilities: 8,
                changes: 6,
            },
            60_001..=200_000 => Most {
                facilities: 3,
                changes: 3,
            },
            _ => Most {
                facilities: 2,
                changes: 2,
            },
        };
        compare(&file, &name, most, &mut seen);
    }
    seen.report("traces");
    for question in QUESTIONS {
        assert!(seen.count(question, "refused", 18) >= 40, "{question}");
    }
    assert!(seen.count("value_at", "bits", 0) >= 1_000);
    assert!(seen.count("change_before", "number", 0) >= 1_000);
    assert!(seen.visited().iter().all(|count| *count >= 1_000));
    assert!(seen.texts().iter().all(|count| *count >= 50));
}

#[test]
fn shortened_and_damaged_traces() {
    let mut seen = Seen::default();
    for (name, file) in traces(600) {
        for length in 0..file.len() {
            // An exact-size copy, so that a read past the slice would leave its allocation.
            let cut = file[..length].to_vec().into_boxed_slice();
            compare(&cut, &format!("{length} bytes of {name}"), ALL, &mut seen);
        }
        for at in 0..file.len() {
            for value in [file[at] ^ 0x01, file[at] ^ 0x80, file[at].wrapping_add(2)] {
                let mut damaged = file.clone();
                damaged[at] = value;
                let most = Most {
                    facilities: 4,
                    changes: 4,
                };
                let what = format!("{name}, byte {at} is {value}");
                compare(&damaged, &what, most, &mut seen);
            }
        }
    }
    seen.report("damaged");
    for question in QUESTIONS {
        let refused = (1..=17).map(|number| seen.count(question, "refused", number));
        assert!(refused.filter(|count| *count > 0).count() >= 10);
    }
}

#[test]
fn generated_files() {
    let mut seen = Seen::default();
    for seed in 0..8_000 {
        let case = lxt_generate::case(seed);
        let most = match case.bytes.len() {
            0..=800 => ALL,
            801..=4_000 => Most {
                facilities: 6,
                changes: 4,
            },
            _ => Most {
                facilities: 3,
                changes: 3,
            },
        };
        let what = format!("seed {seed}, {}", case.origin);
        compare(&case.bytes, &what, most, &mut seen);
    }
    seen.report("generated");
    // Every sort of answer, and every refusal of a file or of the question.
    for sort in ["bits", "real", "text", "not driven"] {
        assert!(seen.count("value_at", sort, 0) >= 500, "{sort}");
    }
    for question in QUESTIONS {
        for number in (1..=18).filter(|number| *number != 9) {
            let count = seen.count(question, "refused", number);
            assert!(count >= 50, "{question} {number}");
        }
    }
    assert!(seen.count("change_before", "refused", 19) >= 500);
    assert!(seen.count("name", "refused", 21) >= 500);
    assert!(seen.count("value_at", "refused", 21) >= 500);
    for sort in ["bits", "integer", "real", "text"] {
        assert!(seen.count("facts", sort, 0) >= 200, "{sort}");
    }
    for sort in ["bits", "dirty bits", "real", "text"] {
        assert!(seen.count("change", sort, 0) >= 500, "{sort}");
    }
    assert!(seen.count("change", "refused", 19) >= 500);
    assert!(seen.count("change", "refused", 21) >= 500);
    // Answers that show which of several entries at one position decides.
    assert!(seen.shared().iter().all(|count| *count >= 500));
    // Times outside 32 bits, of changes and of questions.
    assert!(seen.outside().iter().all(|count| *count >= 500));
    // Values by the changes visited: all of a root's and none answered, none, one, and several.
    assert!(seen.visited().iter().all(|count| *count >= 500));
    // Texts of the file and lent ones, empty or not, with later changes or none, and other kinds.
    assert!(seen.texts().iter().all(|count| *count >= 500));
}

#[test]
fn hostile_files() {
    let mut seen = Seen::default();
    let most = Most {
        facilities: 3,
        changes: 2,
    };
    for case in lxt_generate::hostile() {
        if case.bytes.len() <= 20_000 {
            compare(&case.bytes, &case.origin, most, &mut seen);
        }
    }
    seen.report("hostile");
    assert!(seen.shared().iter().all(|count| *count > 0));
    let [below, _, asked @ ..] = seen.outside();
    assert!(below > 0 && asked.iter().all(|count| *count > 0));
    assert!(seen.visited().iter().all(|count| *count >= 50));
}

/// Lines, trees and rings of aliases: of most files every facility is asked about.
#[test]
fn aliases_answer_as_their_roots() {
    let mut seen = Seen::default();
    let all = Most {
        facilities: 60,
        changes: 2,
    };
    for seed in 700_000..700_400 {
        let case = lxt_generate::aliases(seed);
        let what = format!("aliases of seed {seed}, {}", case.origin);
        compare(&case.bytes, &what, all, &mut seen);
    }
    for hostile in lxt_generate::hostile_chains(100_000) {
        let file = &hostile.case.bytes;
        if hostile.case.origin.starts_with("4,096 facilities") {
            for facility in [0, 1, 2_048, 4_095, 4_096] {
                let root = lxt::root(file, facility).map_err(|it| it.number());
                let expected = lxt_reference::root(file, facility);
                assert_eq!(root, expected, "{}", hostile.case.origin);
            }
        }
    }
    seen.report("aliases");
    assert!(seen.count("root", "number", 0) >= 1_000);
    for sort in ["file", "lent", "other kind"] {
        assert!(seen.count("text_at", sort, 0) >= 500, "{sort}");
    }
    for question in QUESTIONS {
        assert!(seen.count(question, "refused", 12) >= 200, "{question}");
    }
}
