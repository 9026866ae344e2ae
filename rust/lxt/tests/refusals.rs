//! Which refusals the compared calls give: every one that a call can give, and no other; that padding is
//! both clean and dirty, that there are stray bytes and none, that zero deltas and 64-bit times show, that texts are
//! of the file and lent, that columns have items of every sort, and that inputs of all kinds are written.

use std::collections::BTreeSet;

use lxt_compare::{can_refuse, generated, Compared, CALLS};

#[test]
fn each_call_gives_every_refusal_that_it_can_and_no_other() {
    let mut compared = Compared::default();
    for (what, file) in generated(200_000..204_000, usize::MAX) {
        compared.file(&file, &what);
    }
    for seed in 200_000..206_000 {
        let case = lxt_generate::input_case(seed);
        compared.input(&case, &format!("seed {seed}, {}", case.origin));
    }
    let answers = compared.answers();
    let mut given = BTreeSet::new();
    for call in CALLS {
        let count = |number: u8| answers.get(&(call, number)).copied().unwrap_or(0);
        let counts = Vec::from_iter((0..=u8::MAX).map(count));
        println!("{call:>13} {:?}", &counts[..=35]);
        assert!(counts[0] >= 1_000, "{call} was answered {}", counts[0]);
        for number in 1..=u8::MAX {
            let count = counts[usize::from(number)];
            match can_refuse(call, number) {
                true => assert!(count >= 20, "{call} gave {number} {count} times"),
                false => assert_eq!(count, 0, "{call} gave {number}"),
            }
            if count > 0 {
                given.insert(number);
            }
        }
    }
    let expected = (1..=22).chain([24, 25, 35]);
    assert_eq!(given, BTreeSet::from_iter(expected));
    // And both answers about padding, of judging and of changes.
    for (call, counts) in compared.padding() {
        println!("{call:>13} padding {counts:?}");
        assert!(
            counts.iter().all(|count| *count >= 200),
            "{call} {counts:?}"
        );
    }
    let met = compared.stray().into_iter();
    let met = met.chain(compared.zero_deltas());
    let met = met.chain(compared.long_times());
    let met = met.chain(compared.texts());
    for (what, count) in met.chain(compared.columns()) {
        println!("{count:>13} {what}");
        assert!(count >= 200, "{what}: {count}");
    }
    // And inputs on both sides of each boundary of writing, and changes of all kinds.
    for (what, count) in compared.written() {
        println!("{count:>13} {what}");
        assert!(count >= 10, "{what}: {count}");
    }
}
