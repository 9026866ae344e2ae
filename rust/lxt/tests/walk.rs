//! The proved walk against the independent reader and against lists of changes: every answer, and
//! every pair and number of the lent memory and around it.

use lxt_compare::walk::*;
use lxt_compare::{generated, traces, MADE};
use lxt_generate::Pending;
use lxt_reference::{Fault, RecordFault, Tables};

#[test]
fn whole_walks_over_traces() {
    let mut seen = Seen::default();
    for (name, file) in traces(usize::MAX) {
        whole_walks(&file, &name, &mut seen);
    }
    seen.report("whole walks over traces");
    seen.least_met("whole walks", 80);
    seen.least_met("whole walks of several calls", 50);
    seen.least("carry on", "done false", 100);
    seen.least("carry on", "done true", 200);
    seen.least("carry on", "21 output", 200);
}

#[test]
fn whole_walks_over_generated_files() {
    let mut seen = Seen::default();
    for (what, file) in generated(0..8_000, 30_000) {
        whole_walks(&file, &what, &mut seen);
    }
    seen.report("whole walks over generated files");
    seen.least_met("whole walks", 5_000);
    seen.least_met("whole walks over dirty changes", 1_000);
    seen.least_met("whole walks beside entries at one position", 1_000);
    seen.least_met("whole walks of several calls", 2_000);
    seen.least("start", "started", 5_000);
    seen.least("carry on", "done false", 10_000);
    seen.least("carry on", "done true", 10_000);
    seen.least("carry on", "21 output", 10_000);
}

#[test]
fn a_wider_walk_holds_the_other() {
    let mut seen = Seen::default();
    for (name, file) in traces(60_000) {
        wider(&file, &name, &mut seen);
    }
    for (what, file) in generated(10_000..20_000, 30_000) {
        wider(&file, &what, &mut seen);
    }
    seen.report("wider walks");
    seen.least_met("wider walks with more pairs", 300);
}

#[test]
fn starts_are_refused_in_order() {
    let mut seen = Seen::default();
    for (what, file) in generated(20_000..25_000, usize::MAX) {
        start_refusals(&file, &what, &mut seen);
    }
    for (name, file) in traces(60_000) {
        start_refusals(&file, &name, &mut seen);
    }
    for (name, file) in traces(400) {
        for length in 0..file.len() {
            // An exact-size copy, so that a read past the slice would leave its allocation.
            let cut = file[..length].to_vec().into_boxed_slice();
            start_refusals(&cut, &format!("{length} bytes of {name}"), &mut seen);
        }
    }
    seen.report("refused starts");
    for number in (1..=17).filter(|number| *number != 9) {
        seen.least("start", &number.to_string(), 50);
    }
    for number in (1..=14).filter(|number| *number != 9) {
        seen.least("carry on", &number.to_string(), 50);
    }
    seen.least("start", "9", 1);
    seen.least("carry on", "9", 1);
    for what in [
        "21 pairs",
        "21 pairs, before 22",
        "22 too few",
        "22 too many",
    ] {
        seen.least("start", what, 500);
    }
}

#[test]
fn records_that_no_start_wrote() {
    let mut seen = Seen::default();
    for (name, file) in traces(8_000) {
        altered_records(&file, &name, &mut seen);
    }
    for (what, file) in generated(30_000..36_000, 3_000) {
        altered_records(&file, &what, &mut seen);
    }
    // Chains that run together and spoil each other; the tables are sound.
    for seed in 0..2_000 {
        let file = lxt_generate::dense(seed).bytes();
        altered_records(&file, &format!("dense {seed}"), &mut seen);
    }
    seen.report("altered records");
    for fault in Fault::ALL {
        seen.least("carry on", &name_of(RecordFault::Chain(fault)), 50);
    }
    for fault in [RecordFault::WrongNumber, RecordFault::PendingOfAlias] {
        seen.least("carry on", &name_of(fault), 1_000);
    }
    seen.least("carry on", "done false", 10_000);
    seen.least("carry on", "done true", 10_000);
    seen.least("carry on", "21 output", 10_000);
    seen.least("carry on", "21 pairs", 5_000);
    seen.least("carry on", "21 pairs, before 20", 1_000);
    seen.least_met("20 before the output's 21", 1_000);
    seen.least_met("20 of a file that 15 to 17 refuse", 1_000);
    below_the_first_change(&seen, 5);
    seen.least_met("equal offsets handed out", 1_000);
    seen.least_met("walk on off the root's own chain", 1_000);
    for number in 15..=17 {
        seen.least_met(&format!("walk on in a file refused {number}"), 1_000);
    }
}

#[test]
fn every_pending_offset_of_small_files() {
    let mut seen = Seen::default();
    for (name, file) in traces(600) {
        every_offset(&file, &name, &mut seen);
    }
    let mut files = 0;
    for (what, file) in generated(40_000..42_000, 600) {
        if files < 250 && Tables::new(&file).is_ok_and(|it| it.facilities() > 0) {
            every_offset(&file, &what, &mut seen);
            files += 1;
        }
    }
    for seed in 5_000..5_250 {
        let file = lxt_generate::dense(seed).bytes();
        every_offset(&file, &format!("dense {seed}"), &mut seen);
    }
    seen.report("every pending offset");
    for fault in Fault::ALL {
        seen.least("carry on", &name_of(RecordFault::Chain(fault)), 200);
    }
    below_the_first_change(&seen, 20);
    seen.least("carry on", "20 PendingOfAlias", 1_000);
    seen.least("carry on", "done false", 1_000);
    seen.least("carry on", "done true", 1_000);
    for number in 15..=17 {
        seen.least_met(&format!("walk on in a file refused {number}"), 100);
    }
}

#[test]
fn hostile_files() {
    let mut seen = Seen::default();
    for case in lxt_generate::hostile() {
        let mut calls = Calls::new(&case.bytes, &case.origin, &mut seen);
        calls.by_list = false;
        let n = calls.n();
        let _ = calls.start(&vec![1; n], n);
        let sync = |it: usize| match &calls.tables {
            Ok(tables) if tables.is_root(it) => tables.sync(it),
            _ => 0,
        };
        let pairs: Vec<(u32, u32)> = (0..n).map(|it| (it as u32, sync(it))).collect();
        let mut record = record_of(&pairs, 2);
        // Of the large ones a call takes long.
        let most = if case.bytes.len() > 20_000 { 2 } else { 4 };
        for (size, room) in [(700, 1_400), (1_000, 1_999), (0, 0), (300, 601)][..most].iter() {
            let _ = calls.carry_on(&mut record, *size, *room);
        }
    }
    seen.report("hostile");
    seen.least("carry on", "done false", 10);
    seen.least("carry on", "20 of a hostile file", 8);
}

/// Records with pending offsets on one chain, within chains, beside changes and around edges, over files of
/// changes that meet, chains that join and codes over each other.
#[test]
fn records_over_files_made_for_judging_fast() {
    for (name, make) in MADE {
        let mut seen = Seen::default();
        for seed in 600_000..601_000 {
            let case = make(seed);
            let what = format!("{name} of seed {seed}, {}", case.origin);
            whole_walks(&case.bytes, &what, &mut seen);
            pending_anywhere(&case.bytes, &what, &mut seen);
        }
        seen.report(name);
        for pending in Pending::ALL {
            let aliases = name == "aliases";
            match pending {
                Pending::OwnChain => seen.least_met("OwnChain carried on", 100),
                Pending::OfAnAlias if aliases => seen.least_met("OfAnAlias refused 20", 100),
                Pending::OfAnAlias => {}
                _ if aliases => {}
                _ => {
                    seen.least_met(&format!("{pending:?} refused 20"), 10);
                    seen.least_met(&format!("{pending:?} carried on"), 5);
                }
            }
        }
    }
}

/// Carrying on over hostile files with the record that leads all roots into the chains, and with the records
/// that lead only the first roots there.
#[test]
fn hostile_chains() {
    let mut seen = Seen::default();
    for total in [20_000, 65_536] {
        for hostile in lxt_generate::hostile_chains(total) {
            let what = format!("{}, {total} bytes", hostile.case.origin);
            let mut calls = Calls::new(&hostile.case.bytes, &what, &mut seen);
            calls.by_list = false;
            let n = hostile.pending.len();
            for led in [1, n / 2, n - 1, n] {
                let offset = |it: usize| if it < led { hostile.pending[it] } else { 0 };
                let pairs: Vec<(u32, u32)> = (0..n).map(|it| (it as u32, offset(it))).collect();
                let (answer, _) = calls.carry_on(&mut record_of(&pairs, 1), 300, 600);
                if led == n {
                    assert_eq!(answer.map(|_| ()), hostile.carried_on, "{what}");
                }
            }
        }
    }
    seen.report("hostile chains");
    seen.least("carry on", "done false", 40);
    seen.least("carry on", "20 of a hostile file", 20);
}
