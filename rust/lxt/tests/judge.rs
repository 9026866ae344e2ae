//! The proved judge against the independent reader, answer by answer.

use lxt_compare::judge::{compare, Seen, TRACE};
use lxt_compare::times::small_trace_09;
use lxt_compare::{traces, MADE};

/// The small trace, with 32-bit times and with 64-bit times.
fn small_traces() -> [(&'static str, Vec<u8>); 2] {
    let long = small_trace_09(-5, 5, &[4, 2], &[-5, 10]);
    [("tag 06", TRACE.to_vec()), ("tag 09", long)]
}

#[test]
fn every_one_byte_change_of_the_small_traces() {
    for (name, trace) in small_traces() {
        let mut seen = Seen::default();
        for at in 0..trace.len() {
            for value in 0..=255 {
                let mut file = trace.clone();
                file[at] = value;
                compare(&file, &format!("{name}, byte {at} is {value}"), &mut seen);
            }
        }
        println!("{seen:?}");
        assert!(seen.answers.len() > 10, "{seen:?}");
        // Byte 6 made 30: four delta bytes, and then a data byte of rubbish.
        assert!(seen.padding.len() == 2, "{seen:?}");
    }
}

#[test]
fn every_shortening_and_lengthening_of_the_small_traces() {
    for (name, trace) in small_traces() {
        let mut seen = Seen::default();
        for length in 0..trace.len() {
            let what = format!("{name}, {length}");
            compare(&trace[..length], &format!("{what} bytes"), &mut seen);
            compare(&trace[length..], &format!("from {what}"), &mut seen);
            let mut without = trace.clone();
            without.remove(length);
            compare(&without, &format!("without byte {what}"), &mut seen);
        }
        for at in 0..=trace.len() {
            for value in [0x00, 0x01, 0x04, 0x08, 0x0A, 0x40, 0xB4, 0xFF] {
                let mut with = trace.clone();
                with.insert(at, value);
                let what = format!("{name}, {value} put in at {at}");
                compare(&with, &what, &mut seen);
            }
        }
        println!("{seen:?}");
    }
}

#[test]
fn all_traces_of_the_folder() {
    let mut seen = Seen::default();
    for (name, file) in traces(usize::MAX) {
        compare(&file, &name, &mut seen);
    }
    println!("{seen:?}");
    assert!(seen.answers[&0] >= 20, "{seen:?}");
    // One has two time entries at one position, and two have 64-bit times.
    assert!(seen.times.shared >= 1, "{seen:?}");
    assert!(seen.times.long >= 2, "{seen:?}");
}

#[test]
fn generated_files_reach_every_refusal_of_a_file() {
    let mut seen = Seen::default();
    for seed in 0..20_000 {
        let case = lxt_generate::case(seed);
        compare(
            &case.bytes,
            &format!("seed {seed}, {}", case.origin),
            &mut seen,
        );
    }
    println!("{seen:?}");
    for number in 0..=17 {
        let least = if number == 9 { 1 } else { 50 };
        assert!(
            seen.answers
                .get(&number)
                .is_some_and(|count| *count >= least),
            "{number}: {seen:?}"
        );
    }
    for clean in [true, false] {
        assert!(seen.padding[&clean] >= 500, "{seen:?}");
    }
    let times = seen.times;
    for count in [times.rising, times.shared, times.equal, times.long] {
        assert!(count >= 1_000, "{seen:?}");
    }
}

#[test]
fn hostile_files_are_judged_alike() {
    let mut seen = Seen::default();
    for case in lxt_generate::hostile() {
        compare(&case.bytes, &case.origin, &mut seen);
    }
    println!("{seen:?}");
    assert!(seen.times.shared >= 5, "{seen:?}");
    assert!(seen.times.long >= 40, "{seen:?}");
}

/// Changes that meet, chains that join, codes over each other, and aliases.
#[test]
fn files_made_for_judging_fast_are_judged_alike() {
    for (name, make) in MADE {
        let mut seen = Seen::default();
        for seed in 500_000..503_000 {
            let case = make(seed);
            let what = format!("{name} of seed {seed}, {}", case.origin);
            compare(&case.bytes, &what, &mut seen);
        }
        println!("{name} {:?}", seen.answers);
        let met: &[u8] = match name {
            "edges" => &[0, 17],
            "joined" => &[15, 16, 17],
            "codes" => &[0, 16, 17],
            _ => &[0, 12],
        };
        for number in met {
            assert!(seen.answers[number] >= 100, "{name} {seen:?}");
        }
    }
}

#[test]
fn hostile_chains_are_judged_alike() {
    let mut seen = Seen::default();
    for total in [20_000, 65_536] {
        for hostile in lxt_generate::hostile_chains(total) {
            let what = format!("{}, {total} bytes", hostile.case.origin);
            compare(&hostile.case.bytes, &what, &mut seen);
        }
    }
    // 4,096 facilities.
    for hostile in lxt_generate::hostile_chains(100_000) {
        if hostile.case.origin.starts_with("4,096 facilities") {
            compare(&hostile.case.bytes, &hostile.case.origin, &mut seen);
        }
    }
    println!("{:?}", seen.answers);
    for number in [0, 12, 16, 17] {
        assert!(seen.answers[&number] >= 4, "{seen:?}");
    }
}

/// Those of the longest file, with thousands of roots: judged and carried on with as they are made to be.
#[test]
fn the_longest_hostile_chains() {
    for hostile in lxt_generate::hostile_chains(16_777_216) {
        let name = &hostile.case.origin;
        let file = &hostile.case.bytes;
        let judged = lxt::judge(file).map(|_| ()).map_err(|it| it.number());
        assert_eq!(Some(judged), hostile.case.expected, "{name}");
        let pairs = hostile.pending.iter().enumerate();
        let pairs = pairs.map(|(number, offset)| lxt::Pair {
            number: number as u32,
            offset: *offset,
        });
        let mut pairs = Vec::from_iter(pairs);
        let carried = lxt::carry_on(file, &mut pairs, 64, &mut [0; 128]);
        let carried = carried.map(|_| ()).map_err(|it| it.number());
        assert_eq!(carried, hostile.carried_on, "{name}");
    }
}
