//! All calls about generated files, with each lent slice a piece of the heap of exactly its size, to be
//! run under a memory checker:
//!
//! ```text
//! cargo build --release --offline -p lxt-compare
//! valgrind --error-exitcode=1 target/release/exact FILES [SEED]
//! ```

use lxt::{Item, Pair};
use lxt_compare::walk::landmarks;
use lxt_generate::{record, Pending, Random};
use lxt_reference::{Judged, Tables};

/// A piece of the heap of exactly so many items.
fn exact<T: Clone>(item: T, count: usize) -> Box<[T]> {
    vec![item; count].into_boxed_slice()
}

/// Makes all calls about a file and gives how many.
fn all_calls(file: &[u8]) -> u64 {
    let file: Box<[u8]> = file.into();
    let judged = Judged::new(&file);
    let chains = judged.as_ref().map(Judged::chains).unwrap_or_default();
    let n = chains.len();
    assert_eq!(lxt::judge(&file).is_ok(), judged.is_ok());
    let stray = lxt::stray_bytes(&file).map_err(|refusal| refusal.number());
    let expected = judged.as_ref().map(Judged::stray_bytes);
    assert_eq!(stray, expected.map_err(|number| *number));
    let mut calls = 2;
    for facility in [0, n / 2, n.saturating_sub(1), n] {
        let facility = facility as u32;
        let facts = lxt::facts(&file, facility);
        let root = lxt::root(&file, facility);
        assert_eq!(facts.is_ok(), (facility as usize) < n);
        for room in [1_022, lxt::NAME_ROOM] {
            let _ = lxt::name(&file, facility, &mut exact(0, room));
        }
        let width = facts.map_or(8, |facts| facts.width as usize);
        let chain = root.map_or(&[][..], |root| &chains[root as usize]);
        let some = [Some(&5), chain.first(), chain.last()];
        for offset in some.into_iter().flatten() {
            let _ = lxt::change_before(&file, facility, *offset);
            for room in [width.saturating_sub(1), width] {
                let read = lxt::change(&file, facility, *offset, &mut exact(0, room));
                let time = read.map_or(i64::MIN, |read| read.time);
                let lookup = lxt::value_at(&file, facility, time, &mut exact(0, room));
                let expected = judged.as_ref().map_err(|number| *number);
                let expected =
                    expected.and_then(|it| it.value_at(facility, time, &mut exact(0, room)));
                assert_eq!(
                    lookup.map(|it| it.visited).map_err(|it| it.number()),
                    expected.map(|it| it.visited)
                );
                calls += 2;
            }
            calls += 1;
        }
        calls += 4 + texts(&file, &judged, facility, chain);
    }
    for count in [n.saturating_sub(1), n] {
        let mut pairs = exact(Pair::default(), count);
        let _ = lxt::start_walk(&file, &exact(1, count), &mut pairs);
        for (size, room) in [(2, 3), (1, 2), (0, 0), (500, 1_000)] {
            let _ = lxt::carry_on(&file, &mut pairs, size, &mut exact(0, room));
            calls += 1;
        }
        calls += 1;
    }
    calls + columns(&file, &judged) + made_records(&file)
}

/// Asks for columns of nothing, of all facilities, of some with repeats, with a number that is not below n, and of too
/// many numbers, each with the room that it needs, a byte less and an item less; and gives how many calls that is.
fn columns(file: &[u8], judged: &Result<Judged, u8>) -> u64 {
    let judged = judged.as_ref().map_err(|number| *number);
    let n = judged.map_or(1, |it| it.summary().facilities);
    let some = [0, n / 2, n.saturating_sub(1), n / 2, 0].map(|it| it.min(n));
    let all = Vec::from_iter(0..n);
    let mut calls = 0;
    for list in [&[][..], &all, &some, &[0, n, 0], &[0; 4_097]] {
        let list: Box<[u32]> = list.into();
        let width = |facility: &u32| judged.and_then(|it| it.facts(*facility));
        let widths = list.iter().map(|it| width(it).map_or(1, |it| it.width));
        let widths = widths.sum::<u32>() as usize;
        for (less, items_less) in [(0, 0), (1, 0), (0, 1)] {
            let room = widths.saturating_sub(less);
            let items_room = list.len().saturating_sub(items_less);
            for (time, count) in [(i64::MIN, 7), (1_000, 0)] {
                let text = exact(b'?', count);
                let (mut bits, mut theirs) = (exact(0, room), exact(0, room));
                let mut items = exact(Item::default(), items_room);
                let visited = lxt::column(file, time, &list, &text, &mut bits, &mut items);
                let expected = judged.and_then(|it| {
                    let mut items = exact(None, items_room);
                    it.column(time, &list, &text, &mut theirs, &mut items)
                });
                assert_eq!(visited.map_err(|it| it.number()), expected);
                assert_eq!(bits, theirs);
                calls += 1;
            }
        }
    }
    calls
}

/// Asks for the text of a facility at its oldest change and at both ends of the range of times, and gives how many
/// calls that is.
fn texts(file: &[u8], judged: &Result<Judged, u8>, facility: u32, chain: &[u32]) -> u64 {
    let mut times = vec![i64::MIN, i64::MAX];
    if let (Ok(judged), Some(oldest)) = (judged, chain.last()) {
        let oldest = judged.change(facility, *oldest, &mut exact(0, lxt::WIDEST));
        times.extend(oldest.map(|read| read.time));
    }
    let mut calls = 0;
    for time in times {
        for count in [0, 1, 40] {
            let text = exact(b'?', count);
            let ours = lxt::text_at(file, facility, time, &text);
            let ours = ours.map(|answer| answer.bytes().len());
            let expected = judged.as_ref().map_err(|number| *number);
            let expected = expected.and_then(|it| it.text_at(facility, time, &text));
            assert_eq!(ours.map_err(|it| it.number()), expected.map(|it| it.length));
            calls += 1;
        }
    }
    calls
}

/// Carries on over records that no start wrote, where the tables are sound, and gives how many calls that is.
fn made_records(file: &[u8]) -> u64 {
    let Ok(tables) = Tables::new(file) else {
        return 0;
    };
    let landmarks = landmarks(&tables);
    let mut random = Random::new(file.len() as u64);
    let mut calls = 0;
    for pending in Pending::ALL {
        let Some(pairs) = record(&mut random, &landmarks, pending) else {
            continue;
        };
        let sound = tables.downwards().rest(&pairs).is_ok();
        let pairs = pairs.iter().map(|(number, offset)| Pair {
            number: *number,
            offset: *offset,
        });
        let mut pairs = Vec::from_iter(pairs).into_boxed_slice();
        for (size, room) in [(1, 2), (300, 600)] {
            let answer = lxt::carry_on(file, &mut pairs, size, &mut exact(0, room));
            assert_eq!(answer.is_ok(), sound);
            calls += 1;
        }
    }
    calls
}

fn main() {
    let numbers: Vec<u64> = std::env::args()
        .skip(1)
        .filter_map(|word| word.parse().ok())
        .collect();
    let files = numbers.first().copied().unwrap_or(200);
    let first = numbers.get(1).copied().unwrap_or(1 << 32);
    let mut calls = 0;
    for seed in first..first + files {
        calls += all_calls(&lxt_generate::case(seed).bytes);
    }
    println!("{files} files, {calls} calls");
}
