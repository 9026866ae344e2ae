//! The files made for judging fast, checked with the reference reader: each reaches what it is made for.

use std::collections::BTreeMap;

use lxt_generate::*;
use lxt_reference as reader;
use lxt_reference::{Fault, Tables};
use met::Met;

#[allow(dead_code)]
mod met;

fn answer(bytes: &[u8]) -> u8 {
    reader::judge(bytes).err().unwrap_or(0)
}

/// Files of a making with what the reader answers, which is what the making settles where it does.
fn files(make: fn(u64) -> Case, seeds: u64) -> impl Iterator<Item = (Case, u8)> {
    (0..seeds).map(move |seed| {
        let case = make(seed);
        let found = answer(&case.bytes);
        if let Some(expected) = case.expected {
            let expected = expected.err().unwrap_or(0);
            assert_eq!(found, expected, "seed {seed}: {}", case.origin);
        }
        (case, found)
    })
}

/// The spans of all changes of all roots, by rising start.
fn spans(tables: &Tables) -> Vec<(usize, usize)> {
    let downwards = tables.downwards();
    let roots = (0..tables.facilities()).filter(|it| tables.is_root(*it));
    let spans = roots.flat_map(|root| downwards.spans(root, tables.sync(root)));
    let mut spans: Vec<_> = spans
        .map(|(start, end)| (start as usize, end as usize))
        .collect();
    spans.sort_unstable();
    spans
}

/// Which side of an edge an offset lies on, if it is next to one.
fn at_edge(offset: usize) -> Option<&'static str> {
    match (offset + 1) % WINDOW {
        0 => Some("one below an edge"),
        1 if offset > 0 => Some("at an edge"),
        2 if offset > 1 => Some("one above an edge"),
        _ => None,
    }
}

/// Changes touch and share bytes in all ways, next to edges and elsewhere.
#[test]
fn changes_meet_at_edges_and_elsewhere() {
    let mut met = Met::default();
    for (case, found) in files(edges, 6_000) {
        met.meet(format!("{}: {found}", case.origin), true);
        let tables = Tables::new(&case.bytes).expect("sound tables");
        let spans = spans(&tables);
        for span in &spans {
            if let Some(edge) = at_edge(span.0) {
                met.meet(format!("start {edge}, {found}"), true);
            }
            if let Some(edge) = at_edge(span.1) {
                met.meet(format!("end {edge}, {found}"), true);
            }
            let edges = (span.1 - 1) / WINDOW - span.0 / WINDOW;
            met.meet(format!("over one edge, {found}"), edges == 1);
            met.meet(format!("over two edges, {found}"), edges >= 2);
        }
        for pair in spans.windows(2) {
            let (lower, upper) = (pair[0], pair[1]);
            let shared = lower.1.saturating_sub(upper.0);
            let how = match shared {
                0 if lower.1 == upper.0 => "touch",
                1 => "share one byte",
                2 => "share two bytes",
                0 => continue,
                _ => {
                    met.meet("share more", true);
                    continue;
                }
            };
            let place = at_edge(upper.0).unwrap_or("elsewhere");
            met.meet(format!("{how}, {place}"), true);
            let length = lower.1 - lower.0;
            met.meet(format!("{how}, over 2,000 bytes"), length > 2_000);
            if shared != 1 {
                met.meet(format!("{how}, over 8,192 bytes"), length > WINDOW);
                met.meet(format!("{how}, over 16,384 bytes"), length > 2 * WINDOW);
            }
        }
        let end = tables.end() as usize;
        met.meet("T next to an edge", at_edge(end).is_some());
        met.meet("many windows", end > 5 * WINDOW);
    }
    met.least(10);
}

/// The fault of each root, and the offset of the change that has it.
fn faults(tables: &Tables) -> Vec<Option<(Fault, u32)>> {
    let downwards = tables.downwards();
    let of = |root: usize| {
        let start = tables.sync(root);
        let (sound, fault) = downwards.sound_part(root, start);
        let below = |offset: &u32| {
            // The previous offset of the lowest sound change is that of the one at fault.
            let others = 0..tables.facilities();
            let chains = others.map(|other| downwards.sound_part(other, tables.sync(other)).0);
            let mut chains = chains.filter(|chain| chain.contains(offset));
            chains.find_map(|chain| {
                let place = chain.iter().position(|it| it == offset)?;
                chain.get(place + 1).copied()
            })
        };
        let at = match sound.last() {
            None => Some(start),
            Some(lowest) => below(lowest),
        };
        fault.map(|fault| (fault, at.unwrap_or(0)))
    };
    (0..tables.facilities()).map(of).collect()
}

/// Faults of a first, a middle and a last root, of every kind and width, of changes that other roots pass;
/// and files where the order of the roots decides.
#[test]
fn chains_join_and_some_roots_are_at_fault() {
    let mut met = Met::default();
    for (case, found) in files(joined, 6_000) {
        let tables = Tables::new(&case.bytes).expect("sound tables");
        let n = tables.facilities();
        if found == 0 {
            continue;
        }
        met.meet(format!("refused {found}"), true);
        // Short ones tell enough.
        if n > 60 {
            met.meet(format!("{found} of many roots"), true);
            continue;
        }
        let downwards = tables.downwards();
        let faults = faults(&tables);
        let at_fault: Vec<usize> = (0..n).filter(|it| faults[*it].is_some()).collect();
        let chains: Vec<_> = (0..n)
            .map(|root| downwards.sound_part(root, tables.sync(root)).0)
            .collect();
        let mut steps = chains.iter().flat_map(|chain| chain.windows(2));
        let far = WINDOW as u32;
        let over_edge = steps.any(|step| step[0] / far != step[1] / far && step[0] - step[1] < 99);
        met.meet(format!("{found} with a short step over an edge"), over_edge);
        let Some(first) = at_fault.first().copied() else {
            let tops = chains.iter().filter_map(|chain| chain.first());
            let same_top = tops.clone().all(|top| Some(top) == tops.clone().next());
            let lowest = chains.iter().filter_map(|chain| chain.last());
            let same_last = lowest.clone().all(|it| Some(it) == lowest.clone().next());
            met.meet("17 of one sync entry", found == 17 && same_top);
            met.meet(
                "17 of one lowest change",
                found == 17 && same_last && !same_top,
            );
            continue;
        };
        let (fault, at) = faults[first].expect("a fault");
        assert_eq!(fault.number(), found, "{}", case.origin);
        let facts = downwards.facts(first);
        let kind = match (facts.kind, facts.width) {
            (reader::Kind::Bits, 1..=8) => "narrow bits".to_string(),
            (reader::Kind::Bits, 9..=999) => "bits".to_string(),
            (reader::Kind::Bits, _) => "wide bits".to_string(),
            (kind, _) => format!("{kind:?}"),
        };
        met.meet(format!("{found} by {kind}"), true);
        met.meet(format!("{found} by the first root"), first == 0);
        met.meet(format!("{found} by the last root"), first == n - 1 && n > 1);
        met.meet(
            format!("{found} by a root between"),
            first > 0 && first < n - 1,
        );
        met.meet(format!("{found} by one root alone"), at_fault.len() == 1);
        let passes = |root: usize| chains[root].contains(&at) && at != 0;
        met.meet(
            format!("{found} by a change that roots before pass"),
            (0..first).any(passes),
        );
        met.meet(
            format!("{found} by a change that roots after pass"),
            (first..n).any(passes),
        );
        met.meet(
            format!("{found} at the sync entry"),
            chains[first].is_empty(),
        );
        met.meet(format!("{found} far below"), chains[first].len() >= 5);
        let others = at_fault.iter().filter_map(|it| faults[*it]);
        let other_number = others.clone().any(|it| it.0.number() != found);
        met.meet(format!("{found} by the order of roots"), other_number);
    }
    met.least(20);
    met.least_of("refused 15", 1_000);
    met.least_of("refused 16", 1_000);
    met.least_of("refused 17", 1_000);
}

/// 4-bit values over each other, sound and with one code above 8.
#[test]
fn codes_over_each_other() {
    let mut met = Met::default();
    for (case, found) in files(codes, 6_000) {
        met.meet(format!("{}: {found}", case.origin), true);
        let tables = Tables::new(&case.bytes).expect("sound tables");
        let downwards = tables.downwards();
        let widths = (0..tables.facilities()).map(|root| downwards.facts(root).width);
        let widths = Vec::from_iter(widths);
        met.meet(
            format!("odd widths, {found}"),
            widths.iter().any(|it| it % 2 == 1),
        );
        if found > 0 {
            met.meet(
                format!("wide ones, {found}"),
                widths.iter().any(|it| *it > 4_000),
            );
        }
        let (widest, narrowest) = (widths.iter().max(), widths.iter().min());
        let (widest, narrowest) = (widest.expect("a root"), narrowest.expect("a root"));
        if found > 0 {
            met.meet(
                format!("wide and narrow, {found}"),
                *widest > 20 * *narrowest,
            );
        }
        let over_edge = |span: &(usize, usize)| span.0 / WINDOW != (span.1 - 1) / WINDOW;
        if found > 0 {
            let spans = spans(&tables);
            met.meet(
                format!("over an edge, {found}"),
                spans.iter().any(over_edge),
            );
        }
        // A fault that only the widest root has.
        let fault = |root: usize| downwards.chain(root, tables.sync(root)).err();
        let faults = Vec::from_iter((0..widths.len()).map(fault));
        let count = faults.iter().flatten().count();
        met.meet("16 by one root of several", count == 1 && widths.len() > 1);
        met.meet(
            "16 by a root but the first",
            count > 0 && faults[0].is_none(),
        );
        let all_codes = faults.iter().flatten().all(|it| *it == Fault::CodeAbove8);
        assert!(all_codes, "{}", case.origin);
    }
    met.least(50);
}

#[test]
fn aliases_lead_to_roots_or_not() {
    let mut met = Met::default();
    for (case, found) in files(aliases, 4_000) {
        met.meet(format!("{}: {found}", case.origin), true);
        if let Ok(judged) = reader::Judged::new(&case.bytes) {
            let n = judged.summary().facilities;
            let root = |facility| judged.root(facility).expect("a root");
            let far = (0..n).filter(|it| root(*it).abs_diff(*it) > 100).count();
            met.meet("far from its root", far > 0);
            met.meet(
                "one root of many",
                n > 20 && (0..n).all(|it| root(it) == root(0)),
            );
        }
    }
    met.least(5);
    met.least_of("aliases Upwards, a ring of all: 12", 40);
    met.least_of("aliases Downwards, a ring of all: 12", 40);
}

/// What records can point to in a file.
fn landmarks(tables: &Tables) -> Landmarks {
    let downwards = tables.downwards();
    let roots = Vec::from_iter((0..tables.facilities()).map(|it| tables.is_root(it)));
    let chain = |facility: usize| match roots[facility] {
        true => downwards.sound_part(facility, tables.sync(facility)).0,
        false => Vec::new(),
    };
    Landmarks {
        end: tables.end(),
        chains: (0..roots.len()).map(chain).collect(),
        roots,
    }
}

/// Every sort of record is carried on with and refused as 20, in files of every making.
#[test]
fn records_of_every_sort_are_sound_and_not() {
    for make in [edges as fn(u64) -> Case, joined, codes, case] {
        let mut met = Met::default();
        for seed in 0..1_200 {
            let case = make(seed);
            let Ok(tables) = Tables::new(&case.bytes) else {
                continue;
            };
            let landmarks = landmarks(&tables);
            let mut random = Random::new(seed);
            for pending in Pending::ALL {
                if let Some(record) = record(&mut random, &landmarks, pending) {
                    let rest = tables.downwards().rest(&record);
                    met.meet(format!("{pending:?} refused"), rest.is_err());
                    met.meet(format!("{pending:?} carried on"), rest.is_ok());
                }
            }
        }
        println!("{:?}", met.0);
        for pending in Pending::ALL {
            // Own chains are sound; an alias has none; and not every making has aliases.
            match pending {
                Pending::OwnChain => met.least_of("OwnChain carried on", 500),
                Pending::OfAnAlias => {}
                _ => {
                    met.least_of(&format!("{pending:?} refused"), 10);
                    met.least_of(&format!("{pending:?} carried on"), 10);
                }
            }
        }
    }
}

/// A hostile file's answers, judged and carried on with, which are those it is made for.
fn answers(hostile: &Hostile, total: usize) -> (u8, u8) {
    let name = &hostile.case.origin;
    let file = &hostile.case.bytes;
    assert_eq!(file.len(), total, "{name}");
    let judged = answer(file);
    let expected = hostile.case.expected.expect("an answer");
    assert_eq!(judged, expected.err().unwrap_or(0), "{name}");
    let mut offsets = hostile.pending.clone();
    let mut numbers = Vec::from_iter(0..offsets.len() as u32);
    let mut output = [0; 128];
    let carried = reader::carry_on(file, &mut numbers, &mut offsets, &mut output, 64);
    assert_eq!(carried.map(|_| ()), hostile.carried_on, "{name}");
    (judged, carried.err().unwrap_or(0))
}

#[test]
fn hostile_chains_are_as_made() {
    for total in [20_000, 65_536, 100_000] {
        let mut counts: BTreeMap<(u8, u8), u32> = BTreeMap::new();
        for hostile in hostile_chains(total) {
            *counts.entry(answers(&hostile, total)).or_default() += 1;
        }
        println!("{total}: {counts:?}");
        for answers in [(0, 0), (12, 12), (16, 20), (17, 0)] {
            assert!(counts[&answers] >= 2, "{counts:?}");
        }
    }
}

/// Those of the longest file, but where the reader reads one chain for thousands of forms.
#[test]
#[ignore = "takes half a minute"]
fn the_longest_hostile_chains_are_as_made() {
    let files = hostile_chains(16_777_216).filter(|hostile| !hostile.many_forms);
    let answers = Vec::from_iter(files.map(|hostile| answers(&hostile, 16_777_216)));
    assert!(answers.len() >= 20, "{answers:?}");
}
