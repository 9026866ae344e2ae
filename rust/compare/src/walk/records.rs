//! Records by where their pending offsets lie: on one chain, within chains, beside changes, around the edges of
//! windows, on aliases.

use lxt_generate::{record, Landmarks, Pending};
use lxt_reference::Tables;

use super::{any_room, random_of, record_of, Calls, Seen};

/// What records can point to in a file whose tables are sound.
pub fn landmarks(tables: &Tables) -> Landmarks {
    let downwards = tables.downwards();
    let roots = Vec::from_iter((0..tables.facilities()).map(|it| tables.is_root(it)));
    let chain = |facility: usize| match roots[facility] {
        true => downwards.sound_part(facility, tables.sync(facility)).0,
        false => Vec::new(),
    };
    Landmarks {
        end: tables.end(),
        chains: (0..roots.len()).map(chain).collect(),
        roots,
    }
}

/// Carries on over a record of each sort: a few calls, and then to the end where it is sound.
pub fn pending_anywhere(file: &[u8], what: &str, seen: &mut Seen) {
    let Ok(tables) = Tables::new(file) else {
        return;
    };
    let landmarks = landmarks(&tables);
    let mut random = random_of(file, 4);
    let mut calls = Calls::new(file, what, seen);
    for pending in Pending::ALL {
        let Some(pairs) = record(&mut random, &landmarks, pending) else {
            continue;
        };
        let mut record = record_of(&pairs, random.below(2));
        let rest = tables.downwards().rest(&pairs);
        let all = rest.as_ref().map_or(1, Vec::len) as u32;
        for size in [random.below(4) as u32, random.below(40) as u32, all + 1] {
            let room = match size > all {
                true => 2 * size as usize,
                false => any_room(&mut random, size),
            };
            let (answer, _) = calls.carry_on(&mut record, size, room);
            assert_eq!(answer == Err(20), rest.is_err(), "{what}, {pending:?}");
            if rest.is_err() {
                break;
            }
        }
        let met = match rest {
            Err(_) => "refused 20",
            Ok(_) => "carried on",
        };
        calls.seen.meet(format!("{pending:?} {met}"));
    }
}
