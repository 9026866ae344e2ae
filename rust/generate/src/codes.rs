//! 4-bit values over each other: wide and narrow ones on shared and on different chains, with codes above 8
//! wherever no value lies.

use crate::draft::{change_bytes, Draft};
use crate::joined::{lowest_edge, BELOW_EDGE};
use crate::random::Random;
use crate::tables::{append_tables, bits, Geometry};
use crate::Case;

struct Change {
    offset: usize,
    data: usize,
    command: u8,
    below: Option<usize>,
}

/// The value of a root at a change: the bytes of the change, and the nibbles of the codes.
struct Value {
    start: usize,
    end: usize,
    codes: std::ops::Range<usize>,
}

/// Every code of a value is sound, or one is above 8: the first, the last or any of a value.
pub fn codes(seed: u64) -> Case {
    let mut random = Random::new(seed);
    let random = &mut random;
    let chains = random.within(1, 4) as usize;
    let widest = random.pick(&[5, 40, 40, 600, 4_096]);
    let mut widths = Vec::new();
    for _ in 0..random.within(1, 7) {
        let width = match random.below(3) {
            0 => random.within(1, 5),
            1 => widest - random.below(2) as u64,
            _ => random.within(1, widest),
        };
        widths.push((width as u32, random.below(chains)));
    }
    let mut draft = Draft::new(4);
    let forms: Vec<Geometry> = widths.iter().map(|it| bits(it.0)).collect();
    append_tables(&mut draft, &forms);
    let from = draft.end();
    let heads = heads(random, &mut draft, chains, widest as usize);

    let mut values = Vec::new();
    for (root, (width, chain)) in widths.iter().enumerate() {
        let starts = &heads[*chain];
        // The newest, or another of the chain.
        let start = match random.chance(1, 2) {
            true => starts.len() - 1,
            false => random.below(starts.len()),
        };
        draft.set_word(draft.sync_at(root), starts[start].offset as u32);
        let down = std::iter::successors(Some(start), |it| starts[*it].below);
        values.extend(down.map(|it| value(&starts[it], *width as usize)));
    }

    let is_head = head_nibbles(&heads, draft.end());
    let rest = values.iter().map(|it| it.end).max().unwrap_or(0);
    let rest = rest.saturating_sub(draft.end()) + random.below(4);
    draft.append(&vec![0; rest]);
    let mut covered = vec![false; 2 * draft.end()];
    for value in &values {
        covered[value.codes.clone()].fill(true);
    }
    let head = |nibble: usize| is_head.get(nibble).copied().unwrap_or(false);
    for (nibble, covered) in covered.iter().enumerate().skip(2 * from) {
        if !head(nibble) {
            let code = match covered {
                true => random.pick(&[0, 8, 8, random.clone().below(9)]),
                false if random.chance(1, 8) => random.below(16),
                false => random.within(9, 15) as usize,
            };
            set_nibble(&mut draft, nibble, code as u8);
        }
    }

    let mut bad = None;
    if random.chance(1, 2) {
        let nibble = to_spoil(random, &values);
        bad = nibble.filter(|it| covered.get(*it) == Some(&true) && !head(*it));
    }
    if let Some(nibble) = bad {
        set_nibble(&mut draft, nibble, random.within(9, 15) as u8);
    }
    values.sort_by_key(|it| (it.start, it.end));
    let shared = values.windows(2).any(|pair| pair[0].end > pair[1].start);
    let (name, expected) = match (bad, shared) {
        (Some(_), _) => ("codes, one above 8", Err(16)),
        (None, true) => ("codes over each other", Err(17)),
        (None, false) => ("codes apart", Ok(())),
    };
    Case {
        origin: name.to_string(),
        bytes: draft.bytes(),
        expected: Some(expected),
    }
}

/// A nibble of a value: the first, the last or any; or one right behind it, where another value may lie.
fn to_spoil(random: &mut Random, values: &[Value]) -> Option<usize> {
    let with_codes = values.iter().filter(|it| !it.codes.is_empty());
    let with_codes: Vec<&Value> = with_codes.collect();
    if with_codes.is_empty() {
        return None;
    }
    let codes = &with_codes[random.below(with_codes.len())].codes;
    let any = codes.start + random.below(codes.len());
    let behind = codes.end + random.below(6);
    Some(random.pick(&[codes.start, codes.end - 1, any, codes.end, behind, behind]))
}

fn set_nibble(draft: &mut Draft, nibble: usize, code: u8) {
    let shift = 4 * (1 - nibble % 2);
    let byte = draft.byte(nibble / 2) & !(0x0F << shift) | code << shift;
    draft.set(nibble / 2, &[byte]);
}

fn value(change: &Change, width: usize) -> Value {
    let symbol = [1, 2, 4].get(usize::from(change.command)).unwrap_or(&0);
    let codes = if *symbol == 4 { width } else { 0 };
    Value {
        start: change.offset,
        end: change.data + (width * symbol).div_ceil(8),
        codes: 2 * change.data..2 * change.data + codes,
    }
}

/// The command and delta bytes of chains, at rising offsets, all of codes up to 8.
fn heads(random: &mut Random, draft: &mut Draft, chains: usize, widest: usize) -> Vec<Vec<Change>> {
    let mut heads: Vec<Vec<Change>> = (0..chains).map(|_| Vec::new()).collect();
    let gaps = [0, 3, 3 + widest / 4, 3 + widest];
    let gap = random.pick(&gaps);
    let all = chains + random.below(16);
    // All but the lowest changes around the edge of a window, now and then.
    let edge = random.chance(1, 4).then(|| lowest_edge(draft));
    if let Some(edge) = edge {
        draft.body.resize(edge - BELOW_EDGE, 0);
    }
    for place in 0..all {
        if let (Some(edge), true) = (edge, place == chains) {
            // From there on more deltas are codes up to 8.
            let start = edge - 0x60 - random.below(0x70);
            draft.body.resize(start.max(draft.end()), 0);
        }
        let chain = if place < chains {
            place
        } else {
            random.below(chains)
        };
        let space = random.below(gap + 1);
        draft.append(&vec![0; space]);
        let command = random.pick(&[2, 2, 2, 2, 0, 3]);
        let k = random.pick(&[1, 1, 2, 4]);
        let below = heads[chain].len().checked_sub(1);
        let previous = below.map_or(0, |below| heads[chain][below].offset);
        loop {
            let offset = draft.end();
            let bytes = change_bytes(offset, previous, command, k, &[]);
            if bytes.iter().all(|byte| byte >> 4 <= 8 && byte & 0x0F <= 8) {
                draft.append(&bytes);
                heads[chain].push(Change {
                    offset,
                    data: offset + bytes.len(),
                    command,
                    below,
                });
                break;
            }
            draft.append(&[0]);
        }
    }
    heads
}

/// Which nibbles are those of a command or delta byte.
fn head_nibbles(heads: &[Vec<Change>], end: usize) -> Vec<bool> {
    let mut is_head = vec![false; 2 * end];
    for change in heads.iter().flatten() {
        is_head[2 * change.offset..2 * change.data].fill(true);
    }
    is_head
}
