//! Chains that cost much where roots share them, run over each other, or are at fault at the bottom only.

use super::{bottom, case, padded, room, set_sync, tables, widest_sharing};
use crate::aliases::{alias_line, Shape};
use crate::draft::{change_bytes, Draft};
use crate::random::Random;
use crate::tables::{alias, bits, Geometry, INTEGER, REAL, TEXT};
use crate::Case;

/// A hostile file and a record that leads all roots into its chains.
pub struct Hostile {
    /// The file, and what judging answers.
    pub case: Case,
    /// The pending offset of each facility.
    pub pending: Vec<u32>,
    /// What carrying on with that record answers.
    pub carried_on: Result<(), u8>,
    /// Whether so many forms of roots share a chain that a reader which remembers the last form takes long.
    pub many_forms: bool,
}

/// Which of the roots is at fault at the bottom, alone.
#[derive(Clone, Copy, PartialEq, Eq)]
enum AtFault {
    First,
    Middle,
    Last,
    Nobody,
}

impl AtFault {
    fn root(self, n: usize) -> usize {
        match self {
            AtFault::First => 0,
            AtFault::Middle => n / 2,
            AtFault::Last => n - 1,
            AtFault::Nobody => n,
        }
    }

    fn name(self) -> &'static str {
        match self {
            AtFault::First => "the first root at fault",
            AtFault::Middle => "the middle root at fault",
            AtFault::Last => "the last root at fault",
            AtFault::Nobody => "no root at fault",
        }
    }

    /// What judging and carrying on answer.
    fn answers(self) -> [Result<(), u8>; 2] {
        match self {
            AtFault::Nobody => [Err(17), Ok(())],
            _ => [Err(16), Err(20)],
        }
    }
}

/// As many facilities as leave half of a small file for changes.
fn most_facilities(total: usize) -> usize {
    (total / 46).min(4_096)
}

/// How the name of a file tells the number of its facilities.
fn counted(n: usize) -> String {
    match n {
        1_000.. => format!("{},{:03}", n / 1_000, n % 1_000),
        _ => n.to_string(),
    }
}

/// A file whose roots start at these offsets; the record does, too.
fn with_starts(
    name: String,
    mut draft: Draft,
    starts: &[usize],
    [judged, carried_on]: [Result<(), u8>; 2],
    many_forms: bool,
) -> Hostile {
    for (root, start) in starts.iter().enumerate() {
        set_sync(&mut draft, root, *start);
    }
    Hostile {
        case: case(name, draft.bytes(), judged),
        pending: starts.iter().map(|start| *start as u32).collect(),
        carried_on,
        many_forms,
    }
}

/// Bytes again and again up to `rest` bytes before the end that `total` leaves; then zeros. Gives where each
/// repetition starts.
fn repeat(draft: &mut Draft, total: usize, bytes: &[u8], rest: usize) -> Vec<usize> {
    let from = draft.end();
    let room = room(draft, total);
    let count = room.saturating_sub(rest) / bytes.len();
    for _ in 0..count {
        draft.body.extend_from_slice(bytes);
    }
    draft.body.resize(from + room, 0);
    (0..count).map(|place| from + place * bytes.len()).collect()
}

/// A chain of steps of two bytes, by one command, above a bottom. Gives all its offsets, the lowest first.
fn two_byte_chain(
    draft: &mut Draft,
    total: usize,
    low: usize,
    command: u8,
    rest: usize,
) -> Vec<usize> {
    let first = draft.end();
    draft.append(&change_bytes(first, low, command, 1, &[]));
    let mut offsets = vec![low, first];
    offsets.extend(repeat(draft, total, &[command, 0], rest));
    offsets
}

/// `n` places evenly over a list, from its last to its first.
fn evenly(list: &[usize], n: usize) -> Vec<usize> {
    (0..n)
        .map(|root| list[list.len() - 1 - root * (list.len() - 1) / n])
        .collect()
}

// ---- One chain ----

fn different_places(total: usize) -> Hostile {
    let n = most_facilities(total);
    let mut draft = tables(&vec![bits(1); n]);
    let low = bottom(&mut draft, 0x03, &[]);
    let chain = two_byte_chain(&mut draft, total, low, 0x00, 8);
    let name = format!("one chain, joined at {} places", counted(n));
    with_starts(name, draft, &evenly(&chain, n), [Err(17), Ok(())], false)
}

/// Accepted: only the first root has the chain, but the record leads all to it.
fn record_on_one_chain(total: usize) -> Hostile {
    let n = most_facilities(total);
    let forms: Vec<Geometry> = (1..=n as u32).map(bits).collect();
    let mut draft = tables(&forms);
    let low = bottom(&mut draft, 0x03, &[]);
    let chain = two_byte_chain(&mut draft, total, low, 0x04, 0);
    let name = format!("one root's chain, a record of {} on it", counted(n));
    let starts = evenly(&chain, n);
    let mut file = with_starts(name, draft.clone(), &starts, [Ok(()), Ok(())], true);
    set_sync(&mut draft, 0, starts[0]);
    file.case.bytes = draft.bytes();
    file
}

fn every_width(total: usize) -> Hostile {
    let n = most_facilities(total);
    let bytes = widest_sharing(total, n as u32);
    let draft = tables(&vec![bits(1); n]);
    let at = draft.sync_at(0);
    let start = u32::from_be_bytes([bytes[at], bytes[at + 1], bytes[at + 2], bytes[at + 3]]);
    Hostile {
        case: case(
            format!("one chain, widths 1 to {}", counted(n)),
            bytes,
            Err(17),
        ),
        pending: vec![start; n],
        carried_on: Ok(()),
        many_forms: true,
    }
}

/// 4-bit values of every width on one chain; the lowest has a code above 8 for the widest root alone.
fn every_width_of_codes(total: usize, at_fault: AtFault) -> Hostile {
    let n = most_facilities(total);
    let mut widths: Vec<u32> = (1..=n as u32).collect();
    if at_fault == AtFault::First {
        widths.reverse();
    }
    let mut draft = tables(&widths.iter().map(|it| bits(*it)).collect::<Vec<_>>());
    let low = draft.end();
    let mut data = vec![0x88; n.div_ceil(2)];
    if at_fault != AtFault::Nobody {
        data[(n - 1) / 2] |= if n.is_multiple_of(2) { 0x0F } else { 0xF0 };
    }
    draft.append(&change_bytes(low, 0, 0x02, 4, &data));
    let link = draft.end();
    draft.append(&change_bytes(link, low, 0x03, 2, &[]));
    let chain = two_byte_chain(&mut draft, total, link, 0x02, 2_050);
    let name = format!(
        "one chain of 4-bit values, widths 1 to {}, {}",
        counted(n),
        at_fault.name()
    );
    let start = chain[chain.len() - 1];
    with_starts(name, draft, &vec![start; n], at_fault.answers(), true)
}

/// Forms of all four kinds with a single integer, for which alone a 2-bit value is no change.
fn four_kinds(n: usize, at_fault: AtFault) -> Vec<Geometry> {
    let form = |root: usize| match root % 3 {
        _ if root == at_fault.root(n) => INTEGER,
        0 => bits(1 + (root % 4_096) as u32),
        1 => REAL,
        _ => TEXT,
    };
    (0..n).map(form).collect()
}

fn one_chain_of_all_kinds(total: usize, at_fault: AtFault) -> Hostile {
    let n = most_facilities(total);
    let mut draft = tables(&four_kinds(n, at_fault));
    let low = bottom(&mut draft, 0x01, &[0; 8]);
    let chain = two_byte_chain(&mut draft, total, low, 0x04, 2_050);
    let name = format!(
        "all kinds on one chain, {} roots, {}",
        counted(n),
        at_fault.name()
    );
    with_starts(name, draft, &evenly(&chain, n), at_fault.answers(), true)
}

// ---- Many chains ----

/// Rounds of changes of three bytes, one of each root in turn, above the lowest change of each root. Gives the
/// newest of each.
fn rounds(
    draft: &mut Draft,
    total: usize,
    lowest: &[usize],
    command: u8,
    rest: usize,
) -> Vec<usize> {
    let n = lowest.len();
    for low in lowest {
        let offset = draft.end();
        draft.append(&change_bytes(offset, *low, command, 2, &[]));
    }
    let step = change_bytes(3 * n, 0, command, 2, &[]);
    let first = draft.end() - 3 * n;
    let above = repeat(draft, total, &step, rest);
    let newest = first + 3 * (n + above.len() - 1);
    (0..n)
        .map(|root| newest - (newest - first - 3 * root) % (3 * n))
        .collect()
}

/// Each root's own chain, of changes without data that lie apart; all of them end in one change.
fn chains_apart(total: usize, at_fault: AtFault) -> Hostile {
    let n = most_facilities(total);
    let form = |root: usize| match root == at_fault.root(n) {
        true => INTEGER,
        false => bits(1 + root as u32),
    };
    let mut draft = tables(&Vec::from_iter((0..n).map(form)));
    let low = bottom(&mut draft, 0x01, &vec![0; n.div_ceil(4)]);
    let starts = rounds(&mut draft, total, &vec![low; n], 0x04, 0);
    let name = format!(
        "chains apart that join at the bottom, {} roots, {}",
        counted(n),
        at_fault.name()
    );
    with_starts(name, draft, &starts, at_fault.answers(), false)
}

/// Each root's own chain, and all of them end in one change.
fn chains_of_all_kinds(total: usize, at_fault: AtFault) -> Hostile {
    let n = most_facilities(total);
    let mut draft = tables(&four_kinds(n, at_fault));
    let low = bottom(&mut draft, 0x01, &[0; 8]);
    let starts = rounds(&mut draft, total, &vec![low; n], 0x04, 2_050);
    let name = format!(
        "chains of all kinds that join at the bottom, {} roots, {}",
        counted(n),
        at_fault.name()
    );
    with_starts(name, draft, &starts, at_fault.answers(), false)
}

/// Each root's own chain; all changes touch, and in their lowest ones two of them may share a byte.
fn touching(total: usize, n: usize, shared: bool) -> Hostile {
    let mut draft = tables(&vec![bits(1); n]);
    // The lowest delta byte of the first is the command byte of the second.
    while (draft.end() - 2) % 256 != 0x33 {
        draft.append(&[0]);
    }
    let first = bottom(&mut draft, 0x03, &[]);
    if shared {
        draft.body.pop();
    }
    let mut lowest = vec![first];
    lowest.extend((1..n).map(|_| bottom(&mut draft, 0x03, &[])));
    let starts = rounds(&mut draft, total, &lowest, 0x04, 0);
    let (what, judged) = match shared {
        true => ("share a byte at the bottom", Err(17)),
        false => ("touch", Ok(())),
    };
    let name = format!("{} chains that {what}", counted(n));
    with_starts(name, draft, &starts, [judged, Ok(())], false)
}

/// Each root's own chain, of values that all run over each other.
fn overlapping_rounds(total: usize) -> Hostile {
    let n = most_facilities(total);
    let mut draft = tables(&vec![bits(4_096); n]);
    let lowest: Vec<usize> = (0..n).map(|_| bottom(&mut draft, 0x03, &[])).collect();
    let starts = rounds(&mut draft, total, &lowest, 0x00, 520);
    let name = format!("{} chains over each other", counted(n));
    with_starts(name, draft, &starts, [Err(17), Ok(())], false)
}

/// The bottoms of as many chains as the stride, links down to them, and bytes above which equal bytes, each 2
/// less than the stride, are changes at every offset. Gives that byte.
fn below_equal_bytes(draft: &mut Draft, stride: usize) -> u8 {
    let lowest: Vec<usize> = (0..stride).map(|_| bottom(draft, 0x03, &[])).collect();
    for low in lowest {
        let offset = draft.end();
        draft.append(&change_bytes(offset, low, 0x03, 1, &[]));
    }
    let byte = stride as u8 - 2;
    draft.append(&[byte]);
    // Deltas to the links, which are two bytes apart.
    for place in 0..stride {
        draft.append(&[(2 * stride - place - 2) as u8]);
    }
    byte
}

/// Equal bytes are changes at every offset: as many chains as the stride, which share no offset.
fn equal_bytes(total: usize, stride: usize) -> Hostile {
    let mut draft = tables(&vec![bits(64); stride]);
    let byte = below_equal_bytes(&mut draft, stride);
    let room = room(&draft, total);
    draft.append(&vec![byte; room]);
    let top = draft.end() - 40;
    let starts: Vec<usize> = (0..stride).map(|root| top - root).collect();
    let name = format!("{stride} chains of stride {stride} over each other");
    with_starts(name, draft, &starts, [Err(17), Ok(())], false)
}

/// Changes at every offset on chains of a large stride, by bytes 10, which share no offset. Below they lead
/// to two chains of zeros, whose lowest changes have commands that integers have not.
fn every_offset(total: usize, at_fault: AtFault) -> Hostile {
    let stride = 0x1010 + 2;
    let n = most_facilities(total);
    let form = |root: usize| match root == at_fault.root(n) {
        true => INTEGER,
        false => bits(64),
    };
    let mut draft = tables(&Vec::from_iter((0..n).map(form)));
    let zero = below_equal_bytes(&mut draft, 2);
    draft.append(&vec![zero; stride]);
    let room = room(&draft, total);
    draft.append(&vec![0x10; room]);
    let top = draft.end() - 40;
    let starts: Vec<usize> = (0..n).map(|root| top - root).collect();
    let name = format!(
        "a change at every offset, {} chains of stride 4,114, {}",
        counted(n),
        at_fault.name()
    );
    with_starts(name, draft, &starts, at_fault.answers(), false)
}

/// Each chain has the double stride of the one before; their values run over each other.
fn doubled_strides(total: usize) -> Hostile {
    let n = (total / 40).ilog2() as usize;
    let mut draft = tables(&vec![bits(64); n]);
    let mut newest = vec![0; n];
    let end = draft.end() + room(&draft, total);
    let mut place: usize = 1;
    while draft.end() + 5 + 8 <= end {
        let root = (place.trailing_zeros() as usize).min(n - 1);
        let offset = draft.end();
        draft.append(&change_bytes(offset, newest[root], 0x00, 4, &[]));
        newest[root] = offset;
        place += 1;
    }
    draft.body.resize(end, 0);
    let name = format!("{n} chains of doubled strides over each other");
    with_starts(name, draft, &newest, [Err(17), Ok(())], false)
}

// ---- Codes ----

/// Bytes from one wide value to the next: a delta of 0x1000 and 2.
const BLOCK: usize = 0x1002;

/// Wide 4-bit values with gaps between them, and narrow ones every six bytes over all of it. Codes in the gaps
/// are up to 8 or above; the lowest wide value may have one above 8 near its end.
fn wide_and_narrow(total: usize, good_gaps: bool, at_fault: AtFault) -> Hostile {
    let n = most_facilities(total);
    let wide = |root: usize| root.is_multiple_of(2) || root == at_fault.root(n);
    let form = |root: usize| match wide(root) {
        // The last bytes are those of the width 4,096 alone.
        true if root == at_fault.root(n) => bits(4_096),
        true => bits(4_080),
        false => bits(1 + u32::from(root > n / 2)),
    };
    let mut draft = tables(&(0..n).map(form).collect::<Vec<_>>());
    let lowest = [0x03, 0x03].map(|command| bottom(&mut draft, command, &[]));
    let gap = if good_gaps { 0x88 } else { 0x9F };
    let mut block = vec![0x88; BLOCK];
    for (at, byte) in block.iter_mut().enumerate() {
        let data_of_narrow = at.is_multiple_of(6);
        if at >= 3 + 2_048 && !data_of_narrow {
            *byte = gap;
        }
        match at % 6 {
            4 => *byte = 0x02,
            5 => *byte = 0x04,
            _ => {}
        }
    }
    block[..3].copy_from_slice(&[0x12, 0x10, 0x00]);
    let first = draft.end();
    let blocks = repeat(&mut draft, total, &block, 2_060);
    // The lowest of both chains lead to the bottoms.
    draft.set(first, &change_bytes(first, lowest[0], 0x02, 2, &[]));
    draft.set(first + 4, &change_bytes(first + 4, lowest[1], 0x02, 1, &[]));
    if at_fault != AtFault::Nobody {
        // Behind 4,080 codes, and no byte of a narrow one.
        draft.set(first + 2_047, &[0x8F]);
    }
    let newest = [
        blocks[blocks.len() - 1],
        blocks[blocks.len() - 1] + BLOCK - 2,
    ];
    let starts = (0..n).map(|root| newest[usize::from(!wide(root))]);
    let gaps = if good_gaps { "good" } else { "bad" };
    let name = format!(
        "wide and narrow 4-bit values, gaps of {gaps} codes, {} roots, {}",
        counted(n),
        at_fault.name()
    );
    let starts = Vec::from_iter(starts);
    with_starts(name, draft, &starts, at_fault.answers(), false)
}

// ---- Aliases ----

fn alias_lines(total: usize, shape: Shape, ring: bool) -> Hostile {
    let n = ((total - 200) / 23).min(4_096);
    let mut geometry = alias_line(shape, n, &mut Random::new(1));
    let is_root = |form: &Geometry| form[3] == 0;
    let root = geometry.iter().position(is_root).unwrap_or(0);
    if ring {
        geometry[root] = alias(n - 1 - root);
    }
    let mut draft = tables(&geometry);
    let mut pending = vec![0; n];
    pending[root] = draft.append_change(root, 0x03, 1, &[]) as u32;
    let each = match shape {
        Shape::Upwards => "the next",
        Shape::Downwards => "the one before",
        _ => "any other",
    };
    let (end, answer) = match ring {
        true => ("a ring", Err(12)),
        false => ("one root", Ok(())),
    };
    let name = format!("{} facilities, each an alias of {each}, {end}", counted(n));
    Hostile {
        case: case(name, padded(&draft, total), answer),
        pending,
        carried_on: answer,
        many_forms: false,
    }
}

/// The files of so many bytes, each made when it is asked for.
pub fn hostile_chains(total: usize) -> impl Iterator<Item = Hostile> {
    use AtFault::{First, Last, Middle, Nobody};
    let makers: Vec<fn(usize) -> Hostile> = vec![
        different_places,
        record_on_one_chain,
        every_width,
        |total| every_width_of_codes(total, Nobody),
        |total| every_width_of_codes(total, First),
        |total| every_width_of_codes(total, Last),
        |total| one_chain_of_all_kinds(total, Nobody),
        |total| one_chain_of_all_kinds(total, First),
        |total| one_chain_of_all_kinds(total, Middle),
        |total| one_chain_of_all_kinds(total, Last),
        |total| chains_of_all_kinds(total, Nobody),
        |total| chains_of_all_kinds(total, First),
        |total| chains_of_all_kinds(total, Middle),
        |total| chains_of_all_kinds(total, Last),
        |total| chains_apart(total, Nobody),
        |total| chains_apart(total, First),
        |total| chains_apart(total, Last),
        |total| touching(total, 2, false),
        |total| touching(total, most_facilities(total), false),
        |total| touching(total, 2, true),
        |total| touching(total, most_facilities(total), true),
        overlapping_rounds,
        |total| equal_bytes(total, 2),
        |total| equal_bytes(total, 3),
        |total| equal_bytes(total, 4),
        |total| equal_bytes(total, 5),
        |total| equal_bytes(total, 6),
        |total| every_offset(total, Nobody),
        |total| every_offset(total, First),
        |total| every_offset(total, Middle),
        |total| every_offset(total, Last),
        doubled_strides,
        |total| wide_and_narrow(total, true, Nobody),
        |total| wide_and_narrow(total, false, Nobody),
        |total| wide_and_narrow(total, false, First),
        |total| wide_and_narrow(total, false, Last),
        |total| alias_lines(total, Shape::Upwards, false),
        |total| alias_lines(total, Shape::Downwards, false),
        |total| alias_lines(total, Shape::AnyOrder, false),
        |total| alias_lines(total, Shape::Upwards, true),
        |total| alias_lines(total, Shape::Downwards, true),
    ];
    makers.into_iter().map(move |make| make(total))
}
