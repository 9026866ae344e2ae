//! Damages a valid trace close to the boundary of a rule.
//!
//! Each damage makes two neighbours of a draft: one on the good side of a rule's boundary, mostly
//! accepted, and one just over it, which is refused with the rule's number.

use crate::draft::{change_bytes, least_k, Change, Draft, Kind};
use crate::random::Random;
use crate::times::{
    head_length, other_times, table_length, time_bytes, time_length, time_range, TimeTable,
    LONG_TIMES, SHORT_TIMES,
};
use crate::valid::{pack, rubbish, REAL_TEST};

/// The two sides of a boundary.
#[derive(Clone, Debug)]
pub struct Neighbours {
    pub near: Draft,
    /// What judging answers for `near`: accepted, or refused by a rule further on.
    pub near_answer: Result<(), u8>,
    pub over: Draft,
}

/// A way to damage a draft. `apply` gives none where the draft lacks what it needs.
#[derive(Clone, Copy)]
pub struct Damage {
    /// The refusal that the neighbour over the boundary is given.
    pub number: u8,
    pub name: &'static str,
    pub apply: fn(&Draft, &mut Random) -> Option<Neighbours>,
}

const fn damage(
    number: u8,
    name: &'static str,
    apply: fn(&Draft, &mut Random) -> Option<Neighbours>,
) -> Damage {
    Damage {
        number,
        name,
        apply,
    }
}

/// All damages, by refusal.
pub const DAMAGES: &[Damage] = &[
    damage(1, "fewer than 6 bytes", too_short),
    damage(2, "first bytes", first_bytes),
    damage(2, "version above 4", version),
    damage(3, "last byte", last_byte),
    damage(4, "no END from offset 4 on", no_end),
    damage(5, "compressed data", compressed),
    damage(6, "times of both kinds", both_times),
    damage(6, "sound times of both kinds", both_sound_times),
    damage(
        6,
        "times of both kinds, another absent",
        both_times_one_absent,
    ),
    damage(7, "needed tag absent by 0", absent_by_zero),
    damage(7, "needed tag not met", not_met),
    damage(7, "times of neither kind", no_times),
    damage(8, "start below 4", start_below_4),
    damage(8, "body passes T", body_passes_end),
    damage(8, "head of the names passes T", head_passes_end),
    damage(8, "start past T", start_past_end),
    damage(8, "C below 4", c_below_4),
    damage(8, "C above T", c_above_end),
    damage(8, "head of the times passes T", times_head_passes_end),
    damage(8, "start of 64-bit times", long_times_start),
    damage(8, "count of times too high", times_pass_end),
    damage(8, "count of names too high", count_passes_end),
    damage(9, "4,097 facilities", too_many),
    damage(10, "prefix longer than the name before", prefix_too_long),
    damage(10, "prefix bytes or zero past T", names_cut),
    damage(10, "no zero before T", no_zero),
    damage(10, "name of 1,024 bytes", name_too_long),
    damage(10, "M too small", memory_too_small),
    damage(11, "rows of a root", rows_of_root),
    damage(11, "flags", wrong_flags),
    damage(11, "width 4,097", too_wide),
    damage(11, "width far above", far_too_wide),
    damage(12, "alias target n", alias_target),
    damage(12, "alias cycle", alias_cycle),
    damage(13, "first position below 4", first_position),
    damage(13, "first position below 4, then zeros", repeated_position),
    damage(13, "position T", last_position),
    damage(13, "time before first or after last", time_bounds),
    damage(13, "equal times before first or after last", equal_times),
    damage(13, "time of an entry that never decides", undeciding_time),
    damage(13, "position sum past 2^32", position_sum),
    damage(13, "time sum out of range", time_sum),
    damage(13, "time delta below 0", negative_delta),
    damage(13, "time below 0 and first 0", first_of_other_sign),
    damage(13, "time in bounds by its low half", low_half),
    damage(13, "first above last", first_above_last),
    damage(13, "no entry for a change", no_entry),
    damage(14, "08 absent", real_test_absent),
    damage(14, "08 out of bounds", real_test_out_of_bounds),
    damage(14, "08 wrong", real_test_wrong),
    damage(14, "real facility without 08", real_without_test),
    damage(15, "sync entry below C", sync_below_c),
    damage(15, "sync entry from T on", sync_from_end),
    damage(15, "C above the oldest change", c_above_change),
    damage(15, "change passes T", change_passes_end),
    damage(15, "text without zero", text_without_zero),
    damage(15, "previous below 0", previous_below_0),
    damage(15, "previous below C", previous_below_c),
    damage(16, "bits 7 and 6", high_bits),
    damage(16, "command of another kind", wrong_command),
    damage(16, "command before the change's end", wrong_command_at_end),
    damage(16, "code 9", code_above_8),
    damage(16, "code 9 beside rubbish", code_beside_rubbish),
    damage(17, "one offset from two roots", shared_offset),
    damage(17, "one byte shared by two roots", shared_byte),
    damage(17, "rubbish shared by two roots", shared_rubbish),
    damage(
        17,
        "rubbish shared by changes of one root",
        shared_rubbish_of_root,
    ),
    damage(
        17,
        "one byte shared by changes of one root",
        shared_byte_of_root,
    ),
    damage(17, "text runs over a change", text_over_change),
];

fn accepted(near: Draft, over: Draft) -> Option<Neighbours> {
    Some(Neighbours {
        near,
        near_answer: Ok(()),
        over,
    })
}

/// An unknown tag.
fn unknown_tag(random: &mut Random) -> u8 {
    random.within(0x15, 0xFF) as u8
}

/// A random number that isn't 0.
fn not_0(random: &mut Random) -> u32 {
    match random.below(3) {
        0 => 1,
        1 => 0x8000_0000,
        _ => random.word().max(1),
    }
}

// ---- 1 to 4: the frame and the list ----

fn too_short(draft: &Draft, random: &mut Random) -> Option<Neighbours> {
    let mut near = Draft::new(4);
    near.body = draft.part(0, 4).to_vec();
    let mut over = near.clone();
    over.body.truncate(random.pick(&[0, 2, 3, 3]));
    Some(Neighbours {
        near,
        near_answer: Err(7),
        over,
    })
}

fn first_bytes(draft: &Draft, random: &mut Random) -> Option<Neighbours> {
    let mut over = draft.clone();
    let at = random.below(2);
    over.body[at] ^= 1 << random.below(8);
    accepted(draft.clone(), over)
}

fn version(draft: &Draft, random: &mut Random) -> Option<Neighbours> {
    let mut near = draft.clone();
    let mut over = draft.clone();
    near.set(2, &[0, random.pick(&[0, 4])]);
    match random.below(3) {
        0 => over.set(2, &[0, random.within(5, 255) as u8]),
        1 => over.set(2, &[0, 5]),
        _ => over.set(2, &[random.within(1, 255) as u8, 4]),
    }
    accepted(near, over)
}

fn last_byte(draft: &Draft, random: &mut Random) -> Option<Neighbours> {
    let mut over = draft.clone();
    over.last = random.pick(&[0xB3, 0xB5, 0x00, 0x34]);
    accepted(draft.clone(), over)
}

/// The bytes where the reading would find a tag hold one down to offset 8 or below. The lowest place
/// is END for the good neighbour: then the bodies pass T.
fn no_end(draft: &Draft, random: &mut Random) -> Option<Neighbours> {
    let mut near = draft.clone();
    near.stop = unknown_tag(random);
    let mut at = near.end() - 5;
    while at >= 4 + 5 {
        near.set(at, &[unknown_tag(random)]);
        at -= 5;
    }
    let mut over = near.clone();
    near.set(at, &[0]);
    over.set(at, &[unknown_tag(random)]);
    Some(Neighbours {
        near,
        near_answer: Err(8),
        over,
    })
}

// ---- 5 to 8: tags and bounds ----

fn taken_back(draft: &Draft, random: &mut Random, tag: u8) -> Option<Neighbours> {
    let mut near = draft.clone();
    near.add_nearest_end(tag, 0);
    near.add_nearest_b4(tag, not_0(random));
    let mut over = draft.clone();
    over.add_nearest_end(tag, not_0(random));
    if random.chance(1, 2) {
        over.add_nearest_b4(tag, 0);
    }
    accepted(near, over)
}

fn compressed(draft: &Draft, random: &mut Random) -> Option<Neighbours> {
    let tag = random.within(0x0A, 0x12) as u8;
    taken_back(draft, random, tag)
}

/// 06 and 09 with any values beside the one that counts.
fn both_times(draft: &Draft, random: &mut Random) -> Option<Neighbours> {
    taken_back(draft, random, other_times(draft.times_tag()))
}

/// Sound tables of both kinds. Where one is taken back, the file is read by the other.
fn both_sound_times(draft: &Draft, random: &mut Random) -> Option<Neighbours> {
    let own = draft.times_tag();
    let mut over = draft.clone();
    let times = [random.within_signed(0, 9), random.within_signed(0, 9)];
    let table = table(other_times(own), 0, 18, &[4, 1], &times);
    let start = over.append(&table.bytes());
    over.set_item(table.tag, start as u32);
    let mut near = over.clone();
    let taken_back = random.pick(&[own, table.tag]);
    match random.chance(1, 2) {
        true => near.add_nearest_end(taken_back, 0),
        false => near.set_item(taken_back, 0),
    }
    accepted(near, over)
}

/// 6 is tested before 7.
fn both_times_one_absent(draft: &Draft, random: &mut Random) -> Option<Neighbours> {
    let mut near = draft.clone();
    near.set_item(random.pick(&[0x01, 0x02, 0x03, 0x04]), 0);
    let mut over = near.clone();
    over.set_item(other_times(draft.times_tag()), not_0(random));
    Some(Neighbours {
        near,
        near_answer: Err(7),
        over,
    })
}

/// Each of 06 and 09 absent: by 0, or by 0 nearer END than a value, of either.
fn no_times(draft: &Draft, random: &mut Random) -> Option<Neighbours> {
    let own = draft.times_tag();
    let mut near = draft.clone();
    near.add_nearest_end(other_times(own), 0);
    near.add_nearest_b4(other_times(own), not_0(random));
    let mut over = near.clone();
    match random.chance(1, 2) {
        true => over.add_nearest_end(own, 0),
        false => over.set_item(own, 0),
    }
    accepted(near, over)
}

fn absent_by_zero(draft: &Draft, random: &mut Random) -> Option<Neighbours> {
    let tag = random.pick(&draft.needed());
    let mut near = draft.clone();
    near.add_nearest_b4(tag, 0);
    let mut over = draft.clone();
    if random.chance(1, 2) {
        over.add_nearest_end(tag, 0);
    } else {
        over.set_item(tag, 0);
    }
    accepted(near, over)
}

fn not_met(draft: &Draft, random: &mut Random) -> Option<Neighbours> {
    let tag = random.pick(&draft.needed());
    let mut over = draft.clone();
    for item in &mut over.items {
        if item.0 == tag {
            item.0 = unknown_tag(random);
        }
    }
    accepted(draft.clone(), over)
}

/// A tag whose bounds are tested.
fn bounded_tag(draft: &Draft, random: &mut Random) -> u8 {
    random.pick(&[0x02, 0x03, 0x04, 0x05, 0x07, draft.times_tag()])
}

fn start_below_4(draft: &Draft, random: &mut Random) -> Option<Neighbours> {
    let tag = bounded_tag(draft, random);
    let mut near = draft.clone();
    // The one-byte sections and the empty ones may start at 4 in any file.
    let empty = draft.facilities.is_empty() && matches!(tag, 0x02 | 0x04);
    if empty || matches!(tag, 0x05 | 0x07) {
        near.set_item(tag, 4);
    }
    let mut over = draft.clone();
    over.set_item(tag, random.pick(&[1, 3, 3]));
    accepted(near, over)
}

fn body_passes_end(draft: &Draft, random: &mut Random) -> Option<Neighbours> {
    let tag = random.pick(&[0x02, 0x04, 0x05, 0x07, draft.times_tag()]);
    if draft.value(tag) == 0 {
        return None;
    }
    let mut near = draft.clone();
    let start = near.move_to_end(tag) as u32;
    let mut over = near.clone();
    if random.chance(1, 2) {
        over.set_item(tag, start + 1);
    } else {
        over.body.pop();
        if draft.body_length(tag) == 0 {
            return None;
        }
    }
    accepted(near, over)
}

fn head_passes_end(draft: &Draft, random: &mut Random) -> Option<Neighbours> {
    let mut near = draft.clone();
    let start = near.move_to_end(0x03);
    let mut over = near.clone();
    over.body.truncate(start + random.pick(&[0, 1, 4, 7, 7]));
    accepted(near, over)
}

fn start_past_end(draft: &Draft, random: &mut Random) -> Option<Neighbours> {
    let tag = bounded_tag(draft, random);
    let end = draft.end() as u32;
    let mut near = draft.clone();
    if draft.facilities.is_empty() && matches!(tag, 0x02 | 0x04) {
        near.set_item(tag, end);
    }
    let mut over = draft.clone();
    over.set_item(
        tag,
        random.pick(&[end + 1, end + 5, 0xFFFF_FFFF, 0xFFFF_FFF4, 0x8000_0000]),
    );
    accepted(near, over)
}

fn c_below_4(draft: &Draft, random: &mut Random) -> Option<Neighbours> {
    let mut near = draft.clone();
    near.set_item(0x01, 4);
    let mut over = draft.clone();
    over.set_item(0x01, random.pick(&[1, 2, 3, 3]));
    accepted(near, over)
}

fn c_above_end(draft: &Draft, random: &mut Random) -> Option<Neighbours> {
    let end = draft.end() as u32;
    let mut near = draft.clone();
    near.set_item(0x01, end);
    let mut over = draft.clone();
    over.set_item(0x01, random.pick(&[end + 1, end + 1, 0xFFFF_FFFF]));
    // C = T is out of reach for any change.
    let near_answer = match draft.changes.is_empty() {
        true => Ok(()),
        false => Err(15),
    };
    Some(Neighbours {
        near,
        near_answer,
        over,
    })
}

/// A table without entries whose head ends at T, and the same cut in its head.
fn times_head_passes_end(draft: &Draft, random: &mut Random) -> Option<Neighbours> {
    let tag = draft.times_tag();
    let (least, greatest) = time_range(tag);
    let (first, last) = random.pick(&[(0, 0), (0, 9), (9, 0), (greatest, least)]);
    let near = with_times(draft, first, last, &[], &[]);
    let mut over = near.clone();
    let head = head_length(tag);
    let kept = random.pick(&[0, 3, 4, 11, head - 1, head - 1, head - 1]);
    over.body.truncate(near.times_at() + kept);
    let near_answer = without_entries(draft);
    Some(Neighbours {
        near,
        near_answer,
        over,
    })
}

/// A table of 09 that ends at T starts there, or where no table can.
fn long_times_start(draft: &Draft, random: &mut Random) -> Option<Neighbours> {
    let times = [
        random.within_signed(i64::MIN, 0),
        random.within_signed(0, i64::MAX),
    ];
    let near = with_long_times(draft, i64::MIN, i64::MAX, &[4, 1], &times);
    let (start, end) = (near.value(LONG_TIMES), near.end() as u32);
    // At T - 20 a head fits, whose count is the last position delta, 1.
    let past = [start + 1, end - 20, end - 19, end, end + 1];
    let wrong = [1, 2, 3, 3, 0xFFFF_FFFF, 0xFFFF_FFD4, random.pick(&past)];
    let mut over = near.clone();
    over.set_item(LONG_TIMES, random.pick(&wrong));
    accepted(near, over)
}

fn times_pass_end(draft: &Draft, random: &mut Random) -> Option<Neighbours> {
    let tag = draft.times_tag();
    let mut near = draft.clone();
    near.move_to_end(tag);
    let mut over = near.clone();
    // The length would wrap to that of the entries there are, or to one of less than two entries.
    let entries = draft.entries();
    let wrapping = match tag {
        SHORT_TIMES => [entries | 0x2000_0000, 0x2000_0000],
        _ => [entries | 0x4000_0000, 357_913_942],
    };
    let [one, other] = wrapping;
    let m = random.pick(&[entries.saturating_add(1), one, other, 0xFFFF_FFFF]);
    over.set_word(over.start(tag), m);
    accepted(near, over)
}

/// n so high that 16n bytes pass T, though 4n or a wrapped product wouldn't.
fn count_passes_end(draft: &Draft, random: &mut Random) -> Option<Neighbours> {
    let mut near = draft.clone();
    if !draft.facilities.is_empty() {
        near.move_to_end(0x04);
    }
    let n = near.count();
    let mut over = near.clone();
    let fitting = (over.end().saturating_sub(over.start(0x04)) / 16) as u32;
    let higher = random.pick(&[fitting + 1, n | 0x1000_0000, n | 0x4000_0000, 0xFFFF_FFFF]);
    over.set_word(over.start(0x03), higher);
    accepted(near, over)
}

// ---- 9 and 10: names ----

/// One region of zeros serves as names, geometry and sync: empty names, one bit each, no change.
fn too_many(draft: &Draft, _: &mut Random) -> Option<Neighbours> {
    let mut near = draft.clone();
    let start = near.append(&vec![0; 8 + 16 * 4_097]);
    near.set_item(0x03, start as u32);
    near.set_item(0x02, start as u32 + 8);
    near.set_item(0x04, start as u32 + 8);
    near.set_word(start, 4_096);
    near.set_word(start + 4, 4_096);
    let mut over = near.clone();
    over.set_word(start, 4_097);
    over.set_word(start + 4, 4_097);
    accepted(near, over)
}

fn prefix_too_long(draft: &Draft, random: &mut Random) -> Option<Neighbours> {
    if draft.facilities.is_empty() {
        return None;
    }
    let number = random.below(draft.facilities.len());
    let at = draft.facilities[number].name_at;
    let before = match number {
        0 => 0,
        _ => draft.facilities[number - 1].name.len(),
    };
    let prefix = u16::from_be_bytes([draft.byte(at), draft.byte(at + 1)]) as usize;
    let suffix = draft.facilities[number].name.len().saturating_sub(prefix);
    if before + suffix > 1_023 {
        return None;
    }
    // Later names have their own prefix, which the longer name still holds; they may grow, too.
    let mut near = draft.clone();
    near.set_word(near.start(0x03) + 4, u32::MAX);
    near.set(at, &(before as u16).to_be_bytes());
    let mut over = near.clone();
    let longer = random.pick(&[before + 1, before + 1, before + 256, 65_535]);
    over.set(at, &(longer as u16).to_be_bytes());
    accepted(near, over)
}

fn names_cut(draft: &Draft, random: &mut Random) -> Option<Neighbours> {
    if draft.facilities.is_empty() {
        return None;
    }
    let mut near = draft.clone();
    let start = near.move_to_end(0x03);
    let mut over = near.clone();
    // Somewhere in the last name, so that its zero or a prefix byte lies past T; or further down.
    let last = near.facilities[near.facilities.len() - 1].name_at;
    let cut = match random.below(4) {
        0 => near.end() - 1,
        1 => last + 1,
        2 => last,
        _ => random.within(start as u64 + 8, near.end() as u64 - 1) as usize,
    };
    over.body.truncate(cut);
    accepted(near, over)
}

fn no_zero(draft: &Draft, random: &mut Random) -> Option<Neighbours> {
    if draft.facilities.is_empty() {
        return None;
    }
    let mut near = draft.clone();
    near.move_to_end(0x03);
    let mut over = near.clone();
    let zero = over.end() - 1;
    over.set(zero, &[random.within(1, 255) as u8]);
    accepted(near, over)
}

fn name_too_long(draft: &Draft, random: &mut Random) -> Option<Neighbours> {
    let n = draft.facilities.len();
    if n == 0 {
        return None;
    }
    // New names: all empty but one of 1,023 or 1,024 bytes, in one piece or with a prefix.
    let long = random.below(n);
    let names = |longest: usize, shared: usize| {
        let mut body = Vec::new();
        body.extend((n as u32).to_be_bytes());
        body.extend(u32::MAX.to_be_bytes());
        for number in 0..n {
            if number + 1 == long && shared > 0 {
                body.extend([0, 0]);
                body.extend(vec![b'p'; shared]);
            } else if number == long {
                let prefix = if number > 0 { shared } else { 0 };
                body.extend((prefix as u16).to_be_bytes());
                body.extend(vec![b's'; longest - prefix]);
            } else {
                body.extend([0, 0]);
            }
            body.push(0);
        }
        body
    };
    let shared = random.pick(&[0, 1, 1_000, 1_023]);
    let mut near = draft.clone();
    let start = near.append(&names(1_023, shared));
    near.set_item(0x03, start as u32);
    let mut over = draft.clone();
    over.append(&names(1_024, shared));
    over.set_item(0x03, start as u32);
    accepted(near, over)
}

fn memory_too_small(draft: &Draft, random: &mut Random) -> Option<Neighbours> {
    if draft.facilities.is_empty() {
        return None;
    }
    let needed: usize = draft.facilities.iter().map(|it| it.name.len() + 1).sum();
    let at = draft.start(0x03) + 4;
    let mut near = draft.clone();
    near.set_word(at, needed as u32);
    let mut over = draft.clone();
    over.set_word(at, random.pick(&[needed as u32 - 1, needed as u32 - 1, 0]));
    accepted(near, over)
}

// ---- 11 and 12: geometry and aliases ----

fn any_root(draft: &Draft, random: &mut Random) -> Option<usize> {
    let roots = draft.roots();
    match roots.is_empty() {
        true => None,
        false => Some(random.pick(&roots)),
    }
}

fn rows_of_root(draft: &Draft, random: &mut Random) -> Option<Neighbours> {
    let root = any_root(draft, random)?;
    let mut over = draft.clone();
    let rows = random.pick(&[1, 1, 2, 0x8000_0000, root as u32 | 1]);
    over.set_word(over.geometry_at(root), rows);
    accepted(draft.clone(), over)
}

fn wrong_flags(draft: &Draft, random: &mut Random) -> Option<Neighbours> {
    let root = any_root(draft, random)?;
    let mut over = draft.clone();
    let flags = random.pick(&[3, 5, 6, 7, 0x10, 0x100, 0x12, 0x8000_0000]);
    over.set_word(over.geometry_at(root) + 12, flags);
    accepted(draft.clone(), over)
}

/// A root of kind bits whose width no change depends on.
fn stretchable_root(draft: &Draft, random: &mut Random) -> Option<usize> {
    let mut roots = draft.roots();
    roots.retain(|root| {
        draft.facilities[*root].kind == Kind::Bits
            && draft
                .changes
                .iter()
                .all(|change| change.root != *root || change.command > 2)
    });
    match roots.is_empty() {
        true => None,
        false => Some(random.pick(&roots)),
    }
}

fn too_wide(draft: &Draft, random: &mut Random) -> Option<Neighbours> {
    let root = stretchable_root(draft, random)?;
    let at = draft.geometry_at(root);
    let low = random.pick(&[0, -1, -4_096, i32::MIN, i32::MAX - 4_096]);
    let (mut near, mut over) = (draft.clone(), draft.clone());
    for (draft, span) in [(&mut near, 4_095), (&mut over, 4_096)] {
        let (one, other) = match random.chance(1, 2) {
            true => (low, low + span),
            false => (low + span, low),
        };
        draft.set_word(at + 4, one as u32);
        draft.set_word(at + 8, other as u32);
    }
    accepted(near, over)
}

/// Widths that would wrap or come out negative.
fn far_too_wide(draft: &Draft, random: &mut Random) -> Option<Neighbours> {
    let root = stretchable_root(draft, random)?;
    let at = draft.geometry_at(root);
    let mut over = draft.clone();
    let (msb, lsb) = random.pick(&[
        (i32::MIN, i32::MAX),
        (i32::MAX, i32::MIN),
        (i32::MIN, 0),
        (i32::MAX, -1),
        (i32::MIN, i32::MAX - 3),
    ]);
    over.set_word(at + 4, msb as u32);
    over.set_word(at + 8, lsb as u32);
    accepted(draft.clone(), over)
}

fn any_alias(draft: &Draft, random: &mut Random) -> Option<usize> {
    let aliases: Vec<usize> = (0..draft.facilities.len())
        .filter(|number| draft.facilities[*number].target.is_some())
        .collect();
    match aliases.is_empty() {
        true => None,
        false => Some(random.pick(&aliases)),
    }
}

fn alias_target(draft: &Draft, random: &mut Random) -> Option<Neighbours> {
    let n = draft.facilities.len();
    let alias = any_alias(draft, random)?;
    let at = draft.geometry_at(alias);
    let mut near = draft.clone();
    // Any root is a sound target, the last facility if it is one.
    let target = *draft.roots().last()?;
    near.set_word(at, target as u32);
    let mut over = draft.clone();
    over.set_word(at, random.pick(&[n as u32, n as u32 + 1, 0xFFFF_FFFF]));
    accepted(near, over)
}

fn alias_cycle(draft: &Draft, random: &mut Random) -> Option<Neighbours> {
    let alias = any_alias(draft, random)?;
    let mut over = draft.clone();
    match random.below(3) {
        // Of itself.
        0 => over.set_word(over.geometry_at(alias), alias as u32),
        // The root becomes an alias of one that reaches it.
        1 => {
            let root = draft.facilities[alias].root;
            over.set_word(over.geometry_at(root), alias as u32);
            over.set_word(over.geometry_at(root) + 12, 8);
        }
        // The target becomes one.
        _ => {
            let target = draft.facilities[alias].target?;
            over.set_word(over.geometry_at(target), alias as u32);
            over.set_word(over.geometry_at(target) + 12, 8);
        }
    }
    accepted(draft.clone(), over)
}

// ---- 13: times ----

fn table(tag: u8, first: i64, last: i64, positions: &[u32], times: &[i64]) -> TimeTable {
    TimeTable {
        tag,
        first,
        last,
        positions: positions.to_vec(),
        times: times.to_vec(),
    }
}

/// The answer to the draft with times that have no entry: changes need one.
fn without_entries(draft: &Draft) -> Result<(), u8> {
    match draft.changes.is_empty() {
        true => Ok(()),
        false => Err(13),
    }
}

/// The draft with a new table of times at the end, of the kind that it has.
fn with_times(draft: &Draft, first: i64, last: i64, positions: &[u32], times: &[i64]) -> Draft {
    let mut new = draft.clone();
    new.append_times(&table(draft.times_tag(), first, last, positions, times));
    new
}

/// The same with 64-bit times.
fn with_long_times(
    draft: &Draft,
    first: i64,
    last: i64,
    positions: &[u32],
    times: &[i64],
) -> Draft {
    let mut new = draft.clone();
    new.append_times(&table(LONG_TIMES, first, last, positions, times));
    new
}

/// The bytes of a new table of so many entries, of the kind that the draft has.
fn new_length(draft: &Draft, entries: usize) -> usize {
    table_length(draft.times_tag(), entries)
}

/// A time that has neighbours on both sides, for the kind of times that the draft has.
fn middle_time(draft: &Draft, random: &mut Random) -> i64 {
    match draft.times_tag() {
        SHORT_TIMES => random.pick(&[1, 100, 0x7FFF_FFFF, 0xFFFF_FFF0]),
        _ => random.pick(&[
            i64::MIN + 1,
            i64::MIN + 100,
            -0x1_0000_0000,
            -0x8000_0000,
            -2,
            -1,
            0,
            1,
            0x7FFF_FFFF,
            0xFFFF_FFFF,
            i64::MAX - 15,
        ]),
    }
}

fn first_position(draft: &Draft, random: &mut Random) -> Option<Neighbours> {
    let below = random.pick(&[0, 1, 3, 3]);
    accepted(
        with_times(draft, 0, 9, &[4, 1], &[0, 9]),
        with_times(draft, 0, 9, &[below, 5 - below], &[0, 9]),
    )
}

/// So many deltas, each 0 or 1 but the first.
fn small_deltas<T: Copy + From<u8>>(random: &mut Random, first: T, count: usize) -> Vec<T> {
    let small = (0..count).map(|_| T::from(random.pick(&[0, 1])));
    let mut deltas: Vec<T> = small.collect();
    deltas[0] = first;
    deltas
}

/// All entries share the first position, by deltas of 0.
fn repeated_position(draft: &Draft, random: &mut Random) -> Option<Neighbours> {
    let m = random.within(2, 6) as usize;
    let times = small_deltas(random, 0, m);
    let make = |first| {
        let mut positions = vec![0; m];
        positions[0] = first;
        with_times(draft, 0, 9, &positions, &times)
    };
    accepted(make(4), make(random.pick(&[0, 1, 2, 3, 3])))
}

/// The last position is T - 1 or T, and up to two more entries share it; or the last of them steps from
/// the one to the other.
fn last_position(draft: &Draft, random: &mut Random) -> Option<Neighbours> {
    let (before, behind) = (random.below(2), random.below(3));
    let m = before + 1 + behind;
    let times = small_deltas(random, 3, m);
    // T lies behind the new table.
    let end = (draft.end() + new_length(draft, m)) as u32;
    let make = |position: u32, step: u32| {
        let mut positions = vec![4; before];
        positions.push(position - 4 * before as u32);
        positions.extend(vec![0; behind]);
        positions[m - 1] += step;
        with_times(draft, 0, 9, &positions, &times)
    };
    let over = match random.chance(1, 3) {
        true => make(end - 1, 1),
        false => make(random.pick(&[end, end, 0x8000_0000, 0xFFFF_FFFF]), 0),
    };
    accepted(make(end - 1, 0), over)
}

fn time_bounds(draft: &Draft, random: &mut Random) -> Option<Neighbours> {
    let low = middle_time(draft, random);
    let near = with_times(draft, low, low + 1, &[4, 1], &[low, 1]);
    let over = match random.below(3) {
        0 => with_times(draft, low + 1, low + 1, &[4, 1], &[low, 1]),
        1 => with_times(draft, low, low, &[4, 1], &[low, 1]),
        _ => with_times(draft, low + 1, low, &[4, 1], &[low, 1]),
    };
    accepted(near, over)
}

/// All times are equal, by deltas of 0: first and last are that time, or not.
fn equal_times(draft: &Draft, random: &mut Random) -> Option<Neighbours> {
    let m = random.within(2, 6) as usize;
    let low = middle_time(draft, random);
    let positions = small_deltas(random, 4, m);
    let mut times = vec![0; m];
    times[0] = low;
    let near = with_times(draft, low, low, &positions, &times);
    let over = match random.below(3) {
        0 => with_times(draft, low + 1, low + 1, &positions, &times),
        1 => with_times(draft, low - 1, low - 1, &positions, &times),
        _ => {
            times[1 + random.below(m - 1)] = 1;
            with_times(draft, low, low, &positions, &times)
        }
    };
    accepted(near, over)
}

/// Each time is tested, though its entry decides for no change: below first one that shares the position
/// 4 with later ones, and above last one that lies behind all changes.
fn undeciding_time(draft: &Draft, random: &mut Random) -> Option<Neighbours> {
    let m = random.within(2, 6) as usize;
    let low = middle_time(draft, random);
    let mut positions = vec![0; m];
    positions[0] = 4;
    let mut times = small_deltas(random, low, m);
    times[m - 1] = 1;
    let top: i64 = times.iter().sum();
    if random.chance(1, 2) {
        let first = random.within_signed(low + 1, top);
        return accepted(
            with_times(draft, low, top, &positions, &times),
            with_times(draft, first, top, &positions, &times),
        );
    }
    // A change has two bytes or more, so none starts at T - 1, where all but the first entry lie.
    positions[1] = (draft.end() + new_length(draft, m)) as u32 - 5;
    let last = random.within_signed(low, top - 1);
    accepted(
        with_times(draft, low, top, &positions, &times),
        with_times(draft, low, last, &positions, &times),
    )
}

/// Two deltas, with up to two zeros behind each.
fn with_zeros<T: Copy + From<u8>>(random: &mut Random) -> impl Fn(T, T) -> Vec<T> {
    let (between, behind) = (random.below(3), random.below(3));
    move |first, second| {
        let (between, behind) = (vec![T::from(0); between], vec![T::from(0); behind]);
        [&[first][..], &between, &[second], &behind].concat()
    }
}

/// The sum would wrap to a position below T.
fn position_sum(draft: &Draft, random: &mut Random) -> Option<Neighbours> {
    let positions = with_zeros(random);
    let times = small_deltas(random, 0, positions(6, 1).len());
    accepted(
        with_times(draft, 0, 9, &positions(6, 1), &times),
        with_times(draft, 0, 9, &positions(6, 0xFFFF_FFFF), &times),
    )
}

/// The sum reaches the greatest time of the range, or passes it by one; first and last are the whole
/// range, so that a wrapped sum would keep every rule.
fn time_sum(draft: &Draft, random: &mut Random) -> Option<Neighbours> {
    let (first, last) = time_range(draft.times_tag());
    let step = match draft.times_tag() {
        SHORT_TIMES => random.pick(&[1, 0x8000_0000, 0xFFFF_FFFE]),
        _ => random.pick(&[1, 0x1_0000_0000, i64::MAX / 2, i64::MAX - 1, i64::MAX]),
    };
    let times = with_zeros(random);
    let positions = small_deltas(random, 4, times(0, 0).len());
    accepted(
        with_times(draft, first, last, &positions, &times(last - step, step)),
        with_times(
            draft,
            first,
            last,
            &positions,
            &times(last - step + 1, step),
        ),
    )
}

/// A delta after the first is 0 or more, or below 0, though all times keep first and last.
fn negative_delta(draft: &Draft, random: &mut Random) -> Option<Neighbours> {
    let low = random.pick(&[i64::MIN, -0x1_0000_0000, -10, -1, 0, 10]);
    let times = with_zeros(random);
    let positions = small_deltas(random, 4, times(0, 0).len());
    let make = |delta| {
        let times = times(low, delta);
        with_long_times(draft, i64::MIN, i64::MAX, &positions, &times)
    };
    let below = [-1, -1, -10, -0x8000_0000, i64::MIN + 1, i64::MIN];
    let not_below = [0, 0, 1, 0x8000_0000, i64::MAX - 10];
    accepted(make(random.pick(&not_below)), make(random.pick(&below)))
}

/// A time below 0 lies below a first of 0 and above a last of less, though not as a number without sign.
fn first_of_other_sign(draft: &Draft, random: &mut Random) -> Option<Neighbours> {
    let time = random.pick(&[-1, -2, -0x1_0000_0000, i64::MIN + 1]);
    let positions = small_deltas(random, 4, 2);
    let make = |first, last| with_long_times(draft, first, last, &positions, &[time, 0]);
    let over = match random.below(3) {
        0 => make(0, -1),
        1 => make(0, i64::MAX),
        _ => make(i64::MIN, time - 1),
    };
    let last = random.pick(&[time, -1, 0, i64::MAX]).max(time);
    accepted(make(random.pick(&[i64::MIN, time]), last), over)
}

/// Bounds that differ from a time in the higher four bytes.
fn low_half(draft: &Draft, random: &mut Random) -> Option<Neighbours> {
    let time = random.pick(&[7, 0x7FFF_FFFF, 0xFFFF_FFFF]);
    let high = random.pick(&[1, -1, 0x7FFF_FFFF, -0x8000_0000]) << 32;
    let make = |first, last, time| with_long_times(draft, first, last, &[4], &[time]);
    accepted(
        make(high + time, high + time, high + time),
        match random.chance(1, 2) {
            true => make(time, time, high + time),
            false => make(high + time, high + time, time),
        },
    )
}

/// First above last is no rule by itself; it is broken with the first entry.
fn first_above_last(draft: &Draft, random: &mut Random) -> Option<Neighbours> {
    let middle = middle_time(draft, random);
    let (least, greatest) = time_range(draft.times_tag());
    let bounds = [
        (middle + 1, middle - 1),
        (middle, middle - 1),
        (greatest, least),
    ];
    let (first, last) = random.pick(&bounds);
    let time = random.pick(&[first, last, middle]);
    let near = with_times(draft, first, last, &[], &[]);
    let over = with_times(draft, first, last, &[4], &[time]);
    let near_answer = without_entries(draft);
    Some(Neighbours {
        near,
        near_answer,
        over,
    })
}

/// No entry: fine without changes, 13 for any sync entry of a root, wherever it points.
fn no_entry(draft: &Draft, random: &mut Random) -> Option<Neighbours> {
    let root = any_root(draft, random)?;
    let (least, greatest) = time_range(draft.times_tag());
    let any = [(); 2].map(|()| random.within_signed(least, greatest));
    let mut near = with_times(draft, any[0], any[1], &[], &[]);
    for other in draft.roots() {
        near.set_word(near.sync_at(other), 0);
    }
    let mut over = near.clone();
    let sync = random.pick(&[1, 4, draft.end() as u32, 0xFFFF_FFFF]);
    over.set_word(over.sync_at(root), sync);
    accepted(near, over)
}

// ---- 14: the real test ----

fn has_real(draft: &Draft) -> bool {
    draft.facilities.iter().any(|it| it.kind == Kind::Real)
}

fn real_test_absent(draft: &Draft, random: &mut Random) -> Option<Neighbours> {
    if !has_real(draft) {
        return None;
    }
    let mut near = draft.clone();
    near.add_nearest_b4(0x08, random.pick(&[0, 3, 0xFFFF_FFFF]));
    let mut over = draft.clone();
    match random.below(3) {
        0 => over.set_item(0x08, 0),
        1 => over.add_nearest_end(0x08, 0),
        _ => over.items.retain(|(tag, _)| *tag != 0x08),
    }
    accepted(near, over)
}

fn real_test_out_of_bounds(draft: &Draft, random: &mut Random) -> Option<Neighbours> {
    if !has_real(draft) {
        return None;
    }
    let mut near = draft.clone();
    let start = near.move_to_end(0x08) as u32;
    let mut over = near.clone();
    match random.below(3) {
        0 => {
            over.body.pop();
        }
        1 => over.set_item(0x08, random.pick(&[1, 3])),
        _ => over.set_item(0x08, random.pick(&[start + 1, start + 8, 0xFFFF_FFFF])),
    }
    accepted(near, over)
}

fn real_test_wrong(draft: &Draft, random: &mut Random) -> Option<Neighbours> {
    if !has_real(draft) {
        return None;
    }
    let mut near = draft.clone();
    let mut test = REAL_TEST;
    random.shuffle(&mut test);
    let start = near.append(&test);
    near.set_item(0x08, start as u32);
    let mut over = near.clone();
    let (one, other) = (random.below(8), random.within(1, 7) as usize);
    let wrong = match random.chance(1, 2) {
        true => test[(one + other) % 8],
        false => test[one] ^ 1 << random.below(8),
    };
    over.set(start + one, &[wrong]);
    accepted(near, over)
}

/// A root without changes becomes real.
fn real_without_test(draft: &Draft, random: &mut Random) -> Option<Neighbours> {
    let roots: Vec<usize> = draft
        .roots()
        .into_iter()
        .filter(|root| !draft.has_changes(*root))
        .collect();
    if roots.is_empty() || has_real(draft) {
        return None;
    }
    let root = random.pick(&roots);
    let mut over = draft.clone();
    over.set_word(over.geometry_at(root) + 12, 2);
    let mut near = over.clone();
    let start = near.append(&REAL_TEST);
    near.set_item(0x08, start as u32);
    over.set_item(0x08, random.pick(&[0, 3, draft.end() as u32 - 7]));
    accepted(near, over)
}

// ---- 15 and 16: one change ----

/// A root and, for the first change it may be given, the entries of the times.
fn root_for_change(draft: &Draft, random: &mut Random) -> Option<usize> {
    match draft.entries() {
        0 => None,
        _ => any_root(draft, random),
    }
}

fn sync_below_c(draft: &Draft, random: &mut Random) -> Option<Neighbours> {
    let root = root_for_change(draft, random)?;
    let c = draft.value(0x01).max(4);
    let mut over = draft.clone();
    over.set_word(over.sync_at(root), random.pick(&[1, 3, c - 1, c - 1]));
    accepted(draft.clone(), over)
}

fn sync_from_end(draft: &Draft, random: &mut Random) -> Option<Neighbours> {
    let root = root_for_change(draft, random)?;
    let end = draft.end() as u32;
    let mut over = draft.clone();
    over.set_word(
        over.sync_at(root),
        random.pick(&[end, end + 1, draft.bytes().len() as u32, 0xFFFF_FFFF]),
    );
    accepted(draft.clone(), over)
}

fn c_above_change(draft: &Draft, _: &mut Random) -> Option<Neighbours> {
    let oldest = draft.changes.first()?.offset as u32;
    let mut near = draft.clone();
    near.set_item(0x01, oldest);
    let mut over = draft.clone();
    over.set_item(0x01, oldest + 1);
    accepted(near, over)
}

/// A sound value for a root: command and data.
fn any_value(draft: &Draft, random: &mut Random, root: usize) -> (u8, Vec<u8>) {
    let width = draft.facilities[root].width as usize;
    match draft.facilities[root].kind {
        Kind::Bits => match random.below(4) {
            0 => (0, pack(&vec![1; width], 1)),
            1 => (1, pack(&vec![2; width], 2)),
            2 => (2, pack(&vec![8; width], 4)),
            _ => (random.within(3, 0x0B) as u8, Vec::new()),
        },
        Kind::Integer => match random.below(2) {
            0 => (0, vec![random.byte(), random.byte(), 0, 0xFF]),
            _ => (random.pick(&[3, 4]), Vec::new()),
        },
        Kind::Real => (random.below(16) as u8, random.any().to_be_bytes().to_vec()),
        Kind::Text => (random.below(16) as u8, vec![b't', 0]),
    }
}

/// A newest change that ends at T, and the same cut: in its data or its delta bytes.
fn change_passes_end(draft: &Draft, random: &mut Random) -> Option<Neighbours> {
    let root = root_for_change(draft, random)?;
    let (command, data) = any_value(draft, random, root);
    let mut near = draft.clone();
    let offset = near.append_change(root, command, random.within(1, 4) as usize, &data);
    let mut over = near.clone();
    let cut = random.pick(&[near.end() - 1, near.end() - 1, offset + 1]);
    over.body.truncate(cut);
    accepted(near, over)
}

fn text_without_zero(draft: &Draft, random: &mut Random) -> Option<Neighbours> {
    let root = root_for_change(draft, random)?;
    if draft.facilities[root].kind != Kind::Text {
        return None;
    }
    let mut near = draft.clone();
    let length = random.below(20);
    let text: Vec<u8> = (0..length).map(|_| random.within(1, 255) as u8).collect();
    let ended = [&text[..], &[0]].concat();
    near.append_change(root, 0, 1, &ended);
    let mut over = near.clone();
    let zero = over.end() - 1;
    over.set(zero, &[1]);
    accepted(near, over)
}

/// A change of a draft that fulfils a condition.
fn any_change(
    draft: &Draft,
    random: &mut Random,
    wanted: impl Fn(&Change) -> bool,
) -> Option<Change> {
    let found: Vec<&Change> = draft
        .changes
        .iter()
        .filter(|change| wanted(change))
        .collect();
    match found.is_empty() {
        true => None,
        false => Some(found[random.below(found.len())].clone()),
    }
}

/// The draft with another delta in a change. None where the delta needs more bytes.
fn with_delta(draft: &Draft, change: &Change, delta: usize) -> Option<Draft> {
    if least_k(delta) > change.k {
        return None;
    }
    let mut new = draft.clone();
    new.set(
        change.offset + 1,
        &(delta as u32).to_be_bytes()[4 - change.k..],
    );
    Some(new)
}

fn previous_below_0(draft: &Draft, random: &mut Random) -> Option<Neighbours> {
    let change = any_change(draft, random, |_| true)?;
    // Cutting the chain below this change is sound: previous 0.
    let near = with_delta(draft, &change, change.offset - 2)?;
    let far = [
        change.offset - 1,
        change.offset,
        0xFFFF_FFFF >> (32 - 8 * change.k),
    ];
    let delta = random.pick(&far);
    if delta <= change.offset - 2 {
        return None;
    }
    accepted(near, with_delta(draft, &change, delta)?)
}

fn previous_below_c(draft: &Draft, random: &mut Random) -> Option<Neighbours> {
    let change = any_change(draft, random, |_| true)?;
    let near = with_delta(draft, &change, change.offset - 2)?;
    let c = draft.start(0x01).max(4);
    let previous = random.pick(&[1, c - 1, c - 1, 3]);
    if previous + 2 > change.offset {
        return None;
    }
    accepted(
        near,
        with_delta(draft, &change, change.offset - 2 - previous)?,
    )
}

fn high_bits(draft: &Draft, random: &mut Random) -> Option<Neighbours> {
    let change = any_change(draft, random, |_| true)?;
    let mut over = draft.clone();
    let byte = over.byte(change.offset) | random.pick(&[0x40, 0x80, 0xC0]);
    over.set(change.offset, &[byte]);
    accepted(draft.clone(), over)
}

fn wrong_command(draft: &Draft, random: &mut Random) -> Option<Neighbours> {
    let change = any_change(draft, random, |change| {
        draft.facilities[change.root].width > 0
    })?;
    let commands: &[u8] = match draft.facilities[change.root].kind {
        Kind::Integer => &[1, 2, 5, 0x0B, 0x0C, 0x0F],
        _ => &[0x0C, 0x0D, 0x0E, 0x0F],
    };
    let high = draft.byte(change.offset) & 0xF0;
    let mut near = draft.clone();
    // A change without data is sound in the place of any other.
    near.set(change.offset, &[high | random.pick(&[3, 4])]);
    let mut over = draft.clone();
    over.set(change.offset, &[high | random.pick(commands)]);
    accepted(near, over)
}

/// At T - 1 a command byte that isn't allowed is 16; one that is allowed passes T, 15.
fn wrong_command_at_end(draft: &Draft, random: &mut Random) -> Option<Neighbours> {
    let root = root_for_change(draft, random)?;
    let command = match draft.facilities[root].kind {
        Kind::Bits => 0x0C,
        Kind::Integer => random.pick(&[1, 5]),
        _ => 0x40,
    };
    let mut near = draft.clone();
    let offset = near.append(&[0x03]);
    near.set_word(near.sync_at(root), offset as u32);
    let mut over = near.clone();
    over.set(offset, &[command]);
    Some(Neighbours {
        near,
        near_answer: Err(15),
        over,
    })
}

fn code_above_8(draft: &Draft, random: &mut Random) -> Option<Neighbours> {
    let change = any_change(draft, random, |change| {
        draft.facilities[change.root].kind == Kind::Bits && change.command == 2
    })?;
    let width = draft.facilities[change.root].width as usize;
    let place = random.pick(&[0, width - 1, random.clone().below(width)]);
    let at = change.data + place / 2;
    let (mut near, mut over) = (draft.clone(), draft.clone());
    let high = random.within(9, 15) as u8;
    for (draft, code) in [(&mut near, 8), (&mut over, random.pick(&[9, high]))] {
        let byte = match place % 2 {
            0 => code << 4 | draft.byte(at) & 0x0F,
            _ => code | draft.byte(at) & 0xF0,
        };
        draft.set(at, &[byte]);
    }
    accepted(near, over)
}

/// Of an odd width the unused nibble may be 9 to F; the nibble in use beside it may not.
fn code_beside_rubbish(draft: &Draft, random: &mut Random) -> Option<Neighbours> {
    let change = any_change(draft, random, |change| {
        draft.bits_a_symbol(change) == 4 && draft.unused_bits(change) == 4
    })?;
    let above_8 = random.within(9, 15) as u8;
    let (mut near, mut over) = (draft.clone(), draft.clone());
    near.set(change.end - 1, &[random.pick(&[0, 8]) << 4 | above_8]);
    let beside = random.pick(&[0, above_8]);
    over.set(change.end - 1, &[random.pick(&[9, above_8]) << 4 | beside]);
    accepted(near, over)
}

/// The draft with all padding clean, and the same with rubbish in one change. None where it has no
/// padding.
pub fn clean_and_dirty(draft: &Draft, random: &mut Random) -> Option<[Draft; 2]> {
    let padded = any_change(draft, random, |change| draft.unused_bits(change) > 0)?;
    let mut clean = draft.clone();
    for change in &draft.changes {
        let unused = draft.unused_bits(change);
        if unused > 0 {
            let last = change.end - 1;
            clean.set(last, &[draft.byte(last) >> unused << unused]);
        }
    }
    let mut dirty = clean.clone();
    let last = padded.end - 1;
    let rubbish = rubbish(random, draft.unused_bits(&padded));
    dirty.set(last, &[clean.byte(last) | rubbish]);
    Some([clean, dirty])
}

// ---- 17: changes that share a byte ----

/// A root joins the chain of another of the same kind and width, at any of its changes.
fn shared_offset(draft: &Draft, random: &mut Random) -> Option<Neighbours> {
    let change = any_change(draft, random, |_| true)?;
    let owner = &draft.facilities[change.root];
    let joining: Vec<usize> = draft
        .roots()
        .into_iter()
        .filter(|root| {
            let facility = &draft.facilities[*root];
            *root != change.root && facility.kind == owner.kind && facility.width == owner.width
        })
        .collect();
    if joining.is_empty() {
        return None;
    }
    let root = random.pick(&joining);
    let mut near = draft.clone();
    near.set_word(near.sync_at(root), 0);
    let mut over = draft.clone();
    over.set_word(over.sync_at(root), change.offset as u32);
    accepted(near, over)
}

/// A root whose last data byte may be any command byte, and a value of it that ends so.
fn ending_value(draft: &Draft, root: usize, last: u8) -> Option<(u8, Vec<u8>)> {
    let facility = &draft.facilities[root];
    let length = match facility.kind {
        Kind::Bits if facility.width.is_multiple_of(8) => facility.width as usize / 8,
        Kind::Integer => 4,
        Kind::Real => 8,
        _ => return None,
    };
    let mut data = vec![0; length];
    data[length - 1] = last;
    Some((0, data))
}

/// The same for a root with unused bits in its last data byte, which hold rubbish then.
fn ending_rubbish(
    draft: &Draft,
    random: &mut Random,
    root: usize,
    last: u8,
) -> Option<(u8, Vec<u8>)> {
    let facility = &draft.facilities[root];
    let command = random.below(3);
    let used = facility.width as usize * [1, 2, 4][command];
    if facility.kind != Kind::Bits || used.is_multiple_of(8) {
        return None;
    }
    let mut data = vec![0; used.div_ceil(8)];
    *data.last_mut()? = last;
    Some((command as u8, data))
}

/// A command byte that any root may have: four delta bytes, command 3.
const SHARED: u8 = 0x33;

/// Appends a change of `first` whose data end in `SHARED`, then one of `second` right behind it or on
/// its last byte.
fn behind_or_within(
    draft: &Draft,
    first: usize,
    second: usize,
    (command, ending): (u8, Vec<u8>),
) -> Option<Neighbours> {
    // Reals and texts have their data behind.
    let data: &[u8] = match draft.facilities[second].kind {
        Kind::Real => &[0; 8],
        Kind::Text => &[0],
        _ => &[],
    };
    let mut near = draft.clone();
    near.append_change(first, command, 1, &ending);
    near.append_change(second, 3, 4, data);
    let mut over = draft.clone();
    over.append_change(first, command, 1, &ending);
    let offset = over.end() - 1;
    let previous = over.word(over.sync_at(second)) as usize;
    let bytes = change_bytes(offset, previous, 3, 4, data);
    over.append(&bytes[1..]);
    over.set_word(over.sync_at(second), offset as u32);
    accepted(near, over)
}

fn shared_byte(draft: &Draft, random: &mut Random) -> Option<Neighbours> {
    let first = root_for_change(draft, random)?;
    let second = any_root(draft, random)?;
    match first == second {
        true => None,
        false => behind_or_within(draft, first, second, ending_value(draft, first, SHARED)?),
    }
}

fn shared_byte_of_root(draft: &Draft, random: &mut Random) -> Option<Neighbours> {
    let root = root_for_change(draft, random)?;
    behind_or_within(draft, root, root, ending_value(draft, root, SHARED)?)
}

/// The same where the shared byte has rubbish: that is no refusal by itself.
fn shared_rubbish(draft: &Draft, random: &mut Random) -> Option<Neighbours> {
    let first = root_for_change(draft, random)?;
    let second = any_root(draft, random)?;
    let ending = ending_rubbish(draft, random, first, SHARED)?;
    match first == second {
        true => None,
        false => behind_or_within(draft, first, second, ending),
    }
}

fn shared_rubbish_of_root(draft: &Draft, random: &mut Random) -> Option<Neighbours> {
    let root = root_for_change(draft, random)?;
    let ending = ending_rubbish(draft, random, root, SHARED)?;
    behind_or_within(draft, root, root, ending)
}

/// A text, then a change of another root; without its zero the text runs over that change.
fn text_over_change(draft: &Draft, random: &mut Random) -> Option<Neighbours> {
    let first = root_for_change(draft, random)?;
    let second = any_root(draft, random)?;
    if first == second || draft.facilities[first].kind != Kind::Text {
        return None;
    }
    let (command, data) = any_value(draft, random, second);
    let mut near = draft.clone();
    near.append_change(first, 0, 1, b"text\0");
    let zero = near.end() - 1;
    near.append_change(second, command, 1, &data);
    near.append(&[0]);
    let mut over = near.clone();
    over.set(zero, b"s");
    accepted(near, over)
}

// ---- Blind damage ----

/// One to four edits anywhere, with values that matter often. What becomes of it is open.
pub fn blind(draft: &Draft, random: &mut Random) -> Vec<u8> {
    let mut new = draft.clone();
    for _ in 0..random.within(1, 4) {
        edit(&mut new, random);
    }
    let mut bytes = new.bytes();
    if random.chance(1, 20) {
        let at = random.below(bytes.len());
        match random.below(3) {
            0 => bytes.truncate(at),
            1 => bytes.insert(at, random.byte()),
            _ => {
                bytes.remove(at);
            }
        }
    }
    bytes
}

fn telling_word(draft: &Draft, random: &mut Random) -> u32 {
    let end = draft.end() as u32;
    let n = draft.facilities.len() as u32;
    let c = draft.value(0x01);
    let offset = match draft.changes.is_empty() {
        true => 4,
        false => draft.changes[random.below(draft.changes.len())].offset as u32,
    };
    random.pick(&[
        0,
        1,
        2,
        3,
        4,
        8,
        n.wrapping_sub(1),
        n,
        n + 1,
        c.wrapping_sub(1),
        c,
        c.wrapping_add(1),
        end - 1,
        end,
        end + 1,
        offset,
        offset + 1,
        offset - 1,
        0x7FFF_FFFF,
        0x8000_0000,
        0xFFFF_FFFF,
        random.clone().word(),
    ])
}

/// A number of the times: a telling word, or a telling time in the place of one.
fn edit_times(draft: &mut Draft, random: &mut Random, word: u32) {
    let tag = draft.times_tag();
    let m = draft.entries().min(1_000) as usize;
    let at = draft.times_at();
    if random.chance(1, 2) {
        let words = table_length(tag, m) / 4;
        draft.set_word(at + 4 * random.below(words), word);
        return;
    }
    // First, last, or a delta behind the positions.
    let place = match random.below(m + 2) {
        bound @ 0..=1 => at + 4 + time_length(tag) * bound,
        entry => at + head_length(tag) + 4 * m + time_length(tag) * (entry - 2),
    };
    let old = draft.time(place);
    let time = random.pick(&[
        0,
        1,
        -1,
        old.wrapping_add(1),
        old.wrapping_sub(1),
        old.wrapping_neg(),
        old ^ i64::MIN,
        old ^ 1 << 32,
        1 << 32,
        i64::MIN,
        i64::MAX,
        random.clone().any() as i64,
    ]);
    draft.set(place, &time_bytes(tag, time));
}

fn edit(draft: &mut Draft, random: &mut Random) {
    let word = telling_word(draft, random);
    match random.below(12) {
        0 => {
            let at = random.below(draft.end());
            draft.set(at, &[random.byte()]);
        }
        1 => {
            let at = random.below(draft.end());
            draft.set(at, &[draft.byte(at) ^ 1 << random.below(8)]);
        }
        2 if !draft.items.is_empty() => {
            let item = random.below(draft.items.len());
            draft.items[item].1 = word;
        }
        3 if !draft.items.is_empty() => {
            let item = random.below(draft.items.len());
            draft.items[item].0 = random.within(0, 0x15) as u8;
        }
        4 => {
            let item = random.below(draft.items.len() + 1);
            draft
                .items
                .insert(item, (random.within(0, 0x15) as u8, word));
        }
        5 => draft.set_word(draft.start(0x03) + random.pick(&[0, 4]), word),
        6 if !draft.facilities.is_empty() => {
            let facility = random.below(draft.facilities.len());
            let at = draft.geometry_at(facility) + 4 * random.below(4);
            draft.set_word(at, word);
        }
        7 if !draft.facilities.is_empty() => {
            let facility = random.below(draft.facilities.len());
            draft.set_word(draft.sync_at(facility), word);
        }
        8 => edit_times(draft, random, word),
        9 if !draft.facilities.is_empty() => {
            let at = draft.facilities[random.below(draft.facilities.len())].name_at;
            draft.set(at + random.below(4), &[random.pick(&[0, 1, 2, 5, 255])]);
        }
        _ => {
            if draft.changes.is_empty() {
                return;
            }
            let change = draft.changes[random.below(draft.changes.len())].clone();
            let at = random.within(change.offset as u64, change.end as u64) as usize;
            let byte = match random.below(3) {
                0 => draft.byte(at) ^ 1 << random.below(8),
                1 => draft.byte(at).wrapping_add(random.pick(&[1, 255])),
                _ => random.byte(),
            };
            draft.set(at, &[byte]);
        }
    }
}
