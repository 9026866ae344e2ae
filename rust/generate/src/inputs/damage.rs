//! Damages a sound input close to the boundary of a rule: one neighbour is still sound, the other is just over
//! it and refused with 24.

use super::{any_symbols, any_value, Input, BITS, INTEGER, REAL, SYMBOLS, TEXT, WIDEST};
use crate::random::Random;

/// The two sides of a boundary.
#[derive(Clone, Debug)]
pub struct InputNeighbours {
    pub near: Input,
    pub over: Input,
}

/// A way to damage a sound input.
#[derive(Clone, Copy)]
pub struct InputDamage {
    pub name: &'static str,
    pub apply: fn(&Input, &mut Random) -> InputNeighbours,
}

const fn damage(
    name: &'static str,
    apply: fn(&Input, &mut Random) -> InputNeighbours,
) -> InputDamage {
    InputDamage { name, apply }
}

/// All damages.
pub const INPUT_DAMAGES: &[InputDamage] = &[
    damage("4,097 facilities", too_many),
    damage("name part past its pool", name_past_pool),
    damage("name part past 2^32", name_past_32_bits),
    damage("name of 1,024 bytes", name_too_long),
    damage("zero in a name", zero_in_name),
    damage("kind 4", kind_above_3),
    damage("width 4,097", too_wide),
    damage("msb and lsb far apart", far_too_wide),
    damage("timescale below -21", timescale_below),
    damage("timescale above 2", timescale_above),
    damage("initial symbol above 8", initial_above),
    damage("facility n", no_such_facility),
    damage("change without facilities", no_facilities),
    damage("value past its pool", value_past_pool),
    damage("value past 2^32", value_past_32_bits),
    damage("one symbol short", symbol_short),
    damage("one symbol long", symbol_long),
    damage("byte that is no symbol", no_symbol),
    damage("lower case", lower_case),
    damage("code in place of its symbol", code_as_symbol),
    damage("integer with another symbol", integer_symbol),
    damage("integer of one other symbol", integer_of_one_symbol),
    damage("integer of 31 or 33 symbols", integer_width),
    damage("real of 7 bytes", real_of_7),
    damage("real of 9 bytes", real_of_9),
    damage("zero in a text", zero_in_text),
    damage("time one below", time_below),
    damage("time 0 after the greatest", time_after_greatest),
];

/// Both sides by editing one input in two ways.
fn both(
    base: Input,
    near: impl FnOnce(&mut Input),
    over: impl FnOnce(&mut Input),
) -> InputNeighbours {
    let mut sides = InputNeighbours {
        near: base.clone(),
        over: base,
    };
    near(&mut sides.near);
    over(&mut sides.over);
    sides
}

// ---- Facilities ----

fn too_many(base: &Input, random: &mut Random) -> InputNeighbours {
    let mut near = base.clone();
    let kind = random.pick(&[BITS, REAL, TEXT]);
    near.facilities.resize(4_096, [0, 0, kind, 0, 0]);
    let more = random.pick(&[1, 1, 50]);
    both(
        near,
        |_| (),
        |it| it.facilities.resize(4_096 + more, [0, 0, kind, 0, 0]),
    )
}

/// A name with which nothing is wrong.
fn some_name(random: &mut Random, longest: usize) -> Vec<u8> {
    let length = random.below(longest + 1);
    (0..length).map(|_| random.within(1, 255) as u8).collect()
}

fn name_past_pool(base: &Input, random: &mut Random) -> InputNeighbours {
    let mut near = base.clone();
    let name = some_name(random, 9);
    let place = near.insert_facility(random, &name, [TEXT, 0, 0]);
    let by = random.pick(&[1, 1, 1, 1 << 31]);
    let length = near.facilities[place][1];
    let longer = length > 0 && random.chance(1, 2);
    both(
        near,
        |_| (),
        |it| match longer {
            true => it.facilities[place][1] += by,
            false => it.facilities[place][0] += by,
        },
    )
}

/// Start and length of a part whose end, taken as 32 bits, would lie in a pool.
fn wrapped_part(random: &mut Random, pool: usize) -> [u32; 2] {
    let below = random.within(1, 9) as u32;
    let end = random.below(pool.min(9) + 1) as u32;
    [below.wrapping_neg(), below + end]
}

fn name_past_32_bits(base: &Input, random: &mut Random) -> InputNeighbours {
    let mut near = base.clone();
    let place = near.insert_facility(random, b"wrapped", [TEXT, 0, 0]);
    let part = wrapped_part(random, near.names.len());
    both(
        near,
        |_| (),
        |it| it.facilities[place][..2].copy_from_slice(&part),
    )
}

fn name_too_long(base: &Input, random: &mut Random) -> InputNeighbours {
    let mut near = base.clone();
    let place = near.insert_facility(random, &[b'n'; 1_024], [BITS, 0, 0]);
    let more = random.pick(&[0, 0, 1]);
    near.names.extend(vec![b'n'; more]);
    both(
        near,
        |it| it.facilities[place][1] = 1_023,
        |it| it.facilities[place][1] = 1_024 + more as u32,
    )
}

fn zero_in_name(base: &Input, random: &mut Random) -> InputNeighbours {
    let mut near = base.clone();
    let mut name = some_name(random, 9);
    let at = random.below(name.len() + 1);
    name.insert(at, 1);
    let start = near.names.len();
    near.insert_facility(random, &name, [TEXT, 0, 0]);
    both(near, |_| (), |it| it.names[start + at] = 0)
}

fn kind_above_3(base: &Input, random: &mut Random) -> InputNeighbours {
    let mut near = base.clone();
    let place = near.insert_facility(random, b"kind", [TEXT, 0, 0]);
    let kind = random.pick(&[4, 4, 8, 0x100, 1 << 31, u32::MAX]);
    both(near, |_| (), |it| it.facilities[place][2] = kind)
}

fn too_wide(base: &Input, random: &mut Random) -> InputNeighbours {
    let widest = WIDEST as i32;
    let low = random.pick(&[0, -1, -4_095, i32::MIN, i32::MAX - widest]);
    let mut near = base.clone();
    let place = near.insert_facility(random, b"wide", [BITS, 0, 0]);
    let turned = random.chance(1, 2);
    let set = |it: &mut Input, high: i32| {
        let ends = match turned {
            true => [low as u32, high as u32],
            false => [high as u32, low as u32],
        };
        it.facilities[place][3..].copy_from_slice(&ends);
    };
    both(
        near,
        |it| set(it, low + widest - 1),
        |it| set(it, low + widest),
    )
}

/// The distance of msb and lsb needs more than 31 bits, or is a small number if it wraps.
fn far_too_wide(base: &Input, random: &mut Random) -> InputNeighbours {
    let ends = random.pick(&[
        [i32::MAX, i32::MIN],
        [i32::MIN, i32::MAX],
        [i32::MAX, -1],
        [-1, i32::MAX],
        [0, i32::MIN],
        [i32::MAX - 7, i32::MIN],
        [i32::MIN, i32::MAX - 4_000],
    ]);
    let [msb, lsb] = ends.map(|end| end as u32);
    let mut near = base.clone();
    // Of the other kinds they are not tested.
    let kind = random.pick(&[INTEGER, REAL, TEXT]);
    let place = near.insert_facility(random, b"far", [kind, msb, lsb]);
    both(near, |_| (), |it| it.facilities[place][2] = BITS)
}

// ---- Timescale and initial symbol ----

fn timescale_below(base: &Input, random: &mut Random) -> InputNeighbours {
    let over = random.pick(&[-22, -22, -128]);
    both(
        base.clone(),
        |it| it.timescale = -21,
        |it| it.timescale = over,
    )
}

fn timescale_above(base: &Input, random: &mut Random) -> InputNeighbours {
    let over = random.pick(&[3, 3, 127]);
    both(
        base.clone(),
        |it| it.timescale = 2,
        |it| it.timescale = over,
    )
}

fn initial_above(base: &Input, random: &mut Random) -> InputNeighbours {
    let over = random.pick(&[9, 9, b'X', b'0', 255]);
    both(base.clone(), |it| it.initial = 8, |it| it.initial = over)
}

// ---- Changes ----

/// With a facility of this kind and a change of it at any place; gives that place.
fn with_change(base: &Input, random: &mut Random, kind: u32) -> (Input, usize) {
    let mut input = base.clone();
    let width = random.pick(&[1, 1, 2, 7, 8, 9, 31, 33, 64, 65, 100]);
    let facility = input.insert_facility(random, b"changed", [kind, width - 1, 0]);
    let value = any_value(random, &input, facility);
    let place = input.insert_change(random, facility, &value);
    (input, place)
}

fn no_such_facility(base: &Input, random: &mut Random) -> InputNeighbours {
    let mut near = base.clone();
    // The last one.
    let last = near.facility(b"last", TEXT, 0, 0);
    let place = near.insert_change(random, last as usize, b"");
    let over = random.pick(&[last + 1, last + 1, last + 2, 1 << 31, u32::MAX]);
    both(near, |_| (), |it| it.changes[place][0] = over)
}

fn no_facilities(base: &Input, random: &mut Random) -> InputNeighbours {
    let mut near = base.clone();
    near.facilities.clear();
    near.changes.clear();
    let facility = random.pick(&[0, 0, u32::MAX]);
    both(near, |_| (), |it| it.changes.push([facility, 0, 0, 0]))
}

fn value_past_pool(base: &Input, random: &mut Random) -> InputNeighbours {
    let kind = random.pick(&[BITS, INTEGER, REAL, TEXT, TEXT]);
    let (near, place) = with_change(base, random, kind);
    // A text may be longer, so it may also end one further; each may start one further.
    let longer = kind == TEXT && random.chance(1, 2);
    both(
        near,
        |_| (),
        |it| match longer {
            true => it.changes[place][3] += 1,
            false => it.changes[place][2] += 1,
        },
    )
}

fn value_past_32_bits(base: &Input, random: &mut Random) -> InputNeighbours {
    let (near, place) = with_change(base, random, TEXT);
    let part = wrapped_part(random, near.values.len());
    both(
        near,
        |_| (),
        |it| it.changes[place][2..].copy_from_slice(&part),
    )
}

fn symbol_short(base: &Input, random: &mut Random) -> InputNeighbours {
    let (near, place) = with_change(base, random, BITS);
    both(near, |_| (), |it| it.changes[place][3] -= 1)
}

/// The byte behind the value is one more symbol.
fn symbol_long(base: &Input, random: &mut Random) -> InputNeighbours {
    let (mut near, place) = with_change(base, random, BITS);
    let first = near.value_of(place)[0];
    near.values.push(first);
    both(near, |_| (), |it| it.changes[place][3] += 1)
}

/// One symbol of a change of bits becomes another byte, at any place, or all of them.
fn with_byte(base: &Input, random: &mut Random, byte: u8) -> InputNeighbours {
    let (near, place) = with_change(base, random, BITS);
    let [_, _, start, length] = near.changes[place];
    let (start, length) = (start as usize, length as usize);
    let at = random.pick(&[0, length - 1, random.clone().below(length)]);
    let all = random.chance(1, 6);
    both(
        near,
        |_| (),
        |it| match all {
            true => it.values[start..][..length].fill(byte),
            false => it.values[start + at] = byte,
        },
    )
}

fn no_symbol(base: &Input, random: &mut Random) -> InputNeighbours {
    let byte = loop {
        let near = random.pick(&SYMBOLS);
        let byte = random.pick(&[
            near.wrapping_sub(1),
            near + 1,
            near | 0x80,
            b'?',
            b'2',
            b' ',
        ]);
        if !SYMBOLS.contains(&byte) {
            break byte;
        }
    };
    with_byte(base, random, byte)
}

fn lower_case(base: &Input, random: &mut Random) -> InputNeighbours {
    let byte = random.pick(b"zxhuwl");
    with_byte(base, random, byte)
}

fn code_as_symbol(base: &Input, random: &mut Random) -> InputNeighbours {
    let code = random.below(9) as u8;
    with_byte(base, random, code)
}

fn integer_symbol(base: &Input, random: &mut Random) -> InputNeighbours {
    let (near, place) = with_change(base, random, INTEGER);
    let start = near.changes[place][2] as usize;
    let at = start + random.below(32);
    let other = random.pick(&SYMBOLS[2..]);
    both(near, |_| (), |it| it.values[at] = other)
}

fn integer_of_one_symbol(base: &Input, random: &mut Random) -> InputNeighbours {
    let (near, place) = with_change(base, random, INTEGER);
    let start = near.changes[place][2] as usize;
    let one = random.pick(b"01");
    let other = random.pick(&SYMBOLS[2..]);
    both(
        near,
        |it| it.values[start..][..32].fill(one),
        |it| it.values[start..][..32].fill(other),
    )
}

fn integer_width(base: &Input, random: &mut Random) -> InputNeighbours {
    let (mut near, place) = with_change(base, random, INTEGER);
    let more = any_symbols(random, 1, 2);
    near.values.extend(more);
    let length = random.pick(&[31, 33]);
    both(near, |_| (), |it| it.changes[place][3] = length)
}

fn real_of_7(base: &Input, random: &mut Random) -> InputNeighbours {
    let (near, place) = with_change(base, random, REAL);
    let length = random.pick(&[7, 7, 0, 4]);
    both(near, |_| (), |it| it.changes[place][3] = length)
}

fn real_of_9(base: &Input, random: &mut Random) -> InputNeighbours {
    let (mut near, place) = with_change(base, random, REAL);
    near.values.extend([0; 8]);
    let length = random.pick(&[9, 9, 16]);
    both(near, |_| (), |it| it.changes[place][3] = length)
}

fn zero_in_text(base: &Input, random: &mut Random) -> InputNeighbours {
    let mut near = base.clone();
    let mut text = some_name(random, 40);
    let at = random.below(text.len() + 1);
    text.insert(at, 1);
    let start = near.values.len();
    let facility = near.insert_facility(random, b"text", [TEXT, 0, 0]);
    near.insert_change(random, facility, &text);
    both(near, |_| (), |it| it.values[start + at] = 0)
}

/// Two neighbours of one time, of which the later one's is then one less.
fn time_below(base: &Input, random: &mut Random) -> InputNeighbours {
    let mut near = base.clone();
    let one = near.insert_facility(random, b"one", [TEXT, 0, 0]);
    let last = near.changes.last().map_or(0, |change| change[1]);
    near.change(one as u32, last.saturating_add(3), b"");
    let later = near.insert_change(random, one, b"");
    // It has the time of the change before it or behind it; those two are made to have one time.
    let later = later.max(1);
    let time = near.changes[later][1].max(1);
    for change in &mut near.changes[later..] {
        change[1] = change[1].max(time);
    }
    near.changes[later - 1][1] = time;
    near.changes[later][1] = time;
    both(near, |_| (), |it| it.changes[later][1] = time - 1)
}

fn time_after_greatest(base: &Input, random: &mut Random) -> InputNeighbours {
    let mut near = base.clone();
    let one = near.insert_facility(random, b"one", [TEXT, 0, 0]);
    near.change(one as u32, u32::MAX, b"");
    near.change(one as u32, u32::MAX, b"");
    let last = near.changes.len() - 1;
    both(near, |_| (), |it| it.changes[last][1] = 0)
}
