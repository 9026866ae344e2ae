//! What a writer is given: sound inputs of all kinds, neighbours of every rule's boundary, and nonsense.

mod damage;

pub use damage::{InputDamage, InputNeighbours, INPUT_DAMAGES};

use crate::random::Random;
use crate::valid::name;

/// The symbols of the codes 0 to 8.
const SYMBOLS: [u8; 9] = *b"01ZXHUWL-";

/// The kinds of a facility's row.
pub const BITS: u32 = 0;
pub const INTEGER: u32 = 1;
pub const REAL: u32 = 2;
pub const TEXT: u32 = 3;

/// The widest facility of bits.
pub const WIDEST: usize = 4_096;

/// What a writer is given. A facility is the start and length of its name, its kind, msb and lsb; a change is
/// its facility, its time, and the start and length of its value.
#[derive(Clone, Debug, PartialEq, Eq)]
pub struct Input {
    pub facilities: Vec<[u32; 5]>,
    pub names: Vec<u8>,
    pub changes: Vec<[u32; 4]>,
    pub values: Vec<u8>,
    pub initial: u8,
    pub timescale: i8,
}

/// An input and where it comes from.
#[derive(Clone, Debug)]
pub struct InputCase {
    pub origin: String,
    pub input: Input,
    /// Whether it breaks no rule, where its making settles it.
    pub sound: Option<bool>,
}

/// An input for any seed: sound, near a boundary, over it, or nonsense.
pub fn input_case(seed: u64) -> InputCase {
    let mut random = Random::new(seed ^ 0x5752_4954_4500_0000);
    match random.below(16) {
        0..=6 => InputCase {
            origin: "sound".to_string(),
            input: sound_input(&mut random),
            sound: Some(true),
        },
        7..=9 => {
            let (damage, neighbours) = any_input_damage(&mut random);
            InputCase {
                origin: format!("near {}", damage.name),
                input: neighbours.near,
                sound: Some(true),
            }
        }
        10..=13 => {
            let (damage, neighbours) = any_input_damage(&mut random);
            InputCase {
                origin: format!("over {}", damage.name),
                input: neighbours.over,
                sound: Some(false),
            }
        }
        _ => InputCase {
            origin: "nonsense".to_string(),
            input: nonsense_input(&mut random),
            sound: None,
        },
    }
}

/// A damage of a sound input.
fn any_input_damage(random: &mut Random) -> (&'static InputDamage, InputNeighbours) {
    let damage = &INPUT_DAMAGES[random.below(INPUT_DAMAGES.len())];
    let base = sound_input(random);
    (damage, (damage.apply)(&base, random))
}

// ---- Parts of an input ----

impl Input {
    /// Nothing to write: no facilities and no changes, X before all, and nanoseconds.
    pub fn new() -> Self {
        Input {
            facilities: Vec::new(),
            names: Vec::new(),
            changes: Vec::new(),
            values: Vec::new(),
            initial: 3,
            timescale: -9,
        }
    }

    /// Adds a facility with its name at the end of the pool, and gives its number.
    pub fn facility(&mut self, name: &[u8], kind: u32, msb: i32, lsb: i32) -> u32 {
        let row = [
            self.names.len() as u32,
            name.len() as u32,
            kind,
            msb as u32,
            lsb as u32,
        ];
        self.facilities.push(row);
        self.names.extend(name);
        self.facilities.len() as u32 - 1
    }

    /// Adds a change with its value at the end of the pool.
    pub fn change(&mut self, facility: u32, time: u32, value: &[u8]) {
        let (start, length) = (self.values.len() as u32, value.len() as u32);
        self.changes.push([facility, time, start, length]);
        self.values.extend(value);
    }

    /// The name of a facility whose part lies inside.
    pub fn name_of(&self, facility: usize) -> &[u8] {
        let [start, length, ..] = self.facilities[facility];
        &self.names[start as usize..][..length as usize]
    }

    /// The value of a change whose part lies inside.
    pub fn value_of(&self, change: usize) -> &[u8] {
        let [_, _, start, length] = self.changes[change];
        &self.values[start as usize..][..length as usize]
    }

    /// How many symbols a value of a sound facility has; 0 of reals and texts.
    pub fn width_of(&self, facility: usize) -> usize {
        match self.facilities[facility] {
            [_, _, BITS, msb, lsb] => (msb as i32).abs_diff(lsb as i32) as usize + 1,
            [_, _, INTEGER, ..] => 32,
            _ => 0,
        }
    }

    /// Puts a facility at any place, with its name at the end of the pool, and gives its number. The changes
    /// stay those of the same facilities.
    fn insert_facility(&mut self, random: &mut Random, name: &[u8], row: [u32; 3]) -> usize {
        let place = random.below(self.facilities.len() + 1);
        for change in &mut self.changes {
            change[0] += u32::from(change[0] as usize >= place);
        }
        let [kind, msb, lsb] = row;
        self.facility(name, kind, msb as i32, lsb as i32);
        self.facilities[place..].rotate_right(1);
        place
    }

    /// Puts a change at any place, with its value at the end of the pool and a time that its neighbours
    /// allow, and gives its place.
    fn insert_change(&mut self, random: &mut Random, facility: usize, value: &[u8]) -> usize {
        let place = random.below(self.changes.len() + 1);
        let before = place
            .checked_sub(1)
            .map_or(0, |before| self.changes[before][1]);
        let after = self.changes.get(place).map_or(u32::MAX, |after| after[1]);
        let time = random.pick(&[before, after]);
        self.change(facility as u32, time, value);
        self.changes[place..].rotate_right(1);
        place
    }
}

impl Default for Input {
    fn default() -> Self {
        Input::new()
    }
}

// ---- Sound inputs ----

/// An input that breaks no rule.
pub fn sound_input(random: &mut Random) -> Input {
    let mut input = Input::new();
    input.initial = random.below(9) as u8;
    input.timescale = random.within_signed(-21, 2) as i8;
    let facilities = match random.below(24) {
        0 => 0,
        1..=4 => 1,
        5..=20 => random.within(2, 12),
        _ => random.within(13, 80),
    };
    let wide = random.chance(1, 6);
    add_facilities(random, &mut input, facilities, wide);
    if random.chance(1, 16) {
        add_far_changes(random, &mut input);
    }
    let changes = match random.below(12) {
        _ if input.facilities.is_empty() => 0,
        0 => 0,
        1..=9 => random.within(1, 40),
        _ => random.within(40, 200),
    };
    add_changes(random, &mut input, changes);
    input
}

fn add_facilities(random: &mut Random, input: &mut Input, count: u64, wide: bool) {
    let mut before = Vec::new();
    for _ in 0..count {
        let kind = random.pick(&[BITS, BITS, BITS, INTEGER, REAL, TEXT]);
        let (msb, lsb) = match kind {
            BITS => any_range(random, wide),
            // Whatever is given for these, it is not tested.
            _ => random.pick(&[
                (0, 0),
                (31, 0),
                (7, -7),
                (i32::MAX, i32::MIN),
                (i32::MIN, 0),
            ]),
        };
        unused_bytes(random, &mut input.names);
        let name = name(random, &before);
        let number = input.facility(&name, kind, msb, lsb) as usize;
        if random.chance(1, 3) {
            share(random, &input.names[..], &mut input.facilities[number][..2]);
        }
        before = input.name_of(number).to_vec();
    }
    unused_bytes(random, &mut input.names);
}

/// msb and lsb of bits, of widths where a form takes another byte, and at the ends of their range.
fn any_range(random: &mut Random, wide: bool) -> (i32, i32) {
    let width = match random.below(8) {
        0 if wide => random.pick(&[4_095, 4_096]),
        0..=2 => 1,
        3..=6 => random.pick(&[2, 3, 4, 5, 7, 8, 9, 15, 16, 17, 31, 32, 33, 63, 64, 65]),
        _ => random.within_signed(1, 70) as i32,
    };
    let low = match random.below(6) {
        0 => i32::MIN,
        1 => i32::MAX - (width - 1),
        2 => random.within_signed(-100, 100) as i32,
        _ => 0,
    };
    let high = low + (width - 1);
    match random.chance(1, 3) {
        true => (low, high),
        false => (high, low),
    }
}

/// Sometimes bytes that nothing points to, zeros among them.
fn unused_bytes(random: &mut Random, pool: &mut Vec<u8>) {
    if random.chance(1, 6) {
        for _ in 0..random.below(5) {
            pool.push(random.pick(&[0, 0, b'1', 0xFF]));
        }
    }
}

/// Sometimes makes a part, start and length, one of the same bytes further down in the pool, or one that
/// stands in the pool's other parts, so that parts are shared or overlap. It holds no zero.
fn share(random: &mut Random, pool: &[u8], part: &mut [u32]) {
    let start = random.below(pool.len() + 1);
    let most = pool[start..].iter().take(1_023);
    let most = most.take_while(|byte| **byte != 0).count();
    part[0] = start as u32;
    part[1] = random.below(most + 1) as u32;
}

/// Changes of any facilities, by times that never fall.
fn add_changes(random: &mut Random, input: &mut Input, count: u64) {
    let mut time = input.changes.last().map_or(0, |change| change[1]);
    if input.changes.is_empty() && random.chance(1, 2) {
        time = random.pick(&[1, 5, 1_000, u32::MAX - 3, u32::MAX]);
    }
    // Some inputs have few times, some a new one at nearly every change.
    let still = random.pick(&[1, 4, 8]);
    for _ in 0..count {
        if !random.chance(still, 9) {
            let step = random.pick(&[1, 1, 2, 255, 65_536, 0x4000_0000]);
            time = time.saturating_add(step);
        }
        let facility = random.below(input.facilities.len());
        unused_bytes(random, &mut input.values);
        let value = any_value(random, input, facility);
        input.change(facility as u32, time, &value);
        repeat_value(random, input);
    }
}

/// Sometimes gives the last change the value of another change of its facility by pointing to the same part.
fn repeat_value(random: &mut Random, input: &mut Input) {
    let last = input.changes.len() - 1;
    let other = input.changes[random.below(last + 1)];
    if other[0] == input.changes[last][0] && random.chance(1, 2) {
        input.changes[last][2..].copy_from_slice(&other[2..]);
    }
    // A part of the pool that is a text overlaps others.
    let kind = input.facilities[input.changes[last][0] as usize][2];
    if kind == TEXT && random.chance(1, 4) {
        share(random, &input.values, &mut input.changes[last][2..]);
    }
}

/// A value that the facility can have.
fn any_value(random: &mut Random, input: &Input, facility: usize) -> Vec<u8> {
    match input.facilities[facility][2] {
        BITS => any_symbols(random, input.width_of(facility), 9),
        INTEGER => any_symbols(random, 32, 2),
        REAL => any_real(random).to_le_bytes().to_vec(),
        _ => any_text(random),
    }
}

/// So many symbols of the first `codes` codes: all of one, 0 and 1, those of two bits, or all; or all of one
/// but for one place.
fn any_symbols(random: &mut Random, width: usize, codes: usize) -> Vec<u8> {
    let codes = codes.min(random.pick(&[2, 2, 4, 4, 9]));
    let one = SYMBOLS[random.below(codes)];
    match random.below(4) {
        0 => vec![one; width],
        1 => {
            let mut symbols = vec![one; width];
            let place = random.pick(&[0, width - 1, random.clone().below(width)]);
            symbols[place] = SYMBOLS[random.below(codes)];
            symbols
        }
        _ => {
            let any = |_| SYMBOLS[random.below(codes)];
            (0..width).map(any).collect()
        }
    }
}

fn any_real(random: &mut Random) -> u64 {
    match random.below(8) {
        0 => 0x7FF0_0000_0000_0001,
        1 => 0x7FF8_0000_0000_0000 | random.any() >> 12,
        2 => (-0.0_f64).to_bits(),
        3 => random.pick(&[0, f64::INFINITY.to_bits(), 1, u64::MAX]),
        4 => (random.below(2_000) as f64 / 8.0).to_bits(),
        _ => random.any(),
    }
}

fn any_text(random: &mut Random) -> Vec<u8> {
    let length = match random.below(10) {
        0..=2 => 0,
        3..=7 => random.below(12),
        8 => random.below(300),
        _ => random.pick(&[250, 251, 252, 253, 254]),
    };
    (0..length).map(|_| random.within(1, 255) as u8).collect()
}

/// As the first changes of all two of a facility of one bit, with a text between them, so that the delta of
/// the second is on either side of where it takes another byte.
fn add_far_changes(random: &mut Random, input: &mut Input) {
    let near = random.pick(&[256, 256, 256, 65_536]);
    let delta = near + random.below(4) - 2;
    let bit = input.insert_facility(random, b"near", [BITS, 5, 5]);
    let text = input.insert_facility(random, b"nearest", [TEXT, 0, 0]);
    let bit = bit + usize::from(text <= bit);
    // The change of the bit is at 4; that of the text at 6, with three bytes beside it.
    input.change(bit as u32, 0, b"1");
    let letters = (0..delta - 3).map(|place| b'a' + (place % 26) as u8);
    input.change(text as u32, 0, &Vec::from_iter(letters));
    input.change(bit as u32, 0, b"Z");
}

// ---- Nonsense ----

/// Rows and pools of any numbers, mostly such that are around the pools' lengths. Nearly all break a rule.
pub fn nonsense_input(random: &mut Random) -> Input {
    let mut input = match random.chance(1, 2) {
        true => sound_input(random),
        false => Input::new(),
    };
    if random.chance(1, 3) {
        input.initial = random.byte();
        input.timescale = random.byte() as i8;
    }
    let bytes = |random: &mut Random| random.pick(&[0, b'0', b'1', b'1', b'Z', b'a', 255]);
    input
        .names
        .extend((0..random.below(20)).map(|_| bytes(random)));
    input
        .values
        .extend((0..random.below(40)).map(|_| bytes(random)));
    for _ in 0..random.below(4) {
        let kind = random.pick(&[0, 1, 2, 3, 3, 3, 4, u32::MAX]);
        let [start, length] = any_part(random, input.names.len());
        let [msb, lsb] = [0; 2].map(|_: u32| random.pick(&[0, 0, 1, 4_095, 4_096, 1 << 31]));
        input.facilities.push([start, length, kind, msb, lsb]);
    }
    for _ in 0..random.below(6) {
        let n = input.facilities.len() as u32;
        let facility = random.below(n as usize + 1) as u32;
        let facility = random.pick(&[facility, facility, facility, n, u32::MAX]);
        let time = random.pick(&[0, 1, 2, u32::MAX]);
        let [start, length] = any_part(random, input.values.len());
        input.changes.push([facility, time, start, length]);
    }
    input
}

/// Start and length of a part that may lie in a pool.
fn any_part(random: &mut Random, pool: usize) -> [u32; 2] {
    let pool = pool as u32;
    [0; 2].map(|_: u32| match random.below(12) {
        0 => pool,
        1 => pool + 1,
        2 => u32::MAX - random.below(3) as u32,
        3 => random.word(),
        4 => random.pick(&[8, 32, 1_023, 1_024]),
        _ => random.below(pool as usize / 2 + 1) as u32,
    })
}
