//! Writing a trace (Ask 5): first everything given is checked and the file's exact length found, then its
//! bytes are laid down.

use crate::tables::REAL_TEST;
use crate::{Kind, LONGEST_FILE, LONGEST_NAME, MOST_FACILITIES, SYMBOLS, WIDEST_FACILITY};

/// The first bytes and version 4. The changes follow, so C is 4.
const HEAD: [u8; 4] = [0x01, 0x38, 0x00, 0x04];
const CHANGES: u32 = HEAD.len() as u32;
/// The last byte.
const LAST: u8 = 0xB4;

/// Writes a trace and answers its length. Where it refuses, nothing is written: 24 where what is given breaks
/// a rule or the file would be too long, else 25 where `out` is shorter than the file.
///
/// A facility is the start and length of its name, its kind (0 bits, 1 integer, 2 real, 3 text), msb and
/// lsb. A change is its facility, its time, and the start and length of its value: symbols, the eight bytes
/// of a real, lowest first, or a text without its zero.
pub fn write(
    facilities: &[[u32; 5]],
    names: &[u8],
    changes: &[[u32; 4]],
    values: &[u8],
    initial: u8,
    timescale: i8,
    out: &mut [u8],
) -> Result<u32, u8> {
    let given = Given {
        facilities,
        names,
        changes,
        values,
        initial,
        timescale,
    };
    let plan = given.plan().ok_or(24)?;
    let length = plan.length();
    let out = out.get_mut(..length as usize).ok_or(25)?;
    given.lay_down(plan, out);
    Ok(length as u32)
}

/// What is to be written.
struct Given<'a> {
    facilities: &'a [[u32; 5]],
    names: &'a [u8],
    changes: &'a [[u32; 4]],
    values: &'a [u8],
    initial: u8,
    timescale: i8,
}

/// What the first pass finds, so that the second knows where each section lies.
struct Plan {
    facilities: Vec<Facility>,
    /// Where the changes end, and the names start.
    changes_end: u64,
    /// The bytes of the names section.
    names: u64,
    /// M
    memory: u32,
    /// m
    entries: u64,
}

/// A facility, and how far its changes are placed.
struct Facility {
    kind: Kind,
    /// As they are written.
    msb: i32,
    lsb: i32,
    /// How many symbols a value has; 0 of reals and texts.
    width: usize,
    /// The offset of the newest change; 0 where there is none.
    newest: u32,
}

/// How a value stands in its change: the command, and how many data bytes.
#[derive(Clone, Copy)]
struct Form {
    command: u8,
    data: usize,
}

/// A part of a pool, where it lies inside.
fn part(pool: &[u8], start: u32, length: u32) -> Option<&[u8]> {
    pool.get(start as usize..)?.get(..length as usize)
}

/// How many first bytes two names share.
fn shared(before: &[u8], name: &[u8]) -> usize {
    let pairs = before.iter().zip(name);
    pairs.take_while(|(one, other)| one == other).count()
}

// ---- The first pass ----

impl<'a> Given<'a> {
    /// The names, of facilities whose names were checked.
    fn names(&self) -> impl Iterator<Item = &'a [u8]> + '_ {
        let rows = self.facilities.iter();
        rows.filter_map(|[start, length, ..]| part(self.names, *start, *length))
    }

    /// Makes all checks and finds where everything lies; none where something is refused.
    fn plan(&self) -> Option<Plan> {
        if self.facilities.len() > MOST_FACILITIES as usize
            || !(-21..=2).contains(&self.timescale)
            || usize::from(self.initial) >= SYMBOLS.len()
        {
            return None;
        }
        let facilities: Option<Vec<_>> = self.facilities.iter().map(Facility::new).collect();
        let mut plan = Plan {
            facilities: facilities?,
            changes_end: CHANGES.into(),
            names: 8,
            memory: 0,
            entries: 0,
        };
        self.plan_names(&mut plan)?;
        self.plan_changes(&mut plan)?;
        (plan.length() <= LONGEST_FILE as u64).then_some(plan)
    }

    fn plan_names(&self, plan: &mut Plan) -> Option<()> {
        let mut before: &[u8] = &[];
        for [start, length, ..] in self.facilities {
            let name = part(self.names, *start, *length)?;
            if name.len() > LONGEST_NAME || name.contains(&0) {
                return None;
            }
            let suffix = name.len() - shared(before, name);
            plan.names += 2 + suffix as u64 + 1;
            plan.memory += name.len() as u32 + 1;
            before = name;
        }
        Some(())
    }

    fn plan_changes(&self, plan: &mut Plan) -> Option<()> {
        let mut end = plan.changes_end;
        let mut latest = None;
        for [number, time, start, length] in self.changes {
            let facility = plan.facilities.get_mut(*number as usize)?;
            let form = facility.form(part(self.values, *start, *length)?)?;
            if latest > Some(*time) {
                return None;
            }
            plan.entries += u64::from(latest != Some(*time));
            latest = Some(*time);
            // No change is placed past the longest file, so offsets have 24 bits and the sum is far from full.
            let delta = facility.place(end as u32);
            end += 1 + delta_bytes(delta) as u64 + form.data as u64;
            if end > LONGEST_FILE as u64 {
                return None;
            }
        }
        plan.changes_end = end;
        Some(())
    }
}

impl Facility {
    /// The facility of a row, where its kind and width are allowed.
    fn new(row: &[u32; 5]) -> Option<Self> {
        let [_, _, kind, msb, lsb] = *row;
        let (kind, msb, lsb) = match kind {
            0 => (Kind::Bits, msb as i32, lsb as i32),
            1 => (Kind::Integer, 31, 0),
            2 => (Kind::Real, 0, 0),
            3 => (Kind::Text, 0, 0),
            _ => return None,
        };
        let width = match kind {
            Kind::Bits | Kind::Integer => (i64::from(msb) - i64::from(lsb)).unsigned_abs() + 1,
            Kind::Real | Kind::Text => 0,
        };
        (width <= WIDEST_FACILITY.into()).then_some(Facility {
            kind,
            msb,
            lsb,
            width: width as usize,
            newest: 0,
        })
    }

    /// How a value is written, where the facility can have it.
    fn form(&self, value: &[u8]) -> Option<Form> {
        let plain = |data| Form { command: 0, data };
        match self.kind {
            Kind::Bits | Kind::Integer => self.form_of_symbols(value),
            Kind::Real => (value.len() == 8).then_some(plain(8)),
            Kind::Text => (!value.contains(&0)).then_some(plain(value.len() + 1)),
        }
    }

    /// The command of fewest data bytes, and the lowest of these.
    fn form_of_symbols(&self, symbols: &[u8]) -> Option<Form> {
        if symbols.len() != self.width {
            return None;
        }
        let first = *symbols.first()?;
        let differ = symbols.iter().fold(0, |all, symbol| all | (symbol ^ first));
        let packed = |command, bits: usize| Form {
            command,
            data: (bits * self.width).div_ceil(8),
        };
        let any_symbol = self.kind == Kind::Bits;
        match (differ, first) {
            (0, b'0' | b'1') => Some(packed(3 + code(first), 0)),
            (0, _) if any_symbol && code(first) != NO_CODE => Some(packed(3 + code(first), 0)),
            // ASCII 0 and 1 differ in their lowest bit.
            (1, b'0' | b'1') => Some(packed(0, 1)),
            // Codes of two bits stay so when joined, those of four bits too; NO_CODE has all bits.
            _ if any_symbol => match symbols.iter().fold(0, |all, it| all | code(*it)) {
                0..=3 => Some(packed(1, 2)),
                4..=15 => Some(packed(2, 4)),
                _ => None,
            },
            _ => None,
        }
    }

    /// Makes this offset that of the newest change and gives its delta, by which the change before is at
    /// offset - delta - 2; before the first it is 0.
    fn place(&mut self, offset: u32) -> u32 {
        let before = std::mem::replace(&mut self.newest, offset);
        offset - before - 2
    }
}

/// The fewest bytes that hold a delta, 1 to 3: offsets have 24 bits.
fn delta_bytes(delta: u32) -> usize {
    let bits = u32::BITS - (delta | 1).leading_zeros();
    bits.div_ceil(8) as usize
}

const NO_CODE: u8 = 0xFF;

/// The code of each byte that is a symbol.
const CODES: [u8; 256] = {
    let mut codes = [NO_CODE; 256];
    let mut code = 0;
    while code < SYMBOLS.len() {
        codes[SYMBOLS[code] as usize] = code as u8;
        code += 1;
    }
    codes
};

fn code(symbol: u8) -> u8 {
    CODES[usize::from(symbol)]
}

/// Where the sections lie: they follow each other without gaps.
struct Places {
    geometry: u64,
    sync: u64,
    times: u64,
    timescale: u64,
    initial: u64,
    real_test: u64,
    /// T
    end: u64,
}

impl Plan {
    fn has_real(&self) -> bool {
        self.facilities.iter().any(|it| it.kind == Kind::Real)
    }

    fn places(&self) -> Places {
        let n = self.facilities.len() as u64;
        let geometry = self.changes_end + self.names;
        let sync = geometry + 16 * n;
        let times = sync + 4 * n;
        let timescale = times + 12 + 8 * self.entries;
        let (initial, real_test) = (timescale + 1, timescale + 2);
        let real_test_bytes = if self.has_real() { 8 } else { 0 };
        Places {
            geometry,
            sync,
            times,
            timescale,
            initial,
            real_test,
            end: real_test + real_test_bytes,
        }
    }

    /// The length of the file: its sections, END, an item of 5 bytes for each, and the last byte.
    fn length(&self) -> u64 {
        let items = if self.has_real() { 8 } else { 7 };
        self.places().end + 1 + 5 * items + 1
    }
}

// ---- The second pass ----

/// Bytes that are laid down one after the other.
struct Bytes<'a> {
    rest: &'a mut [u8],
}

impl<'a> Bytes<'a> {
    /// The next so many bytes, to be filled by the caller.
    fn take(&mut self, count: usize) -> &'a mut [u8] {
        let (taken, rest) = std::mem::take(&mut self.rest).split_at_mut(count);
        self.rest = rest;
        taken
    }

    fn put<const N: usize>(&mut self, bytes: [u8; N]) {
        self.take(N).copy_from_slice(&bytes);
    }

    fn word(&mut self, number: u32) {
        self.put(number.to_be_bytes());
    }

    fn copy(&mut self, bytes: &[u8]) {
        self.take(bytes.len()).copy_from_slice(bytes);
    }
}

impl Given<'_> {
    /// Lays down the file, which fills the lent bytes.
    fn lay_down(&self, mut plan: Plan, out: &mut [u8]) {
        let places = plan.places();
        let items = section_list(&plan, &places);
        let n = plan.facilities.len();
        let mut bytes = Bytes { rest: out };
        let changes = bytes.take(plan.changes_end as usize);
        self.lay_names(&plan, bytes.take(plan.names as usize));
        let mut geometry = Bytes {
            rest: bytes.take(16 * n),
        };
        for facility in &mut plan.facilities {
            facility.lay_geometry(&mut geometry);
            facility.newest = 0;
        }
        let mut sync = Bytes {
            rest: bytes.take(4 * n),
        };
        self.lay_times_head(&plan, bytes.take(12));
        let entries = bytes.take(8 * plan.entries as usize);
        self.lay_changes(&mut plan.facilities, changes, entries);
        for facility in &plan.facilities {
            sync.word(facility.newest);
        }
        bytes.put([self.timescale as u8, self.initial]);
        if plan.has_real() {
            bytes.put(REAL_TEST);
        }
        // END
        bytes.put([0]);
        for (tag, start) in items {
            bytes.word(start);
            bytes.put([tag]);
        }
        bytes.put([LAST]);
    }

    fn lay_names(&self, plan: &Plan, out: &mut [u8]) {
        let mut bytes = Bytes { rest: out };
        bytes.word(plan.facilities.len() as u32);
        bytes.word(plan.memory);
        let mut before: &[u8] = &[];
        for name in self.names() {
            let prefix = shared(before, name);
            bytes.put((prefix as u16).to_be_bytes());
            bytes.copy(&name[prefix..]);
            bytes.put([0]);
            before = name;
        }
    }

    /// m, first and last.
    fn lay_times_head(&self, plan: &Plan, out: &mut [u8]) {
        let mut bytes = Bytes { rest: out };
        bytes.word(plan.entries as u32);
        for change in [self.changes.first(), self.changes.last()] {
            bytes.word(change.map_or(0, |[_, time, ..]| *time));
        }
    }

    /// Lays down the first bytes and the changes, and an entry, as two deltas, where the time is new.
    fn lay_changes(&self, facilities: &mut [Facility], out: &mut [u8], entries: &mut [u8]) {
        let (positions, times) = entries.split_at_mut(entries.len() / 2);
        let (mut positions, mut times) = (Bytes { rest: positions }, Bytes { rest: times });
        let all = out.len();
        let mut bytes = Bytes { rest: out };
        bytes.put(HEAD);
        let (mut position, mut latest) = (0, None);
        for [number, time, start, length] in self.changes {
            let offset = (all - bytes.rest.len()) as u32;
            if latest != Some(*time) {
                positions.word(offset - position);
                times.word(time - latest.unwrap_or(0));
                (position, latest) = (offset, Some(*time));
            }
            let facility = &mut facilities[*number as usize];
            let value = part(self.values, *start, *length).unwrap_or_default();
            let form = facility.form(value).expect("a value that was checked");
            lay_command(&mut bytes, form.command, facility.place(offset));
            facility.lay_data(value, form, bytes.take(form.data));
        }
    }
}

/// The tag and the start of each section, by rising tag.
fn section_list(plan: &Plan, places: &Places) -> Vec<(u8, u32)> {
    let mut items = vec![
        (0x01, CHANGES),
        (0x02, places.sync as u32),
        (0x03, plan.changes_end as u32),
        (0x04, places.geometry as u32),
        (0x05, places.timescale as u32),
        (0x06, places.times as u32),
        (0x07, places.initial as u32),
    ];
    if plan.has_real() {
        items.push((0x08, places.real_test as u32));
    }
    items
}

/// The command byte, with the number of delta bytes less one in bits 5 and 4, and the delta.
fn lay_command(bytes: &mut Bytes, command: u8, delta: u32) {
    let k = delta_bytes(delta);
    let first = u32::from(command) | (k as u32 - 1) << 4;
    let head = (first << 24 | delta << (8 * (3 - k))).to_be_bytes();
    // Without a test of k where four bytes are left: what follows is laid over those that are too many.
    match bytes.rest.first_chunk_mut() {
        Some(four) => *four = head,
        None => bytes.rest[..1 + k].copy_from_slice(&head[..1 + k]),
    }
    bytes.take(1 + k);
}

impl Facility {
    fn lay_geometry(&self, bytes: &mut Bytes) {
        let flags = match self.kind {
            Kind::Bits => 0,
            Kind::Integer => 1,
            Kind::Real => 2,
            Kind::Text => 4,
        };
        // No array: rows is 0.
        for number in [0, self.msb as u32, self.lsb as u32, flags] {
            bytes.word(number);
        }
    }

    fn lay_data(&self, value: &[u8], form: Form, data: &mut [u8]) {
        match (self.kind, form.command) {
            (Kind::Real, _) => data.copy_from_slice(value),
            (Kind::Text, _) => {
                let (text, zero) = data.split_at_mut(value.len());
                text.copy_from_slice(value);
                zero.fill(0);
            }
            (_, 0) => pack_bits(value, data),
            (_, 1) => pack::<4>(value, data),
            (_, 2) => pack::<2>(value, data),
            // All symbols are one, which the command says.
            _ => {}
        }
    }
}

/// The 1-bit form, eight symbols a byte from its top bit.
fn pack_bits(symbols: &[u8], data: &mut [u8]) {
    let (eights, rest) = symbols.as_chunks();
    for (byte, eight) in data.iter_mut().zip(eights) {
        *byte = low_bits(*eight);
    }
    if let (false, Some(last)) = (rest.is_empty(), data.last_mut()) {
        let mut eight = [0; 8];
        eight[..rest.len()].copy_from_slice(rest);
        *last = low_bits(eight);
    }
}

/// The lowest bits of eight bytes, that of the first byte at the top. The lowest bit of an ASCII 0 or 1 is its
/// code.
fn low_bits(eight: [u8; 8]) -> u8 {
    let lowest = u64::from_be_bytes(eight) & 0x0101_0101_0101_0101;
    // The bit of byte i from below, at 8 * i, comes to 56 + i by the factor's bit at 56 - 7 * i; no two meet.
    (lowest.wrapping_mul(0x0102_0408_1020_4080) >> 56) as u8
}

/// The form of so many symbols a byte, from its top bit; unused bits are 0.
fn pack<const A_BYTE: usize>(symbols: &[u8], data: &mut [u8]) {
    let bits = 8 / A_BYTE;
    let (whole, rest) = symbols.as_chunks::<A_BYTE>();
    for (byte, some) in data.iter_mut().zip(whole) {
        *byte = some.iter().fold(0, |byte, it| byte << bits | code(*it));
    }
    if let (false, Some(last)) = (rest.is_empty(), data.last_mut()) {
        let packed = rest.iter().fold(0, |byte, it| byte << bits | code(*it));
        *last = packed << (bits * (A_BYTE - rest.len()));
    }
}
