//! Checks 1 to 14: the frame, the section list and the tables.

use crate::{
    Facts, Kind, LONGEST_FILE, LONGEST_NAME, MOST_FACILITIES, SHORTEST_FILE, WIDEST_FACILITY,
};

/// 3.14159 in binary64, lowest byte first.
pub(crate) const REAL_TEST: [u8; 8] = [0x6E, 0x86, 0x1B, 0xF0, 0xF9, 0x21, 0x09, 0x40];

/// The timescale where the section is absent or its value out of range.
const DEFAULT_TIMESCALE: i8 = -9;
/// The code of X, the initial symbol where the section is absent or its value out of range.
const DEFAULT_INITIAL: u8 = 3;

/// Flag bit 3 of a geometry entry.
const ALIAS: u32 = 8;

/// A time entry: from `position` on, changes have this `time`.
#[derive(Clone, Copy, Debug)]
pub(crate) struct Entry {
    pub position: u32,
    pub time: i64,
}

/// A file that passed the checks 1 to 14, with its tables read out.
#[derive(Debug)]
pub(crate) struct Trace<'a> {
    pub file: &'a [u8],
    /// T
    pub end: usize,
    pub list: SectionList,
    /// C
    pub changes: usize,
    pub timescale: i8,
    pub initial: u8,
    /// The expanded name of each facility.
    pub names: Vec<Vec<u8>>,
    /// The root of each facility. A root's root is itself.
    pub roots: Vec<usize>,
    /// The facts of each facility; an alias has its root's.
    pub facts: Vec<Facts>,
    /// The sync entry of each facility; an alias's is never used.
    pub sync: Vec<u32>,
    /// In the order of the table: positions never fall, and times never fall.
    pub times: Vec<Entry>,
    /// Whether the times are those of tag 09.
    pub long_times: bool,
    /// Byte i, lowest first, of every real is data byte `real_order[i]`. All 0 where no root is of
    /// kind real.
    pub real_order: [usize; 8],
}

impl Trace<'_> {
    /// n
    pub fn count(&self) -> usize {
        self.roots.len()
    }

    pub fn is_root(&self, facility: usize) -> bool {
        self.roots[facility] == facility
    }

    /// The time of a change at `offset`: that of the last entry with position <= offset, so of
    /// several at one position the last in the table; or of entry 0 itself where none is, whatever
    /// entries share its position.
    pub fn time(&self, offset: u32) -> i64 {
        // Positions never fall, so these entries are the first of the table.
        let not_later = self.times.partition_point(|entry| entry.position <= offset);
        self.times[not_later.max(1) - 1].time
    }
}

/// Does the checks 1 to 14 in their order.
pub(crate) fn read_tables(file: &[u8]) -> Result<Trace<'_>, u8> {
    check_frame(file)?;
    let list = read_section_list(file)?;
    check_counting_tags(&list)?;
    let table = list.times();
    let (n, m) = check_bounds(file, &list, table)?;
    if n > MOST_FACILITIES {
        return Err(9);
    }
    let n = n as usize;
    let names = read_names(file, list.end, list.start(0x03), n)?;
    let geometry = read_geometry(file, list.start(0x04), n)?;
    let roots = find_roots(&geometry)?;
    let sync: Vec<u32> = (0..n)
        .map(|facility| word(file, list.start(0x02) + 4 * facility))
        .collect();
    let any_change = (0..n).any(|facility| roots[facility] == facility && sync[facility] != 0);
    let times = read_times(file, list.end, table, m as usize, any_change)?;
    let facts = root_facts(&geometry, &roots);
    let any_real = facts.iter().any(|facts| facts.kind == Kind::Real);
    let real_order = if any_real {
        read_real_order(file, list.end, list.value(0x08))?
    } else {
        [0; 8]
    };
    Ok(Trace {
        file,
        end: list.end,
        changes: list.start(0x01),
        timescale: read_timescale(file, &list),
        initial: read_initial(file, &list),
        names,
        roots,
        facts,
        sync,
        times,
        long_times: table.time_bytes == 8,
        real_order,
        list,
    })
}

/// The 4-byte number at `at`.
pub(crate) fn word(file: &[u8], at: usize) -> u32 {
    u32::from_be_bytes([file[at], file[at + 1], file[at + 2], file[at + 3]])
}

/// The signed 8-byte number at `at`.
fn signed_8(file: &[u8], at: usize) -> i64 {
    let mut bytes = [0; 8];
    bytes.copy_from_slice(&file[at..at + 8]);
    i64::from_be_bytes(bytes)
}

/// 1: the length. 2: the first bytes and the version, 0 to 4. 3: the last byte.
fn check_frame(file: &[u8]) -> Result<(), u8> {
    if file.len() < SHORTEST_FILE || file.len() > LONGEST_FILE {
        return Err(1);
    }
    let version = u16::from_be_bytes([file[2], file[3]]);
    if file[0] != 0x01 || file[1] != 0x38 || version > 4 {
        return Err(2);
    }
    if file[file.len() - 1] != 0xB4 {
        return Err(3);
    }
    Ok(())
}

/// The section list as it counts: of a tag met twice, the value nearer END.
#[derive(Debug)]
pub(crate) struct SectionList {
    /// T, the offset of the END tag.
    end: usize,
    /// By tag; 0 means absent.
    values: [u32; 256],
}

impl SectionList {
    pub fn value(&self, tag: u8) -> u32 {
        self.values[usize::from(tag)]
    }

    fn start(&self, tag: u8) -> usize {
        self.value(tag) as usize
    }

    /// The one times section that is present, by 6 and 7.
    fn times(&self) -> TimeTable {
        match self.value(0x06) {
            0 => TimeTable {
                start: self.value(0x09),
                time_bytes: 8,
            },
            start => TimeTable {
                start,
                time_bytes: 4,
            },
        }
    }
}

/// Where a times section starts and how many bytes a time has in it: 4 without sign in 06, 8 with sign
/// in 09 (Ask 1). Its body is the count m, first, last, m position deltas of 4 bytes, m time deltas.
#[derive(Clone, Copy)]
struct TimeTable {
    start: u32,
    time_bytes: usize,
}

impl TimeTable {
    /// The length of count, first and last.
    fn head(&self) -> usize {
        4 + 2 * self.time_bytes
    }

    /// The length of the body with m entries.
    fn length(&self, m: u32) -> u64 {
        self.head() as u64 + u64::from(m) * (4 + self.time_bytes as u64)
    }

    /// The time, or the delta of a time, at `at`.
    fn time(&self, file: &[u8], at: usize) -> i128 {
        match self.time_bytes {
            4 => i128::from(word(file, at)),
            _ => i128::from(signed_8(file, at)),
        }
    }
}

/// 4: before END, a tag or its value would start below offset 4.
fn read_section_list(file: &[u8]) -> Result<SectionList, u8> {
    let mut values = [0; 256];
    // The list is read from the byte before B4 towards the front.
    let mut at = file.len() - 2;
    loop {
        if at < 4 {
            return Err(4);
        }
        let tag = file[at];
        if tag == 0 {
            return Ok(SectionList { end: at, values });
        }
        if at < 4 + 4 {
            return Err(4);
        }
        // An item met later is nearer END, so it replaces one met before, also with value 0.
        values[usize::from(tag)] = word(file, at - 4);
        at -= 5;
    }
}

/// 5: compressed data. 6: times of both kinds. 7: a section that must be there is absent, or times of
/// either kind are.
fn check_counting_tags(list: &SectionList) -> Result<(), u8> {
    if (0x0A..=0x12).any(|tag| list.value(tag) != 0) {
        return Err(5);
    }
    let present = |tag| list.value(tag) != 0;
    if present(0x06) && present(0x09) {
        return Err(6);
    }
    if ![0x01, 0x02, 0x03, 0x04].into_iter().all(present) {
        return Err(7);
    }
    if !present(0x06) && !present(0x09) {
        return Err(7);
    }
    Ok(())
}

/// Whether a body lies between offset 4 and T. Sums are plain numbers.
pub(crate) fn lies_within(start: u32, length: u64, end: usize) -> bool {
    start >= 4 && u64::from(start) + length <= end as u64
}

/// 8: starts and bodies, and C. Gives the count n of the names and the count m of the times.
fn check_bounds(file: &[u8], list: &SectionList, times: TimeTable) -> Result<(u32, u32), u8> {
    let end = list.end;
    let changes = list.start(0x01);
    if changes < 4 || changes > end {
        return Err(8);
    }
    // A head is tested before its count is read.
    if !lies_within(list.value(0x03), 8, end) || !lies_within(times.start, times.head() as u64, end)
    {
        return Err(8);
    }
    let n = word(file, list.start(0x03));
    let m = word(file, times.start as usize);
    if !lies_within(list.value(0x02), 4 * u64::from(n), end)
        || !lies_within(list.value(0x04), 16 * u64::from(n), end)
        || !lies_within(times.start, times.length(m), end)
    {
        return Err(8);
    }
    for tag in [0x05, 0x07] {
        if list.value(tag) != 0 && !lies_within(list.value(tag), 1, end) {
            return Err(8);
        }
    }
    Ok((n, m))
}

/// 10: the names, each expanded from the one before.
fn read_names(file: &[u8], end: usize, start: usize, n: usize) -> Result<Vec<Vec<u8>>, u8> {
    let mut names: Vec<Vec<u8>> = Vec::with_capacity(n);
    // With n = 0 nothing after the head is read, and any M is fine.
    let room = u64::from(word(file, start + 4));
    let mut needed: u64 = 0;
    let mut at = start + 8;
    for number in 0..n {
        if at + 2 > end {
            return Err(10);
        }
        let prefix = usize::from(u16::from_be_bytes([file[at], file[at + 1]]));
        let before: &[u8] = match number {
            0 => &[],
            _ => &names[number - 1],
        };
        if prefix > before.len() {
            return Err(10);
        }
        let suffix = at + 2;
        let length = match file[suffix..end].iter().position(|byte| *byte == 0) {
            Some(length) => length,
            None => return Err(10),
        };
        if prefix + length > LONGEST_NAME {
            return Err(10);
        }
        let mut name = before[..prefix].to_vec();
        name.extend_from_slice(&file[suffix..suffix + length]);
        needed += name.len() as u64 + 1;
        names.push(name);
        at = suffix + length + 1;
    }
    if needed > room {
        return Err(10);
    }
    Ok(names)
}

/// A geometry entry that passed 11.
#[derive(Clone, Copy)]
enum Geometry {
    Root(Facts),
    Alias { target: u32 },
}

/// 11: rows, flags and width, of all facilities before any alias is followed.
fn read_geometry(file: &[u8], start: usize, n: usize) -> Result<Vec<Geometry>, u8> {
    let mut geometry = Vec::with_capacity(n);
    for number in 0..n {
        let at = start + 16 * number;
        let rows = word(file, at);
        let msb = word(file, at + 4) as i32;
        let lsb = word(file, at + 8) as i32;
        let flags = word(file, at + 12);
        if flags & ALIAS != 0 {
            geometry.push(Geometry::Alias { target: rows });
            continue;
        }
        if rows != 0 {
            return Err(11);
        }
        let facts = match flags {
            0 => {
                let width = (i64::from(msb) - i64::from(lsb)).abs() + 1;
                if width > i64::from(WIDEST_FACILITY) {
                    return Err(11);
                }
                Facts {
                    width: width as u32,
                    msb,
                    lsb,
                    kind: Kind::Bits,
                }
            }
            1 => Facts {
                width: 32,
                msb: 31,
                lsb: 0,
                kind: Kind::Integer,
            },
            2 => Facts {
                width: 0,
                msb: 0,
                lsb: 0,
                kind: Kind::Real,
            },
            4 => Facts {
                width: 0,
                msb: 0,
                lsb: 0,
                kind: Kind::Text,
            },
            _ => return Err(11),
        };
        geometry.push(Geometry::Root(facts));
    }
    Ok(geometry)
}

/// 12: each alias must reach, by aliases with targets below n, a facility that is none.
fn find_roots(geometry: &[Geometry]) -> Result<Vec<usize>, u8> {
    let n = geometry.len();
    let mut roots = Vec::with_capacity(n);
    for number in 0..n {
        let mut reached = number;
        let mut steps = 0;
        while let Geometry::Alias { target } = geometry[reached] {
            // Without a cycle an alias is followed over at most n - 1 targets.
            steps += 1;
            if target as usize >= n || steps >= n {
                return Err(12);
            }
            reached = target as usize;
        }
        roots.push(reached);
    }
    Ok(roots)
}

/// The facts of each facility: its root's.
fn root_facts(geometry: &[Geometry], roots: &[usize]) -> Vec<Facts> {
    let mut facts = Vec::with_capacity(roots.len());
    for root in roots {
        if let Geometry::Root(own) = geometry[*root] {
            facts.push(own);
        }
    }
    facts
}

/// 13: the time rules. Positions and times are running sums of the deltas, as plain numbers. Every
/// delta may be 0 but that of the first position (Ask 2). No time delta after the first is negative, and
/// no time leaves the range of 64 signed bits (Ask 1). Each entry is tested, also one that decides the
/// time of no change.
fn read_times(
    file: &[u8],
    end: usize,
    table: TimeTable,
    m: usize,
    any_change: bool,
) -> Result<Vec<Entry>, u8> {
    if any_change && m == 0 {
        return Err(13);
    }
    let start = table.start as usize;
    let first = table.time(file, start + 4);
    let last = table.time(file, start + 4 + table.time_bytes);
    let positions = start + table.head();
    let times = positions + 4 * m;
    let mut entries = Vec::with_capacity(m);
    let mut position: u64 = 0;
    let mut time: i128 = 0;
    for number in 0..m {
        let time_delta = table.time(file, times + table.time_bytes * number);
        // The first delta is the first time itself.
        if number > 0 && time_delta < 0 {
            return Err(13);
        }
        position += u64::from(word(file, positions + 4 * number));
        time += time_delta;
        // Positions never fall, so a position below 4 is the first one or follows such a one.
        if position < 4 || position >= end as u64 || time < first || time > last {
            return Err(13);
        }
        entries.push(Entry {
            position: position as u32,
            time: i64::try_from(time).map_err(|_| 13)?,
        });
    }
    Ok(entries)
}

/// 14: 08 absent, out of bounds, or no reordering of the pattern.
fn read_real_order(file: &[u8], end: usize, start: u32) -> Result<[usize; 8], u8> {
    if start == 0 || !lies_within(start, 8, end) {
        return Err(14);
    }
    let test = &file[start as usize..start as usize + 8];
    let mut order = [0; 8];
    for (byte, place) in REAL_TEST.iter().zip(order.iter_mut()) {
        // All eight differ, so eight bytes that hold each of them are a reordering.
        *place = match test.iter().position(|found| found == byte) {
            Some(found) => found,
            None => return Err(14),
        };
    }
    Ok(order)
}

fn read_timescale(file: &[u8], list: &SectionList) -> i8 {
    if list.value(0x05) == 0 {
        return DEFAULT_TIMESCALE;
    }
    match file[list.start(0x05)] as i8 {
        scale if (-21..=2).contains(&scale) => scale,
        _ => DEFAULT_TIMESCALE,
    }
}

fn read_initial(file: &[u8], list: &SectionList) -> u8 {
    if list.value(0x07) == 0 {
        return DEFAULT_INITIAL;
    }
    match file[list.start(0x07)] {
        code if code <= 8 => code,
        _ => DEFAULT_INITIAL,
    }
}
