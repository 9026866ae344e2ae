//! All calls with every lent buffer between two pages that nothing may touch, exactly at the one or the
//! other, and with what is lent to be read in memory that cannot be written. A text that is lent as a default
//! is not even read, so it may lie in memory that cannot be read. A read or write outside of what was lent
//! ends the test run with a signal.

use std::ffi::{c_int, c_void};
use std::marker::PhantomData;

use super::c::{self, Facility, Handed, Part, Summary, Value};
use super::tests::{handed, item, numbers, part, rows, shape, Rows};
use super::Given;
use crate::{Item, NewChange, NewFacility, Pair};
use lxt_generate::Random;
use lxt_reference::Judged;

extern "C" {
    fn mmap(
        at: *mut c_void,
        size: usize,
        may: c_int,
        how: c_int,
        of: c_int,
        from: i64,
    ) -> *mut c_void;
    fn mprotect(at: *mut c_void, size: usize, may: c_int) -> c_int;
    fn munmap(at: *mut c_void, size: usize) -> c_int;
}

const NOTHING: c_int = 0;
const READ: c_int = 1;
const READ_AND_WRITE: c_int = 3;
/// Private memory of no file, on Linux.
const PRIVATE_MEMORY: c_int = 0x22;
/// A multiple of the size of a page.
const PAGE: usize = 65_536;

/// Where a lent buffer stands: its first byte right behind a guard page, or its last right before one.
#[derive(Clone, Copy, Debug, PartialEq, Eq)]
enum Place {
    First,
    Last,
}

/// Memory for so many bytes between two guard pages.
struct Guarded<T> {
    start: *mut u8,
    /// Of the memory between the guard pages.
    size: usize,
    of: PhantomData<T>,
}

impl<T: Copy> Guarded<T> {
    fn new(most: usize) -> Self {
        let size = (most * size_of::<T>()).next_multiple_of(PAGE).max(PAGE);
        let all = size + 2 * PAGE;
        // SAFETY: new memory, of which nothing may be touched, and then the part between the guards.
        let start = unsafe {
            let at = mmap(std::ptr::null_mut(), all, NOTHING, PRIVATE_MEMORY, -1, 0);
            assert_ne!(at as isize, -1);
            let start = at.cast::<u8>().add(PAGE);
            assert_eq!(mprotect(start.cast(), size, READ_AND_WRITE), 0);
            start
        };
        Guarded {
            start,
            size,
            of: PhantomData,
        }
    }

    fn allow(&mut self, may: c_int) {
        // SAFETY: the part between the guards, which no reference is to.
        assert_eq!(unsafe { mprotect(self.start.cast(), self.size, may) }, 0);
    }

    /// These, to be read and written.
    fn lend(&mut self, items: &[T], place: Place) -> &mut [T] {
        let room = size_of_val(items);
        assert!(room <= self.size);
        let skipped = match place {
            Place::First => 0,
            Place::Last => self.size - room,
        };
        self.allow(READ_AND_WRITE);
        // SAFETY: the items fit between the guards, their start is a page's or a multiple of their size
        // before one, all bytes have a value, and the slice borrows the memory.
        unsafe {
            let at = self.start.add(skipped).cast::<T>();
            assert!(at.is_aligned());
            std::ptr::copy_nonoverlapping(items.as_ptr(), at, items.len());
            std::slice::from_raw_parts_mut(at, items.len())
        }
    }

    /// These, to be read only.
    fn lend_to_read(&mut self, items: &[T], place: Place) -> &[T] {
        let lent = self.lend(items, place);
        let (at, count) = (lent.as_ptr(), lent.len());
        self.allow(READ);
        // SAFETY: the slice just made, which borrows the memory.
        unsafe { std::slice::from_raw_parts(at, count) }
    }
}

impl Guarded<u8> {
    /// So many bytes that can be neither read nor written: where they start.
    fn lend_untouched(&mut self, count: usize, place: Place) -> *const u8 {
        let at = self.lend(&vec![0xA5; count], place).as_ptr();
        self.allow(NOTHING);
        at
    }
}

impl<T> Drop for Guarded<T> {
    fn drop(&mut self) {
        // SAFETY: what `new` mapped, which nothing borrows any more.
        unsafe {
            let at = self.start.sub(PAGE);
            assert_eq!(munmap(at.cast(), self.size + 2 * PAGE), 0);
        }
    }
}

/// Guarded memory for what a column is lent, besides the file and the bits.
struct ColumnLent {
    list: Guarded<u32>,
    text: Guarded<u8>,
    items: Guarded<Item>,
    sum: Guarded<u64>,
}

impl ColumnLent {
    fn new() -> Self {
        ColumnLent {
            list: Guarded::new(8_192),
            text: Guarded::new(300),
            items: Guarded::new(8_192),
            sum: Guarded::new(1),
        }
    }
}

/// Guarded memory for what the calls are lent.
struct Lent {
    file: Guarded<u8>,
    asked: Guarded<u8>,
    bytes: Guarded<u8>,
    text: Guarded<u8>,
    column: ColumnLent,
    pairs: Guarded<Pair>,
    output: Guarded<u32>,
    /// Structs and single numbers.
    summary: Guarded<Summary>,
    facts: Guarded<Facility>,
    value: Guarded<Value>,
    part: Guarded<Part>,
    handed: Guarded<Handed>,
    one: Guarded<u32>,
    time: Guarded<i64>,
    clean: Guarded<u32>,
    visited: Guarded<u32>,
    msb: Guarded<i32>,
    lsb: Guarded<i32>,
    scale: Guarded<i8>,
}

impl Lent {
    fn new(longest: usize) -> Self {
        Lent {
            file: Guarded::new(longest),
            asked: Guarded::new(8_192),
            bytes: Guarded::new(COLUMN),
            text: Guarded::new(300),
            column: ColumnLent::new(),
            pairs: Guarded::new(8_192),
            output: Guarded::new(16_384),
            summary: Guarded::new(1),
            facts: Guarded::new(1),
            value: Guarded::new(1),
            part: Guarded::new(1),
            handed: Guarded::new(1),
            one: Guarded::new(1),
            time: Guarded::new(1),
            clean: Guarded::new(1),
            visited: Guarded::new(1),
            msb: Guarded::new(1),
            lsb: Guarded::new(1),
            scale: Guarded::new(1),
        }
    }
}

/// The most bytes of a column that are lent here.
const COLUMN: usize = 1 << 20;

const MARK: u32 = 0xAAAA_AAAA;
const SUM: u64 = 0xAAAA_AAAA_BBBB_BBBB;
const TIME: i64 = -0x5555_5555_5555_5555;

const SUMMARY: Summary = Summary {
    facilities: MARK,
    changes: MARK,
    end: MARK,
    initial: MARK,
    clean: MARK,
};

const FACTS: Facility = Facility {
    width: MARK,
    kind: MARK,
};

const VALUE: Value = Value {
    what: 77,
    number: 78,
    length: 79,
};

const PART: Part = Part {
    from: 77,
    start: 78,
    length: 79,
};

const ITEM: Item = Item {
    what: 77,
    start: 78,
    length: 79,
    real: 80,
};

const HANDED: Handed = Handed {
    count: MARK,
    done: MARK,
};

/// What a call is to leave: its answer and 0, or what was lent and the refusal.
fn after<T>(expected: Result<T, u8>, lent: T) -> (u32, T) {
    match expected {
        Ok(answer) => (0, answer),
        Err(number) => (number.into(), lent),
    }
}

/// The text at a time, with the lent one in memory that can be read, and in memory that cannot. Gives how many
/// calls.
fn text_calls(
    file: &[u8],
    judged: Result<&Judged, u8>,
    (facility, time): (u32, i64),
    lent: &mut Guarded<u8>,
    parts: &mut Guarded<Part>,
    place: Place,
) -> u64 {
    let counts = [0, 300];
    for count in counts {
        let text = vec![0xA5; count];
        let expected = judged.and_then(|it| it.text_at(facility, time, &text));
        let expected = after(expected.map(part), PART);
        let text = lent.lend_to_read(&text, place);
        let answer = &mut parts.lend(&[PART], place)[0];
        let number = super::text_at(file, facility, time, text, answer);
        assert_eq!((number, *answer), expected);

        let text = lent.lend_untouched(count, place);
        let answer = &mut parts.lend(&[PART], place)[0];
        let (at, length) = (file.as_ptr(), file.len());
        // SAFETY: as in `super::text_at`, but that the text cannot be read, which the header says it is not.
        let number = unsafe { c::lxt_text_at(at, length, facility, time, text, count, answer) };
        assert_eq!((number, *answer), expected);
    }
    2 * counts.len() as u64
}

/// Columns of these numbers at a time, with exactly the room that they need, with a byte and an item less, and with
/// more. The lent text cannot be read. Gives how many calls.
fn column_calls(
    file: &[u8],
    judged: Result<&Judged, u8>,
    (list, time): (&[u32], i64),
    lent: (&mut Guarded<u8>, &mut ColumnLent),
    place: Place,
) -> u64 {
    let (bytes, lent) = lent;
    let width = |facility: &u32| judged.and_then(|it| it.facts(*facility)).map(|it| it.width);
    let widths: usize = list.iter().map(|it| width(it).unwrap_or(1) as usize).sum();
    if widths + 3 > COLUMN {
        return 0;
    }
    let rooms = [
        (widths, list.len()),
        (widths.saturating_sub(1), list.len()),
        (widths, list.len().saturating_sub(1)),
        (widths + 3, list.len() + 3),
    ];
    for (room, items_room) in rooms {
        let (mut bits, mut items) = (vec![0xA5; room], vec![None; items_room]);
        let text = vec![0xA5; room.min(300)];
        let expected = judged.and_then(|it| it.column(time, list, &text, &mut bits, &mut items));
        let symbols = bytes.lend(&vec![0xA5; room], place);
        let records = lent.items.lend(&vec![ITEM; items_room], place);
        let visited = &mut lent.sum.lend(&[SUM], place)[0];
        let list = lent.list.lend_to_read(list, place);
        let unread = lent.text.lend_untouched(text.len(), place);
        // SAFETY: as in `super::column`, but that the text cannot be read, which the header says it is not.
        let number = unsafe {
            c::lxt_column(
                file.as_ptr(),
                file.len(),
                time,
                list.as_ptr(),
                list.len(),
                unread,
                text.len(),
                symbols.as_mut_ptr(),
                symbols.len(),
                records.as_mut_ptr(),
                records.len(),
                visited,
            )
        };
        assert_eq!((number, *visited), after(expected, SUM));
        assert!(symbols == bits);
        let items = items.into_iter().map(|it| it.map_or(ITEM, item));
        assert!(records.iter().copied().eq(items));
    }
    rooms.len() as u64
}

/// All calls about a file with guarded memory, compared with the independent reader. Gives how many.
fn all_calls(file: &[u8], lent: &mut Lent, place: Place) -> u64 {
    let judged = Judged::new(file);
    let judged = judged.as_ref().map_err(|number| *number);
    let chains = judged.map(Judged::chains).unwrap_or_default();
    let n = chains.len();
    let mut random = Random::new(file.len() as u64);
    let mut calls = 0;
    let file = lent.file.lend_to_read(file, place);

    let answer = &mut lent.summary.lend(&[SUMMARY], place)[0];
    let scale = &mut lent.scale.lend(&[99], place)[0];
    let number = super::judge(file, answer, scale);
    let summary = judged.map(Judged::summary);
    let expected = summary.map(|it| {
        let answer = Summary {
            facilities: it.facilities,
            changes: it.changes,
            end: it.end,
            initial: it.initial.into(),
            clean: it.clean.into(),
        };
        (answer, it.timescale)
    });
    assert_eq!((number, (*answer, *scale)), after(expected, (SUMMARY, 99)));

    let one = &mut lent.one.lend(&[MARK], place)[0];
    let number = super::stray(file, one);
    let stray = judged.map(Judged::stray_bytes);
    assert_eq!((number, *one), after(stray, MARK));
    calls += 2;

    let last = n.saturating_sub(1) as u32;
    for facility in [0, random.below(n.max(1)) as u32, last, n as u32, u32::MAX] {
        let answer = &mut lent.facts.lend(&[FACTS], place)[0];
        let msb = &mut lent.msb.lend(&[7], place)[0];
        let lsb = &mut lent.lsb.lend(&[7], place)[0];
        let number = super::facts(file, facility, answer, msb, lsb);
        let facts = judged.and_then(|it| it.facts(facility));
        let width = facts.map_or(40, |it| it.width as usize);
        let expected = facts.map(|it| (shape(&it), it.msb, it.lsb));
        assert_eq!(
            (number, (*answer, *msb, *lsb)),
            after(expected, (FACTS, 7, 7))
        );

        let one = &mut lent.one.lend(&[MARK], place)[0];
        let number = super::root(file, facility, one);
        let root = judged.and_then(|it| it.root(facility));
        assert_eq!((number, *one), after(root, MARK));

        for room in [1_022, 1_023, 1_024] {
            let one = &mut lent.one.lend(&[MARK], place)[0];
            let mut names = vec![0xA5; room];
            let lent = lent.bytes.lend(&names, place);
            let number = super::name(file, facility, lent, one);
            let expected = judged.and_then(|it| it.name(facility, &mut names));
            assert_eq!((number, *one), after(expected.map(|it| it as u32), MARK));
            assert_eq!(lent, names);
        }

        let chain = root.map_or(&[][..], |root| &chains[root as usize]);
        let mut offsets = vec![0, u32::MAX];
        offsets.extend(summary.map_or(6, |it| it.end).checked_sub(1));
        offsets.extend(chain.first());
        offsets.extend(chain.last());
        for offset in offsets {
            let one = &mut lent.one.lend(&[MARK], place)[0];
            let number = super::change_before(file, facility, offset, one);
            let expected = judged.and_then(|it| it.change_before(facility, offset));
            assert_eq!((number, *one), after(expected, MARK));

            for room in [width.saturating_sub(1), width] {
                let marked = vec![0xA5; room];
                let time = &mut lent.time.lend(&[TIME], place)[0];
                let answer = &mut lent.value.lend(&[VALUE], place)[0];
                let clean = &mut lent.clean.lend(&[MARK], place)[0];
                let bits = lent.bytes.lend(&marked, place);
                let number = super::change(file, facility, offset, bits, time, answer, clean);
                let mut room = marked.clone();
                let expected = judged.and_then(|it| it.change(facility, offset, &mut room));
                let expected = expected.map(|it| (it.time, numbers(it.value), it.clean.into()));
                let marks = (TIME, VALUE, MARK);
                assert_eq!((number, (*time, *answer, *clean)), after(expected, marks));
                assert_eq!(bits, room);

                // At the change's time, or at the mark, which lies below most.
                let time = *time;
                let answer = &mut lent.value.lend(&[VALUE], place)[0];
                let visited = &mut lent.visited.lend(&[MARK], place)[0];
                let bits = lent.bytes.lend(&marked, place);
                let number = super::value_at(file, facility, time, bits, answer, visited);
                let mut room = marked;
                let expected = judged.and_then(|it| it.value_at(facility, time, &mut room));
                let expected = expected.map(|it| (numbers(it.value), it.visited));
                assert_eq!(
                    (number, (*answer, *visited)),
                    after(expected, (VALUE, MARK))
                );
                assert_eq!(bits, room);
                calls += 3;
            }

            // At the change's time, or at the mark.
            let mut bits = vec![0; width];
            let read = judged.and_then(|it| it.change(facility, offset, &mut bits));
            let asked = (facility, read.map_or(TIME, |it| it.time));
            calls += text_calls(file, judged, asked, &mut lent.text, &mut lent.part, place);
        }
        calls += 5;
    }

    // Columns: of nothing, of all facilities, of some with repeats, with a wrong number, and of too many numbers.
    let all = Vec::from_iter(0..n as u32);
    let some = (0..n.min(9)).map(|_| random.below(n) as u32);
    let some = Vec::from_iter(some);
    let wrong = [&some[..], &[n as u32]].concat();
    for list in [&[][..], &all, &some, &wrong, &vec![0; 4_097]] {
        let time = random.within_signed(-50, 5_000);
        let lent = (&mut lent.bytes, &mut lent.column);
        calls += column_calls(file, judged, (list, time), lent, place);
    }

    // Walks with exactly n asked bytes and pairs, and one less; carrying on with exactly enough output.
    for less in [1, 0] {
        let count = n.saturating_sub(less);
        let asked: Vec<u8> = (0..count).map(|_| random.pick(&[0, 1, 1, 255])).collect();
        let marks = Pair {
            number: MARK,
            offset: MARK,
        };
        let pairs = lent.pairs.lend(&vec![marks; count], place);
        let asked = lent.asked.lend_to_read(&asked, place);
        let (mut numbers, mut offsets) = (vec![MARK; count], vec![MARK; count]);
        let number = super::start_walk(file, asked, pairs);
        let expected = lxt_reference::start_walk(file, asked, &mut numbers, &mut offsets);
        assert_eq!(number, after(expected, ()).0);
        for size in [0, 1, 9, 4_000] {
            for room in [(2 * size as usize).saturating_sub(1), 2 * size as usize] {
                let mut marked = vec![MARK; room];
                let output = lent.output.lend(&marked, place);
                let answer = &mut lent.handed.lend(&[HANDED], place)[0];
                let number = super::carry_on(file, pairs, size, output, answer);
                let expected = lxt_reference::carry_on(
                    file,
                    &mut numbers,
                    &mut offsets,
                    &mut marked,
                    size.into(),
                );
                assert_eq!((number, *answer), after(expected.map(handed), HANDED));
                assert_eq!(output, marked);
                let ours = pairs.iter().map(|it| (it.number, it.offset));
                let theirs = numbers.iter().copied().zip(offsets.iter().copied());
                assert!(ours.eq(theirs));
                calls += 1;
            }
        }
        calls += 1;
    }
    calls
}

#[test]
fn calls_stay_within_what_they_are_lent() {
    let mut files: Vec<(String, Vec<u8>)> = Vec::new();
    for seed in 300_000..302_500 {
        let case = lxt_generate::case(seed);
        files.push((format!("seed {seed}, {}", case.origin), case.bytes));
    }
    for case in lxt_generate::hostile() {
        if case.bytes.len() < 20_000 {
            files.push((case.origin, case.bytes));
        }
    }
    let trace = include_bytes!("../../../../traces/gpsim_onereg.lxt");
    for length in 0..=trace.len() {
        files.push((format!("{length} bytes"), trace[..length].to_vec()));
    }

    let longest = files.iter().map(|(_, file)| file.len()).max();
    let mut lent = Lent::new(longest.unwrap_or(0));
    let (mut calls, mut accepted) = (0, 0);
    for (what, file) in &files {
        // Shown where a signal ends the run and the output is not captured.
        println!("{what}");
        for place in [Place::First, Place::Last] {
            calls += all_calls(file, &mut lent, place);
        }
        accepted += u64::from(lxt_reference::judge(file).is_ok());
    }
    assert!(calls > 200_000, "{calls}");
    assert!(accepted > 800, "{accepted}");
}

/// Whether a text is lent, driven, driven and empty, of another kind or refused.
#[test]
fn a_lent_text_is_not_touched() {
    let file = include_bytes!("../../../../traces/strings.gtkwave-export.unz.lxt");
    let judged = Judged::new(file).expect("a trace");
    let (mut text, mut parts) = (Guarded::new(300), Guarded::new(1));
    let asked = [(2, -1), (2, 0), (2, 9), (0, 0), (7, 0)];
    let from = asked.map(|(facility, time)| {
        for place in [Place::First, Place::Last] {
            text_calls(
                file,
                Ok(&judged),
                (facility, time),
                &mut text,
                &mut parts,
                place,
            );
        }
        let expected = judged.text_at(facility, time, b"none");
        expected.map(|it| (part(it).from, it.length))
    });
    assert_eq!(
        from,
        [Ok((1, 4)), Ok((0, 5)), Ok((0, 0)), Ok((2, 0)), Err(18)]
    );
}

/// Whether its items are lent, driven, driven and empty, of other kinds or refused.
#[test]
fn a_lent_text_of_a_column_is_not_touched() {
    let file = include_bytes!("../../../../traces/strings.gtkwave-export.unz.lxt");
    let judged = Judged::new(file).expect("a trace");
    let (mut bytes, mut lent) = (Guarded::new(COLUMN), ColumnLent::new());
    let all = Vec::from_iter(0..judged.summary().facilities);
    let lists = [&[2][..], &[2, 0, 2], &all, &[2, 7]];
    for (list, time) in lists
        .into_iter()
        .flat_map(|it| [-1, 0, 9].map(|time| (it, time)))
    {
        for place in [Place::First, Place::Last] {
            let lent = (&mut bytes, &mut lent);
            let calls = column_calls(file, Ok(&judged), (list, time), lent, place);
            assert_eq!(calls, 4);
        }
    }
    let text = [-1, 0, 9].map(|time| {
        let mut items = [None];
        let answer = judged.column(time, &[2], b"none", &mut [], &mut items);
        answer.map(|_| items[0].map(item).map(|it| (it.what, it.length)))
    });
    let expected = [(4, 4), (2, 5), (2, 0)];
    assert_eq!(text, expected.map(|it| Ok(Some(it))));
}

/// Guarded memory for what writing is lent.
struct WritingLent {
    facilities: Guarded<NewFacility>,
    names: Guarded<u8>,
    changes: Guarded<NewChange>,
    values: Guarded<u8>,
    out: Guarded<u8>,
    length: Guarded<u32>,
}

impl WritingLent {
    /// With room for each of these.
    fn new(all: &[Rows]) -> Self {
        let most = |of: fn(&Given) -> usize| all.iter().map(|it| of(&it.given())).max();
        let most = |of| most(of).unwrap_or(0);
        WritingLent {
            facilities: Guarded::new(most(|it| it.facilities.len())),
            names: Guarded::new(most(|it| it.names.len())),
            changes: Guarded::new(most(|it| it.changes.len())),
            values: Guarded::new(most(|it| it.values.len())),
            out: Guarded::new(1 << 20),
            length: Guarded::new(1),
        }
    }

    /// Writes with guarded memory and so much room, compared with the independent writer. Gives the answer.
    fn write(&mut self, rows: &Rows, room: usize, place: Place) -> u32 {
        let given = rows.given();
        let given = Given {
            facilities: self.facilities.lend_to_read(given.facilities, place),
            names: self.names.lend_to_read(given.names, place),
            changes: self.changes.lend_to_read(given.changes, place),
            values: self.values.lend_to_read(given.values, place),
            ..given
        };
        let mut marked = vec![0xA5; room];
        let out = self.out.lend(&marked, place);
        let length = &mut self.length.lend(&[MARK], place)[0];
        let number = super::write(given, out, length);
        assert_eq!((number, *length), after(rows.expected(&mut marked), MARK));
        assert!(out == marked);
        number
    }
}

#[test]
fn writing_stays_within_what_it_is_lent() {
    let cases = (400_000..401_500).map(lxt_generate::input_case);
    let cases = Vec::from_iter(cases.map(|case| rows(case.input)));
    let mut lent = WritingLent::new(&cases);
    let mut written = 0;
    for (place, rows) in cases.iter().enumerate() {
        // Shown where a signal ends the run and the output is not captured.
        println!("seed {}", 400_000 + place);
        let exact = rows.expected(&mut vec![0; 1 << 20]).unwrap_or(200) as usize;
        for room in [0, exact - 1, exact] {
            for place in [Place::First, Place::Last] {
                written += u32::from(lent.write(rows, room, place) == 0);
            }
        }
    }
    assert!(written > 1_000, "{written}");
}

/// What the test below does in a process of its own; each is to end it.
fn touch(what: &str) {
    let mut guarded = Guarded::<u8>::new(100);
    let place = match what {
        "before" => Place::First,
        _ => Place::Last,
    };
    let lent = guarded.lend_to_read(&[1; 100], place);
    assert_eq!(lent.iter().map(|it| u32::from(*it)).sum::<u32>(), 100);
    let mut at = lent.as_ptr();
    if what == "untouched" {
        at = guarded.lend_untouched(100, place);
    }
    // SAFETY: none; that is the point.
    unsafe {
        match what {
            "before" => println!("{}", std::hint::black_box(at.sub(1)).read_volatile()),
            "behind" => println!("{}", std::hint::black_box(at.add(100)).read_volatile()),
            "untouched" => println!("{}", std::hint::black_box(at).read_volatile()),
            _ => std::hint::black_box(at.cast_mut()).write_volatile(2),
        }
    }
}

#[test]
fn guards_end_what_touches_them() {
    const TOUCH: &str = "LXT_TEST_TOUCHES";
    if let Ok(what) = std::env::var(TOUCH) {
        return touch(&what);
    }
    let name = "ffi::guards::guards_end_what_touches_them";
    for what in ["before", "behind", "untouched", "written"] {
        let tests = std::env::current_exe().expect("the tests");
        let mut process = std::process::Command::new(tests);
        let ended = process.args(["--exact", name]).env(TOUCH, what).output();
        let ended = ended.expect("a process of its own").status;
        // SIGSEGV, or SIGBUS where a system has that for it.
        let signal = std::os::unix::process::ExitStatusExt::signal(&ended);
        assert!(matches!(signal, Some(11 | 7 | 10)), "{what}: {ended:?}");
    }
}
