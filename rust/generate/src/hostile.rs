//! Files made to be slow or to wrap, and files at the limits.

mod chains;
mod long_times;

pub use chains::{hostile_chains, Hostile};

use crate::draft::{change_bytes, Draft};
use crate::tables::{alias, append_tables, bits, Geometry, INTEGER, REAL, TEXT};
use crate::times::{TimeTable, SHORT_TIMES};
use crate::valid::{pack, valid_of, Shape};
use crate::{Case, Random};

/// The longest input of the small program.
const SMALL: usize = 65_536;
/// The longest file.
const LONGEST: usize = 16_777_216;

fn case(origin: impl Into<String>, bytes: Vec<u8>, expected: Result<(), u8>) -> Case {
    Case {
        origin: origin.into(),
        bytes,
        expected: Some(expected),
    }
}

/// A draft of the tables alone; changes come behind them.
fn tables(geometry: &[Geometry]) -> Draft {
    let mut draft = Draft::new(4);
    append_tables(&mut draft, geometry);
    draft
}

/// How many bytes fit between the body and END in a file of `total` bytes.
fn room(draft: &Draft, total: usize) -> usize {
    total - draft.bytes().len()
}

fn set_sync(draft: &mut Draft, facility: usize, offset: usize) {
    draft.set_word(draft.sync_at(facility), offset as u32);
}

/// The bottom of a long chain: a change with command and four delta bytes whose previous offset is 0.
/// None of its bytes needs to be what the chain above repeats.
fn bottom(draft: &mut Draft, command: u8, data: &[u8]) -> usize {
    let offset = draft.end();
    draft.append(&change_bytes(offset, 0, command, 4, data));
    offset
}

/// Bytes `step` (a command byte, then its delta) again and again behind a bottom, each a change
/// whose previous is the one before. Gives the offset of the newest that leaves `rest` bytes behind
/// its head. `filler` fills what is left up to T.
fn long_chain(
    draft: &mut Draft,
    total: usize,
    bottom: usize,
    command: u8,
    step: usize,
    filler: &[u8],
    rest: usize,
) -> usize {
    let mut newest = bottom;
    let end = draft.end() + room(draft, total);
    // The first change of the chain reaches down to the bottom, the others one step.
    let first = change_bytes(draft.end(), bottom, command, 1, &[]);
    let repeated = change_bytes(step, 0, command, 1, &[]);
    let mut bytes = first;
    while draft.end() + step + rest <= end {
        newest = draft.end();
        draft.append(&bytes);
        let mut place = bytes.len();
        while place < step {
            draft.append(&[filler[place % filler.len()]]);
            place += 1;
        }
        bytes = repeated.clone();
    }
    let mut place = 0;
    while draft.end() < end {
        draft.append(&[filler[place % filler.len()]]);
        place += 1;
    }
    newest
}

/// Texts that all run to one zero at the end, on one long chain that many roots share.
fn text_chain(total: usize, roots: usize, last: Option<Geometry>, zero: bool) -> Vec<u8> {
    let mut geometry = vec![TEXT; roots];
    geometry.extend(last);
    let mut draft = tables(&geometry);
    // No zero but the last: the bottom's delta bytes are read before its text.
    let low = bottom(&mut draft, 0x0F, b"t");
    // A delta of 1: steps of 3 bytes.
    let newest = long_chain(&mut draft, total, low, 0x01, 3, &[0x01], 8);
    if zero {
        let end = draft.end();
        draft.set(end - 1, &[0]);
    }
    for root in 0..geometry.len() {
        set_sync(&mut draft, root, newest);
    }
    draft.bytes()
}

/// 4-bit values on one long chain that many roots share, all of `width` but the last root. Where that is
/// odd, the bottom's last nibble is rubbish, which a root that is wider by one reads as a code above 8.
fn code_chain(total: usize, roots: usize, width: u32, last: u32) -> Vec<u8> {
    let mut geometry = vec![bits(width); roots - 1];
    geometry.push(bits(last));
    let mut draft = tables(&geometry);
    let low = draft.end();
    // The bottom's data are its own; those of the others run over each other.
    let mut data = pack(&vec![0; width as usize], 4);
    if let (Some(last), 1) = (data.last_mut(), width % 2) {
        *last |= 0x0F;
    }
    draft.append(&change_bytes(low, 0, 0x02, 4, &data));
    let link = draft.end();
    draft.append(&change_bytes(link, low, 0x03, 2, &[]));
    let newest = long_chain(&mut draft, total, link, 0x02, 2, &[0x02, 0x00], 2_050);
    for root in 0..roots {
        set_sync(&mut draft, root, newest);
    }
    draft.bytes()
}

/// Changes without data on one long chain that all roots share.
fn flash_chain(total: usize, geometry: &[Geometry]) -> Vec<u8> {
    let mut draft = tables(geometry);
    let low = bottom(&mut draft, 0x03, &[0; 8]);
    let newest = long_chain(&mut draft, total, low, 0x03, 2, &[0x03], 8);
    let end = draft.end();
    draft.set(end - 8, &[0; 8]);
    for root in 0..geometry.len() {
        set_sync(&mut draft, root, newest);
    }
    draft.bytes()
}

/// A region of zeros: a chain of 1-bit values for every width, with a bottom before it.
fn zero_chain(total: usize, geometry: &[Geometry]) -> Vec<u8> {
    let mut draft = tables(geometry);
    let low = bottom(&mut draft, 0x03, &[]);
    let newest = long_chain(&mut draft, total, low, 0x00, 2, &[0x00], 520);
    for root in 0..geometry.len() {
        set_sync(&mut draft, root, newest);
    }
    draft.bytes()
}

/// One root with a chain as long as the file allows, which is accepted.
fn longest_chain(total: usize) -> Vec<u8> {
    let mut draft = tables(&[bits(1)]);
    let low = bottom(&mut draft, 0x03, &[]);
    let newest = long_chain(&mut draft, total, low, 0x04, 2, &[0x04], 0);
    set_sync(&mut draft, 0, newest);
    draft.bytes()
}

/// One root each on every change of a long chain.
fn root_on_each_change(total: usize, roots: usize) -> Vec<u8> {
    let mut draft = tables(&vec![bits(7); roots]);
    let low = bottom(&mut draft, 0x03, &[]);
    let newest = long_chain(&mut draft, total, low, 0x05, 2, &[0x05], 0);
    for root in 0..roots {
        set_sync(&mut draft, root, newest - 2 * root);
    }
    draft.bytes()
}

/// The deltas of an entry's position and time.
type Deltas = (u32, i64);

/// Gives a draft other times, behind all that it has.
fn append_times(draft: &mut Draft, tag: u8, first: i64, last: i64, deltas: &[Deltas]) {
    draft.append_times(&TimeTable {
        tag,
        first,
        last,
        positions: deltas.iter().map(|it| it.0).collect(),
        times: deltas.iter().map(|it| it.1).collect(),
    });
}

/// The draft of one bit and tables, with other times.
fn with_times(tag: u8, first: i64, last: i64, deltas: &[Deltas]) -> Draft {
    let mut draft = tables(&[bits(1)]);
    append_times(&mut draft, tag, first, last, deltas);
    draft.set_item(0x01, 4);
    draft
}

/// A first entry and `more` that repeat a step.
fn steps(first: Deltas, more: usize, step: Deltas) -> Vec<Deltas> {
    let mut deltas = vec![first];
    deltas.extend(vec![step; more]);
    deltas
}

/// Three changes of one root, and `count` time entries of rising times from `first` on at one position: that
/// of a change, or behind all of them.
fn shared_position(tag: u8, first: i64, count: usize, place: usize) -> Vec<u8> {
    let mut draft = tables(&[bits(1)]);
    let changes: Vec<usize> = (3..6)
        .map(|command| draft.append_change(0, command, 1, &[]))
        .collect();
    let position = changes.get(place).map_or(draft.end() - 1, |offset| *offset);
    let deltas = steps((position as u32, first), count - 1, (0, 1));
    append_times(&mut draft, tag, first, first + count as i64, &deltas);
    draft.bytes()
}

/// Pads a draft before END up to a file of `total` bytes.
fn padded(draft: &Draft, total: usize) -> Vec<u8> {
    let mut draft = draft.clone();
    let padding = room(&draft, total);
    draft.append(&vec![0x5A; padding]);
    draft.bytes()
}

/// `n` names of 1,023 bytes, each but the first all prefix.
fn long_names(n: usize, memory: u32) -> Vec<u8> {
    let mut draft = tables(&vec![bits(1); n]);
    let start = draft.append_words(&[n as u32, memory]);
    draft.append(&[0, 0]);
    draft.append(&[b'n'; 1_023]);
    draft.append(&[0]);
    for _ in 1..n {
        draft.append(&1_023_u16.to_be_bytes());
        draft.append(&[0]);
    }
    draft.set_item(0x03, start as u32);
    draft.bytes()
}

/// Hostile files of at most some hundred thousand bytes.
pub fn hostile() -> Vec<Case> {
    let mut cases = Vec::new();

    // Long shared chains.
    for roots in [300, 500] {
        cases.push(case(
            format!("texts to one zero, {roots} roots"),
            text_chain(SMALL, roots, None, true),
            Err(17),
        ));
        cases.push(case(
            format!("texts to one zero, {roots} roots, then bits refused at the bottom"),
            text_chain(SMALL, roots, Some(bits(3)), true),
            Err(16),
        ));
        cases.push(case(
            format!("texts without a zero, {roots} roots"),
            text_chain(SMALL, roots, None, false),
            Err(15),
        ));
        cases.push(case(
            format!("4-bit values of width 4,096, {roots} roots"),
            code_chain(SMALL, roots, 4_096, 4_096),
            Err(17),
        ));
        cases.push(case(
            format!("4-bit values with rubbish, {roots} roots"),
            code_chain(SMALL, roots, 4_095, 4_095),
            Err(17),
        ));
        cases.push(case(
            format!("4-bit values, {roots} roots, the last refused at the bottom"),
            code_chain(SMALL, roots, 4_095, 4_096),
            Err(16),
        ));
        let mut widths: Vec<Geometry> = (0..roots as u32).map(|less| bits(4_096 - less)).collect();
        cases.push(case(
            format!("no data, {roots} widths"),
            flash_chain(SMALL, &widths),
            Err(17),
        ));
        cases.push(case(
            format!("1-bit values, {roots} widths"),
            zero_chain(SMALL, &widths),
            Err(17),
        ));
        let kinds = [bits(1), INTEGER, TEXT, REAL];
        widths = (0..roots).map(|root| kinds[root % 4]).collect();
        cases.push(case(
            format!("no data, {roots} roots of all kinds"),
            flash_chain(SMALL, &widths),
            Err(17),
        ));
        cases.push(case(
            format!("a root on each of {roots} changes"),
            root_on_each_change(SMALL, roots),
            Err(17),
        ));
    }
    cases.push(case(
        "one long text chain",
        text_chain(SMALL, 1, None, true),
        Err(17),
    ));
    cases.push(case("one long chain", longest_chain(SMALL), Ok(())));
    cases.push(case(
        "names, geometry and chain of zeros, 3,270 roots",
        most_visits(SMALL, 3_270),
        Err(17),
    ));

    // Aliases: a line, a ring, a line into a ring, one out of a line.
    for n in [2, 300, 2_000] {
        let mut line: Vec<Geometry> = (1..n).map(alias).collect();
        line.push(bits(1));
        cases.push(case(
            format!("alias line of {n}"),
            tables(&line).bytes(),
            Ok(()),
        ));
        let mut backwards: Vec<Geometry> = (0..n - 1).map(alias).collect();
        backwards.insert(0, TEXT);
        cases.push(case(
            format!("alias line of {n} downwards"),
            tables(&backwards).bytes(),
            Ok(()),
        ));
        let mut ring = line.clone();
        ring[n - 1] = alias(0);
        cases.push(case(
            format!("alias ring of {n}"),
            tables(&ring).bytes(),
            Err(12),
        ));
        ring[n - 1] = alias(n / 2);
        cases.push(case(
            format!("alias line into a ring, {n}"),
            tables(&ring).bytes(),
            Err(12),
        ));
        ring[n - 1] = alias(n - 1);
        cases.push(case(
            format!("alias line into itself, {n}"),
            tables(&ring).bytes(),
            Err(12),
        ));
        ring[n - 1] = alias(n);
        cases.push(case(
            format!("alias line out of bounds, {n}"),
            tables(&ring).bytes(),
            Err(12),
        ));
        // Rows are tested before aliases are followed.
        ring.push([1, 0, 0, 0]);
        ring[n - 1] = alias(0);
        cases.push(case(
            format!("alias ring of {n}, then rows 1"),
            tables(&ring).bytes(),
            Err(11),
        ));
    }

    // Sums past 2^32.
    let one = [bits(1)];
    for (origin, last, deltas, expected) in [
        (
            "positions wrap below T",
            9,
            vec![(8, 0), (0xFFFF_FFFC, 1)],
            Err(13),
        ),
        (
            "positions wrap twice",
            9,
            vec![(4, 0), (0xFFFF_FFFF, 1), (0xFFFF_FFFF, 1), (5, 1)],
            Err(13),
        ),
        ("first position far", 9, vec![(0xFFFF_FFFF, 0)], Err(13)),
        ("times wrap", 9, vec![(4, 8), (1, 0xFFFF_FFFF)], Err(13)),
        (
            "times reach 2^32 - 1",
            0xFFFF_FFFF,
            vec![(4, 0xFFFF_FFFE), (1, 1)],
            Ok(()),
        ),
        (
            "times reach 2^32",
            0xFFFF_FFFF,
            vec![(4, 0xFFFF_FFFF), (1, 1)],
            Err(13),
        ),
        (
            "times wrap twice",
            0xFFFF_FFFF,
            vec![(4, 0), (1, 0xFFFF_FFFF), (1, 0xFFFF_FFFF), (1, 0xFFFF_FFFF)],
            Err(13),
        ),
        (
            "positions wrap below T behind zeros",
            9,
            vec![(8, 0), (0, 0), (0xFFFF_FFFC, 1), (0, 0)],
            Err(13),
        ),
        (
            "times wrap at one position",
            9,
            vec![(4, 8), (0, 0), (0, 0xFFFF_FFFF)],
            Err(13),
        ),
        (
            "times stay at 2^32 - 1",
            0xFFFF_FFFF,
            vec![(4, 0xFFFF_FFFF), (0, 0), (1, 0), (0, 0)],
            Ok(()),
        ),
        (
            "times reach 2^32 behind zeros",
            0xFFFF_FFFF,
            vec![(4, 0xFFFF_FFFF), (0, 0), (1, 0), (0, 1)],
            Err(13),
        ),
    ] {
        cases.push(case(
            origin,
            with_times(SHORT_TIMES, 0, last, &deltas).bytes(),
            expected,
        ));
    }
    // Starts whose sum with the length passes 2^32.
    for tag in [0x02, 0x03, 0x04, 0x05, 0x06, 0x07] {
        for less in [0, 1, 4, 8, 12, 16, 20] {
            let mut draft = tables(&one);
            draft.set_item(tag, 0xFFFF_FFFF - less);
            cases.push(case(
                format!("section {tag} {less} below 2^32 - 1"),
                draft.bytes(),
                Err(8),
            ));
        }
    }
    for less in [0, 1, 7, 8] {
        let mut draft = tables(&[REAL]);
        draft.set_item(0x08, 0xFFFF_FFFF - less);
        cases.push(case(
            format!("real test {less} below 2^32 - 1"),
            draft.bytes(),
            Err(14),
        ));
    }
    // Counts whose products pass 2^32.
    for n in [
        0x1000_0000,
        0x1000_0001,
        0x4000_0000,
        0x4000_0001,
        0xFFFF_FFFF,
    ] {
        let mut draft = tables(&one);
        draft.set_word(draft.start(0x03), n);
        cases.push(case(format!("{n:x} facilities"), draft.bytes(), Err(8)));
        let mut draft = tables(&one);
        draft.set_word(draft.start(0x06), n);
        cases.push(case(format!("{n:x} time entries"), draft.bytes(), Err(8)));
    }
    // Deltas of four bytes.
    for delta in [
        0xFFFF_FFFF_u32,
        0x8000_0000,
        0x7FFF_FFFF,
        0xFFFF_FFFE,
        0x0100_0000,
    ] {
        let mut draft = tables(&one);
        let offset = draft.end();
        draft.append(&[0x33]);
        draft.append(&delta.to_be_bytes());
        set_sync(&mut draft, 0, offset);
        cases.push(case(format!("delta {delta:x}"), draft.bytes(), Err(15)));
    }

    // The shortest files.
    let head = [0x01, 0x38, 0x00, 0x04];
    for length in 0..=4 {
        cases.push(case(
            format!("{length} bytes of a header"),
            head[..length].to_vec(),
            Err(1),
        ));
    }
    for (rest, expected) in [
        (&[0xB4][..], Err(1)),
        (&[0x00, 0xB4], Err(7)),
        (&[0x00, 0xB5], Err(3)),
        (&[0x01, 0xB4], Err(4)),
        (&[0x00, 0x00, 0xB4], Err(7)),
        (&[0x00, 0x01, 0xB4], Err(4)),
        (&[0, 0, 0, 0x15, 0xB4], Err(4)),
        (&[0, 0, 0, 0, 0x15, 0xB4], Err(4)),
        (&[0, 0, 0, 0, 0, 0x15, 0xB4], Err(7)),
        (&[1, 0, 0, 0, 0, 0x15, 0xB4], Err(4)),
        (&[0, 0, 0, 0, 1, 0x0A, 0xB4], Err(5)),
        (&[0, 0, 0, 0, 1, 0x09, 0xB4], Err(7)),
        (&[0, 0, 0, 0, 1, 0x09, 0, 0, 0, 1, 0x06, 0xB4], Err(6)),
        (&[0, 0, 0, 0, 1, 0x01, 0xB4], Err(7)),
    ] {
        let bytes = [&head[..], rest].concat();
        cases.push(case(format!("{bytes:02X?}"), bytes.clone(), expected));
    }

    // The most facilities, and one more.
    for (n, expected) in [
        (4_095, Ok(())),
        (4_096, Ok(())),
        (4_097, Err(9)),
        (5_000, Err(9)),
    ] {
        cases.push(case(
            format!("{n} facilities"),
            tables(&vec![bits(1); n]).bytes(),
            expected,
        ));
    }
    // 4,097 whose geometry passes T by one byte.
    let mut draft = tables(&vec![bits(1); 4_097]);
    draft.set_item(0x04, (draft.end() - 16 * 4_097 + 1) as u32);
    cases.push(case("4,097 facilities past T", draft.bytes(), Err(8)));

    // Names that expand far.
    cases.push(case(
        "4,096 long names",
        long_names(4_096, 4_096 * 1_024),
        Ok(()),
    ));
    cases.push(case(
        "4,096 long names, M one less",
        long_names(4_096, 4_096 * 1_024 - 1),
        Err(10),
    ));

    // A long section list, and many time entries.
    let mut draft = tables(&one);
    for number in 0..13_000_u32 {
        draft.add_nearest_end(0x13 + (number % 200) as u8, number);
        let tags = [0x01, 0x02, 0x03, 0x04, 0x06, 0x08];
        draft.add_nearest_b4(tags[number as usize % 6], number);
    }
    cases.push(case("26,000 items", draft.bytes(), Ok(())));
    let entries = steps((4, 0), 8_000, (1, 1));
    cases.push(case(
        "8,001 time entries",
        with_times(SHORT_TIMES, 0, 8_000, &entries).bytes(),
        Ok(()),
    ));
    cases.push(case(
        "8,001 time entries, the last too late",
        with_times(SHORT_TIMES, 0, 7_999, &entries).bytes(),
        Err(13),
    ));

    // Many time entries by deltas of 0: first and last, the first entry, and all further ones.
    for (origin, bounds, first, step, expected) in [
        ("at one position", (0, 8_000), (4, 0), (0, 1), Ok(())),
        (
            "at one position, the last too late",
            (0, 7_999),
            (4, 0),
            (0, 1),
            Err(13),
        ),
        (
            "at one position, the first too early",
            (1, 8_000),
            (4, 0),
            (0, 1),
            Err(13),
        ),
        (
            "at one position, only the last not too early",
            (8_000, 8_000),
            (4, 0),
            (0, 1),
            Err(13),
        ),
        ("at position 3", (0, 8_000), (3, 0), (0, 1), Err(13)),
        ("at position 0", (0, 8_000), (0, 0), (0, 1), Err(13)),
        ("of one time", (7, 7), (4, 7), (1, 0), Ok(())),
        ("of one time, too late", (6, 6), (4, 7), (1, 0), Err(13)),
        ("that are equal", (0, 0), (4, 0), (0, 0), Ok(())),
        (
            "that are equal, too early",
            (1, 8_000),
            (4, 0),
            (0, 0),
            Err(13),
        ),
        ("of zeros alone", (0, 0), (0, 0), (0, 0), Err(13)),
    ] {
        cases.push(case(
            format!("8,001 time entries {origin}"),
            with_times(SHORT_TIMES, bounds.0, bounds.1, &steps(first, 8_000, step)).bytes(),
            expected,
        ));
    }
    for (origin, last, expected) in [
        ("a position that wraps", (0xFFFF_FFFF, 0), Err(13)),
        ("a time that wraps", (0, 0xFFFF_FFFF), Err(13)),
        ("the next position and time", (1, 1), Ok(())),
    ] {
        let mut entries = steps((6, 5), 8_000, (0, 0));
        entries.push(last);
        cases.push(case(
            format!("8,001 equal time entries, then {origin}"),
            with_times(SHORT_TIMES, 0, 6, &entries).bytes(),
            expected,
        ));
    }
    // 40 entries at each of 200 positions.
    let groups = (0..8_000).map(|entry| match entry {
        0 => (4, 0),
        _ => (u32::from(entry % 40 == 0), i64::from(entry % 3 == 0)),
    });
    cases.push(case(
        "40 time entries at each of 200 positions",
        with_times(SHORT_TIMES, 0, 8_000, &Vec::from_iter(groups)).bytes(),
        Ok(()),
    ));
    for (place, origin) in ["the first", "the second", "the third", "none"]
        .into_iter()
        .enumerate()
    {
        cases.push(case(
            format!("1,500 time entries at {origin} of three changes"),
            shared_position(SHORT_TIMES, 0, 1_500, place),
            Ok(()),
        ));
    }

    cases.extend(long_times::cases());

    // The small program's limit.
    let small = tables(&one);
    cases.push(case("65,536 bytes", padded(&small, SMALL), Ok(())));
    cases.push(case("65,537 bytes", padded(&small, SMALL + 1), Ok(())));
    cases
}

/// Hostile files around the longest length.
pub fn hostile_large() -> Vec<Case> {
    let mut random = Random::new(16);
    let base = valid_of(&mut random, &Shape::SMALL);
    let texts = text_chain(LONGEST, 4_096, None, true);
    let shared = steps((4, 0), 1_999_999, (0, 1));
    let mut cases = vec![
        case("16,777,215 bytes", padded(&base, LONGEST - 1), Ok(())),
        case("16,777,216 bytes", padded(&base, LONGEST), Ok(())),
        case("16,777,217 bytes", padded(&base, LONGEST + 1), Err(1)),
        case("longest chain", longest_chain(LONGEST), Ok(())),
        case("texts to one zero, 4,096 roots", texts, Err(17)),
        case(
            "4-bit values, 4,096 roots, the last refused at the bottom",
            code_chain(LONGEST, 4_096, 4_095, 4_096),
            Err(16),
        ),
        case(
            "no data, 4,096 roots of one width",
            flash_chain(LONGEST, &vec![bits(9); 4_096]),
            Err(17),
        ),
        case(
            "2,000,000 time entries at one position",
            with_times(SHORT_TIMES, 0, 1_999_999, &shared).bytes(),
            Ok(()),
        ),
        case(
            "2,000,000 time entries at one position, the first too early",
            with_times(SHORT_TIMES, 1, 1_999_999, &shared).bytes(),
            Err(13),
        ),
    ];
    cases.extend(long_times::most_entries());
    cases
}

/// A file of `total` bytes whose `widths` roots, each of another width, share one chain of 1-bit
/// values: as many visits as the rules can ask for.
pub fn widest_sharing(total: usize, widths: u32) -> Vec<u8> {
    let geometry: Vec<Geometry> = (1..=widths).map(bits).collect();
    zero_chain(total, &geometry)
}

/// A file of `total` bytes whose `n` roots share one chain, and whose names and geometry are bytes of that
/// chain, too: a region of zeros is empty names, roots of width 1, and 1-bit changes every two bytes. Of its
/// size it asks for the most visits that we know; they overlap, so it is refused in the end (17).
pub fn most_visits(total: usize, n: usize) -> Vec<u8> {
    let mut draft = Draft::new(4);
    let times = draft.append_words(&[1, 0, 9, 4, 9]);
    let sync = draft.append(&vec![0; 4 * n]);
    let low = bottom(&mut draft, 0x03, &[]);
    // The first name is the change that leads down to the bottom.
    let names = draft.append_words(&[n as u32, n as u32 + 2]);
    draft.append(&[0, 0]);
    let link = change_bytes(draft.end(), low, 0x03, 1, &[]);
    draft.append(&link);
    let geometry = draft.append(&[0]) as u32;
    draft.items = vec![
        (0x01, low as u32),
        (0x02, sync as u32),
        (0x03, names as u32),
        (0x04, geometry),
        (0x06, times as u32),
    ];
    let zeros = room(&draft, total);
    draft.append(&vec![0; zeros]);
    // The newest at an even distance from the others, with a byte of data.
    let newest = draft.end() - 3 - (draft.end() - 3 - geometry as usize) % 2;
    for root in 0..n {
        set_sync(&mut draft, root, newest);
    }
    draft.bytes()
}
