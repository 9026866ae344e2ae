use std::collections::BTreeMap;

use super::c::{self, Facility, Handed, Part, Summary};
use super::judge;
use crate::{Item, NewChange, NewFacility, Pair};
use lxt_reference::{Judged, TextAt, Value, Which};

#[allow(dead_code)]
#[path = "../../tests/mixed/mod.rs"]
mod mixed;

// ---- Declared alike ----

/// A type of the header as Rust writes it.
fn rust_type(words: &str) -> String {
    let words = words.trim();
    if let Some(target) = words.strip_suffix('*') {
        return match target.trim().strip_prefix("const ") {
            Some(target) => format!("*const {}", rust_type(target)),
            None => format!("*mut {}", rust_type(target)),
        };
    }
    match words {
        "size_t" => "usize".to_string(),
        "lxt_pair" => "Pair".to_string(),
        "lxt_summary" => "Summary".to_string(),
        "lxt_facility" => "Facility".to_string(),
        "lxt_value" => "Value".to_string(),
        "lxt_part" => "Part".to_string(),
        "lxt_item" => "Item".to_string(),
        "lxt_handed" => "Handed".to_string(),
        "lxt_new_facility" => "NewFacility".to_string(),
        "lxt_new_change" => "NewChange".to_string(),
        _ => {
            let number = words.strip_suffix("_t").expect("a number's type");
            let number = number.replace("uint", "u").replace("int", "i");
            let numbers = ["u8", "u32", "u64", "i8", "i32", "i64"];
            assert!(numbers.contains(&&*number));
            number
        }
    }
}

/// The words of a text joined by single spaces.
fn joined(text: &str) -> String {
    Vec::from_iter(text.split_whitespace()).join(" ")
}

#[test]
fn the_declarations_are_those_of_the_header() {
    let header = include_str!("../../../../include/lxt.h");
    let mut plain = String::new();
    for (place, part) in header.split("/*").enumerate() {
        let code = part.split_once("*/").map_or(part, |(_, code)| code);
        plain += if place == 0 { part } else { code };
    }
    let ours = joined(include_str!("../ffi.rs")).replace(", ) ->", " ) ->");
    let ours = ours.replace("( ", "(").replace(" )", ")");

    // The pair, the item and the rows of the writer are public, with words at their fields.
    let public = include_str!("../lib.rs").lines();
    let public = public.filter(|line| !line.trim_start().starts_with("//"));
    let public = joined(&Vec::from_iter(public).join(" "));

    let functions: Vec<&str> = plain.split("uint32_t lxt_").skip(1).collect();
    assert_eq!(functions.len(), 13);
    for function in functions {
        let (name, rest) = function.split_once('(').expect("a function");
        let (arguments, _) = rest.split_once(");").expect("its arguments");
        let arguments = arguments.split(',').map(|argument| {
            let argument = joined(argument);
            let name = argument.rfind(|it: char| !it.is_alphanumeric() && it != '_');
            let (of, name) = argument.split_at(name.expect("a type") + 1);
            format!("{name}: {}", rust_type(of))
        });
        let arguments = Vec::from_iter(arguments).join(", ");
        let declared = format!("pub fn lxt_{name}({arguments}) -> u32;");
        assert!(ours.contains(&declared), "{declared}");
    }
    assert_eq!(ours.matches("pub fn lxt_").count(), 13);

    let structs: Vec<&str> = plain.split("typedef struct {").skip(1).collect();
    assert_eq!(structs.len(), 9);
    for part in structs {
        let (fields, rest) = part.split_once('}').expect("its end");
        let (name, _) = rest.split_once(';').expect("its name");
        let fields = fields.split(';').map(joined).filter(|it| !it.is_empty());
        let fields = fields.map(|field| {
            let (of, name) = field.split_once(' ').expect("a type");
            format!("pub {name}: {},", rust_type(of))
        });
        let fields = Vec::from_iter(fields).join(" ");
        let declared = format!("pub struct {} {{ {fields} }}", rust_type(name));
        let code = match name.trim() {
            "lxt_pair" | "lxt_item" | "lxt_new_facility" | "lxt_new_change" => &public,
            _ => &ours,
        };
        assert!(code.contains(&declared), "{declared}");
        let laid_out = code.split(&declared).next().expect("what is before");
        let laid_out = laid_out.rsplit_once("#[repr(C)]").expect("a layout").1;
        assert!(!laid_out.contains("struct"), "{declared}");
    }
}

// ---- Length ----

/// All twelve answers of reading about a file with this many bytes, pairs and numbers lent, and what these hold.
/// The text that is lent has these bytes too, and a column has a list of as many numbers as there are pairs.
fn all_answers(file: &[u8], bits: &mut [u8], pairs: &mut [Pair], output: &mut [u32]) -> String {
    let mut answers = String::new();
    let (mut five, mut scale) = (MARKED, 99);
    let number = judge(file, &mut five, &mut scale);
    answers += &format!("{number} {five:?} {scale}, ");
    let mut one = 77;
    let number = super::stray(file, &mut one);
    answers += &format!("{number} {one}, ");
    let asked = vec![1; pairs.len()];
    for facility in [0, 1, 200] {
        let (mut two, mut msb, mut lsb) = (FACTS, 7, 7);
        let number = super::facts(file, facility, &mut two, &mut msb, &mut lsb);
        answers += &format!("{number} {two:?} {msb} {lsb}, ");
        let mut one = 77;
        let number = super::root(file, facility, &mut one);
        answers += &format!("{number} {one}, ");
        let number = super::name(file, facility, bits, &mut one);
        answers += &format!("{number} {one} {bits:?}, ");
        let number = super::change_before(file, facility, 6, &mut one);
        answers += &format!("{number} {one}, ");
        let (mut time, mut three, mut clean) = (-77, VALUE, 78);
        let number = super::change(file, facility, 6, bits, &mut time, &mut three, &mut clean);
        answers += &format!("{number} {time} {three:?} {clean} {bits:?}, ");
        for time in [i64::MIN, 100, i64::MAX] {
            let number = super::value_at(file, facility, time, bits, &mut three, &mut one);
            answers += &format!("{number} {three:?} {one} {bits:?}, ");
            let mut three = PART;
            let number = super::text_at(file, facility, time, bits, &mut three);
            answers += &format!("{number} {three:?}, ");
        }
    }
    let list = Vec::from_iter(0..pairs.len() as u32);
    let text = bits.to_vec();
    for (list, room) in [
        (&list[..], 0),
        (&list, 3),
        (&list[..list.len().min(3)], 3),
        (&[0], 1),
    ] {
        let (mut items, mut visited) = (vec![ITEM; room], 77);
        for time in [i64::MIN, 100, i64::MAX] {
            let lent = (&mut *bits, &mut items[..], &mut visited);
            let number = super::column(file, time, list, &text, lent.0, lent.1, lent.2);
            answers += &format!("{number} {items:?} {visited} {bits:?}, ");
        }
    }
    let number = super::start_walk(file, &asked, pairs);
    answers += &format!("{number} {pairs:?}, ");
    let mut two = HANDED;
    let number = super::carry_on(file, pairs, 3, output, &mut two);
    answers + &format!("{number} {two:?} {pairs:?} {output:?}")
}

const PAIR: Pair = Pair {
    number: 0xAAAA_AAAA,
    offset: 0xBBBB_BBBB,
};

const ITEM: Item = Item {
    what: 0xAAAA_AAAA_AAAA_AAAA,
    start: 0xBBBB_BBBB_BBBB_BBBB,
    length: 0xCCCC_CCCC_CCCC_CCCC,
    real: 0xDDDD_DDDD_DDDD_DDDD,
};

/// Facility 2 of this trace is a text: `hello` from the time 0 on, and empty from 9 on; 0 is a bit.
const STRINGS: &[u8] = include_bytes!("../../../../traces/strings.gtkwave-export.unz.lxt");

/// Small generated files: of accepted ones also their number of facilities.
fn small_files(seeds: std::ops::Range<u64>) -> impl Iterator<Item = (Vec<u8>, usize)> {
    let cases = seeds.map(|seed| lxt_generate::case(seed).bytes);
    let small = cases.filter(|file| file.len() < 2_000);
    small.map(|file| {
        let n = lxt_reference::judge(&file).map_or(2, |it| it.facilities as usize);
        (file, n)
    })
}

#[test]
fn the_length_of_a_slice_is_all_that_counts() {
    for (file, n) in small_files(0..600) {
        let of = |file: &[u8]| {
            let (mut bits, mut pairs, mut output) = ([9; 1_030], vec![PAIR; n + 1], [9; 6]);
            all_answers(file, &mut bits, &mut pairs, &mut output)
        };
        let alone = of(&file);
        for around in [0x00, 0x01, 0xB4, 0xFF] {
            let mut within = vec![around; 40];
            within.splice(20..20, file.iter().copied());
            assert_eq!(of(&within[20..20 + file.len()]), alone);
        }
    }
}

#[test]
fn an_empty_slice_may_be_lent() {
    let (mut lacking, mut walked) = (0, 0);
    for (file, n) in small_files(0..600) {
        let accepted = lxt_reference::judge(&file).is_ok();
        if accepted && n > 0 {
            let (mut one, mut two) = (77, HANDED);
            assert_eq!(super::name(&file, 0, &mut [], &mut one), 21);
            assert_eq!(super::start_walk(&file, &[], &mut []), 21);
            let number = super::carry_on(&file, &mut [], 0, &mut [], &mut two);
            assert_eq!((number, one, two), (21, 77, HANDED));
            let mut visited = 77;
            let number = super::column(&file, 0, &[0], &[], &mut [], &mut [], &mut visited);
            assert_eq!((number, visited), (21, 77));
            lacking += 1;
        }
        if accepted {
            let mut visited = 77;
            let number = super::column(&file, 0, &[], &[], &mut [], &mut [], &mut visited);
            assert_eq!((number, visited), (0, 0));
        }
        // A file without facilities needs no pair.
        if accepted && n == 0 {
            assert_eq!(super::start_walk(&file, &[], &mut []), 0);
            let mut answer = HANDED;
            let number = super::carry_on(&file, &mut [], 0, &mut [], &mut answer);
            assert_eq!((number, answer), (0, Handed { count: 0, done: 1 }));
            walked += 1;
        }
    }
    assert!(lacking > 50 && walked > 5, "{lacking} {walked}");
    let (mut answer, mut timescale) = (MARKED, 99);
    assert_eq!(judge(&[], &mut answer, &mut timescale), 1);
    let mut stray = 77;
    assert_eq!((super::stray(&[], &mut stray), stray), (1, 77));
    let mut visited = 77;
    let number = super::column(&[], 0, &[], &[], &mut [], &mut [], &mut visited);
    assert_eq!((number, visited), (1, 77));
    let mut part = PART;
    assert_eq!((super::text_at(&[], 0, 0, &[], &mut part), part), (1, PART));
    for (time, expected) in [(-1, [1, 0, 0]), (0, [0, 21, 5]), (9, [0, 124, 0])] {
        assert_eq!(super::text_at(STRINGS, 2, time, &[], &mut part), 0);
        assert_eq!([part.from, part.start, part.length], expected, "{time}");
    }
}

// ---- Aligned ----

#[test]
fn a_struct_is_its_numbers() {
    assert_eq!((size_of::<Pair>(), align_of::<Pair>()), (8, 4));
    assert_eq!(std::mem::offset_of!(Pair, number), 0);
    assert_eq!(std::mem::offset_of!(Pair, offset), 4);
    assert_eq!((size_of::<Summary>(), align_of::<Summary>()), (20, 4));
    assert_eq!((size_of::<Facility>(), align_of::<Facility>()), (8, 4));
    assert_eq!((size_of::<c::Value>(), align_of::<c::Value>()), (24, 8));
    assert_eq!((size_of::<Part>(), align_of::<Part>()), (24, 8));
    assert_eq!((size_of::<Item>(), align_of::<Item>()), (32, 8));
    assert_eq!(std::mem::offset_of!(Item, what), 0);
    assert_eq!(std::mem::offset_of!(Item, start), 8);
    assert_eq!(std::mem::offset_of!(Item, length), 16);
    assert_eq!(std::mem::offset_of!(Item, real), 24);
    assert_eq!((size_of::<Handed>(), align_of::<Handed>()), (8, 4));
    assert_eq!(
        (size_of::<NewFacility>(), align_of::<NewFacility>()),
        (20, 4)
    );
    assert_eq!((size_of::<NewChange>(), align_of::<NewChange>()), (16, 4));
}

/// Memory from an address that 64 divides.
#[repr(C, align(64))]
struct At64<T>(T);

#[test]
fn any_address_that_the_type_allows_will_do() {
    /// Pairs from an address that 4 divides and 8 does not.
    #[repr(C)]
    struct Odd {
        before: u32,
        pairs: [Pair; 70],
    }
    for (file, n) in small_files(600..700).filter(|(_, n)| *n < 70) {
        let mut answers = std::collections::BTreeSet::new();
        for shift in 0..16 {
            let mut bytes = At64([0; 2_016]);
            bytes.0[shift..shift + file.len()].copy_from_slice(&file);
            let file = &bytes.0[shift..shift + file.len()];
            let mut bits = At64([9; 1_046]);
            let bits = &mut bits.0[shift..shift + 1_030];
            let mut output = At64([9; 24]);
            let output = &mut output.0[shift..shift + 6];
            let pairs = [PAIR; 70];
            let mut odd = At64(Odd { before: 0, pairs });
            let mut even = At64(pairs);
            let pairs = match shift % 2 {
                0 => &mut even.0,
                _ => &mut odd.0.pairs,
            };
            assert_eq!(pairs.as_ptr() as usize % 8, 4 * (shift % 2));
            answers.insert(all_answers(file, bits, &mut pairs[..n], output));
            assert_eq!(odd.0.before, 0);
        }
        assert_eq!(answers.len(), 1);
    }
}

#[test]
fn a_column_may_lie_anywhere_that_its_types_allow() {
    /// A list from an address that 4 divides and 8 does not, and items from one that 8 divides and 16 does not.
    #[repr(C)]
    struct Odd {
        before: u64,
        items: [Item; 40],
        between: u32,
        list: [u32; 40],
    }
    let mut written = 0;
    for (file, n) in small_files(900..1_200).filter(|(_, n)| (1..40).contains(n)) {
        let mut expected = None;
        for shift in 0..16 {
            let mut odd = At64(Odd {
                before: 0,
                items: [ITEM; 40],
                between: 0,
                list: std::array::from_fn(|place| (place % n) as u32),
            });
            let lent = &mut odd.0;
            assert_eq!(lent.list.as_ptr() as usize % 8, 4);
            assert_eq!(lent.items.as_ptr() as usize % 16, 8);
            let mut bits = At64([9; 5_016]);
            let mut text = At64([1; 40]);
            let text = &mut text.0[shift..shift + 11];
            let mut visited = 77;
            let number = super::column(
                &file,
                100,
                &lent.list,
                text,
                &mut bits.0[shift..shift + 5_000],
                &mut lent.items,
                &mut visited,
            );
            let answer = (
                number,
                visited,
                lent.items,
                bits.0[shift..][..5_000].to_vec(),
            );
            assert_eq!((lent.before, lent.between), (0, 0));
            assert!(bits.0[..shift].iter().all(|it| *it == 9));
            assert!(bits.0[shift + 5_000..].iter().all(|it| *it == 9));
            written += u32::from(number == 0);
            assert!(*expected.get_or_insert(answer.clone()) == answer);
        }
    }
    assert!(written >= 16 * 50, "{written}");
}

// ---- No overlap ----

#[test]
fn parts_of_one_buffer_may_be_lent_where_they_do_not_overlap() {
    let file = include_bytes!("../../../../traces/gpsim_onereg.lxt");
    let mut whole = file.to_vec();
    whole.extend([0x5A; 1_023]);
    whole.extend(file);
    let (first, rest) = whole.split_at_mut(file.len());
    let (names, last) = rest.split_at_mut(1_023);
    let (mut below, mut above) = (0, 0);
    assert_eq!(super::name(first, 0, names, &mut below), 0);
    assert_eq!(super::name(last, 0, names, &mut above), 0);
    assert_eq!((below, &*first, &*last), (above, &file[..], &file[..]));
    assert!(below > 0 && names[below as usize..].iter().all(|it| *it == 0));
}

#[test]
fn what_is_only_read_may_overlap() {
    // A lent text in the file: all of it, the text that is driven, or none.
    for text in [STRINGS, &STRINGS[21..26], &STRINGS[21..21]] {
        for (time, expected) in [(-1, [1, 0, text.len() as u64]), (0, [0, 21, 5])] {
            let mut part = PART;
            assert_eq!(super::text_at(STRINGS, 2, time, text, &mut part), 0);
            assert_eq!([part.from, part.start, part.length], expected);
        }
    }
    // The list of a column in the file, and the text in the list or around it: the bytes from 64 on are zeros.
    let mut file = At64([0; 640]);
    let start = STRINGS.windows(8).position(|it| *it == [0; 8]);
    let shift = 64 - start.expect("zeros");
    file.0[shift..shift + STRINGS.len()].copy_from_slice(STRINGS);
    // SAFETY: any bytes are numbers, and the address is one that 4 divides.
    let (before, words, behind) = unsafe { file.0.align_to::<u32>() };
    assert_eq!((before, behind), (&[][..], &[][..]));
    let (within, list) = (&file.0[shift..][..STRINGS.len()], &words[16..18]);
    assert_eq!((within, list), (STRINGS, &[0, 0][..]));
    let of = |file: &[u8], list: &[u32], text: &[u8]| {
        let (mut bits, mut items, mut visited) = ([9; 3], [ITEM; 3], 77);
        let lent = (&mut bits, &mut items, &mut visited);
        let number = super::column(file, 9, list, text, lent.0, lent.1, lent.2);
        assert_eq!(number, 0);
        (bits, items, visited)
    };
    let apart = of(STRINGS, &[0, 0], &[b'?'; 8]);
    for text in [&file.0[64..72], &file.0[60..68], &file.0[66..70], within] {
        assert_eq!(of(within, list, text), apart);
    }
    // Asked bytes in the file, whose first byte is 1.
    let file = include_bytes!("../../../../traces/gpsim_onereg.lxt");
    let (mut apart, mut within) = ([PAIR], [PAIR]);
    assert_eq!(super::start_walk(file, &[1], &mut apart), 0);
    assert_eq!(super::start_walk(file, &file[..1], &mut within), 0);
    assert_eq!(within, apart);
    // Names and values in one buffer.
    let facility = NewFacility {
        name_length: 1,
        ..NewFacility::default()
    };
    let change = NewChange {
        value_length: 1,
        ..NewChange::default()
    };
    let shared = *b"1";
    let written = |values| {
        let given = super::Given {
            facilities: &[facility],
            names: &shared,
            changes: &[change],
            values,
            initial: 3,
            timescale: -9,
        };
        let (mut out, mut length) = ([0; 200], 0);
        assert_eq!(super::write(given, &mut out, &mut length), 0);
        (out, length)
    };
    assert_eq!(written(&shared), written(&shared.clone()));
}

// ---- Nothing kept ----

#[test]
fn calls_from_several_threads_answer_as_calls_from_one() {
    let files: Vec<(Vec<u8>, usize)> = small_files(700..800).collect();
    let of = |(file, n): &(Vec<u8>, usize)| {
        let (mut bits, mut pairs, mut output) = ([9; 1_030], vec![PAIR; n + 1], [9; 6]);
        all_answers(file, &mut bits, &mut pairs, &mut output)
    };
    let alone: Vec<String> = files.iter().map(of).collect();
    std::thread::scope(|scope| {
        for first in 0..4 {
            let (files, alone) = (&files, &alone);
            scope.spawn(move || {
                for place in 0..files.len() {
                    let place = (place + 25 * first) % files.len();
                    assert_eq!(of(&files[place]), alone[place]);
                }
            });
        }
    });
}

#[test]
fn calls_run_on_a_thread_with_128_kib_of_stack() {
    let mut files: Vec<(Vec<u8>, usize)> = small_files(800..900).collect();
    let shape = lxt_generate::Large {
        bytes: 300_000,
        facilities: 4_096,
        width: 8,
        entries: 100,
        times_tag: lxt_generate::LONG_TIMES,
    };
    files.push((lxt_generate::large(&shape), 4_096));
    let run = move || {
        for (file, n) in &files {
            let (mut bits, mut pairs, mut output) = (vec![9; 1_030], vec![PAIR; *n], [9; 6]);
            let answers = all_answers(file, &mut bits, &mut pairs, &mut output);
            assert_eq!(
                answers.starts_with("0 "),
                lxt_reference::judge(file).is_ok()
            );
            // A column of all facilities, with room for them.
            let list = Vec::from_iter(0..*n as u32);
            let (mut bits, mut items, mut visited) = (vec![9; n << 12], vec![ITEM; *n], 77);
            let number = super::column(file, 9, &list, b"", &mut bits, &mut items, &mut visited);
            let expected = lxt_reference::judge(file).map(|_| ());
            assert_eq!(number, after(expected, ()).0);
        }
        files.len()
    };
    let thread = std::thread::Builder::new().stack_size(128 << 10);
    let thread = thread.spawn(run).expect("a thread");
    assert!(thread.join().expect("its end") > 50);
}

// ---- Valid, and fixed sizes: what is written, and that nothing else is ----

/// What is lent without a length, with marks on either side.
#[repr(C)]
struct Framed<T> {
    before: [u64; 2],
    lent: T,
    after: [u64; 2],
}

const FRAME: [u64; 2] = [0x5C5C_5C5C_5C5C_5C5C; 2];

fn framed<T>(lent: T) -> Framed<T> {
    Framed {
        before: FRAME,
        lent,
        after: FRAME,
    }
}

impl<T> Framed<T> {
    /// What is lent, where the marks around it are still there.
    fn unframed(self) -> T {
        assert_eq!((self.before, self.after), (FRAME, FRAME));
        self.lent
    }
}

#[test]
fn structs_are_written_whole_and_nothing_around_them() {
    let file = include_bytes!("../../../../traces/gpsim_onereg.lxt");
    let judged = Judged::new(file).expect("a trace");
    let newest = judged.chains()[0][0];

    let (mut five, mut scale) = (framed(MARKED), framed(99_i8));
    assert_eq!(judge(file, &mut five.lent, &mut scale.lent), 0);
    let summary = judged.summary();
    let expected = Summary {
        facilities: 1,
        changes: summary.changes,
        end: summary.end,
        initial: summary.initial.into(),
        clean: summary.clean.into(),
    };
    assert_eq!(five.unframed(), expected);
    assert_eq!(scale.unframed(), summary.timescale);

    let mut one = framed(77);
    assert_eq!(super::stray(file, &mut one.lent), 0);
    assert_eq!(one.unframed(), judged.stray_bytes());

    let (mut two, mut msb, mut lsb) = (framed(FACTS), framed(77), framed(77));
    let number = super::facts(file, 0, &mut two.lent, &mut msb.lent, &mut lsb.lent);
    let facts = judged.facts(0).expect("facts");
    assert_eq!(number, 0);
    assert_eq!(two.unframed(), shape(&facts));
    assert_eq!((msb.unframed(), lsb.unframed()), (facts.msb, facts.lsb));

    let mut one = framed(77);
    assert_eq!(super::root(file, 0, &mut one.lent), 0);
    assert_eq!(one.unframed(), 0);
    let mut one = framed(77);
    assert_eq!(super::change_before(file, 0, newest, &mut one.lent), 0);
    let before = judged.change_before(0, newest);
    assert_eq!(Ok(one.unframed()), before);
    let (mut one, mut names) = (framed(77), framed([9; 1_023]));
    assert_eq!(super::name(file, 0, &mut names.lent, &mut one.lent), 0);
    let length = one.unframed() as usize;
    assert_eq!(names.unframed()[..length], *judged.name_of(0));

    let mut room = [9; 4_096];
    let read = judged.change(0, newest, &mut room).expect("a change");
    let (mut time, mut three, mut bits) = (framed(-77), framed(VALUE), framed([9; 4_096]));
    let mut clean = framed(78);
    let (lent, answer) = (&mut bits.lent, (&mut three.lent, &mut clean.lent));
    let number = super::change(file, 0, newest, lent, &mut time.lent, answer.0, answer.1);
    assert_eq!((number, time.unframed()), (0, read.time));
    assert_eq!(three.unframed(), numbers(read.value));
    assert_eq!(
        (clean.unframed(), bits.unframed()),
        (read.clean.into(), room)
    );
    for time in [i64::MIN, i64::MAX] {
        let (mut three, mut bits) = (framed(VALUE), framed([9; 4_096]));
        let mut visited = framed(79);
        let (lent, answer) = (&mut bits.lent, (&mut three.lent, &mut visited.lent));
        let number = super::value_at(file, 0, time, lent, answer.0, answer.1);
        let mut room = [9; 4_096];
        let lookup = judged.value_at(0, time, &mut room).expect("a value");
        assert_eq!((number, three.unframed()), (0, numbers(lookup.value)));
        assert_eq!(
            (visited.unframed(), bits.unframed()),
            (lookup.visited, room)
        );
    }

    let strings = Judged::new(STRINGS).expect("a trace");
    for (facility, time) in [(2, -1), (2, 0), (2, 9), (0, 0)] {
        let (text, mut three) = (framed(*b"none"), framed(PART));
        let lent = (&text.lent, &mut three.lent);
        assert_eq!(super::text_at(STRINGS, facility, time, lent.0, lent.1), 0);
        let expected = strings.text_at(facility, time, b"none").expect("an answer");
        assert_eq!(three.unframed(), part(expected), "{facility} at {time}");
        assert_eq!(text.unframed(), *b"none");
    }

    for time in [-1, 0, 9] {
        // As many items as numbers and as many bytes as widths, and more of both.
        let (text, list) = (framed(*b"none"), framed([2, 0, 2, 1]));
        let (mut bits, mut items) = (framed([9; 40]), framed([ITEM; 6]));
        let mut visited = framed(77);
        let widths = list.lent.map(|it| strings.facts(it).expect("facts").width);
        let widths = widths.iter().sum::<u32>() as usize;
        for (room, items_room) in [(40, 6), (widths, 4)] {
            let (symbols, records) = (&mut bits.lent[..room], &mut items.lent[..items_room]);
            let answer = &mut visited.lent;
            let number = super::column(
                STRINGS, time, &list.lent, &text.lent, symbols, records, answer,
            );
            assert_eq!(number, 0);
        }
        let (mut room, mut records) = ([9; 40], [None; 6]);
        let sum = strings.column(time, &list.lent, b"none", &mut room, &mut records);
        assert_eq!(Ok(visited.unframed()), sum);
        assert_eq!(
            (bits.unframed(), items.unframed()),
            (room, items_of(records))
        );
        assert_eq!(text.unframed(), *b"none");
        assert_eq!(list.unframed(), [2, 0, 2, 1]);
    }

    let mut pairs = framed([PAIR; 1]);
    assert_eq!(super::start_walk(file, &[1], &mut pairs.lent), 0);
    let (mut two, mut output) = (framed(HANDED), framed([77; 2]));
    let lent = (&mut pairs.lent, &mut output.lent);
    assert_eq!(super::carry_on(file, lent.0, 1, lent.1, &mut two.lent), 0);
    assert_eq!(output.unframed(), [0, newest]);
    assert_eq!(Ok(pairs.unframed()[0].offset), before);
    let done = u32::from(before == Ok(0));
    assert_eq!(two.unframed(), Handed { count: 1, done });
}

const MARKED: Summary = Summary {
    facilities: 0xAAAA_AAAA,
    changes: 0xBBBB_BBBB,
    end: 0xCCCC_CCCC,
    initial: 0xDDDD_DDDD,
    clean: 0xEEEE_EEEE,
};

const FACTS: Facility = Facility {
    width: 0xAAAA_AAAA,
    kind: 0xBBBB_BBBB,
};

const VALUE: c::Value = c::Value {
    what: 0xAAAA_AAAA_AAAA_AAAA,
    number: 0xBBBB_BBBB_BBBB_BBBB,
    length: 0xCCCC_CCCC_CCCC_CCCC,
};

const PART: Part = Part {
    from: 0xAAAA_AAAA_AAAA_AAAA,
    start: 0xBBBB_BBBB_BBBB_BBBB,
    length: 0xCCCC_CCCC_CCCC_CCCC,
};

const HANDED: Handed = Handed {
    count: 0xAAAA_AAAA,
    done: 0xBBBB_BBBB,
};

#[test]
fn a_refused_file_writes_nothing() {
    let file = include_bytes!("../../../../traces/gpsim_onereg.lxt");
    for length in 0..file.len() {
        // An exact-size copy, so that a read past the slice would leave its allocation.
        let cut = file[..length].to_vec().into_boxed_slice();
        let (mut answer, mut timescale) = (MARKED, 99);
        assert_ne!(judge(&cut, &mut answer, &mut timescale), 0);
        assert_eq!((answer, timescale), (MARKED, 99));
    }
}

/// Judging generated files: all five numbers and the timescale, or the marks.
#[test]
fn a_summary_is_written_or_stays() {
    let mut seen = BTreeMap::new();
    for seed in 0..6_000 {
        let file = lxt_generate::case(seed).bytes;
        let (mut answer, mut timescale) = (MARKED, 99);
        let number = judge(&file, &mut answer, &mut timescale);
        let expected = lxt_reference::judge(&file).map(|it| {
            let summary = Summary {
                facilities: it.facilities,
                changes: it.changes,
                end: it.end,
                initial: it.initial.into(),
                clean: it.clean.into(),
            };
            (summary, it.timescale)
        });
        assert_eq!((number, (answer, timescale)), after(expected, (MARKED, 99)));
        *seen.entry((number, answer.clean)).or_insert(0) += 1;
    }
    println!("{seen:?}");
    let refused = (1..=17).map(|number| (number, MARKED.clean));
    for answer in refused.chain([(0, 0), (0, 1)]) {
        assert!(seen.contains_key(&answer), "{answer:?} {seen:?}");
    }
}

/// Counting the stray bytes of generated files: the count, or the mark. Every refusal of a file leaves it.
#[test]
fn a_count_of_stray_bytes_is_written_or_stays() {
    const MARK: u32 = 0xAAAA_AAAA;
    let mut seen = BTreeMap::new();
    for seed in 0..6_000 {
        let file = lxt_generate::case(seed).bytes;
        let mut stray = MARK;
        let number = super::stray(&file, &mut stray);
        assert_eq!(
            (number, stray),
            after(lxt_reference::stray_bytes(&file), MARK)
        );
        *seen.entry((number, stray.min(2))).or_insert(0) += 1;
    }
    println!("{seen:?}");
    let refused = (1..=17).map(|number| (number, 2));
    for answer in refused.chain([(0, 0), (0, 1), (0, 2)]) {
        assert!(seen.contains_key(&answer), "{answer:?} {seen:?}");
    }
}

/// What lent numbers hold after a call: the answer and 0, or what they held and the refusal.
fn after<T>(expected: Result<T, u8>, marked: T) -> (u32, T) {
    match expected {
        Ok(answer) => (0, answer),
        Err(number) => (u32::from(number), marked),
    }
}

/// The independent reader's value as the numbers of C's.
pub fn numbers(value: Value) -> c::Value {
    let (what, number, length) = match value {
        Value::Bits { width } => (0, width.into(), 0),
        Value::Real { bits } => (1, bits, 0),
        Value::Text { start, length } => (2, start.into(), length.into()),
        Value::NotDriven => (3, 0, 0),
    };
    c::Value {
        what,
        number,
        length,
    }
}

/// The independent reader's text at a time as the numbers of C's.
pub fn part(text: TextAt) -> Part {
    let from = match text.which {
        Which::File => 0,
        Which::Lent => 1,
        Which::OtherKind => 2,
    };
    Part {
        from,
        start: text.start as u64,
        length: text.length as u64,
    }
}

/// The independent reader's item as the numbers of C's.
pub fn item(of: lxt_reference::Item) -> Item {
    use lxt_reference::Item as Of;
    let (what, start, length, real) = match of {
        Of::Bits { start, width } => (0, start as u64, width.into(), 0),
        Of::Real { bits } => (1, 0, 0, bits),
        Of::Text { start, length } => (2, start.into(), length.into(), 0),
        Of::NotDriven => (3, 0, 0, 0),
        Of::LentText { length } => (4, 0, length as u64, 0),
    };
    Item {
        what,
        start,
        length,
        real,
    }
}

/// The same of those that were written, and the mark of the others.
fn items_of<const N: usize>(items: [Option<lxt_reference::Item>; N]) -> [Item; N] {
    items.map(|it| it.map_or(ITEM, item))
}

/// The independent reader's facts as the numbers of C's.
pub fn shape(facts: &lxt_reference::Facts) -> Facility {
    Facility {
        width: facts.width,
        kind: facts.kind as u32,
    }
}

/// The independent reader's count and end as the numbers of C's.
pub fn handed((count, done): (u32, bool)) -> Handed {
    let done = done.into();
    Handed { count, done }
}

/// Asks about facilities of generated files, accepted and refused ones, with the facilities'
/// first changes, no change, and room that is enough or short.
fn questions(mut ask: impl FnMut(&[u8], &Result<Judged, u8>, u32, u32, usize)) {
    for seed in 0..2_000 {
        let file = lxt_generate::case(seed).bytes;
        let judged = Judged::new(&file);
        let chains = judged.as_ref().map(Judged::chains).unwrap_or_default();
        let count = chains.len() as u32;
        for facility in [0, 1, 2, count / 2, count.saturating_sub(1), count, u32::MAX] {
            let chain = chains.get(facility as usize);
            let first = chain.and_then(|chain| chain.first().copied());
            for offset in [first.unwrap_or(5), 6, u32::MAX] {
                for room in [0, 32, 4_096] {
                    ask(&file, &judged, facility, offset, room);
                }
            }
        }
    }
}

#[test]
fn one_number_is_written_or_stays() {
    const MARK: u32 = 0xAAAA_AAAA;
    questions(|file, judged, facility, offset, room| {
        let judged = judged.as_ref().map_err(|number| *number);
        let mut root = MARK;
        let number = super::root(file, facility, &mut root);
        let expected = judged.and_then(|it| it.root(facility));
        assert_eq!((number, root), after(expected, MARK));

        let mut before = MARK;
        let number = super::change_before(file, facility, offset, &mut before);
        let expected = judged.and_then(|it| it.change_before(facility, offset));
        assert_eq!((number, before), after(expected, MARK));

        let mut names = vec![0xA5; room];
        let mut size = MARK;
        let number = super::name(file, facility, &mut names, &mut size);
        let mut expected_names = vec![0xA5; room];
        let expected = judged.and_then(|it| it.name(facility, &mut expected_names));
        let expected = expected.map(|length| length as u32);
        assert_eq!((number, size), after(expected, MARK));
        assert_eq!(names, expected_names);
    });
}

#[test]
fn a_value_is_written_or_stays() {
    const MARKS: (c::Value, u32) = (VALUE, 0xDDDD_DDDD);
    let mut seen = BTreeMap::new();
    questions(|file, judged, facility, offset, room| {
        let judged = judged.as_ref().map_err(|number| *number);
        // The time of a change, or one that is any number.
        let read = judged.and_then(|it| it.change(facility, offset, &mut [0; 4_096]));
        let any = i64::from(offset);
        for time in [read.map_or(any, |it| it.time), -any, i64::MIN, i64::MAX] {
            let mut bits = vec![0xA5; room];
            let (mut answer, mut visited) = MARKS;
            let lent = (&mut answer, &mut visited);
            let number = super::value_at(file, facility, time, &mut bits, lent.0, lent.1);
            let mut expected_bits = vec![0xA5; room];
            let expected = judged.and_then(|it| it.value_at(facility, time, &mut expected_bits));
            let expected = expected.map(|it| (numbers(it.value), it.visited));
            assert_eq!((number, (answer, visited)), after(expected, MARKS));
            assert_eq!(bits, expected_bits);
            let visited = if number == 0 { visited.min(2) } else { visited };
            *seen.entry((number, visited)).or_insert(0) += 1;
        }
    });
    // No change, one and several, and the mark after each refusal that the call can give.
    println!("{seen:?}");
    let refusals = (1..=18).chain([21]).map(|number| (number, MARKS.1));
    for answer in refusals.chain([(0, 0), (0, 1), (0, 2)]) {
        assert!(
            seen.get(&answer).is_some_and(|count| *count >= 50),
            "{answer:?}"
        );
    }
}

#[test]
fn a_part_is_written_or_stays() {
    let mut seen = BTreeMap::new();
    questions(|file, judged, facility, offset, room| {
        let judged = judged.as_ref().map_err(|number| *number);
        // The time of a change, or one that is any number.
        let read = judged.and_then(|it| it.change(facility, offset, &mut [0; 4_096]));
        let any = i64::from(offset);
        for time in [read.map_or(any, |it| it.time), -any, i64::MIN, i64::MAX] {
            let text = vec![0xA5; room];
            let mut answer = framed(PART);
            let number = super::text_at(file, facility, time, &text, &mut answer.lent);
            let answer = answer.unframed();
            let expected = judged.and_then(|it| it.text_at(facility, time, &text));
            assert_eq!((number, answer), after(expected.map(part), PART));
            assert!(text.iter().all(|it| *it == 0xA5));
            let met = (number, answer.from, answer.length == 0);
            *seen.entry(met).or_insert(0) += 1;
        }
    });
    // Parts of either text, empty ones too, other kinds, and the mark after each refusal that the call can give.
    println!("{seen:?}");
    let refusals = (1..=18).map(|number| (number, PART.from, false));
    let parts = [(0, 0, false), (0, 0, true), (0, 1, false), (0, 1, true)];
    for answer in refusals.chain(parts).chain([(0, 2, true)]) {
        assert!(
            seen.get(&answer).is_some_and(|count| *count >= 50),
            "{answer:?}"
        );
    }
}

#[test]
fn a_column_is_written_or_stays() {
    const MARK: u64 = 0xEEEE_EEEE_EEEE_EEEE;
    let mut seen = BTreeMap::new();
    questions(|file, judged, facility, offset, room| {
        let judged = judged.as_ref().map_err(|number| *number);
        let any = i64::from(offset);
        let lists: [&[u32]; 4] = [
            &[],
            &[facility],
            &[0, facility, facility],
            &[facility; 4_097],
        ];
        for (list, time) in lists.into_iter().zip([any, -any, i64::MAX, i64::MIN]) {
            let text = vec![0xA5; room];
            let (mut bits, mut items) = (vec![0xA5; room], framed([ITEM; 4]));
            let mut visited = framed(MARK);
            let lent = (&mut items.lent, &mut visited.lent);
            let number = super::column(file, time, list, &text, &mut bits, lent.0, lent.1);
            let (mut expected_bits, mut expected_items) = (vec![0xA5; room], [None; 4]);
            let expected = judged.and_then(|it| {
                let lent = (&mut expected_bits, &mut expected_items);
                it.column(time, list, &text, lent.0, lent.1)
            });
            assert_eq!((number, visited.unframed()), after(expected, MARK));
            assert_eq!(bits, expected_bits);
            let items = items.unframed();
            assert_eq!(items, items_of(expected_items));
            assert!(text.iter().all(|it| *it == 0xA5));
            *seen.entry((number, items[0].what)).or_insert(0) += 1;
        }
    });
    // Each sort of item, none in an empty list, and the mark after each refusal that the call can give.
    println!("{seen:?}");
    let refusals = (0..=18).chain([21, 35]);
    let refusals = refusals.map(|number| (number, ITEM.what));
    for answer in refusals.chain((0..=4).map(|what| (0, what))) {
        assert!(
            seen.get(&answer).is_some_and(|count| *count >= 50),
            "{answer:?}"
        );
    }
}

/// The refused examples of the trace with every kind: the bits, the items and the sum stay.
#[test]
fn a_refused_column_writes_nothing() {
    let file = &mixed::file();
    for (list, room, items_room, number) in [
        (&[0, 5][..], 0, 0, 18),
        (&[0, 5], 9, 2, 18),
        (&[0, 0], 5, 2, 21),
        (&[0, 0], 6, 1, 21),
        (&[0; 4_097], 0, 0, 35),
        (&[9; 4_097], 0, 0, 35),
        (&[9; 4_096], 0, 0, 18),
    ] {
        let (mut bits, mut items) = (framed([b'#'; 9]), framed([ITEM; 2]));
        let mut visited = framed(0xEEEE_EEEE_EEEE_EEEE_u64);
        let (symbols, records) = (&mut bits.lent[..room], &mut items.lent[..items_room]);
        let answer = &mut visited.lent;
        let given = super::column(file, 25, list, b"none", symbols, records, answer);
        assert_eq!(given, number);
        assert_eq!((bits.unframed(), items.unframed()), ([b'#'; 9], [ITEM; 2]));
        assert_eq!(visited.unframed(), 0xEEEE_EEEE_EEEE_EEEE);
    }
}

#[test]
fn facts_are_written_or_stay() {
    const MARKS: (Facility, i32, i32) = (FACTS, 0x5555_5555, 0x6666_6666);
    questions(|file, judged, facility, _, _| {
        let judged = judged.as_ref().map_err(|number| *number);
        let (mut answer, mut msb, mut lsb) = MARKS;
        let number = super::facts(file, facility, &mut answer, &mut msb, &mut lsb);
        let expected = judged.and_then(|it| it.facts(facility));
        let expected = expected.map(|facts| (shape(&facts), facts.msb, facts.lsb));
        assert_eq!((number, (answer, msb, lsb)), after(expected, MARKS));
    });
}

#[test]
fn a_change_is_written_or_stays() {
    const MARKS: (i64, c::Value, u32) = (-0x5555_5555_5555_5555, VALUE, 0xDDDD_DDDD);
    let mut seen = BTreeMap::new();
    let mut outside = [0; 2];
    questions(|file, judged, facility, offset, room| {
        let judged = judged.as_ref().map_err(|number| *number);
        let mut bits = vec![0xA5; room];
        let (mut time, mut answer, mut clean) = MARKS;
        let lent = (&mut time, &mut answer, &mut clean);
        let number = super::change(file, facility, offset, &mut bits, lent.0, lent.1, lent.2);
        let mut expected_bits = vec![0xA5; room];
        let expected = judged.and_then(|it| it.change(facility, offset, &mut expected_bits));
        let expected = expected.map(|it| (it.time, numbers(it.value), it.clean.into()));
        assert_eq!((number, (time, answer, clean)), after(expected, MARKS));
        assert_eq!(bits, expected_bits);
        *seen.entry((number, clean)).or_insert(0) += 1;
        if number == 0 {
            outside[0] += u32::from(time < 0);
            outside[1] += u32::from(time > 0xFFFF_FFFF);
        }
    });
    // Times whose higher half is written too.
    assert!(outside.iter().all(|count| *count >= 50), "{outside:?}");
    // Clean and dirty changes, and the mark after each refusal that the call can give; 9 takes a large file.
    println!("{seen:?}");
    let refusals = (1..=19).chain([21]).filter(|number| *number != 9);
    let refusals = refusals.map(|number| (number, MARKS.2));
    for answer in refusals.chain([(0, 0), (0, 1)]) {
        assert!(
            seen.get(&answer).is_some_and(|count| *count >= 50),
            "{answer:?}"
        );
    }
}

/// The lent pairs as the independent reader takes them: numbers and offsets.
fn apart(pairs: &[Pair]) -> (Vec<u32>, Vec<u32>) {
    let both = pairs.iter().map(|pair| (pair.number, pair.offset));
    both.unzip()
}

#[test]
fn a_walk_is_written_or_stays() {
    let mark = Pair {
        number: 0xAAAA_AAAA,
        offset: 0xBBBB_BBBB,
    };
    questions(|file, judged, facility, offset, room| {
        if offset != u32::MAX {
            return;
        }
        let n = judged.as_ref().map_or(3, |it| it.summary().facilities) as usize;
        let mut asked = vec![0; n];
        if let Some(asked) = asked.get_mut(facility as usize) {
            *asked = 1;
        }
        let mut pairs = vec![mark; n + 2];
        let (mut numbers, mut offsets) = apart(&pairs);
        let number = super::start_walk(file, &asked, &mut pairs);
        let expected = lxt_reference::start_walk(file, &asked, &mut numbers, &mut offsets);
        assert_eq!(number, after(expected, ()).0);
        assert_eq!(apart(&pairs), (numbers.clone(), offsets.clone()));

        // The record that was started, or the marks where the file was refused.
        for size in [1, 17, u32::MAX] {
            let mut output = vec![0xAAAA_AAAA; room];
            let mut expected_output = output.clone();
            let mut answer = HANDED;
            let number = super::carry_on(file, &mut pairs, size, &mut output, &mut answer);
            let expected = lxt_reference::carry_on(
                file,
                &mut numbers,
                &mut offsets,
                &mut expected_output,
                size.into(),
            );
            let expected = expected.map(handed);
            assert_eq!((number, answer), after(expected, HANDED));
            assert_eq!(output, expected_output);
            assert_eq!(apart(&pairs), (numbers.clone(), offsets.clone()));
        }
    });
}

/// An input in the rows of C.
pub struct Rows {
    input: lxt_generate::Input,
    pub facilities: Vec<NewFacility>,
    pub changes: Vec<NewChange>,
}

pub fn rows(input: lxt_generate::Input) -> Rows {
    let facility = |row: &[u32; 5]| NewFacility {
        name_start: row[0],
        name_length: row[1],
        kind: row[2],
        msb: row[3] as i32,
        lsb: row[4] as i32,
    };
    let change = |row: &[u32; 4]| NewChange {
        facility: row[0],
        time: row[1],
        value_start: row[2],
        value_length: row[3],
    };
    Rows {
        facilities: input.facilities.iter().map(facility).collect(),
        changes: input.changes.iter().map(change).collect(),
        input,
    }
}

impl Rows {
    pub fn given(&self) -> super::Given<'_> {
        super::Given {
            facilities: &self.facilities,
            names: &self.input.names,
            changes: &self.changes,
            values: &self.input.values,
            initial: self.input.initial,
            timescale: self.input.timescale,
        }
    }

    /// What the independent writer answers and writes.
    pub fn expected(&self, out: &mut [u8]) -> Result<u32, u8> {
        lxt_reference::write(
            &self.input.facilities,
            &self.input.names,
            &self.input.changes,
            &self.input.values,
            self.input.initial,
            self.input.timescale,
            out,
        )
    }
}

#[test]
fn a_file_is_written_or_stays() {
    const MARK: u32 = 0xAAAA_AAAA;
    let mut seen = BTreeMap::new();
    for seed in 0..3_000 {
        let rows = rows(lxt_generate::input_case(seed).input);
        let exact = rows.expected(&mut vec![0; 1 << 20]).unwrap_or(100) as usize;
        for room in [0, exact - 1, exact, exact + 9] {
            let (mut out, mut expected_out) = (vec![0xA5; room], vec![0xA5; room]);
            let mut length = framed(MARK);
            let number = super::write(rows.given(), &mut out, &mut length.lent);
            let expected = rows.expected(&mut expected_out);
            assert_eq!((number, length.unframed()), after(expected, MARK));
            assert!(out == expected_out, "seed {seed}");
            *seen.entry(number).or_insert(0) += 1;
        }
    }
    println!("{seen:?}");
    assert!([0, 24, 25].iter().all(|it| seen[it] >= 1_000), "{seen:?}");
}

#[test]
fn empty_slices_may_be_written_from_and_into() {
    let mut nothing = rows(lxt_generate::Input::new());
    nothing.input.names.shrink_to_fit();
    let (mut out, mut length) = ([0xA5; 64], 77);
    assert_eq!(super::write(nothing.given(), &mut [], &mut length), 25);
    assert_eq!(length, 77);
    assert_eq!(super::write(nothing.given(), &mut out, &mut length), 0);
    assert_eq!((length, out[62], out[63]), (63, 0xB4, 0xA5));
    nothing.input.initial = 9;
    assert_eq!(super::write(nothing.given(), &mut [], &mut length), 24);
}

/// Rows from an address that 4 divides and 8 does not.
#[repr(C)]
struct OddRows<T> {
    before: u32,
    rows: [T; 90],
}

fn odd_rows<T: Copy + Default>(rows: &[T]) -> At64<OddRows<T>> {
    let mut odd = At64(OddRows {
        before: 0,
        rows: [T::default(); 90],
    });
    odd.0.rows[..rows.len()].copy_from_slice(rows);
    assert_eq!(odd.0.rows.as_ptr() as usize % 8, 4);
    odd
}

/// A pool so many bytes behind an address that 64 divides.
fn shifted(pool: &[u8], shift: usize) -> At64<[u8; 3_100]> {
    let mut bytes = At64([0; 3_100]);
    bytes.0[shift..][..pool.len()].copy_from_slice(pool);
    bytes
}

#[test]
fn rows_and_pools_may_lie_anywhere_that_their_types_allow() {
    let mut seen = 0;
    for seed in 3_000..3_400 {
        let rows = rows(lxt_generate::input_case(seed).input);
        let given = rows.given();
        let (n, count) = (given.facilities.len(), given.changes.len());
        if n.max(count) > 90 || given.names.len().max(given.values.len()) > 3_000 {
            continue;
        }
        let (facilities, changes) = (odd_rows(given.facilities), odd_rows(given.changes));
        let shift = seed as usize % 16;
        let (names, values) = (shifted(given.names, shift), shifted(given.values, shift));
        let odd = super::Given {
            facilities: &facilities.0.rows[..n],
            names: &names.0[shift..][..given.names.len()],
            changes: &changes.0.rows[..count],
            values: &values.0[shift..][..given.values.len()],
            ..given
        };
        let mut out = At64([0xA5; 20_016]);
        let out = &mut out.0[shift..shift + 20_000];
        let mut expected = vec![0xA5; 20_000];
        let mut length = 77;
        let number = super::write(odd, out, &mut length);
        assert_eq!((number, length), after(rows.expected(&mut expected), 77));
        assert!(out == expected, "seed {seed}");
        assert_eq!((facilities.0.before, changes.0.before), (0, 0));
        seen += 1;
    }
    assert!(seen > 200, "{seen}");
}
