//! How much stack each call takes: it runs on a thread whose stack was painted before.

use std::ffi::{c_int, c_ulong, c_void};
use std::hint::black_box;

use crate::timing::{grouped, used};
use lxt::{Item, Pair};
use lxt_compare::write::{proved, Rows};
use lxt_generate::{large, Large, LONG_TIMES, SHORT_TIMES};
use lxt_reference::{Judged, Kind};

type Entry = extern "C" fn(*mut c_void) -> *mut c_void;

extern "C" {
    fn pthread_attr_init(attributes: *mut Attributes) -> c_int;
    fn pthread_attr_setstack(attributes: *mut Attributes, at: *mut c_void, size: usize) -> c_int;
    fn pthread_create(
        thread: *mut c_ulong,
        attributes: *const Attributes,
        entry: Entry,
        of: *mut c_void,
    ) -> c_int;
    fn pthread_join(thread: c_ulong, answer: *mut *mut c_void) -> c_int;
}

/// Room for a pthread_attr_t.
#[repr(C, align(16))]
struct Attributes([u8; 128]);

const PAINT: u64 = 0x5AC3_5AC3_5AC3_5AC3;
/// One MiB in numbers.
const STACK: usize = (1 << 20) / 8;

#[repr(C, align(4096))]
struct Stack([u64; STACK]);

/// Runs the closure that `of` is to.
extern "C" fn enter(of: *mut c_void) -> *mut c_void {
    // SAFETY: `used_by` hands over its closure and waits for the thread.
    let run = unsafe { &mut *of.cast::<&mut (dyn FnMut() + Send)>() };
    run();
    std::ptr::null_mut()
}

/// How many bytes of a painted stack a thread has touched that did this.
fn used_by(run: &mut (dyn FnMut() + Send)) -> usize {
    // SAFETY: all numbers of a stack may be any bits.
    let mut stack: Box<Stack> = unsafe { Box::new_zeroed().assume_init() };
    stack.0.fill(PAINT);
    let mut of: &mut (dyn FnMut() + Send) = run;
    let at = black_box(&mut stack.0).as_mut_ptr();
    // SAFETY: the stack and the closure outlive the thread, which is waited for, and nothing else uses
    // them meanwhile.
    unsafe {
        let mut attributes = Attributes([0; 128]);
        let mut thread = 0;
        assert_eq!(pthread_attr_init(&mut attributes), 0);
        assert_eq!(
            pthread_attr_setstack(&mut attributes, at.cast(), 8 * STACK),
            0
        );
        let closure = (&raw mut of).cast();
        assert_eq!(pthread_create(&mut thread, &attributes, enter, closure), 0);
        assert_eq!(pthread_join(thread, std::ptr::null_mut()), 0);
    }
    let painted = stack.0.iter().take_while(|it| **it == PAINT).count();
    8 * (STACK - painted)
}

pub fn print() {
    println!(
        "\nStack: the most bytes that a call touched, over a trace, large ones and hostile files, and inputs to write\n"
    );
    println!("| Call | Bytes |");
    println!("|---|---|");
    let mut files: Vec<Vec<u8>> = lxt_generate::hostile()
        .into_iter()
        .filter(|case| case.bytes.len() < 20_000)
        .map(|case| case.bytes)
        .collect();
    files.extend((0..300).map(|seed| lxt_generate::case(seed).bytes));
    for (facilities, width) in [(1, 8), (122, 4_096), (4_096, 8)] {
        for times_tag in [SHORT_TIMES, LONG_TIMES] {
            files.push(large(&Large {
                bytes: 1_000_000,
                facilities,
                width,
                entries: 1_000,
                times_tag,
            }));
        }
    }
    // A thread's own use, of which a call's is counted from.
    let nothing = used_by(&mut || used(0));
    let mut most = [0; lxt_compare::CALLS.len()];
    for (seed, file) in files.iter().enumerate() {
        let judged = Judged::new(file);
        let judged = judged.as_ref().map_err(|number| *number);
        let n = judged.map_or(2, |it| it.summary().facilities as usize);
        let chains = judged.map(Judged::chains).unwrap_or_default();
        let (facility, offset) = chains
            .iter()
            .enumerate()
            .find_map(|(root, chain)| Some((root as u32, *chain.last()?)))
            .unwrap_or((0, 6));
        // A facility of another kind has no text to look for.
        let is_text = |facility: &u32| {
            let facts = judged.and_then(|it| it.facts(*facility));
            facts.is_ok_and(|it| it.kind == Kind::Text)
        };
        let text = (0..n as u32).find(is_text).unwrap_or(facility);
        // A column of all facilities, and the first again up to the limit, with room for any.
        let list = (0..n as u32).chain(std::iter::repeat(0));
        let list = Vec::from_iter(list.take(lxt::LONGEST_COLUMN));
        let mut column = vec![0; lxt::LONGEST_COLUMN * lxt::WIDEST];
        let mut items = vec![Item::default(); list.len()];
        let (mut names, mut bits) = (vec![0; 1_023], vec![0; 4_096]);
        let asked = vec![1; n];
        let mut pairs = vec![Pair::default(); n];
        let mut output = vec![0; 2_000];
        let input = lxt_generate::input_case(seed as u64).input;
        let (rows, mut out) = (Rows::of(&input), vec![0; 1 << 20]);
        let used: [usize; lxt_compare::CALLS.len()] = [
            used_by(&mut || used(lxt::judge(file))),
            used_by(&mut || used(lxt::stray_bytes(file))),
            used_by(&mut || used(lxt::facts(file, facility))),
            used_by(&mut || used(lxt::root(file, facility))),
            used_by(&mut || used(lxt::name(file, facility, &mut names))),
            used_by(&mut || used(lxt::change_before(file, facility, offset))),
            used_by(&mut || used(lxt::change(file, facility, offset, &mut bits))),
            used_by(&mut || used(lxt::value_at(file, facility, 1_000, &mut bits))),
            used_by(&mut || used(lxt::text_at(file, text, 1_000, b"none"))),
            used_by(&mut || {
                let (bits, items) = (&mut column, &mut items);
                used(lxt::column(file, 1_000, &list, b"none", bits, items));
            }),
            used_by(&mut || used(lxt::start_walk(file, &asked, &mut pairs))),
            used_by(&mut || used(lxt::carry_on(file, &mut pairs, 1_000, &mut output))),
            used_by(&mut || used(proved(&input, &rows, &mut out))),
        ];
        for (most, used) in most.iter_mut().zip(used) {
            *most = used.max(*most);
        }
    }
    for (call, most) in lxt_compare::CALLS.iter().zip(most) {
        println!("| {call} | {} |", grouped(most - nothing));
    }
}
