//! The boundary to the proved functions: every `unsafe` of this crate.
//!
//! What include/lxt.h asks of a caller, and how the types below meet it. The tests in `tests` go by these
//! names; `guards` has every lent buffer between pages that nothing may touch.
//!
//! - **Declared alike**: the declarations are those of the header, argument for argument.
//! - **Valid**: a pointer is to memory that can be read, and written where it is not `const`, during the
//!   whole call. Each one comes from a slice, an array or a reference that is borrowed for the call.
//! - **Length**: the length beside a pointer counts the objects behind it, bytes, pairs, items, numbers or rows. Both
//!   come from one slice. That of an empty slice is no null pointer, and nothing is behind it.
//! - **Fixed sizes**: a pointer without a length is to one object of its type, a number or a struct.
//! - **Aligned**: a pointer is aligned as its type is, and no more. Rust's slices and references are, and
//!   [`Pair`], [`Item`], [`NewFacility`], [`NewChange`] and the structs of [`c`] have the layout of C's.
//! - **No overlap**: nothing that is written is reached by another pointer. Each such pointer comes from
//!   a `&mut`, which Rust gives to nothing else at the time:
//!
//!   ```compile_fail,E0502
//!   let mut file = vec![0; 2_000];
//!   let _ = lxt::name(&file, 0, &mut file);
//!   ```
//! - **Nothing kept**: no pointer is used after the call, and calls share no memory but what both were
//!   lent, so they can be made from any thread.

use crate::{Item, NewChange, NewFacility, Pair};

/// The header in Rust: its structs, field for field, and its functions.
pub(crate) mod c {
    use crate::{Item, NewChange, NewFacility, Pair};

    #[repr(C)]
    #[derive(Clone, Copy, Debug, Default, PartialEq, Eq)]
    pub struct Summary {
        pub facilities: u32,
        pub changes: u32,
        pub end: u32,
        pub initial: u32,
        pub clean: u32,
    }

    #[repr(C)]
    #[derive(Clone, Copy, Debug, Default, PartialEq, Eq)]
    pub struct Facility {
        pub width: u32,
        pub kind: u32,
    }

    #[repr(C)]
    #[derive(Clone, Copy, Debug, Default, PartialEq, Eq)]
    pub struct Value {
        pub what: u64,
        pub number: u64,
        pub length: u64,
    }

    #[repr(C)]
    #[derive(Clone, Copy, Debug, Default, PartialEq, Eq)]
    pub struct Part {
        pub from: u64,
        pub start: u64,
        pub length: u64,
    }

    #[repr(C)]
    #[derive(Clone, Copy, Debug, Default, PartialEq, Eq)]
    pub struct Handed {
        pub count: u32,
        pub done: u32,
    }

    extern "C" {
        pub fn lxt_judge(
            file: *const u8,
            length: usize,
            summary: *mut Summary,
            timescale: *mut i8,
        ) -> u32;
        pub fn lxt_stray(file: *const u8, length: usize, stray: *mut u32) -> u32;
        pub fn lxt_root(file: *const u8, length: usize, facility: u32, root: *mut u32) -> u32;
        pub fn lxt_name(
            file: *const u8,
            length: usize,
            facility: u32,
            names: *mut u8,
            room: usize,
            size: *mut u32,
        ) -> u32;
        pub fn lxt_change_before(
            file: *const u8,
            length: usize,
            facility: u32,
            offset: u32,
            before: *mut u32,
        ) -> u32;
        pub fn lxt_value_at(
            file: *const u8,
            length: usize,
            facility: u32,
            time: i64,
            bits: *mut u8,
            room: usize,
            value: *mut Value,
            visited: *mut u32,
        ) -> u32;
        pub fn lxt_text_at(
            file: *const u8,
            length: usize,
            facility: u32,
            time: i64,
            text: *const u8,
            text_length: usize,
            part: *mut Part,
        ) -> u32;
        pub fn lxt_column(
            file: *const u8,
            length: usize,
            time: i64,
            facilities: *const u32,
            count: usize,
            text: *const u8,
            text_length: usize,
            bits: *mut u8,
            room: usize,
            items: *mut Item,
            items_room: usize,
            visited: *mut u64,
        ) -> u32;
        pub fn lxt_facts(
            file: *const u8,
            length: usize,
            facility: u32,
            facts: *mut Facility,
            msb: *mut i32,
            lsb: *mut i32,
        ) -> u32;
        pub fn lxt_change(
            file: *const u8,
            length: usize,
            facility: u32,
            offset: u32,
            bits: *mut u8,
            room: usize,
            time: *mut i64,
            value: *mut Value,
            clean: *mut u32,
        ) -> u32;
        pub fn lxt_start_walk(
            file: *const u8,
            length: usize,
            asked: *const u8,
            asked_length: usize,
            pairs: *mut Pair,
            room: usize,
        ) -> u32;
        pub fn lxt_carry_on(
            file: *const u8,
            length: usize,
            pairs: *mut Pair,
            pairs_length: usize,
            size: u32,
            output: *mut u32,
            output_room: usize,
            handed: *mut Handed,
        ) -> u32;
        pub fn lxt_write(
            facilities: *const NewFacility,
            facility_count: usize,
            names: *const u8,
            names_length: usize,
            changes: *const NewChange,
            change_count: usize,
            values: *const u8,
            values_length: usize,
            initial: u8,
            timescale: i8,
            out: *mut u8,
            room: usize,
            length: *mut u32,
        ) -> u32;
    }
}

/// n, C, T, the initial symbol and 1 where all padding is clean, and the timescale; 0 or the refusal's number.
pub(crate) fn judge(file: &[u8], summary: &mut c::Summary, timescale: &mut i8) -> u32 {
    // SAFETY: the slice's pointer and length are its own, the struct has the layout of C's, and the two
    // `&mut` are not aliased.
    unsafe {
        c::lxt_judge(
            file.as_ptr(),
            file.len(),
            summary as *mut c::Summary,
            timescale as *mut i8,
        )
    }
}

/// How many stray bytes a file has; 0 or the refusal's number.
pub(crate) fn stray(file: &[u8], stray: &mut u32) -> u32 {
    // SAFETY: the slice's pointer and length are its own, and the `&mut` is not aliased.
    unsafe { c::lxt_stray(file.as_ptr(), file.len(), stray as *mut u32) }
}

/// The root of a facility; 0 or the refusal's number.
pub(crate) fn root(file: &[u8], facility: u32, root: &mut u32) -> u32 {
    // SAFETY: the slice's pointer and length are its own, and the `&mut` is not aliased.
    unsafe { c::lxt_root(file.as_ptr(), file.len(), facility, root as *mut u32) }
}

/// A facility's name in the lent names and its length; 0 or the refusal's number.
pub(crate) fn name(file: &[u8], facility: u32, names: &mut [u8], size: &mut u32) -> u32 {
    // SAFETY: the pointers and lengths of both slices are their own, and the two `&mut` are not
    // aliased.
    unsafe {
        c::lxt_name(
            file.as_ptr(),
            file.len(),
            facility,
            names.as_mut_ptr(),
            names.len(),
            size as *mut u32,
        )
    }
}

/// The offset of the change before a change; 0 or the refusal's number.
pub(crate) fn change_before(file: &[u8], facility: u32, offset: u32, before: &mut u32) -> u32 {
    // SAFETY: the slice's pointer and length are its own, and the `&mut` is not aliased.
    unsafe {
        c::lxt_change_before(
            file.as_ptr(),
            file.len(),
            facility,
            offset,
            before as *mut u32,
        )
    }
}

/// The value at a time, its symbols in the lent bits, and how many changes were visited; 0 or the refusal's
/// number.
pub(crate) fn value_at(
    file: &[u8],
    facility: u32,
    time: i64,
    bits: &mut [u8],
    value: &mut c::Value,
    visited: &mut u32,
) -> u32 {
    // SAFETY: the pointers and lengths of both slices are their own, the struct has the layout of C's,
    // and the three `&mut` are not aliased.
    unsafe {
        c::lxt_value_at(
            file.as_ptr(),
            file.len(),
            facility,
            time,
            bits.as_mut_ptr(),
            bits.len(),
            value as *mut c::Value,
            visited as *mut u32,
        )
    }
}

/// The text at a time, as a part of the file or of the lent text; 0 or the refusal's number.
pub(crate) fn text_at(
    file: &[u8],
    facility: u32,
    time: i64,
    text: &[u8],
    part: &mut c::Part,
) -> u32 {
    // SAFETY: the pointers and lengths of both slices are their own, the struct has the layout of C's,
    // and the `&mut` is not aliased.
    unsafe {
        c::lxt_text_at(
            file.as_ptr(),
            file.len(),
            facility,
            time,
            text.as_ptr(),
            text.len(),
            part as *mut c::Part,
        )
    }
}

/// The values of a list of facilities at a time, as items, their symbols in the lent bits, and how many changes
/// were visited in all; 0 or the refusal's number.
pub(crate) fn column(
    file: &[u8],
    time: i64,
    facilities: &[u32],
    text: &[u8],
    bits: &mut [u8],
    items: &mut [Item],
    visited: &mut u64,
) -> u32 {
    // SAFETY: the pointers and lengths of the five slices are their own, an item has the layout of C's, and
    // the three `&mut` are not aliased.
    unsafe {
        c::lxt_column(
            file.as_ptr(),
            file.len(),
            time,
            facilities.as_ptr(),
            facilities.len(),
            text.as_ptr(),
            text.len(),
            bits.as_mut_ptr(),
            bits.len(),
            items.as_mut_ptr(),
            items.len(),
            visited as *mut u64,
        )
    }
}

/// Width and kind's number, msb and lsb; 0 or the refusal's number.
pub(crate) fn facts(
    file: &[u8],
    facility: u32,
    facts: &mut c::Facility,
    msb: &mut i32,
    lsb: &mut i32,
) -> u32 {
    // SAFETY: the slice's pointer and length are its own, the struct has the layout of C's, and the
    // three `&mut` are not aliased.
    unsafe {
        c::lxt_facts(
            file.as_ptr(),
            file.len(),
            facility,
            facts as *mut c::Facility,
            msb as *mut i32,
            lsb as *mut i32,
        )
    }
}

/// A change's time and its value, its symbols in the lent bits, and 1 where its padding is clean; 0 or the
/// refusal's number.
pub(crate) fn change(
    file: &[u8],
    facility: u32,
    offset: u32,
    bits: &mut [u8],
    time: &mut i64,
    value: &mut c::Value,
    clean: &mut u32,
) -> u32 {
    // SAFETY: the pointers and lengths of both slices are their own, the struct has the layout of C's,
    // and the four `&mut` are not aliased.
    unsafe {
        c::lxt_change(
            file.as_ptr(),
            file.len(),
            facility,
            offset,
            bits.as_mut_ptr(),
            bits.len(),
            time as *mut i64,
            value as *mut c::Value,
            clean as *mut u32,
        )
    }
}

/// The record of a walk in the lent pairs; 0 or the refusal's number.
pub(crate) fn start_walk(file: &[u8], asked: &[u8], pairs: &mut [Pair]) -> u32 {
    // SAFETY: the pointers and lengths of the three slices are their own, a pair has the layout of
    // C's, and the `&mut` is not aliased.
    unsafe {
        c::lxt_start_walk(
            file.as_ptr(),
            file.len(),
            asked.as_ptr(),
            asked.len(),
            pairs.as_mut_ptr(),
            pairs.len(),
        )
    }
}

/// The next pairs of a walk in the lent output, how many they are, and 1 where the walk is done; 0 or
/// the refusal's number.
pub(crate) fn carry_on(
    file: &[u8],
    pairs: &mut [Pair],
    size: u32,
    output: &mut [u32],
    handed: &mut c::Handed,
) -> u32 {
    // SAFETY: the pointers and lengths of the three slices are their own, a pair and the struct have the
    // layout of C's, and the three `&mut` are not aliased.
    unsafe {
        c::lxt_carry_on(
            file.as_ptr(),
            file.len(),
            pairs.as_mut_ptr(),
            pairs.len(),
            size,
            output.as_mut_ptr(),
            output.len(),
            handed as *mut c::Handed,
        )
    }
}

/// What a writer is given, besides where the file is to stand.
#[derive(Clone, Copy)]
pub(crate) struct Given<'a> {
    pub facilities: &'a [NewFacility],
    pub names: &'a [u8],
    pub changes: &'a [NewChange],
    pub values: &'a [u8],
    pub initial: u8,
    pub timescale: i8,
}

/// The file in the first bytes of the lent ones, and its length; 0 or the refusal's number.
pub(crate) fn write(given: Given, out: &mut [u8], length: &mut u32) -> u32 {
    // SAFETY: the pointers and lengths of the five slices are their own, a facility and a change have the
    // layout of C's, and the two `&mut` are not aliased.
    unsafe {
        c::lxt_write(
            given.facilities.as_ptr(),
            given.facilities.len(),
            given.names.as_ptr(),
            given.names.len(),
            given.changes.as_ptr(),
            given.changes.len(),
            given.values.as_ptr(),
            given.values.len(),
            given.initial,
            given.timescale,
            out.as_mut_ptr(),
            out.len(),
            length as *mut u32,
        )
    }
}

#[cfg(all(test, target_os = "linux"))]
mod guards;
#[cfg(test)]
mod tests;
