//! The functions of the archive, as `include/tardorelga.h` has them for C. A slice is its pointer,
//! which is never null, and its length; a struct goes by value.

use crate::{Verdict, Walk};

// The archive is of 64 bits: places and lengths of 64 bits are those of slices.
const _: () = assert!(usize::BITS == 64);

#[repr(C)]
#[derive(Clone, Copy, Debug, PartialEq, Eq)]
pub struct Found {
    pub verdict: Verdict,
    pub joined: u32,
    pub start: u64,
    pub len: u64,
}

#[repr(C)]
#[derive(Clone, Copy, Debug, PartialEq, Eq)]
pub struct Begun {
    pub verdict: Verdict,
    pub first: u64,
    pub second: u64,
    pub walk: Walk,
}

#[repr(C)]
#[derive(Clone, Copy, Debug, PartialEq, Eq)]
pub struct Facts {
    pub records: u64,
    pub bytes: u64,
}

#[repr(C)]
#[derive(Clone, Copy, Debug, PartialEq, Eq)]
pub struct Stepped {
    pub number: u32,
    pub joined: u32,
    pub start: u64,
    pub len: u64,
    pub walk: Walk,
}

#[repr(C)]
#[derive(Clone, Copy, Debug, PartialEq, Eq)]
pub struct Row {
    pub count: u64,
    pub walk: Walk,
}

#[repr(C)]
#[derive(Clone, Copy, Debug, PartialEq, Eq)]
pub struct Written {
    pub verdict: Verdict,
    pub len: u64,
}

#[repr(C)]
#[derive(Clone, Copy, Debug, PartialEq, Eq)]
pub struct Tapes {
    pub verdict: Verdict,
    pub len: u64,
    pub files: u64,
}

#[repr(C)]
#[derive(Clone, Copy, Debug, PartialEq, Eq)]
pub struct Item {
    pub kind: u32,
    pub number: u32,
    pub group: u32,
    pub start: u64,
    pub len: u64,
    pub behind: u64,
}

extern "C" {
    pub fn tardorelga_check(image: *const u8, image_len: usize) -> Verdict;
    pub fn tardorelga_record(
        image: *const u8,
        image_len: usize,
        file: u64,
        record: u64,
        join: *mut u8,
        join_len: usize,
    ) -> Found;
    pub fn tardorelga_begin(image: *const u8, image_len: usize, file: u64) -> Begun;
    pub fn tardorelga_first_file(image: *const u8, image_len: usize) -> Begun;
    pub fn tardorelga_next_file(
        image: *const u8,
        image_len: usize,
        first: u64,
        second: u64,
    ) -> Begun;
    pub fn tardorelga_item_at(image: *const u8, image_len: usize, at: u64, group: u32) -> Item;
    pub fn tardorelga_field_at(kind: u32, number: u32, byte: u32) -> u32;
    pub fn tardorelga_count(image: *const u8, image_len: usize, walk: Walk) -> Facts;
    pub fn tardorelga_step(
        image: *const u8,
        image_len: usize,
        walk: Walk,
        join: *mut u8,
        join_len: usize,
    ) -> Stepped;
    pub fn tardorelga_steps(
        image: *const u8,
        image_len: usize,
        walk: Walk,
        places: *mut u64,
        places_len: usize,
        lengths: *mut u64,
        lengths_len: usize,
    ) -> Row;
    pub fn tardorelga_listing(
        image: *const u8,
        image_len: usize,
        out: *mut u8,
        out_len: usize,
    ) -> Written;
    pub fn tardorelga_rewrite(
        image: *const u8,
        image_len: usize,
        quota: u64,
        names: *const u8,
        names_len: usize,
        out: *mut u8,
        out_len: usize,
    ) -> Written;
    pub fn tardorelga_write(
        set: *const u8,
        set_len: usize,
        files: *const u8,
        files_len: usize,
        counts: *const u64,
        counts_len: usize,
        lengths: *const u64,
        lengths_len: usize,
        data: *const u8,
        data_len: usize,
        quota: u64,
        names: *const u8,
        names_len: usize,
        out: *mut u8,
        out_len: usize,
    ) -> Written;
    pub fn tardorelga_from_simh(
        tape: *const u8,
        tape_len: usize,
        lengths: *const u64,
        lengths_len: usize,
        out: *mut u8,
        out_len: usize,
    ) -> Written;
    pub fn tardorelga_to_simh(
        image: *const u8,
        image_len: usize,
        out: *mut u8,
        out_len: usize,
        lengths: *mut u64,
        lengths_len: usize,
    ) -> Tapes;
}
