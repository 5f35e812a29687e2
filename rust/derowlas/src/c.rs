//! The proved library's calls, made from Rust.  All that is `unsafe` in this
//! crate stands here.
//!
//! `include/derowlas.h` says what a caller owes, and a Rust slice has all of
//! it: its pointer is never null, even where the slice is empty; it leads to
//! as many elements as the slice says, aligned for their type; and what is
//! behind a `&mut` is behind no other reference for as long as the call
//! lasts.  The library asks for nothing else: its calls are proved to return
//! for every content, to read and write within the slices alone, and to leave
//! what is not `mut` as it was.

/// `struct derowlas_reading`.
#[repr(C)]
pub struct Reading {
    pub number: u32,
    pub boxes: u32,
    pub links: u32,
}

/// `struct derowlas_written`.
#[repr(C)]
pub struct Written {
    pub number: u32,
    pub length: u32,
}

/// `struct derowlas_allowed`.
#[repr(C)]
pub struct Allowed {
    pub number: u32,
    pub identities: u32,
}

/// `struct derowlas_ran`.
#[repr(C)]
pub struct Ran {
    pub number: u32,
    pub sent: u32,
    pub moved: u32,
    pub under_way: u32,
}

/// `struct derowlas_drained`.
#[repr(C)]
pub struct Drained {
    pub number: u32,
    pub sent: u32,
    pub moved: u32,
    pub under_way: u32,
    pub finished: bool,
}

unsafe extern "C" {
    fn derowlas_read(
        sheet: *const u8,
        sheet_len: usize,
        table: *mut u16,
        table_len: usize,
    ) -> Reading;

    fn derowlas_write(
        boxes: u32,
        table: *const u16,
        table_len: usize,
        buffer: *mut u8,
        buffer_len: usize,
    ) -> Written;

    fn derowlas_allowance(sheet: *const u8, sheet_len: usize) -> Allowed;

    fn derowlas_run(
        sheet: *const u8,
        sheet_len: usize,
        list: *const u8,
        list_len: usize,
        board: *mut u16,
        board_len: usize,
    ) -> Ran;

    fn derowlas_drain(
        sheet: *const u8,
        sheet_len: usize,
        starts: u16,
        budget: u32,
        board: *mut u16,
        board_len: usize,
    ) -> Drained;
}

pub fn read(sheet: &[u8], table: &mut [u16]) -> Reading {
    // SAFETY: both are slices, and `table` is lent alone, so that it does not
    // overlap `sheet`.  The call keeps neither pointer.
    unsafe { derowlas_read(sheet.as_ptr(), sheet.len(), table.as_mut_ptr(), table.len()) }
}

pub fn write(boxes: u32, table: &[u16], buffer: &mut [u8]) -> Written {
    // SAFETY: both are slices, and `buffer` is lent alone, so that it does not
    // overlap `table`.  Every `boxes` is answered.  The call keeps neither
    // pointer.
    unsafe {
        derowlas_write(
            boxes,
            table.as_ptr(),
            table.len(),
            buffer.as_mut_ptr(),
            buffer.len(),
        )
    }
}

pub fn allowance(sheet: &[u8]) -> Allowed {
    // SAFETY: `sheet` is a slice, and is only read.  The call does not keep
    // its pointer.
    unsafe { derowlas_allowance(sheet.as_ptr(), sheet.len()) }
}

pub fn run(sheet: &[u8], list: &[u8], board: &mut [u16]) -> Ran {
    // SAFETY: all three are slices, and `board` is lent alone, so that it
    // overlaps neither `sheet` nor `list`.  The call keeps no pointer.
    unsafe {
        derowlas_run(
            sheet.as_ptr(),
            sheet.len(),
            list.as_ptr(),
            list.len(),
            board.as_mut_ptr(),
            board.len(),
        )
    }
}

pub fn drain(sheet: &[u8], starts: u16, budget: u32, board: &mut [u16]) -> Drained {
    // SAFETY: both are slices, and `board` is lent alone, so that it does not
    // overlap `sheet`.  Every `starts` and every `budget` is answered.  The
    // call keeps neither pointer.
    unsafe {
        derowlas_drain(
            sheet.as_ptr(),
            sheet.len(),
            starts,
            budget,
            board.as_mut_ptr(),
            board.len(),
        )
    }
}
