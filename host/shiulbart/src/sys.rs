//! The archive's calls as `include/shiulbart.h` declares them, each behind a function that keeps
//! the header's rules for every argument that safe Rust can give it. All `unsafe` of this crate
//! stands here.

use crate::NodeRecord;
use std::mem::{align_of, size_of};

/// What a call answers: `shiulbart_answer` of the header.
#[repr(C)]
#[derive(Clone, Copy)]
pub(crate) struct Answer {
    pub(crate) number: u32,
    pub(crate) place: u32,
    pub(crate) length: u32,
    pub(crate) extra: u32,
}

extern "C" {
    fn shiulbart_read(bytes: *const u8, length: usize) -> Answer;
    fn shiulbart_child(bytes: *const u8, length: usize, k: u64) -> Answer;
    fn shiulbart_name(bytes: *const u8, length: usize, k: u64) -> Answer;
    fn shiulbart_sheet(sheet: *const u8, length: usize) -> Answer;
    fn shiulbart_fill(
        template: *const u8,
        template_length: usize,
        sheet: *const u8,
        sheet_length: usize,
        out: *mut u8,
        out_length: usize,
    ) -> Answer;
    fn shiulbart_join(
        first: *const u8,
        first_length: usize,
        second: *const u8,
        second_length: usize,
        out: *mut u8,
        out_length: usize,
    ) -> Answer;
    fn shiulbart_write(
        table: *const u8,
        table_length: usize,
        out: *mut u8,
        out_length: usize,
    ) -> Answer;
    fn shiulbart_write_records(
        nodes: *const NodeRecord,
        node_count: usize,
        rest: *const u8,
        rest_length: usize,
        out: *mut u8,
        out_length: usize,
    ) -> Answer;
    fn shiulbart_table(bytes: *const u8, length: usize, out: *mut u8, out_length: usize) -> Answer;
    fn shiulbart_pieces_start() -> PiecesState;
    fn shiulbart_pieces_part(state: PiecesState, part: *const u8, length: usize) -> PiecesState;
    fn shiulbart_pieces_finish(state: PiecesState) -> PiecesEnd;
}

#[inline]
pub(crate) fn read(bytes: &[u8]) -> Answer {
    // SAFETY: a slice's pointer is never null, and is valid for reads of its length for as long as
    // it is borrowed; nothing writes to it meanwhile. The call keeps no pointer.
    unsafe { shiulbart_read(bytes.as_ptr(), bytes.len()) }
}

#[inline]
pub(crate) fn child(bytes: &[u8], k: u64) -> Answer {
    // SAFETY: as in `read`. Any k may come.
    unsafe { shiulbart_child(bytes.as_ptr(), bytes.len(), k) }
}

#[inline]
pub(crate) fn name(bytes: &[u8], k: u64) -> Answer {
    // SAFETY: as in `read`. Any k may come.
    unsafe { shiulbart_name(bytes.as_ptr(), bytes.len(), k) }
}

#[inline]
pub(crate) fn sheet(sheet: &[u8]) -> Answer {
    // SAFETY: as in `read`.
    unsafe { shiulbart_sheet(sheet.as_ptr(), sheet.len()) }
}

#[inline]
pub(crate) fn fill(template: &[u8], sheet: &[u8], out: &mut [u8]) -> Answer {
    // SAFETY: the inputs as in `read`. The buffer's pointer is never null, is valid for reads and
    // writes of its length, and as it is borrowed mutably nothing overlaps it and nobody else looks
    // at it until the call has returned.
    unsafe {
        shiulbart_fill(
            template.as_ptr(),
            template.len(),
            sheet.as_ptr(),
            sheet.len(),
            out.as_mut_ptr(),
            out.len(),
        )
    }
}

#[inline]
pub(crate) fn join(first: &[u8], second: &[u8], out: &mut [u8]) -> Answer {
    // SAFETY: as in `fill`.
    unsafe {
        shiulbart_join(
            first.as_ptr(),
            first.len(),
            second.as_ptr(),
            second.len(),
            out.as_mut_ptr(),
            out.len(),
        )
    }
}

#[inline]
pub(crate) fn write(table: &[u8], out: &mut [u8]) -> Answer {
    // SAFETY: as in `fill`.
    unsafe { shiulbart_write(table.as_ptr(), table.len(), out.as_mut_ptr(), out.len()) }
}

/// `shiulbart_node` of the header: with `repr(C)` the fields are where C has them.
const _: () = assert!(size_of::<NodeRecord>() == 6 && align_of::<NodeRecord>() == 2);

#[inline]
pub(crate) fn write_records(nodes: &[NodeRecord], rest: &[u8], out: &mut [u8]) -> Answer {
    // SAFETY: as in `fill`. A slice of records is aligned for them, and the byte between their fields,
    // which need not be set, is not looked at.
    unsafe {
        shiulbart_write_records(
            nodes.as_ptr(),
            nodes.len(),
            rest.as_ptr(),
            rest.len(),
            out.as_mut_ptr(),
            out.len(),
        )
    }
}

#[inline]
pub(crate) fn table(bytes: &[u8], out: &mut [u8]) -> Answer {
    // SAFETY: as in `fill`.
    unsafe { shiulbart_table(bytes.as_ptr(), bytes.len(), out.as_mut_ptr(), out.len()) }
}

/// An open payload of the reader in parts: `shiulbart_pieces_entry` of the header.
#[repr(C)]
#[derive(Clone, Copy, Debug, PartialEq, Eq)]
struct PiecesEntry {
    at: u16,
    stop: u16,
    due: u16,
}

/// What the next byte is to the reader in parts: `shiulbart_pieces_next` of the header.
#[repr(C)]
#[derive(Clone, Copy, Debug, PartialEq, Eq)]
struct PiecesNext {
    a: u16,
    b: u16,
    code: u8,
    more: u8,
    low: u8,
    high: u8,
}

/// How far the reader in parts is: `shiulbart_pieces` of the header.
///
/// Its fields are private, so that there is no other state than those that the calls gave: only such
/// are meant.
#[repr(C)]
#[derive(Clone, Copy, Debug, PartialEq, Eq)]
pub(crate) struct PiecesState {
    next: PiecesNext,
    count: u16,
    whole: u16,
    used: u16,
    deepest: u16,
    kinds: u64,
    top: PiecesEntry,
    closed: u16,
    levels: [PiecesEntry; 16],
}

/// At most 512 bytes are promised. With `repr(C)` the fields are where C has them.
const _: () = assert!(size_of::<PiecesState>() <= 512);
const _: () = assert!(size_of::<PiecesState>() == 128 && align_of::<PiecesState>() == 8);
const _: () = assert!(size_of::<PiecesEnd>() == 144 && align_of::<PiecesEnd>() == 8);

impl PiecesState {
    /// How many levels are open.
    #[inline]
    pub(crate) fn used(&self) -> u16 {
        self.used
    }

    /// How many bytes came, up to 2,049.
    #[inline]
    pub(crate) fn count(&self) -> u16 {
        self.count
    }
}

/// What the finish gives: `shiulbart_pieces_end` of the header.
#[repr(C)]
#[derive(Clone, Copy)]
pub(crate) struct PiecesEnd {
    pub(crate) state: PiecesState,
    pub(crate) answer: Answer,
}

#[inline]
pub(crate) fn pieces_start() -> PiecesState {
    // SAFETY: nothing is lent.
    unsafe { shiulbart_pieces_start() }
}

#[inline]
pub(crate) fn pieces_part(state: PiecesState, part: &[u8]) -> PiecesState {
    // SAFETY: the part as in `read`. The state goes in and out by value.
    unsafe { shiulbart_pieces_part(state, part.as_ptr(), part.len()) }
}

#[inline]
pub(crate) fn pieces_finish(state: PiecesState) -> PiecesEnd {
    // SAFETY: nothing is lent.
    unsafe { shiulbart_pieces_finish(state) }
}
