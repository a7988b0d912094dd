//! The library under comparison, as its C header declares it. shim.c holds these declarations against
//! the header.

use crate::model::Answer;

#[derive(Clone, Copy)]
#[repr(C)]
pub struct TreeHead {
    pub root: u32,
    pub next: u32,
    pub form: u32,
}

#[derive(Clone, Copy)]
#[repr(C)]
pub struct TreeOutcome {
    pub head: TreeHead,
    pub answer: Answer,
}

#[derive(Clone, Copy)]
#[repr(C)]
pub struct SegmentOutcome {
    pub next: u32,
    pub answer: Answer,
}

#[derive(Clone, Copy)]
#[repr(C)]
pub struct SegmentAllocation {
    pub next: u32,
    pub answer: Answer,
    pub places: u32,
}

#[derive(Clone, Copy)]
#[repr(C)]
pub struct TreeSlice {
    pub words: *const u32,
    pub len: usize,
}

#[derive(Clone, Copy)]
#[repr(C)]
pub struct SegmentSlice {
    pub words: *const i32,
    pub len: usize,
}

#[derive(Clone, Copy, PartialEq, Eq, Debug)]
#[repr(C)]
pub struct Burst {
    pub number: u32,
    pub taken: usize,
    pub written: usize,
}

/// A 32-bit argument as x86-64 passes it: the upper half of its register or stack slot may hold
/// anything, so here it holds noise.
#[derive(Clone, Copy)]
#[repr(transparent)]
pub struct Word(u64);

pub fn word(value: u32) -> Word {
    Word(0xC35A_A53C_0000_0000 | value as u64)
}

/// A head as it is passed: its third word has a register or stack slot of its own too.
#[derive(Clone, Copy)]
#[repr(C)]
pub struct PassedHead {
    pub root: u32,
    pub next: u32,
    pub form: Word,
}

#[rustfmt::skip]
unsafe extern "C" {
    pub fn lf_tree_format(
        form: Word, arena: *mut u32, arena_len: usize, table: *mut u32, table_len: usize, first: Word,
    ) -> TreeOutcome;
    pub fn lf_tree_allocate(
        head: PassedHead, arena: *mut u32, arena_len: usize, table: *mut u32, table_len: usize, party: Word,
        words: Word,
    ) -> TreeOutcome;
    pub fn lf_tree_release(
        head: PassedHead, arena: *mut u32, arena_len: usize, table: *mut u32, table_len: usize,
        party: Word, ticket: Word, address: Word, words: Word,
    ) -> TreeOutcome;
    pub fn lf_tree_trim(
        head: PassedHead, arena: *mut u32, arena_len: usize, table: *mut u32, table_len: usize,
        party: Word, ticket: Word, address: Word, words: Word, keep: Word,
    ) -> TreeOutcome;
    pub fn lf_tree_find(
        head: PassedHead, arena: *const u32, arena_len: usize, table: *const u32, table_len: usize,
        party: Word, ticket: Word, address: Word, words: Word,
    ) -> Answer;
    pub fn lf_tree_list(
        head: PassedHead, arena: *mut u32, arena_len: usize, table: *mut u32, table_len: usize,
        party: Word, requests: *const u32, requests_len: usize, answers: *mut u32, answers_len: usize,
    ) -> TreeOutcome;
    pub fn compare_tree_look(
        head: PassedHead, arena: *const u32, arena_len: usize, table: *const u32, table_len: usize,
        placeholder: *const u32, placeholder_len: usize, party: Word, ticket: Word, address: Word, words: Word,
    ) -> TreeSlice;

    pub fn lf_segment_format(
        arena: *mut i32, arena_len: usize, table: *mut u32, table_len: usize,
        segments: Word, index: *mut u32, index_len: usize, first: Word,
    ) -> SegmentOutcome;
    pub fn lf_segment_allocate(
        next: Word, arena: *mut i32, arena_len: usize, table: *mut u32, table_len: usize,
        segments: Word, index: *mut u32, index_len: usize, party: Word, words: Word,
    ) -> SegmentAllocation;
    pub fn lf_segment_release(
        next: Word, arena: *mut i32, arena_len: usize, table: *mut u32, table_len: usize,
        segments: Word, index: *mut u32, index_len: usize,
        party: Word, ticket: Word, address: Word, words: Word,
    ) -> SegmentOutcome;
    pub fn lf_segment_trim(
        next: Word, arena: *mut i32, arena_len: usize, table: *mut u32, table_len: usize,
        segments: Word, index: *mut u32, index_len: usize,
        party: Word, ticket: Word, address: Word, words: Word, keep: Word,
    ) -> SegmentOutcome;
    pub fn lf_segment_find(
        next: Word, arena: *const i32, arena_len: usize, table: *const u32, table_len: usize,
        segments: Word, index: *const u32, index_len: usize,
        party: Word, ticket: Word, address: Word, words: Word,
    ) -> Answer;
    pub fn lf_segment_list(
        next: Word, arena: *mut i32, arena_len: usize, table: *mut u32, table_len: usize,
        segments: Word, index: *mut u32, index_len: usize,
        party: Word, requests: *const u32, requests_len: usize, answers: *mut u32, answers_len: usize,
    ) -> SegmentOutcome;
    pub fn compare_segment_look(
        next: Word, arena: *const i32, arena_len: usize, table: *const u32, table_len: usize,
        segments: Word, index: *const u32, index_len: usize,
        placeholder: *const i32, placeholder_len: usize, party: Word, ticket: Word, address: Word, words: Word,
    ) -> SegmentSlice;

    pub fn lf_session_start(state: *mut u8, state_len: usize) -> u32;
    pub fn lf_session_burst(
        state: *mut u8, state_len: usize, bytes: *const u8, bytes_len: usize, answers: *mut u8, answers_len: usize,
    ) -> Burst;
    pub fn lf_session_end(state: *mut u8, state_len: usize, answers: *mut u8, answers_len: usize) -> Burst;

    pub fn lf_copy_table(old: *const u32, old_len: usize, new_table: *mut u32, new_len: usize) -> u32;
}
