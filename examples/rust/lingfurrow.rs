//! Safe calls of both pools and of the text program, over the archive that include/lingfurrow.h describes. A slice has what the header asks of
//! a pointer and its length, and `&mut` that nobody else reads or writes: so no call here needs a promise of its
//! caller.
//!
//! A crate that builds by cargo links the archive from its build script:
//! `cargo:rustc-link-search=native=DIR` and `cargo:rustc-link-lib=static=pool_c`.
#![allow(dead_code)] // a program uses a part of it

use std::fmt;
use std::ops::Range;

/// Words that are held: what a grant answers and a release names.
#[derive(Clone, Copy, Debug, Default, PartialEq, Eq)]
pub struct Run {
    pub ticket: u32,
    pub address: u32,
    pub words: u32,
}

impl Run {
    // of a run that is held: inside the arena
    fn range(self) -> Range<usize> {
        let from = self.address as usize;
        from..from + self.words as usize
    }
}

/// The number of a refused call, 1 to 9, 11 or 12. The pool is as it was.
#[derive(Clone, Copy, Debug, PartialEq, Eq)]
pub struct Refusal(pub u32);

impl fmt::Display for Refusal {
    fn fmt(&self, f: &mut fmt::Formatter) -> fmt::Result {
        f.write_str(match self.0 {
            1 => "the pool is damaged",
            2 => "bad size",
            3 => "no record is left",
            4 => "no ticket is left",
            5 => "no room",
            6 => "nothing is held under this ticket",
            7 => "address or words are not this ticket's",
            8 => "bad lengths",
            9 => "bad request",
            11 => "no such form",
            12 => "no such party",
            _ => "unknown number",
        })
    }
}

/// One request of a list.
#[repr(C)]
#[derive(Clone, Copy, Debug, PartialEq, Eq)]
pub struct Request(pub [u32; 4]);

impl Request {
    pub fn allocate(words: u32) -> Self {
        Request([1, words, 0, 0])
    }

    pub fn release(run: Run) -> Self {
        Request([2, run.ticket, run.address, run.words])
    }
}

/// `lf_answer`, and the answer to one request of a list.
#[repr(C)]
#[derive(Clone, Copy, Debug, Default, PartialEq, Eq)]
pub struct Answer {
    number: u32,
    ticket: u32,
    address: u32,
    words: u32,
}

impl Answer {
    pub fn result(self) -> Result<Run, Refusal> {
        match self {
            Answer { number: 0, ticket, address, words } => Ok(Run { ticket, address, words }),
            refused => Err(Refusal(refused.number)),
        }
    }
}

/// The calls that both pools have, each made by a party, 1 to 255. To a party the others' tickets are as good as dead.
/// Format is each pool's own.
pub trait Pool {
    type Word;

    /// Takes a run of `words` words, which read zero, at the lowest address where there is room.
    fn allocate(&mut self, party: u32, words: u32) -> Result<Run, Refusal>;

    /// Gives a run back.
    fn release(&mut self, party: u32, run: Run) -> Result<Run, Refusal>;

    /// Gives back the tail of a run and keeps its first `keep` words, 1 up to all. Hands back the run as it is since.
    fn trim(&mut self, party: u32, run: Run, keep: u32) -> Result<Run, Refusal>;

    /// Tells whether the party holds this run.
    fn find(&self, party: u32, run: Run) -> Result<Run, Refusal>;

    /// Serves requests one after another, with one check of the pool. `answers` is at least as long as `requests`.
    fn list(&mut self, party: u32, requests: &[Request], answers: &mut [Answer]) -> Result<(), Refusal>;

    /// The words of the run, or the placeholder where `find` refuses.
    fn look<'s>(&'s self, party: u32, run: Run, placeholder: &'s [Self::Word]) -> &'s [Self::Word];

    /// The words of the run, to write.
    fn words_of(&mut self, party: u32, run: Run) -> Result<&mut [Self::Word], Refusal>;
}

/// `lf_tree_head`
#[repr(C)]
#[derive(Clone, Copy, Debug, PartialEq, Eq)]
pub struct TreeHead {
    pub root: u32,
    pub next: u32,
    pub form: u32,
}

#[repr(C)]
struct TreeOutcome {
    head: TreeHead,
    answer: Answer,
}

#[repr(C)]
struct SegmentOutcome {
    next: u32,
    answer: Answer,
}

#[repr(C)]
struct SegmentAllocation {
    next: u32,
    answer: Answer,
    places: u32,
}

/// `lf_burst`
#[repr(C)]
struct BurstOutcome {
    number: u32,
    taken: usize,
    written: usize,
}

#[rustfmt::skip]
extern "C" {
    fn lf_tree_format(form: u32, arena: *mut u32, arena_len: usize, table: *mut u32, table_len: usize,
        first: u32) -> TreeOutcome;
    fn lf_tree_allocate(head: TreeHead, arena: *mut u32, arena_len: usize, table: *mut u32, table_len: usize,
        party: u32, words: u32) -> TreeOutcome;
    fn lf_tree_release(head: TreeHead, arena: *mut u32, arena_len: usize, table: *mut u32, table_len: usize,
        party: u32, ticket: u32, address: u32, words: u32) -> TreeOutcome;
    fn lf_tree_trim(head: TreeHead, arena: *mut u32, arena_len: usize, table: *mut u32, table_len: usize,
        party: u32, ticket: u32, address: u32, words: u32, keep: u32) -> TreeOutcome;
    fn lf_tree_find(head: TreeHead, arena: *const u32, arena_len: usize, table: *const u32, table_len: usize,
        party: u32, ticket: u32, address: u32, words: u32) -> Answer;
    fn lf_tree_list(head: TreeHead, arena: *mut u32, arena_len: usize, table: *mut u32, table_len: usize,
        party: u32, requests: *const u32, requests_len: usize, answers: *mut u32, answers_len: usize) -> TreeOutcome;

    fn lf_segment_format(arena: *mut i32, arena_len: usize, table: *mut u32, table_len: usize, segments: u32,
        index: *mut u32, index_len: usize, first: u32) -> SegmentOutcome;
    fn lf_segment_allocate(next: u32, arena: *mut i32, arena_len: usize, table: *mut u32, table_len: usize,
        segments: u32, index: *mut u32, index_len: usize, party: u32, words: u32) -> SegmentAllocation;
    fn lf_segment_release(next: u32, arena: *mut i32, arena_len: usize, table: *mut u32, table_len: usize,
        segments: u32, index: *mut u32, index_len: usize, party: u32, ticket: u32, address: u32,
        words: u32) -> SegmentOutcome;
    fn lf_segment_trim(next: u32, arena: *mut i32, arena_len: usize, table: *mut u32, table_len: usize,
        segments: u32, index: *mut u32, index_len: usize, party: u32, ticket: u32, address: u32, words: u32,
        keep: u32) -> SegmentOutcome;
    fn lf_segment_find(next: u32, arena: *const i32, arena_len: usize, table: *const u32, table_len: usize,
        segments: u32, index: *const u32, index_len: usize, party: u32, ticket: u32, address: u32,
        words: u32) -> Answer;
    fn lf_segment_list(next: u32, arena: *mut i32, arena_len: usize, table: *mut u32, table_len: usize,
        segments: u32, index: *mut u32, index_len: usize, party: u32, requests: *const u32, requests_len: usize,
        answers: *mut u32, answers_len: usize) -> SegmentOutcome;

    fn lf_copy_table(old: *const u32, old_len: usize, new_table: *mut u32, new_len: usize) -> u32;

    fn lf_session_start(state: *mut u8, state_len: usize) -> u32;
    fn lf_session_burst(state: *mut u8, state_len: usize, bytes: *const u8, bytes_len: usize, answers: *mut u8,
        answers_len: usize) -> BurstOutcome;
    fn lf_session_end(state: *mut u8, state_len: usize, answers: *mut u8, answers_len: usize) -> BurstOutcome;
}

// Every unsafe block below passes the pointers and lengths of slices that are borrowed for the call, `&mut` where the
// call writes: all that the header asks.

/// Copies a table from before there were parties, three words to a record, into one of as many records of four: they
/// become party 1's.
pub fn copy_table(old: &[u32], new: &mut [u32]) -> Result<(), Refusal> {
    match unsafe { lf_copy_table(old.as_ptr(), old.len(), new.as_mut_ptr(), new.len()) } {
        0 => Ok(()),
        number => Err(Refusal(number)),
    }
}

// ---- the tree pool

/// A tree pool in borrowed memory.
pub struct TreePool<'a> {
    head: TreeHead,
    arena: &'a mut [u32],
    table: &'a mut [u32],
}

impl<'a> TreePool<'a> {
    /// A pool of this form in which all is free and the next ticket is `first`: after a restart, one above every
    /// earlier ticket. `table` has four words for each run that can be held at a time.
    pub fn format(form: u32, arena: &'a mut [u32], table: &'a mut [u32], first: u32) -> Result<Self, Refusal> {
        let outcome =
            unsafe { lf_tree_format(form, arena.as_mut_ptr(), arena.len(), table.as_mut_ptr(), table.len(), first) };
        outcome.answer.result()?;
        Ok(TreePool { head: outcome.head, arena, table })
    }

    /// The pool that lies in the memory, with the head that it had. If they are no sound pool, its calls refuse.
    pub fn resume(head: TreeHead, arena: &'a mut [u32], table: &'a mut [u32]) -> Self {
        TreePool { head, arena, table }
    }

    /// What `resume` takes; its next ticket is what `format` takes after a restart, if it is not 0.
    pub fn head(&self) -> TreeHead {
        self.head
    }

    fn keep(&mut self, outcome: TreeOutcome) -> Result<Run, Refusal> {
        self.head = outcome.head;
        outcome.answer.result()
    }
}

#[rustfmt::skip]
impl Pool for TreePool<'_> {
    type Word = u32;

    fn allocate(&mut self, party: u32, words: u32) -> Result<Run, Refusal> {
        let outcome = unsafe {
            lf_tree_allocate(self.head, self.arena.as_mut_ptr(), self.arena.len(), self.table.as_mut_ptr(),
                self.table.len(), party, words)
        };
        self.keep(outcome)
    }

    fn release(&mut self, party: u32, run: Run) -> Result<Run, Refusal> {
        let outcome = unsafe {
            lf_tree_release(self.head, self.arena.as_mut_ptr(), self.arena.len(), self.table.as_mut_ptr(),
                self.table.len(), party, run.ticket, run.address, run.words)
        };
        self.keep(outcome)
    }

    fn trim(&mut self, party: u32, run: Run, keep: u32) -> Result<Run, Refusal> {
        let outcome = unsafe {
            lf_tree_trim(self.head, self.arena.as_mut_ptr(), self.arena.len(), self.table.as_mut_ptr(),
                self.table.len(), party, run.ticket, run.address, run.words, keep)
        };
        self.keep(outcome)
    }

    fn find(&self, party: u32, run: Run) -> Result<Run, Refusal> {
        let answer = unsafe {
            lf_tree_find(self.head, self.arena.as_ptr(), self.arena.len(), self.table.as_ptr(), self.table.len(),
                party, run.ticket, run.address, run.words)
        };
        answer.result()
    }

    fn list(&mut self, party: u32, requests: &[Request], answers: &mut [Answer]) -> Result<(), Refusal> {
        let outcome = unsafe {
            lf_tree_list(self.head, self.arena.as_mut_ptr(), self.arena.len(), self.table.as_mut_ptr(),
                self.table.len(), party, requests.as_ptr().cast(), 4 * requests.len(), answers.as_mut_ptr().cast(),
                4 * answers.len())
        };
        self.keep(outcome).map(|_| ())
    }

    fn look<'s>(&'s self, party: u32, run: Run, placeholder: &'s [u32]) -> &'s [u32] {
        match self.find(party, run) {
            Ok(_) => &self.arena[run.range()],
            Err(_) => placeholder,
        }
    }

    fn words_of(&mut self, party: u32, run: Run) -> Result<&mut [u32], Refusal> {
        self.find(party, run)?;
        Ok(&mut self.arena[run.range()])
    }
}

// ---- the segment pool

/// A segment pool in borrowed memory.
pub struct SegmentPool<'a> {
    next: u32,
    arena: &'a mut [i32],
    table: &'a mut [u32],
    segments: u32,
    index: &'a mut [u32],
}

impl<'a> SegmentPool<'a> {
    /// A pool in which all is free and the next ticket is `first`: after a restart, one above every earlier ticket.
    /// `segments` is a power of two, and `index` has three words for each.
    pub fn format(
        arena: &'a mut [i32],
        table: &'a mut [u32],
        segments: u32,
        index: &'a mut [u32],
        first: u32,
    ) -> Result<Self, Refusal> {
        let outcome = unsafe {
            let (a, t, x) = (arena.as_mut_ptr(), table.as_mut_ptr(), index.as_mut_ptr());
            lf_segment_format(a, arena.len(), t, table.len(), segments, x, index.len(), first)
        };
        outcome.answer.result()?;
        Ok(SegmentPool { next: outcome.next, arena, table, segments, index })
    }

    /// The pool that lies in the memory, with the next ticket that it had. If they are no sound pool, its calls refuse.
    pub fn resume(next: u32, arena: &'a mut [i32], table: &'a mut [u32], segments: u32, index: &'a mut [u32]) -> Self {
        SegmentPool { next, arena, table, segments, index }
    }

    /// What `resume` takes: the next ticket. It is what `format` takes after a restart, if it is not 0.
    pub fn head(&self) -> u32 {
        self.next
    }

    /// `allocate`, with the places that its search looked at; the header says what they are and how many at most.
    pub fn allocate_counted(&mut self, party: u32, words: u32) -> (Result<Run, Refusal>, u32) {
        let (a, t, x) = (self.arena.as_mut_ptr(), self.table.as_mut_ptr(), self.index.as_mut_ptr());
        let (a_len, t_len, x_len) = (self.arena.len(), self.table.len(), self.index.len());
        let done = unsafe { lf_segment_allocate(self.next, a, a_len, t, t_len, self.segments, x, x_len, party, words) };
        self.next = done.next;
        (done.answer.result(), done.places)
    }

    fn keep(&mut self, outcome: SegmentOutcome) -> Result<Run, Refusal> {
        self.next = outcome.next;
        outcome.answer.result()
    }
}

#[rustfmt::skip]
impl Pool for SegmentPool<'_> {
    type Word = i32;

    fn allocate(&mut self, party: u32, words: u32) -> Result<Run, Refusal> {
        self.allocate_counted(party, words).0
    }

    fn release(&mut self, party: u32, run: Run) -> Result<Run, Refusal> {
        let outcome = unsafe {
            lf_segment_release(self.next, self.arena.as_mut_ptr(), self.arena.len(), self.table.as_mut_ptr(),
                self.table.len(), self.segments, self.index.as_mut_ptr(), self.index.len(), party, run.ticket,
                run.address, run.words)
        };
        self.keep(outcome)
    }

    fn trim(&mut self, party: u32, run: Run, keep: u32) -> Result<Run, Refusal> {
        let outcome = unsafe {
            lf_segment_trim(self.next, self.arena.as_mut_ptr(), self.arena.len(), self.table.as_mut_ptr(),
                self.table.len(), self.segments, self.index.as_mut_ptr(), self.index.len(), party, run.ticket,
                run.address, run.words, keep)
        };
        self.keep(outcome)
    }

    fn find(&self, party: u32, run: Run) -> Result<Run, Refusal> {
        let answer = unsafe {
            lf_segment_find(self.next, self.arena.as_ptr(), self.arena.len(), self.table.as_ptr(), self.table.len(),
                self.segments, self.index.as_ptr(), self.index.len(), party, run.ticket, run.address, run.words)
        };
        answer.result()
    }

    fn list(&mut self, party: u32, requests: &[Request], answers: &mut [Answer]) -> Result<(), Refusal> {
        let outcome = unsafe {
            lf_segment_list(self.next, self.arena.as_mut_ptr(), self.arena.len(), self.table.as_mut_ptr(),
                self.table.len(), self.segments, self.index.as_mut_ptr(), self.index.len(), party,
                requests.as_ptr().cast(), 4 * requests.len(), answers.as_mut_ptr().cast(), 4 * answers.len())
        };
        self.keep(outcome).map(|_| ())
    }

    fn look<'s>(&'s self, party: u32, run: Run, placeholder: &'s [i32]) -> &'s [i32] {
        match self.find(party, run) {
            Ok(_) => &self.arena[run.range()],
            Err(_) => placeholder,
        }
    }

    fn words_of(&mut self, party: u32, run: Run) -> Result<&mut [i32], Refusal> {
        self.find(party, run)?;
        Ok(&mut self.arena[run.range()])
    }
}

// ---- the text program

/// The bytes of a session's memory.
pub const STATE_BYTES: usize = 36_956;

/// The longest answer line.
pub const ANSWER_BYTES: usize = 35;

/// What a session made of a burst.
#[derive(Clone, Copy, Debug, PartialEq, Eq)]
pub struct Burst {
    /// The bytes that were taken, from the first on; the others are to be handed over again.
    pub taken: usize,
    /// The bytes of the answer buffer that are answers.
    pub written: usize,
    /// The next answer had no room.
    pub more_room: bool,
}

impl BurstOutcome {
    fn result(self) -> Result<Burst, Refusal> {
        let BurstOutcome { number, taken, written } = self;
        match number {
            0 | 10 => Ok(Burst { taken, written, more_room: number == 10 }),
            number => Err(Refusal(number)),
        }
    }
}

/// The text program in borrowed memory, its requests in bursts that break anywhere.
pub struct Session<'a> {
    state: &'a mut [u8],
}

impl<'a> Session<'a> {
    /// The program before its P line. `state` has `STATE_BYTES` bytes, and what they hold does not matter.
    pub fn start(state: &'a mut [u8]) -> Result<Self, Refusal> {
        match unsafe { lf_session_start(state.as_mut_ptr(), state.len()) } {
            0 => Ok(Session { state }),
            number => Err(Refusal(number)),
        }
    }

    /// The session that lies in the memory. If that is none, its calls refuse.
    pub fn resume(state: &'a mut [u8]) -> Self {
        Session { state }
    }

    /// Takes a burst as far as its answers have room. With room of `ANSWER_BYTES` a burst that is not empty is never
    /// left whole.
    pub fn burst(&mut self, bytes: &[u8], answers: &mut [u8]) -> Result<Burst, Refusal> {
        let (state, room) = (self.state.as_mut_ptr(), answers.as_mut_ptr());
        let (state_len, room_len) = (self.state.len(), answers.len());
        unsafe { lf_session_burst(state, state_len, bytes.as_ptr(), bytes.len(), room, room_len) }.result()
    }

    /// Serves a last line that has no line feed. Without room for its answer nothing changes.
    pub fn end(&mut self, answers: &mut [u8]) -> Result<Burst, Refusal> {
        let (room, room_len) = (answers.as_mut_ptr(), answers.len());
        unsafe { lf_session_end(self.state.as_mut_ptr(), self.state.len(), room, room_len) }.result()
    }
}
