//! The library under comparison: a call on lent words, and the buffers that are lent to it.

use crate::abi::{self, PassedHead, Word, word};
use crate::guarded::{Guarded, Words};
use crate::model::{Answer, Call, Engine, Head, Placeholder, Pool};
use crate::random::Random;

const ROOM: usize = 24 * 1_024;
const ARENA_ROOM: usize = 1_040 * 1_024;

/// What the library handed back; a look only its slice, by place and length; an allocation in the
/// segment pool also the places looked at.
#[derive(Clone, Copy, PartialEq, Eq, Debug)]
pub struct Played {
    pub head: Head,
    pub answer: Answer,
    pub slice: Option<(usize, usize)>,
    pub places: Option<u32>,
}

/// Where everything lies that a call may take.
#[derive(Clone, Copy)]
pub struct View {
    pub arena: Words,
    pub table: Words,
    pub index: Words,
    pub requests: Words,
    pub answers: Words,
    pub placeholder: Words,
}

/// What a pool lies in.
pub struct Lent {
    pub arena: Guarded,
    pub table: Guarded,
    pub index: Guarded,
}

pub struct Library {
    pub lent: Lent,
    pub requests: Guarded,
    pub answers: Guarded,
    pub placeholder: Guarded,
}

impl Lent {
    pub fn new() -> Lent {
        Lent { arena: Guarded::new(ARENA_ROOM), table: Guarded::new(ROOM), index: Guarded::new(ROOM) }
    }
}

impl Library {
    pub fn new() -> Library {
        let (requests, answers, placeholder) = (Guarded::new(ROOM), Guarded::new(ROOM), Guarded::new(ROOM));
        Library { lent: Lent::new(), requests, answers, placeholder }
    }

    /// Lends a copy of this pool.
    pub fn lend(&mut self, pool: &Pool, place: &mut Random) {
        self.lent.arena.lend(&pool.arena, place);
        self.lent.table.lend(&pool.table, place);
        self.lent.index.lend(&pool.index, place);
    }

    /// Lends what this call takes beside the pool.
    pub fn lend_for(&mut self, call: &Call, place: &mut Random) {
        match call {
            Call::List { requests, answers, .. } => {
                self.requests.lend(requests, place);
                self.answers.lend(answers, place);
            }
            Call::Look(_, Placeholder::Own(words)) => self.placeholder.lend(words, place),
            _ => {}
        }
    }

    /// Makes the call with the pool's head and S on the buffers as they are lent.
    pub fn play(&self, pool: &Pool, call: &Call) -> Played {
        let view = View {
            arena: self.lent.arena.lies(),
            table: self.lent.table.lies(),
            index: self.lent.index.lies(),
            requests: self.requests.lies(),
            answers: self.answers.lies(),
            placeholder: self.placeholder_for(call),
        };
        play(pool, &view, call)
    }

    /// Copies an old table into a new one; they lie where a list's requests and answers do.
    pub fn copy(&mut self, old: &[u32], new: &[u32], place: &mut Random) -> u32 {
        self.requests.lend(old, place);
        self.answers.lend(new, place);
        copy_table(self.requests.lies(), self.answers.lies())
    }

    pub fn placeholder_for(&self, call: &Call) -> Words {
        match call {
            Call::Look(_, Placeholder::PartOfArena { from, len }) => {
                Words { at: self.lent.arena.lies().at.wrapping_add(*from), len: *len }
            }
            _ => self.placeholder.lies(),
        }
    }
}

/// Copies an old table into a new one.
pub fn copy_table(old: Words, new: Words) -> u32 {
    // SAFETY: the words are lent as far as said, and don't overlap.
    unsafe { abi::lf_copy_table(old.at, old.len, new.at, new.len) }
}

/// Makes the call with this head and S on the words in view.
pub fn play(pool: &Pool, view: &View, call: &Call) -> Played {
    match pool.engine {
        Engine::Tree => play_tree(pool, view, call),
        Engine::Segment => play_segment(pool, view, call),
    }
}

/// Party, ticket, address and words, where the call has them. Format has its first ticket, and its form as an address.
fn numbers_of(call: &Call) -> [Word; 4] {
    let numbers = match call {
        Call::Format { form, first } => [0, *first, *form, 0],
        Call::Allocate { party, words } => [*party, 0, 0, *words],
        Call::Release(named) | Call::Trim(named, _) | Call::Find(named) | Call::Look(named, _) => {
            [named.party, named.ticket, named.address, named.words]
        }
        Call::List { party, .. } => [*party, 0, 0, 0],
    };
    numbers.map(word)
}

fn play_tree(pool: &Pool, view: &View, call: &Call) -> Played {
    let Head { root, next, form } = pool.head;
    let head = PassedHead { root, next, form: word(form) };
    let View { arena: a, table: t, requests: r, answers: w, placeholder: p, .. } = *view;
    let [party, ticket, address, words] = numbers_of(call);
    // SAFETY: the words are lent as far as said, and none that a call writes overlap.
    let done = unsafe {
        match call {
            Call::Format { .. } => abi::lf_tree_format(address, a.at, a.len, t.at, t.len, ticket),
            Call::Allocate { .. } => abi::lf_tree_allocate(head, a.at, a.len, t.at, t.len, party, words),
            Call::Release(_) => abi::lf_tree_release(head, a.at, a.len, t.at, t.len, party, ticket, address, words),
            Call::Trim(_, keep) => {
                abi::lf_tree_trim(head, a.at, a.len, t.at, t.len, party, ticket, address, words, word(*keep))
            }
            Call::List { .. } => abi::lf_tree_list(head, a.at, a.len, t.at, t.len, party, r.at, r.len, w.at, w.len),
            Call::Find(_) => {
                let answer = abi::lf_tree_find(head, a.at, a.len, t.at, t.len, party, ticket, address, words);
                return Played { head: pool.head, answer, slice: None, places: None };
            }
            Call::Look(..) => {
                let look = abi::compare_tree_look;
                let slice = look(head, a.at, a.len, t.at, t.len, p.at, p.len, party, ticket, address, words);
                return Played::look(pool, slice.words as usize, slice.len);
            }
        }
    };
    let abi::TreeHead { root, next, form } = done.head;
    Played { head: Head { root, next, form }, answer: done.answer, slice: None, places: None }
}

fn play_segment(pool: &Pool, view: &View, call: &Call) -> Played {
    let (next, s) = (word(pool.head.next), word(pool.segments));
    let View { arena: a, table: t, index: i, requests: r, answers: w, placeholder: p } = *view;
    let (v, own) = (a.at as *mut i32, p.at as *const i32);
    let [party, ticket, address, words] = numbers_of(call);
    // SAFETY: the words are lent as far as said, and none that a call writes overlap.
    let done = unsafe {
        match call {
            Call::Format { .. } => abi::lf_segment_format(v, a.len, t.at, t.len, s, i.at, i.len, ticket),
            Call::Allocate { .. } => {
                let done = abi::lf_segment_allocate(next, v, a.len, t.at, t.len, s, i.at, i.len, party, words);
                let head = Head { next: done.next, ..Head::default() };
                return Played { head, answer: done.answer, slice: None, places: Some(done.places) };
            }
            Call::Release(_) => {
                abi::lf_segment_release(next, v, a.len, t.at, t.len, s, i.at, i.len, party, ticket, address, words)
            }
            Call::Trim(_, keep) => {
                let (trim, keep) = (abi::lf_segment_trim, word(*keep));
                trim(next, v, a.len, t.at, t.len, s, i.at, i.len, party, ticket, address, words, keep)
            }
            Call::List { .. } => {
                abi::lf_segment_list(next, v, a.len, t.at, t.len, s, i.at, i.len, party, r.at, r.len, w.at, w.len)
            }
            Call::Find(_) => {
                let answer =
                    abi::lf_segment_find(next, v, a.len, t.at, t.len, s, i.at, i.len, party, ticket, address, words);
                return Played { head: pool.head, answer, slice: None, places: None };
            }
            Call::Look(..) => {
                let look = abi::compare_segment_look;
                let slice =
                    look(next, v, a.len, t.at, t.len, s, i.at, i.len, own, p.len, party, ticket, address, words);
                return Played::look(pool, slice.words as usize, slice.len);
            }
        }
    };
    let head = Head { next: done.next, ..Head::default() };
    Played { head, answer: done.answer, slice: None, places: None }
}

impl Played {
    fn look(pool: &Pool, at: usize, len: usize) -> Played {
        Played { head: pool.head, answer: Answer::default(), slice: Some((at, len)), places: None }
    }
}
