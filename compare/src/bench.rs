//! The bench: the library's buffers beside the model's pool. Every step makes one call on both and
//! compares the answer, the head and every word of every buffer, guards included.

use crate::guarded::{Guarded, Item, Words};
use crate::library::{Lent, Library, Played};
use crate::model::{self, Call, Head, Outcome, Placeholder, Pool, Slice};
use crate::random::Random;
use crate::tally::Tally;
use crate::{segment_search, situations, watch};
use std::fmt::Display;
use std::ops::Range;

pub struct Bench {
    pub section: &'static str,
    pub tally: Tally,
    steps: u64,
    place: Random,
    library: Library,
    aside: Lent,
}

/// One buffer that a stray call brings: a part of the pool's own, or another.
#[derive(Clone)]
pub enum Part {
    Own(Range<usize>),
    Other(Vec<u32>),
}

/// What a stray call brings instead of the pool.
#[derive(Clone)]
pub struct Stray {
    pub head: Head,
    pub segments: u32,
    pub arena: Part,
    pub table: Part,
    pub index: Part,
}

impl Bench {
    pub fn new(seed: u64) -> Bench {
        let (tally, place) = (Tally::new(), Random::new(seed));
        Bench { section: "", tally, steps: 0, place, library: Library::new(), aside: Lent::new() }
    }

    /// Lends the library a copy of this pool.
    pub fn lend(&mut self, pool: &Pool) {
        self.library.lend(pool, &mut self.place);
    }

    /// The same writing by callers on both sides.
    pub fn write(&mut self, pool: &mut Pool, at: usize, word: u32) {
        pool.arena[at] = word;
        self.library.lent.arena.contents_mut()[at] = word;
    }

    /// One call on a pool of its own.
    pub fn once(&mut self, pool: &Pool, call: &Call) -> Outcome {
        let mut pool = pool.clone();
        self.lend(&pool);
        self.step(&mut pool, call)
    }

    /// A call is about to be made.
    pub fn count_step(&mut self) {
        watch::case(self.steps);
        self.steps += 1;
    }

    /// One call on the pool as lent: on the library's buffers, and on the model's pool.
    pub fn step(&mut self, pool: &mut Pool, call: &Call) -> Outcome {
        self.count_step();
        let before = pool.clone();
        self.library.lend_for(call, &mut self.place);
        let played = self.library.play(pool, call);
        let outcome = model::make(pool, call);
        self.check_search(&before, call, &outcome);
        let differences = self.differences(pool, call, &played, &outcome);
        if !differences.is_empty() {
            let size = before.arena.len() + before.table.len() + before.index.len();
            let told = self.tell(&before, call, &outcome, &differences);
            self.tally.mismatch(self.section, size, told);
            self.lend(pool);
        }
        self.tally.case(self.section, call, &outcome);
        situations::note(&mut self.tally, &before, call, &outcome);
        outcome
    }

    /// A copy of an old table into a new one, which holds anything; hands back the number.
    pub fn copy(&mut self, old: &[u32], new: &[u32]) -> u32 {
        self.count_step();
        let got = self.library.copy(old, new, &mut self.place);
        let copied = model::copied_table(old, new.len());
        let due = if copied.is_some() { 0 } else { 8 };
        let mut all = Vec::new();
        differ("number", &due, &got, &mut all);
        compare_lent("old table", old, &self.library.requests, &mut all);
        compare_lent("new table", copied.as_deref().unwrap_or(new), &self.library.answers, &mut all);
        if !all.is_empty() {
            let told = format!("  copy of {old:?} into {} words: {}", new.len(), all.join("\n  "));
            self.tally.mismatch(self.section, old.len() + new.len(), told);
        }
        self.tally.copy(self.section, due);
        due
    }

    /// A call that brings something else than the pool, and is refused: the pool must stay as it was.
    pub fn stray(&mut self, pool: &Pool, stray: &Stray, call: &Call) -> Outcome {
        let known = self.tally.mismatches;
        let mut brought = stray.over(pool);
        self.bring(stray);
        let outcome = self.step(&mut brought, call);
        self.bring_back(stray);
        if !self.holds(pool) {
            let told = format!("  refused, yet the pool changed: {call:?}");
            self.tally.mismatch(self.section, pool.arena.len(), told);
        }
        if self.tally.mismatches > known {
            self.lend(pool);
        }
        outcome
    }

    /// Are the library's buffers, guards included, exactly this pool?
    pub fn holds(&self, pool: &Pool) -> bool {
        let mut all = Vec::new();
        compare_lent("arena", &pool.arena, &self.library.lent.arena, &mut all);
        compare_lent("table", &pool.table, &self.library.lent.table, &mut all);
        compare_lent("index", &pool.index, &self.library.lent.index, &mut all);
        all.is_empty()
    }

    fn bring(&mut self, stray: &Stray) {
        let (lent, aside) = (&mut self.library.lent, &mut self.aside);
        bring_part(&stray.arena, &mut lent.arena, &mut aside.arena, &mut self.place);
        bring_part(&stray.table, &mut lent.table, &mut aside.table, &mut self.place);
        bring_part(&stray.index, &mut lent.index, &mut aside.index, &mut self.place);
    }

    fn bring_back(&mut self, stray: &Stray) {
        let (lent, aside) = (&mut self.library.lent, &mut self.aside);
        bring_part_back(&stray.arena, &mut lent.arena, &mut aside.arena);
        bring_part_back(&stray.table, &mut lent.table, &mut aside.table);
        bring_part_back(&stray.index, &mut lent.index, &mut aside.index);
    }

    fn differences(&self, pool: &Pool, call: &Call, played: &Played, outcome: &Outcome) -> Vec<String> {
        let mut all = Vec::new();
        let slice = outcome.slice.map(|slice| self.place_of(slice, call));
        differ("slice", &slice, &played.slice, &mut all);
        if slice.is_none() {
            differ("answer", &outcome.answer, &played.answer, &mut all);
            differ("head", &outcome.head, &played.head, &mut all);
            differ("places", &outcome.places, &played.places, &mut all);
        }
        compare_lent("arena", &pool.arena, &self.library.lent.arena, &mut all);
        compare_lent("table", &pool.table, &self.library.lent.table, &mut all);
        compare_lent("index", &pool.index, &self.library.lent.index, &mut all);
        if let Call::List { requests, .. } = call {
            compare_lent("requests", requests, &self.library.requests, &mut all);
            compare_lent("answers", &outcome.answers, &self.library.answers, &mut all);
        }
        if let Call::Look(_, Placeholder::Own(words)) = call {
            compare_lent("placeholder", words, &self.library.placeholder, &mut all);
        }
        all
    }

    /// 001's search in the words as they were finds the block granted, after as many places as request 5
    /// counts, which are no more than it allows.
    fn check_search(&mut self, before: &Pool, call: &Call, outcome: &Outcome) {
        let (Call::Allocate { words, .. }, Some(places), 0 | 5) = (call, outcome.places, outcome.answer.number) else {
            return;
        };
        let (arena, index, segments) = (&before.arena, &before.index, before.segments as usize);
        let found = segment_search::search(arena, index, segments, words + 1);
        let due = ((outcome.answer.number == 0).then(|| outcome.answer.address as usize - 1), places);
        let most = segment_search::most_places(arena.len(), segments);
        if found != due || places > most {
            let told = format!("  {call:?}: the search found {found:?}, due {due:?}, at most {most}");
            self.tally.mismatch(self.section, arena.len(), told);
        }
    }

    /// Where a slice due lies in the library's buffers, and its length.
    fn place_of(&self, slice: Slice, call: &Call) -> (usize, usize) {
        let due = match slice {
            Slice::Arena { from, len } => Words { at: self.library.lent.arena.lies().at.wrapping_add(from), len },
            Slice::Placeholder => self.library.placeholder_for(call),
        };
        (due.at as usize, due.len)
    }

    fn tell(&self, before: &Pool, call: &Call, outcome: &Outcome, differences: &[String]) -> String {
        let shown = |words: &[u32]| match words.len() {
            0..=96 => format!("{words:?}"),
            long => format!("{long} words, the first {:?}", &words[..64]),
        };
        let Pool { engine, head, segments, arena, table, index } = before;
        let called: String = format!("{call:?}").chars().take(900).collect();
        [
            format!("  section {}, step {}: {engine:?} {head:?} S {segments}", self.section, self.steps - 1),
            format!("  arena {}\n  table {}\n  index {}", shown(arena), shown(table), shown(index)),
            format!("  call {called}\n  due {:?} {:?}", outcome.answer, outcome.head),
            format!("  {}", differences.join("\n  ")),
        ]
        .join("\n")
    }
}

impl Stray {
    /// What the call is given, put together.
    pub fn over(&self, pool: &Pool) -> Pool {
        let taken = |part: &Part, own: &[u32]| match part {
            Part::Own(range) => own[range.clone()].to_vec(),
            Part::Other(words) => words.clone(),
        };
        Pool {
            engine: pool.engine,
            head: self.head,
            arena: taken(&self.arena, &pool.arena),
            table: taken(&self.table, &pool.table),
            segments: self.segments,
            index: taken(&self.index, &pool.index),
        }
    }
}

fn bring_part(part: &Part, lent: &mut Guarded, aside: &mut Guarded, place: &mut Random) {
    match part {
        Part::Own(range) => lent.narrow(range.clone()),
        Part::Other(words) => {
            std::mem::swap(lent, aside);
            lent.lend(words, place);
        }
    }
}

fn bring_part_back(part: &Part, lent: &mut Guarded, aside: &mut Guarded) {
    match part {
        Part::Own(_) => lent.widen(),
        Part::Other(_) => std::mem::swap(lent, aside),
    }
}

pub fn differ<T: PartialEq + std::fmt::Debug>(what: &str, due: &T, got: &T, all: &mut Vec<String>) {
    if due != got {
        all.push(format!("{what}: due {due:?}, got {got:?}"));
    }
}

pub fn compare_lent<T: Item + Display>(what: &str, due: &[T], got: &Guarded<T>, all: &mut Vec<String>) {
    if !got.guards_stand() {
        all.push(format!("{what}: guards overwritten"));
    }
    if due != got.contents() {
        let places = due.iter().zip(got.contents()).enumerate().filter(|(_, (due, got))| due != got);
        let told: Vec<String> = places.take(8).map(|(at, (due, got))| format!("[{at}] due {due} got {got}")).collect();
        all.push(format!("{what}: {}", told.join(", ")));
    }
}
