//! The calls of document 01 on any memory, in its order of numbers: 8, 1, 9, then 2 to 5 or 6, 7; and
//! format as request 2 of document 02 has it, with the first ticket number: 8, 6; and the places of
//! request 5, counted from the ledger before the call; and 11 for a tree pool of no such form, as
//! request 3 has it: before all else, by the head's form, in format by the one that it is given; and
//! 12 for a party that there is not, as request 6 has it: directly after 1, for a list also if it is empty; and
//! request 13's trim: 6, 7, 2.
//! Soundness as 01 says it: read the ledger off the table, compute its stored form over the
//! callers' words, compare.

use crate::ledger::{Ledger, RECORD_WORDS, Record, UnitRule, is_party};
use crate::{segment_form, segment_search, tree_form};

#[derive(Clone, Copy, PartialEq, Eq, Debug)]
pub enum Engine {
    Tree,
    Segment,
}

/// An engine with a form number; the segment pool has none, there it is 0.
#[derive(Clone, Copy, PartialEq, Eq, Debug)]
pub struct Kind {
    pub engine: Engine,
    pub form: u32,
}

/// The segment pool's head has neither root link nor form; there they are 0 and stay so.
#[derive(Clone, Copy, PartialEq, Eq, Debug, Default)]
pub struct Head {
    pub root: u32,
    pub next: u32,
    pub form: u32,
}

/// All that a call on a pool brings. Sizes may be wrong. The tree pool has no S and no index.
#[derive(Clone, PartialEq, Eq, Debug)]
pub struct Pool {
    pub engine: Engine,
    pub head: Head,
    pub arena: Vec<u32>,
    pub table: Vec<u32>,
    pub segments: u32,
    pub index: Vec<u32>,
}

#[derive(Clone, PartialEq, Eq, Debug)]
pub enum Placeholder {
    Own(Vec<u32>),
    PartOfArena { from: usize, len: usize },
}

#[derive(Clone, PartialEq, Eq, Debug)]
pub enum Call {
    /// With the first ticket number. Form 0 in the segment pool.
    Format {
        form: u32,
        first: u32,
    },
    Allocate {
        party: u32,
        words: u32,
    },
    Release(Record),
    /// With the words to keep.
    Trim(Record, u32),
    Find(Record),
    Look(Record, Placeholder),
    List {
        party: u32,
        requests: Vec<u32>,
        answers: Vec<u32>,
    },
}

#[derive(Clone, Copy, PartialEq, Eq, Debug, Default)]
#[repr(C)]
pub struct Answer {
    pub number: u32,
    pub ticket: u32,
    pub address: u32,
    pub words: u32,
}

#[derive(Clone, Copy, PartialEq, Eq, Debug)]
pub enum Slice {
    Arena { from: usize, len: usize },
    Placeholder,
}

/// What a call hands back. For look the answer is find's, and only the slice is handed back.
#[derive(Clone, PartialEq, Eq, Debug)]
pub struct Outcome {
    pub head: Head,
    pub answer: Answer,
    pub slice: Option<Slice>,
    pub answers: Vec<u32>,
    /// Only for an allocation in the segment pool.
    pub places: Option<u32>,
}

pub const SEGMENT: Kind = Kind { engine: Engine::Segment, form: 0 };

impl Kind {
    pub fn tree(form: u32) -> Kind {
        Kind { engine: Engine::Tree, form }
    }

    /// As the form says; in the segment pool one word, and a control word before each block. None where there is
    /// no such form.
    pub fn rule(self) -> Option<UnitRule> {
        match self.engine {
            Engine::Tree => Some(tree_form::form(self.form)?.rule()),
            Engine::Segment => Some(UnitRule { unit: 1, before: 1, limit: 16_384 }),
        }
    }

    /// The rule of a kind that there is.
    pub fn known_rule(self) -> UnitRule {
        self.rule().expect("a form that there is")
    }

    /// The words that an arena can have.
    pub fn arena_words(self) -> std::ops::RangeInclusive<usize> {
        let UnitRule { unit, limit, .. } = self.known_rule();
        unit.max(2)..=limit as usize
    }
}

impl Answer {
    pub fn refusal(number: u32) -> Answer {
        Answer { number, ..Answer::default() }
    }

    pub fn of(result: Result<Record, u32>) -> Answer {
        match result {
            Ok(Record { ticket, address, words, .. }) => Answer { number: 0, ticket, address, words },
            Err(number) => Answer::refusal(number),
        }
    }
}

impl Pool {
    pub fn kind(&self) -> Kind {
        Kind { engine: self.engine, form: self.head.form }
    }

    /// The stored form of a ledger, held words taken from `words`.
    pub fn stored(kind: Kind, ledger: &Ledger, segments: u32, words: &[u32]) -> Pool {
        let Kind { engine, form } = kind;
        let (table, next) = (ledger.table(), ledger.next);
        match engine {
            Engine::Tree => {
                let (root, arena) = tree_form::stored(tree_form::form(form).expect("a form"), ledger, words);
                Pool { engine, head: Head { root, next, form }, arena, table, segments, index: Vec::new() }
            }
            Engine::Segment => {
                let (arena, index) = segment_form::stored(ledger, segments as usize, words);
                Pool { engine, head: Head { root: 0, next, form }, arena, table, segments, index }
            }
        }
    }

    /// Do the lengths suit a pool of the head's form?
    pub fn lengths_suit(&self) -> bool {
        self.kind().rule().is_some() && self.lengths_suit_for(self.kind())
    }

    fn lengths_suit_for(&self, kind: Kind) -> bool {
        let table_suits = self.table.len() % RECORD_WORDS == 0 && (4..=1_024).contains(&self.table.len());
        let units_suit = self.arena.len() % kind.known_rule().unit == 0;
        let segments_suit = (1..=256).contains(&self.segments) && self.segments.is_power_of_two();
        let index_suits =
            self.engine == Engine::Tree || segments_suit && self.index.len() == 3 * self.segments as usize;
        table_suits && kind.arena_words().contains(&self.arena.len()) && units_suit && index_suits
    }

    /// The ledger whose stored form this is, or 11, or 8, or 1.
    pub fn ledger(&self) -> Result<Ledger, u32> {
        let rule = self.kind().rule().ok_or(11u32)?;
        if !self.lengths_suit() {
            return Err(8);
        }
        let ledger = Ledger::read(rule, self.arena.len(), &self.table, self.head.next).ok_or(1u32)?;
        let form = Pool::stored(self.kind(), &ledger, self.segments, &self.arena);
        if form == *self { Ok(ledger) } else { Err(1) }
    }

    /// The ledger for a call of this party, or 11, 8, 1, 12.
    fn ledger_for(&self, party: u32) -> Result<Ledger, u32> {
        let ledger = self.ledger()?;
        if is_party(party) { Ok(ledger) } else { Err(12) }
    }

    fn zero(&mut self, ledger: &Ledger, record: Record) {
        if let Some(run) = ledger.units_of(record) {
            self.arena[ledger.rule.words_of(run)].fill(0);
        }
    }

    fn take_form_of(&mut self, ledger: &Ledger) {
        *self = Pool::stored(self.kind(), ledger, self.segments, &self.arena);
    }
}

/// Makes the call. The pool's head moves on, except that a refused format leaves it as it was.
pub fn make(pool: &mut Pool, call: &Call) -> Outcome {
    let mut slice = None;
    let mut answers = Vec::new();
    let mut places = None;
    let answer = match call {
        Call::Format { form, first } => return format(pool, *form, *first),
        Call::Allocate { party, words } => {
            let (answer, looked_at) = allocate(pool, *party, *words);
            places = looked_at;
            answer
        }
        Call::Release(named) => release(pool, *named),
        Call::Trim(named, keep) => trim(pool, *named, *keep),
        Call::Find(named) => find(pool, *named),
        Call::Look(named, _) => {
            let found = find(pool, *named);
            slice = Some(slice_for(found));
            found
        }
        Call::List { party, requests, answers: before } => {
            answers = before.clone();
            list(pool, *party, requests, &mut answers)
        }
    };
    Outcome { head: pool.head, answer, slice, answers, places }
}

fn format(pool: &mut Pool, form: u32, first: u32) -> Outcome {
    let (head, answer) = (Head::default(), Answer::default());
    let nothing = Outcome { head, answer, slice: None, answers: vec![], places: None };
    let refused = |number| Outcome { answer: Answer::refusal(number), ..nothing.clone() };
    let kind = Kind { engine: pool.engine, form };
    let Some(rule) = kind.rule() else { return refused(11) };
    if !pool.lengths_suit_for(kind) {
        return refused(8);
    }
    if first == 0 {
        return refused(6);
    }
    let empty = Ledger::empty(rule, pool.arena.len(), pool.table.len() / RECORD_WORDS, first);
    *pool = Pool::stored(kind, &empty, pool.segments, &pool.arena);
    Outcome { head: pool.head, ..nothing }
}

/// The answer, and in the segment pool the places looked at.
fn allocate(pool: &mut Pool, party: u32, words: u32) -> (Answer, Option<u32>) {
    let reports = pool.engine == Engine::Segment;
    let before = match pool.ledger_for(party) {
        Ok(ledger) => ledger,
        Err(number) => return (Answer::refusal(number), reports.then_some(0)),
    };
    let mut after = before.clone();
    let granted = after.grant(party, words);
    if let Ok(record) = granted {
        pool.zero(&after, record);
        pool.take_form_of(&after);
    }
    let places = reports.then(|| segment_search::places(&before, pool.segments as usize, granted));
    (Answer::of(granted), places)
}

fn release(pool: &mut Pool, named: Record) -> Answer {
    Answer::of(pool.ledger_for(named.party).and_then(|mut ledger| {
        ledger.release(named)?;
        pool.take_form_of(&ledger);
        Ok(named)
    }))
}

fn trim(pool: &mut Pool, named: Record, keep: u32) -> Answer {
    Answer::of(pool.ledger_for(named.party).and_then(|mut ledger| {
        let kept = ledger.trim(named, keep)?;
        pool.take_form_of(&ledger);
        Ok(kept)
    }))
}

fn find(pool: &Pool, named: Record) -> Answer {
    Answer::of(pool.ledger_for(named.party).and_then(|ledger| ledger.slot_of(named).map(|_| named)))
}

fn slice_for(found: Answer) -> Slice {
    match found.number {
        0 => Slice::Arena { from: found.address as usize, len: found.words as usize },
        _ => Slice::Placeholder,
    }
}

fn list(pool: &mut Pool, party: u32, requests: &[u32], answers: &mut [u32]) -> Answer {
    let lengths_suit = requests.len() % 4 == 0 && requests.len() <= 4_096 && answers.len() >= requests.len();
    let mut ledger = match pool.ledger_for(party) {
        Err(11) => return Answer::refusal(11),
        _ if !lengths_suit => return Answer::refusal(8),
        Err(number) => return Answer::refusal(number),
        Ok(ledger) => ledger,
    };
    for (request, answer) in requests.chunks_exact(4).zip(answers.chunks_exact_mut(4)) {
        let Answer { number, ticket, address, words } = listed(pool, &mut ledger, party, request);
        answer.copy_from_slice(&[number, ticket, address, words]);
    }
    pool.take_form_of(&ledger);
    Answer::default()
}

/// One listed request, on the ledger; only a grant's zeros are written to the arena at once.
fn listed(pool: &mut Pool, ledger: &mut Ledger, party: u32, request: &[u32]) -> Answer {
    Answer::of(match *request {
        [1, words, 0, 0] => ledger.grant(party, words).inspect(|&record| pool.zero(ledger, record)),
        [2, ticket, address, words] => ledger.release(Record { ticket, address, words, party }),
        _ => Err(9),
    })
}

/// Request 6: an old table, of three words to a record, into a new one of so many words. As party 1, three zeros
/// becoming four. None is 8, and nothing is written.
pub fn copied_table(old: &[u32], new_len: usize) -> Option<Vec<u32>> {
    let suits = (3..=768).contains(&old.len()) && old.len() % 3 == 0 && new_len == old.len() / 3 * RECORD_WORDS;
    let record = |r: &[u32]| if r == [0; 3] { [0; 4] } else { [r[0], r[1], r[2], 1] };
    suits.then(|| old.chunks_exact(3).flat_map(record).collect())
}
