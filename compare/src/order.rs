//! Demand 3, played: one pool, one set of live tickets, each to be released or trimmed; two sequences that do so in
//! different orders with refused calls, finds, looks and replays mixed in; then the same later calls on both.

use crate::bench::{Bench, Part, Stray};
use crate::ledger::{Ledger, RECORD_WORDS, Record, is_party};
use crate::model::{self, Answer, Call, Engine, Kind, Outcome, Placeholder, Pool};
use crate::random::Random;
use crate::{calls, damage, lengths, pools};

/// A ticket of the set, and what is settled for it: released, or trimmed to so many words.
#[derive(Clone, Copy)]
pub struct Member {
    record: Record,
    keep: Option<u32>,
}

/// A sequence under way.
struct Sequence {
    pool: Pool,
    ledger: Ledger,
    /// The set's releases and trims still to come, the next one last.
    to_come: Vec<Member>,
    spent: Vec<Record>,
    /// Records that were trimmed to fewer words, as they were.
    longer: Vec<Record>,
}

/// A later call, and what callers write before it.
struct Later {
    writing: Vec<(usize, u32)>,
    call: Call,
}

pub fn run(bench: &mut Bench, kind: Kind, cases: u64, random: &mut Random) {
    bench.section = "demand 3";
    let end = bench.tally.cases() + cases;
    while bench.tally.cases() < end {
        claim(bench, kind, random);
    }
}

fn claim(bench: &mut Bench, kind: Kind, random: &mut Random) {
    let start = pools::sound(pools::shape(kind, random), random);
    let ledger = start.ledger().expect("a stored form is sound");
    let mut live: Vec<Record> = ledger.live().collect();
    random.shuffle(&mut live);
    live.truncate(if random.one_in(3) { live.len() } else { random.below(live.len().min(24) + 1) });
    let mut set: Vec<Member> = live.into_iter().map(|record| Member::plan(record, &ledger, random)).collect();
    let due = end_of(&start, &ledger, &set);
    let mut first = play(bench, &start, &ledger, &set, random);
    check(bench, &due, first == due && bench.holds(&due), "the first sequence's end is not the form due");
    let (later, answers) = invent_later(bench, &mut first, random);
    random.shuffle(&mut set);
    let mut second = play(bench, &start, &ledger, &set, random);
    check(bench, &due, second == due && bench.holds(&due), "the second sequence's end is not the form due");
    let again = repeat_later(bench, &mut second, &later);
    check(bench, &due, again == answers && second == first && bench.holds(&first), "later calls differ");
    bench.tally.situation("demand 3: one ticket or none", set.len() < 2);
    bench.tally.situation("demand 3: two to five tickets", (2..6).contains(&set.len()));
    bench.tally.situation("demand 3: six tickets or more", set.len() > 5);
    bench.tally.situation("demand 3: trims", set.iter().filter(|member| member.keep.is_some()).count() > 1);
}

impl Member {
    pub fn plan(record: Record, ledger: &Ledger, random: &mut Random) -> Member {
        let keep = calls::keep(record.words, ledger.rule, random);
        let keep = Some(keep).filter(|keep| (1..=record.words).contains(keep) && random.one_in(2));
        Member { record, keep }
    }

    pub fn call(self) -> Call {
        match self.keep {
            Some(keep) => Call::Trim(self.record, keep),
            None => Call::Release(self.record),
        }
    }

    pub fn settle(self, ledger: &mut Ledger) -> Result<Record, u32> {
        match self.keep {
            Some(keep) => ledger.trim(self.record, keep),
            None => ledger.release(self.record),
        }
    }
}

/// The stored form of the start's ledger with the set settled.
pub fn end_of(start: &Pool, ledger: &Ledger, set: &[Member]) -> Pool {
    let mut after = ledger.clone();
    for member in set {
        let _ = member.settle(&mut after);
    }
    Pool::stored(start.kind(), &after, start.segments, &start.arena)
}

fn check(bench: &mut Bench, pool: &Pool, holds: bool, otherwise: &str) {
    if !holds {
        let told = format!("  demand 3, {:?}: {otherwise}", pool.engine);
        bench.tally.mismatch(bench.section, pool.arena.len(), told);
    }
}

fn play(bench: &mut Bench, start: &Pool, ledger: &Ledger, set: &[Member], random: &mut Random) -> Pool {
    let (pool, ledger) = (start.clone(), ledger.clone());
    let (spent, longer) = (Vec::new(), Vec::new());
    let mut sequence = Sequence { pool, ledger, to_come: set.to_vec(), spent, longer };
    let mut after = random.below(4);
    bench.lend(start);
    while after > 0 || !sequence.to_come.is_empty() {
        if sequence.to_come.is_empty() {
            after -= 1;
        }
        match random.below(8) {
            0..3 => settle_one(bench, &mut sequence),
            3 => release_some(bench, &mut sequence, random),
            _ => mix_in(bench, &mut sequence, random),
        }
    }
    sequence.pool
}

fn accepted(named: Record) -> Answer {
    Answer { number: 0, ticket: named.ticket, address: named.address, words: named.words }
}

fn settle_one(bench: &mut Bench, sequence: &mut Sequence) {
    let Some(member) = sequence.to_come.pop() else { return };
    let outcome = bench.step(&mut sequence.pool, &member.call());
    let due = Record { words: member.keep.unwrap_or(member.record.words), ..member.record };
    check(bench, &sequence.pool, outcome.answer == accepted(due), "a release or trim of the set was not accepted");
    let _ = member.settle(&mut sequence.ledger);
    match member.keep {
        None => sequence.spent.push(member.record),
        Some(_) if due != member.record => sequence.longer.push(member.record),
        Some(_) => {}
    }
}

/// A run that was trimmed to fewer words, released or trimmed as it was named before.
fn old_name(bench: &mut Bench, sequence: &mut Sequence, random: &mut Random) {
    if sequence.longer.is_empty() {
        return;
    }
    let named = random.pick(&sequence.longer);
    let keep = calls::keep(named.words, sequence.ledger.rule, random);
    let call = if random.one_in(2) { Call::Release(named) } else { Call::Trim(named, keep) };
    let outcome = bench.step(&mut sequence.pool, &call);
    check(bench, &sequence.pool, outcome.answer == Answer::refusal(7), "an old name of a trimmed run was not refused");
    bench.tally.situation("demand 3: old name of a trimmed run", true);
    bench.tally.situation("trim: old release", matches!(call, Call::Release(_)));
    bench.tally.situation("trim: old trim", matches!(call, Call::Trim(..)));
}

/// A list that carries some of the releases that one party makes, refused requests between them.
fn release_some(bench: &mut Bench, sequence: &mut Sequence, random: &mut Random) {
    let (mut requests, mut due) = (Vec::new(), Vec::new());
    let party = sequence.to_come.last().map_or(1, |member| member.record.party);
    for _ in 0..random.between(0, 12) {
        let listed = |member: &Member| member.keep.is_none() && member.record.party == party;
        let own = sequence.to_come.last().copied().filter(listed).map(|member| member.record);
        if let (Some(named), true) = (own, random.one_in(2)) {
            sequence.to_come.pop();
            let _ = sequence.ledger.release(named);
            sequence.spent.push(named);
            requests.extend([2, named.ticket, named.address, named.words]);
            due.push(Some(accepted(named)));
        } else {
            requests.extend(refused_request(party, sequence, random));
            due.push(None);
        }
    }
    let mut answers = vec![0; requests.len() + random.below(6)];
    random.fill(&mut answers);
    let outcome = bench.step(&mut sequence.pool, &Call::List { party, requests, answers });
    let kept = due.iter().zip(outcome.answers.chunks_exact(4)).all(|(due, answer)| match due {
        Some(Answer { number, ticket, address, words }) => answer == [*number, *ticket, *address, *words],
        None => answer[0] != 0 && answer[1..] == [0, 0, 0],
    });
    check(bench, &sequence.pool, kept && outcome.answer == Answer::default(), "a listed request went wrong");
}

/// A request that is refused where it stands; asking for no words always is.
fn refused_request(party: u32, sequence: &Sequence, random: &mut Random) -> [u32; 4] {
    let ledger = &sequence.ledger;
    match random.below(6) {
        0 => [random.pick(&[0, 3, u32::MAX]), 1, 0, 0],
        1 => [1, 1, 0, 1],
        2 => {
            let named = replay(sequence, random);
            [2, named.ticket, named.address, named.words]
        }
        3 | 4 => {
            let words = calls::words(ledger, random);
            if ledger.clone().grant(party, words).is_err() { [1, words, 0, 0] } else { [1, 0, 0, 0] }
        }
        _ => {
            let named = calls::named_by(party, ledger, random);
            if ledger.slot_of(named).is_err() { [2, named.ticket, named.address, named.words] } else { [1, 0, 0, 0] }
        }
    }
}

/// A release whose ticket is not live: one of the set again, or one spent before. Mostly by the ticket's own party.
fn replay(sequence: &Sequence, random: &mut Random) -> Record {
    let mut named = calls::named(&sequence.ledger, random);
    if !sequence.spent.is_empty() && !random.one_in(4) {
        named = Record { party: named.party, ..random.pick(&sequence.spent) };
        if !random.one_in(4) {
            named = random.pick(&sequence.spent);
        }
    }
    let live = sequence.ledger.live().any(|record| record.ticket == named.ticket);
    Record { ticket: if live { 0 } else { named.ticket }, ..named }
}

/// What a replay is answered, whoever makes it.
pub fn refused_replay(named: Record) -> Answer {
    Answer::refusal(if is_party(named.party) { 6 } else { 12 })
}

fn mix_in(bench: &mut Bench, sequence: &mut Sequence, random: &mut Random) {
    match random.below(9) {
        8 => old_name(bench, sequence, random),
        0 => {
            let named = replay(sequence, random);
            let outcome = bench.step(&mut sequence.pool, &Call::Release(named));
            check(bench, &sequence.pool, outcome.answer == refused_replay(named), "a replay was not refused");
        }
        1 => {
            let call = Call::Release(replay(sequence, random));
            let stray = stray(&sequence.pool, &sequence.ledger, true, random);
            let outcome = bench.stray(&sequence.pool, &stray, &call);
            let refused = matches!(outcome.answer.number, 11 | 8 | 1 | 12 | 6);
            check(bench, &sequence.pool, refused, "a replay that brings the pool's table was not refused");
        }
        2 => {
            bench.step(&mut sequence.pool, &Call::Find(calls::named(&sequence.ledger, random)));
        }
        3 => {
            let call = calls::look(&sequence.ledger, sequence.pool.arena.len(), random);
            bench.step(&mut sequence.pool, &call);
        }
        4 | 5 => refused_whole(bench, sequence, random),
        _ => refused_stray(bench, sequence, random),
    }
}

/// A call on the pool itself that is refused as it stands.
fn refused_whole(bench: &mut Bench, sequence: &mut Sequence, random: &mut Random) {
    let call = match random.below(6) {
        0 | 1 => {
            let party = calls::party(&sequence.ledger, random);
            Call::Allocate { party, words: calls::words(&sequence.ledger, random) }
        }
        2 => Call::Release(calls::named(&sequence.ledger, random)),
        5 => calls::trim(&sequence.ledger, random),
        3 => Call::Format { form: sequence.pool.head.form, first: 0 },
        _ => calls::list(&sequence.ledger, random),
    };
    if is_refused(&mut sequence.pool.clone(), &call) {
        bench.step(&mut sequence.pool, &call);
    }
}

/// Any call that brings a wrong head, S, length or buffer and is refused.
fn refused_stray(bench: &mut Bench, sequence: &mut Sequence, random: &mut Random) {
    let stray = stray(&sequence.pool, &sequence.ledger, false, random);
    let mut brought = stray.over(&sequence.pool);
    let call = calls::any(sequence.pool.kind(), &sequence.ledger, brought.arena.len(), random);
    if is_refused(&mut brought, &call) {
        bench.stray(&sequence.pool, &stray, &call);
    }
}

/// Refused; a list that is served counts as its requests.
fn is_refused(pool: &mut Pool, call: &Call) -> bool {
    let outcome = model::make(pool, call);
    match (call, outcome.answer.number) {
        (Call::List { requests, .. }, 0) => {
            outcome.answers.chunks_exact(4).take(requests.len() / 4).all(|answer| answer[0] != 0)
        }
        (_, number) => number != 0,
    }
}

/// Head, S and buffers, each the pool's own, a part of it, or another.
pub fn stray(pool: &Pool, ledger: &Ledger, own_table: bool, random: &mut Random) -> Stray {
    let mut other = if random.one_in(3) {
        let Pool { arena, table, segments, .. } = pool;
        let (kind, words, slots) = (pool.kind(), arena.len(), table.len() / RECORD_WORDS);
        let shape = pools::Shape { kind, words, slots, segments: *segments };
        pools::sound(shape, random)
    } else {
        pool.clone()
    };
    match random.below(3) {
        0 => lengths::misfit(&mut other, random),
        1 => {
            damage::any(&mut other, ledger, random);
        }
        _ => {}
    }
    if pool.engine == Engine::Tree && random.one_in(6) {
        other.head.form = calls::form(random);
    }
    Stray {
        head: if random.one_in(2) { pool.head } else { other.head },
        segments: if random.one_in(2) { pool.segments } else { other.segments },
        arena: part(&pool.arena, &other.arena, random),
        table: if own_table { Part::Own(0..pool.table.len()) } else { part(&pool.table, &other.table, random) },
        index: part(&pool.index, &other.index, random),
    }
}

fn part(own: &[u32], other: &[u32], random: &mut Random) -> Part {
    match random.below(6) {
        0 | 1 => Part::Own(0..own.len()),
        2 => Part::Own(0..own.len().saturating_sub(random.between(1, 3))),
        3 => {
            let from = random.below(own.len() + 1);
            Part::Own(from..from + random.below(own.len() - from + 1))
        }
        _ => Part::Other(other.to_vec()),
    }
}

/// Later calls, made up as they go, with the same writing by callers between.
fn invent_later(bench: &mut Bench, pool: &mut Pool, random: &mut Random) -> (Vec<Later>, Vec<Outcome>) {
    let (mut later, mut answers) = (Vec::new(), Vec::new());
    for _ in 0..random.between(1, 10) {
        let ledger = pool.ledger().expect("accepted calls leave a sound pool");
        let writing = ledger.live().map(|record| (record.address as usize, random.word())).take(3).collect();
        let call = match calls::any(pool.kind(), &ledger, pool.arena.len(), random) {
            Call::Look(named, _) => Call::Look(named, Placeholder::Own(vec![7; 5])),
            call => call,
        };
        later.push(Later { writing, call });
        let last = &later[later.len() - 1..];
        answers.extend(repeat_later(bench, pool, last));
    }
    (later, answers)
}

fn repeat_later(bench: &mut Bench, pool: &mut Pool, later: &[Later]) -> Vec<Outcome> {
    let mut answers = Vec::new();
    for Later { writing, call } in later {
        for (at, word) in writing {
            bench.write(pool, *at, *word);
        }
        answers.push(bench.step(pool, call));
    }
    answers
}
