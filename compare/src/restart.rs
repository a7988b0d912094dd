//! Request 2, played: the power goes with blocks held, and the box formats again with a number above
//! every ticket given before. Yesterday's calls come in among today's, by themselves, in lists and with
//! other memory: all are refused, and no ticket below the first is ever live.

use crate::bench::Bench;
use crate::ledger::{Ledger, Record};
use crate::model::{Answer, Call, Kind, Pool};
use crate::order;
use crate::random::Random;
use crate::{calls, lengths, pools};

/// What came before the restart: the records held then, and the first ticket number since.
struct Yesterday {
    held: Vec<Record>,
    first: u32,
}

pub fn run(bench: &mut Bench, kind: Kind, cases: u64, random: &mut Random) {
    bench.section = "restart";
    let end = bench.tally.cases() + cases;
    while bench.tally.cases() < end {
        let mut pool = pools::sound(pools::shape(kind, random), random);
        bench.lend(&pool);
        for _ in 0..random.between(1, 3) {
            one_day(bench, &mut pool, random);
        }
    }
}

/// From a restart on. A pool that has no ticket left can have given all of them, so there is no number above.
fn one_day(bench: &mut Bench, pool: &mut Pool, random: &mut Random) {
    let before = sound(pool);
    if before.next == 0 {
        return;
    }
    let yesterday = Yesterday { held: before.live().collect(), first: above(before.next, random) };
    let outcome = bench.step(pool, &Call::Format { form: pool.head.form, first: yesterday.first });
    check(bench, pool, outcome.answer == Answer::default(), "a format was not accepted");
    for _ in 0..random.between(4, 40) {
        one(bench, pool, &yesterday, random);
        let none_live = sound(pool).live().all(|record| record.ticket >= yesterday.first);
        check(bench, pool, none_live, "a ticket below the first is live");
    }
}

fn sound(pool: &Pool) -> Ledger {
    pool.ledger().expect("accepted calls leave a sound pool, refused ones the pool")
}

/// A number above every ticket given before, and above 1, so that there are earlier tickets to name.
fn above(next: u32, random: &mut Random) -> u32 {
    let least = next.max(2);
    match random.below(6) {
        0..3 => least,
        3 => least.saturating_add(random.between(1, 40) as u32),
        4 => least.max(u32::MAX - random.below(4) as u32),
        _ => least.max(random.word()),
    }
}

fn check(bench: &mut Bench, pool: &Pool, holds: bool, otherwise: &str) {
    if !holds {
        let told = format!("  restart, {:?}: {otherwise}", pool.engine);
        bench.tally.mismatch(bench.section, pool.arena.len(), told);
    }
}

fn one(bench: &mut Bench, pool: &mut Pool, yesterday: &Yesterday, random: &mut Random) {
    let ledger = sound(pool);
    let live: Vec<Record> = ledger.live().collect();
    match random.below(16) {
        0..3 => replay(bench, pool, &ledger, yesterday, random),
        3..5 => listed_replays(bench, pool, &ledger, yesterday, random),
        5 => stray_replay(bench, pool, &ledger, yesterday, random),
        6 => refused_format(bench, pool, &ledger, random),
        7 => other_arena(bench, pool, &ledger, random),
        8..11 if !live.is_empty() => {
            bench.step(pool, &Call::Release(random.pick(&live)));
        }
        11 => {
            let party = calls::party(&ledger, random);
            bench.step(pool, &Call::Allocate { party, words: calls::words(&ledger, random) });
        }
        _ => {
            let party = calls::good_party(random);
            bench.step(pool, &Call::Allocate { party, words: random.between(1, 8) as u32 });
        }
    }
}

/// What a call from yesterday names: a record held then, or an earlier ticket with what a record of today has.
fn earlier(ledger: &Ledger, yesterday: &Yesterday, random: &mut Random) -> Record {
    let ticket = 1 + (random.long() % (yesterday.first - 1) as u64) as u32;
    let live: Vec<Record> = ledger.live().collect();
    match random.below(4) {
        0 | 1 if !live.is_empty() => Record { ticket, ..random.pick(&live) },
        2 if !yesterday.held.is_empty() => random.pick(&yesterday.held),
        _ => Record { ticket, ..calls::named(ledger, random) },
    }
}

fn replay(bench: &mut Bench, pool: &mut Pool, ledger: &Ledger, yesterday: &Yesterday, random: &mut Random) {
    let named = earlier(ledger, yesterday, random);
    let call = match random.below(4) {
        0 => Call::Find(named),
        1 => Call::Trim(named, calls::keep(named.words, ledger.rule, random)),
        _ => Call::Release(named),
    };
    let outcome = bench.step(pool, &call);
    check(
        bench,
        pool,
        outcome.answer == order::refused_replay(named),
        "a call from before the restart was not refused",
    );
    let fits = ledger.live().any(|record| Record { ticket: named.ticket, ..record } == named);
    bench.tally.situation("restart: replay with today's address and words", fits);
}

/// Today's requests, with yesterday's releases before, between and behind them.
fn listed_replays(bench: &mut Bench, pool: &mut Pool, ledger: &Ledger, yesterday: &Yesterday, random: &mut Random) {
    let (mut requests, mut old) = (Vec::new(), Vec::new());
    let party = calls::good_party(random);
    for request in calls::requests(party, ledger, random.between(1, 12), random).chunks_exact(4) {
        if random.one_in(2) {
            let named = earlier(ledger, yesterday, random);
            old.push(requests.len());
            requests.extend([2, named.ticket, named.address, named.words]);
        }
        requests.extend(request);
    }
    let answers = vec![random.word(); requests.len()];
    let outcome = bench.step(pool, &Call::List { party, requests, answers });
    let refused = old.iter().all(|&at| outcome.answers[at..at + 4] == [6, 0, 0, 0]);
    check(bench, pool, refused, "a listed release from before the restart was not refused");
    bench.tally.situation("restart: listed replay", !old.is_empty());
}

/// Yesterday's release with the pool's own table, but any head, S, arena and index.
fn stray_replay(bench: &mut Bench, pool: &mut Pool, ledger: &Ledger, yesterday: &Yesterday, random: &mut Random) {
    let stray = order::stray(pool, ledger, true, random);
    let call = Call::Release(earlier(ledger, yesterday, random));
    let outcome = bench.stray(pool, &stray, &call);
    let refused = matches!(outcome.answer.number, 11 | 8 | 1 | 12 | 6);
    check(bench, pool, refused, "a release from before the restart was not refused with other memory");
    bench.tally.situation("restart: replay with other memory", true);
}

/// A format with 0, with wrong lengths or with both; the pool goes on with the head it had.
fn refused_format(bench: &mut Bench, pool: &mut Pool, ledger: &Ledger, random: &mut Random) {
    let mut other = pool.clone();
    lengths::misfit(&mut other, random);
    let (outcome, due) = if random.one_in(2) || other.lengths_suit() {
        (bench.step(pool, &Call::Format { form: pool.head.form, first: 0 }), 6)
    } else {
        let call = Call::Format { form: pool.head.form, first: calls::first(ledger, random) };
        let outcome = bench.once(&other, &call);
        bench.lend(pool);
        (outcome, 8)
    };
    check(bench, pool, outcome.answer == Answer::refusal(due), "a format was not refused");
    bench.tally.situation("restart: format refused", true);
}

/// From here on calls bring another arena, of any length that suits head and table, and another S and index.
fn other_arena(bench: &mut Bench, pool: &mut Pool, ledger: &Ledger, random: &mut Random) {
    let shape = pools::shape(pool.kind(), random);
    let Some(moved) = Ledger::read(ledger.rule, shape.words, &pool.table, ledger.next) else { return };
    let mut words = vec![0; shape.words];
    random.fill(&mut words);
    let other = Pool::stored(pool.kind(), &moved, shape.segments, &words);
    if other.head == pool.head {
        let length_differs = other.arena.len() != pool.arena.len();
        *pool = other;
        bench.lend(pool);
        let accepted = bench.step(pool, &Call::Allocate { party: 1, words: 1 }).answer.number == 0;
        let situation = "restart: accepted call on another arena";
        bench.tally.situation(situation, length_differs && accepted);
    }
}
