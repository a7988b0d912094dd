//! Single calls, each on a pool of its own: sound, damaged, of wrong length.

use crate::bench::Bench;
use crate::ledger::Ledger;
use crate::model::{Call, Engine, Kind, Pool};
use crate::random::Random;
use crate::tree_form::FORMS;
use crate::{calls, copies, damage, lengths, pools};

const CALLS_TO_A_POOL: u64 = 6;

pub fn run(bench: &mut Bench, kind: Kind, cases: u64, random: &mut Random) {
    bench.section = "single calls";
    for _ in 0..cases / CALLS_TO_A_POOL {
        let pool = pools::sound(pools::shape(kind, random), random);
        let ledger = pool.ledger().expect("a stored form is sound");
        for _ in 0..CALLS_TO_A_POOL {
            one(bench, &pool, &ledger, random);
        }
        if random.one_in(20) {
            old_table(bench, &pool, &ledger, random);
        }
        if kind.engine == Engine::Tree && random.one_in(20) {
            other_form(bench, kind, random);
        }
    }
}

fn one(bench: &mut Bench, pool: &Pool, ledger: &Ledger, random: &mut Random) {
    let mut brought = pool.clone();
    let mut kind = "";
    match random.below(12) {
        0..6 => {}
        6..11 => kind = damage::any(&mut brought, ledger, random),
        _ => lengths::misfit(&mut brought, random),
    }
    if pool.engine == Engine::Tree && random.one_in(12) {
        brought.head.form = calls::form(random);
    }
    let call = calls::any(pool.kind(), ledger, brought.arena.len(), random);
    let outcome = bench.once(&brought, &call);
    if brought.head.form != pool.head.form && !matches!(call, Call::Format { .. }) {
        bench.tally.situation("another form: 8", outcome.answer.number == 8);
        bench.tally.situation("another form: 1", outcome.answer.number == 1);
    }
    if !kind.is_empty() {
        bench.tally.situation(kind, outcome.answer.number == 1);
    }
}

/// A pool that still has its old table, of three words to a record; half the time with all of it free, and of so many
/// records that the length suits.
fn old_table(bench: &mut Bench, pool: &Pool, ledger: &Ledger, random: &mut Random) {
    let mut ledger = ledger.clone();
    if random.one_in(2) {
        let words = pool.arena.len();
        ledger = Ledger::empty(ledger.rule, words, 4 * random.between(1, 12), ledger.next);
    }
    let mut old = Pool::stored(pool.kind(), &ledger, pool.segments, &pool.arena);
    old.table = copies::old_table(&ledger);
    let call = calls::any(pool.kind(), &ledger, old.arena.len(), random);
    let outcome = bench.once(&old, &call);
    if !matches!(call, Call::Format { .. }) {
        bench.tally.situation("old table: 8", outcome.answer.number == 8);
        bench.tally.situation("old table: 1", outcome.answer.number == 1);
        bench.tally.situation("old table: accepted", outcome.answer.number == 0);
    }
}

/// A pool that is stored in one form, called with another in which it is sound too.
fn other_form(bench: &mut Bench, kind: Kind, random: &mut Random) {
    let mut pool = pools::of_every_form(kind, random);
    pool.head.form = random.pick(&FORMS);
    let ledger = pool.ledger().expect("sound in every form");
    let call = calls::any(pool.kind(), &ledger, pool.arena.len(), random);
    let outcome = bench.once(&pool, &call);
    let accepted = outcome.answer.number == 0 && pool.head.form != kind.form;
    bench.tally.situation("another form: accepted", accepted && !matches!(call, Call::Format { .. }));
}
