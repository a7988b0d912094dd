//! Pools of form 2 longer than the other forms allow, a few: each case moves megabytes.

use crate::bench::Bench;
use crate::ledger::{Ledger, Record};
use crate::model::{Call, Kind, Pool};
use crate::pools::{self, Shape};
use crate::random::Random;
use crate::{calls, damage, long_runs, situations};

const CALLS_TO_A_POOL: usize = 12;

pub fn run(bench: &mut Bench, kind: Kind, count: u64, random: &mut Random) {
    bench.section = "large pools";
    for _ in 0..count {
        let mut pool = pools::sound(shape(kind, random), random);
        bench.lend(&pool);
        for _ in 0..CALLS_TO_A_POOL {
            one(bench, &mut pool, random);
        }
    }
}

fn shape(kind: Kind, random: &mut Random) -> Shape {
    let most = *kind.arena_words().end();
    let words = if random.one_in(2) { most } else { random.between(16_385, most).next_multiple_of(4) };
    let slots = if random.one_in(2) { 256 } else { random.between(1, 256) };
    Shape { kind, words, slots, segments: 0 }
}

fn one(bench: &mut Bench, pool: &mut Pool, random: &mut Random) {
    let Ok(ledger) = pool.ledger() else { return };
    long_runs::write_as_callers(bench, pool, &ledger, random);
    let live: Vec<Record> = ledger.live().collect();
    let party = calls::party(&ledger, random);
    let call = match random.below(12) {
        0..4 => return strike_and_mend(bench, pool, &ledger, random),
        4..6 => Call::Allocate { party, words: calls::words(&ledger, random) },
        6 => Call::Allocate { party, words: random.between(1, pool.arena.len()) as u32 },
        7 => Call::Allocate { party, words: random.between(1, 300) as u32 },
        8 if !live.is_empty() => Call::Release(random.pick(&live)),
        9 => calls::trim(&ledger, random),
        10 => calls::list(&ledger, random),
        _ => calls::any(pool.kind(), &ledger, pool.arena.len(), random),
    };
    bench.step(pool, &call);
}

/// A call on the pool while it is damaged, then the pool as it was.
fn strike_and_mend(bench: &mut Bench, pool: &Pool, ledger: &Ledger, random: &mut Random) {
    let mut struck = pool.clone();
    damage::any(&mut struck, ledger, random);
    bench.lend(&struck);
    let outcome = bench.step(&mut struck, &Call::Find(calls::named(ledger, random)));
    let high = situations::highest_link(pool, ledger) > 65_535;
    bench.tally.situation("damage seen: links above 65,535", high && outcome.answer.number == 1);
    bench.lend(pool);
}
