//! Long runs on one pool: traffic, callers' writing between, lists, replays, damage that is mended.

use crate::bench::Bench;
use crate::ledger::{Ledger, Record};
use crate::model::{Call, Kind, Pool};
use crate::random::Random;
use crate::{calls, damage, pools};

/// Tickets released in this run, and whether the run is filling the pool or emptying it.
struct Course {
    spent: Vec<Record>,
    /// Runs that were trimmed: their names before and since.
    trimmed: Vec<(Record, Record)>,
    filling: bool,
    most: usize,
}

pub fn run(bench: &mut Bench, kind: Kind, cases: u64, random: &mut Random) {
    bench.section = "long runs";
    let mut left = cases;
    while left > 0 {
        let shape = pools::shape(kind, random);
        let steps = left.min(random.between(50, 2_000) as u64);
        let mut pool = pools::sound(shape, random);
        bench.lend(&pool);
        if random.one_in(2) {
            let first = calls::first(&pool.ledger().expect("a stored form is sound"), random);
            bench.step(&mut pool, &Call::Format { form: kind.form, first });
        }
        let most = random.between(1, (3 * shape.words / shape.slots).max(2));
        let mut course = Course { spent: Vec::new(), trimmed: Vec::new(), filling: true, most };
        for _ in 0..steps {
            one(bench, &mut pool, &mut course, random);
        }
        left -= steps;
    }
}

fn one(bench: &mut Bench, pool: &mut Pool, course: &mut Course, random: &mut Random) {
    let ledger = pool.ledger().expect("a run keeps its pool sound");
    write_as_callers(bench, pool, &ledger, random);
    if random.one_in(40) {
        return strike_and_mend(bench, pool, &ledger, random);
    }
    let call = next_call(pool, &ledger, course, random);
    let outcome = bench.step(pool, &call);
    note_trimmed(bench, course, &call, outcome.answer.number);
    match (&call, outcome.answer.number) {
        (Call::Release(named), 0) => course.spent.push(*named),
        (Call::Trim(named, keep), 0) => course.trimmed.push((*named, Record { words: *keep, ..*named })),
        (Call::Allocate { .. }, 3 | 5) => course.filling = false,
        (Call::Release(_), 6) => course.filling = true,
        _ => {}
    }
}

fn next_call(pool: &Pool, ledger: &Ledger, course: &mut Course, random: &mut Random) -> Call {
    if random.one_in(60) {
        course.filling = !course.filling;
    }
    let live: Vec<Record> = ledger.live().collect();
    let party = calls::party(ledger, random);
    match random.below(20) {
        0 => calls::any(pool.kind(), ledger, pool.arena.len(), random),
        1 if !course.spent.is_empty() => Call::Release(random.pick(&course.spent)),
        2 if !course.spent.is_empty() => Call::Find(random.pick(&course.spent)),
        3 => calls::list(ledger, random),
        4 => calls::look(ledger, pool.arena.len(), random),
        5 => Call::Find(calls::named(ledger, random)),
        6..9 => Call::Allocate { party, words: calls::words(ledger, random) },
        9 => Call::Release(calls::named(ledger, random)),
        10 | 11 if !course.trimmed.is_empty() => after_trim(ledger, course, random),
        10 => calls::trim(ledger, random),
        17 if !live.is_empty() => {
            let named = random.pick(&live);
            Call::Trim(named, calls::keep(named.words, ledger.rule, random))
        }
        12..17 if course.filling => Call::Allocate { party, words: random.between(1, course.most) as u32 },
        _ if live.is_empty() => Call::Allocate { party, words: random.between(1, course.most) as u32 },
        _ => Call::Release(random.pick(&live)),
    }
}

/// A run that was trimmed, as it was named before or as it is named since: released, or trimmed again.
fn after_trim(ledger: &Ledger, course: &Course, random: &mut Random) -> Call {
    let (before, since) = course.trimmed[course.trimmed.len() - 1 - random.below(course.trimmed.len().min(2))];
    let named = random.pick(&[before, before, since]);
    if random.one_in(2) {
        return Call::Release(named);
    }
    Call::Trim(named, calls::keep(named.words, ledger.rule, random))
}

fn note_trimmed(bench: &mut Bench, course: &Course, call: &Call, number: u32) {
    let (Call::Release(named) | Call::Trim(named, _)) = call else { return };
    let was = |(before, since): &(Record, Record)| before == named && since != named;
    let old = number == 7 && course.trimmed.iter().any(was);
    let again = number == 0 && course.trimmed.iter().any(|(_, since)| since == named);
    bench.tally.situation("trim: old release", old && matches!(call, Call::Release(_)));
    bench.tally.situation("trim: old trim", old && matches!(call, Call::Trim(..)));
    bench.tally.situation("trim: second one", again && matches!(call, Call::Trim(..)));
}

/// Callers write into blocks they hold, a tree block's spare words included.
pub fn write_as_callers(bench: &mut Bench, pool: &mut Pool, ledger: &Ledger, random: &mut Random) {
    let live: Vec<Record> = ledger.live().collect();
    if live.is_empty() {
        return;
    }
    for _ in 0..random.below(4) {
        let record = random.pick(&live);
        let room = ledger.rule.most_in(ledger.rule.units_for(record.words));
        let at = record.address as usize + random.below(room as usize);
        let word = if random.one_in(4) { random.below(9) as u32 } else { random.word() };
        bench.write(pool, at, word);
    }
}

/// Some calls on the pool while it is damaged, then the pool as it was.
fn strike_and_mend(bench: &mut Bench, pool: &mut Pool, ledger: &Ledger, random: &mut Random) {
    let mut struck = pool.clone();
    damage::any(&mut struck, ledger, random);
    if struck.ledger().is_err() {
        bench.lend(&struck);
        for _ in 0..random.between(1, 3) {
            let call = calls::any(pool.kind(), ledger, struck.arena.len(), random);
            if !matches!(call, Call::Format { .. }) {
                bench.step(&mut struck, &call);
            }
        }
    }
    bench.lend(pool);
}
