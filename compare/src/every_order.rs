//! Small sets of tickets, each to be released or trimmed: every order of the calls, one after another, ends in the same
//! words.

use crate::bench::Bench;
use crate::ledger::Record;
use crate::model::{Call, Kind, Pool};
use crate::order::{self, Member};
use crate::pools::{self, Shape};
use crate::random::Random;

const MOST: usize = 4;

pub fn run(bench: &mut Bench, kind: Kind, cases: u64, random: &mut Random) {
    bench.section = "every order";
    let end = bench.tally.cases() + cases;
    while bench.tally.cases() < end {
        let units = random.between(4, 24);
        let words = units * kind.known_rule().unit;
        let start =
            pools::sound(Shape { kind, words, slots: random.between(2, 6), segments: 1 << random.below(4) }, random);
        let ledger = start.ledger().expect("a stored form is sound");
        let mut live: Vec<Record> = ledger.live().collect();
        random.shuffle(&mut live);
        live.truncate(MOST);
        let set: Vec<Member> = live.into_iter().map(|record| Member::plan(record, &ledger, random)).collect();
        let due = order::end_of(&start, &ledger, &set);
        let calls: Vec<Call> = set.iter().map(|member| member.call()).collect();
        bench.tally.situation("every order: four calls", calls.len() == MOST);
        for order in orders(calls.len()) {
            play(bench, &start, &due, order.into_iter().map(|at| &calls[at]));
        }
    }
}

fn play<'a>(bench: &mut Bench, start: &Pool, due: &Pool, calls: impl Iterator<Item = &'a Call>) {
    let mut pool = start.clone();
    bench.lend(start);
    for call in calls {
        bench.step(&mut pool, call);
    }
    if pool != *due || !bench.holds(due) {
        let told = "  an order of releases and trims does not end in the form due".to_string();
        bench.tally.mismatch(bench.section, start.arena.len(), told);
    }
}

/// Every order of so many.
fn orders(count: usize) -> Vec<Vec<usize>> {
    let Some(last) = count.checked_sub(1) else { return vec![vec![]] };
    let put = |order: Vec<usize>| (0..=order.len()).map(move |at| [&order[..at], &[last], &order[at..]].concat());
    orders(last).into_iter().flat_map(put).collect()
}
