//! Request 6's claim, played: what release, find and look answer a party depends only on its own records, its own
//! words, its arguments, the form, the lent lengths and whether the pool is sound. So two pools that agree in these,
//! and in nothing else, give the same answers, and look shows the same words at the same place.

use crate::bench::Bench;
use crate::ledger::{Ledger, Record};
use crate::model::{Call, Kind, Outcome, Placeholder, Pool, Slice};
use crate::random::Random;
use crate::{calls, damage, pools};

const CALLS_TO_A_PAIR: usize = 5;

pub fn run(bench: &mut Bench, kind: Kind, cases: u64, random: &mut Random) {
    bench.section = "two pools";
    let end = bench.tally.cases() + cases;
    while bench.tally.cases() < end {
        let one = pools::sound(pools::shape(kind, random), random);
        let ledger = one.ledger().expect("a stored form is sound");
        let party = ledger.live().nth(random.below(6)).map_or(1, |record| record.party);
        let other = same_for(party, &one, &ledger, random);
        match random.below(8) {
            0 => damaged(bench, party, one, other, random),
            _ => sound(bench, party, &one, &other, random),
        }
    }
}

/// Another sound pool with this party's records and words: in other slots, among others' records and words.
fn same_for(party: u32, one: &Pool, ledger: &Ledger, random: &mut Random) -> Pool {
    let own: Vec<Record> = ledger.live().filter(|record| record.party == party).collect();
    let mut other = Ledger { slots: vec![None; ledger.slots.len()], ..ledger.clone() };
    let mut slots: Vec<usize> = (0..other.slots.len()).collect();
    random.shuffle(&mut slots);
    for (record, slot) in own.iter().zip(&slots) {
        other.slots[*slot] = Some(*record);
    }
    let empty = &slots[own.len()..];
    for slot in &empty[..random.below(empty.len().min(40) + 1)] {
        other.slots[*slot] = foreign(party, &other, ledger, random);
    }
    let last = other.live().map(|record| record.ticket).max().unwrap_or(0);
    other.next = if random.one_in(4) { 0 } else { last.saturating_add(random.below(3) as u32).wrapping_add(1) };
    let mut words = vec![0; one.arena.len()];
    random.fill(&mut words);
    for record in own {
        let place = record.address as usize..(record.address + record.words) as usize;
        words[place.clone()].copy_from_slice(&one.arena[place]);
    }
    Pool::stored(one.kind(), &other, one.segments, &words)
}

/// A record of another party in some free run, if there is room; now and then under a ticket of the first pool.
fn foreign(party: u32, other: &Ledger, ledger: &Ledger, random: &mut Random) -> Option<Record> {
    let free = other.free_runs();
    let run = free.get(random.below(free.len()))?;
    let count = random.between(1, run.count.min(1 + other.units / other.slots.len()));
    let first = run.first + random.below(run.count - count + 1);
    let words = other.rule.most_in(count).checked_sub(random.below(other.rule.unit) as u32)?;
    let earlier = ledger.live().nth(random.below(8)).filter(|_| random.one_in(2));
    let ticket = earlier.map_or_else(|| random.word(), |record| record.ticket);
    let theirs = Some(calls::good_party(random)).filter(|theirs| *theirs != party)?;
    let is_new = ticket != 0 && other.live().all(|record| record.ticket != ticket);
    let record = Record { ticket, address: other.rule.address_of(first), words, party: theirs };
    (words > 0 && is_new).then_some(record)
}

fn sound(bench: &mut Bench, party: u32, one: &Pool, other: &Pool, random: &mut Random) {
    let ledgers = [one, other].map(|pool| pool.ledger().expect("a stored form is sound"));
    for _ in 0..CALLS_TO_A_PAIR {
        let call = call_of(party, &ledgers[random.below(2)], random);
        let done = alike(bench, one, other, &call);
        let (named, another) = match &call {
            Call::Release(named) | Call::Find(named) | Call::Look(named, _) => (*named, done.answer.number == 6),
            _ => continue,
        };
        let has = |ledger: &Ledger| ledger.live().any(|record| record.ticket == named.ticket);
        let differ = has(&ledgers[0]) != has(&ledgers[1]);
        bench.tally.situation("two pools: another's ticket in one", another && differ);
        bench.tally.situation("two pools: released", matches!(call, Call::Release(_)) && done.answer.number == 0);
        bench.tally.situation("two pools: looked at", matches!(done.slice, Some(Slice::Arena { .. })));
    }
}

/// Both damaged, each in its own way.
fn damaged(bench: &mut Bench, party: u32, mut one: Pool, mut other: Pool, random: &mut Random) {
    let ledgers = [&one, &other].map(|pool| pool.ledger().expect("a stored form is sound"));
    damage::any(&mut one, &ledgers[0], random);
    damage::any(&mut other, &ledgers[1], random);
    if one.ledger().is_err() && other.ledger().is_err() {
        let call = call_of(party, &ledgers[0], random);
        alike(bench, &one, &other, &call);
        bench.tally.situation("two pools: both damaged", true);
    }
}

fn call_of(party: u32, ledger: &Ledger, random: &mut Random) -> Call {
    let named = calls::named_by(party, ledger, random);
    match random.below(3) {
        0 => Call::Release(named),
        1 => Call::Find(named),
        _ => Call::Look(named, Placeholder::Own(vec![random.word(); 3])),
    }
}

/// The same call on both: the same answer, the same place, the same words there.
fn alike(bench: &mut Bench, one: &Pool, other: &Pool, call: &Call) -> Outcome {
    let (first, second) = (bench.once(one, call), bench.once(other, call));
    let shown = |pool: &Pool, outcome: &Outcome| match outcome.slice {
        Some(Slice::Arena { from, len }) => pool.arena[from..from + len].to_vec(),
        _ => Vec::new(),
    };
    let same = first.answer == second.answer && first.slice == second.slice;
    if !same || shown(one, &first) != shown(other, &second) {
        let told = format!("  {call:?} is answered {:?} and {:?}", first.answer, second.answer);
        bench.tally.mismatch(bench.section, one.arena.len(), told);
    }
    first
}
