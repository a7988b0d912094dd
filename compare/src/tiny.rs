//! Every ledger of some very small pools with every small call, and every one-word change to them.

use crate::bench::Bench;
use crate::ledger::{Ledger, RECORD_WORDS, Record};
use crate::model::{Call, Engine, Kind, Placeholder, Pool};

/// Words, slots, S.
const TREE_1: [(usize, usize, u32); 4] = [(2, 1, 0), (4, 1, 0), (4, 2, 0), (6, 2, 0)];
const TREE_2: [(usize, usize, u32); 3] = [(4, 1, 0), (8, 2, 0), (12, 1, 0)];
const TREE_3: [(usize, usize, u32); 3] = [(8, 1, 0), (8, 2, 0), (16, 1, 0)];
const SEGMENT: [(usize, usize, u32); 6] = [(2, 1, 1), (2, 1, 4), (3, 1, 2), (4, 2, 2), (5, 2, 4), (5, 2, 1)];
const FORMS: [u32; 7] = [0, 1, 2, 3, 4, 5, u32::MAX];
const PARTIES: [u32; 6] = [0, 1, 2, 255, 256, u32::MAX];
const CHANGES: [u32; 11] = [0, 1, 2, 3, 255, 256, 65_536, 131_073, u32::MAX, u32::MAX - 1, 1 << 31];

pub fn run(bench: &mut Bench, kind: Kind) {
    bench.section = "tiny pools";
    let shapes: &[(usize, usize, u32)] = match (kind.engine, kind.form) {
        (Engine::Tree, 1) => &TREE_1,
        (Engine::Tree, 2) => &TREE_2,
        (Engine::Tree, _) => &TREE_3,
        (Engine::Segment, _) => &SEGMENT,
    };
    for &(words, slots, segments) in shapes {
        for next in [0, 1, 3] {
            pools_of(bench, kind, words, slots, segments, next);
        }
    }
}

fn pools_of(bench: &mut Bench, kind: Kind, words: usize, slots: usize, segments: u32, next: u32) {
    let choices = records(words);
    let count = choices.len().pow(slots as u32);
    for chosen in 0..count {
        let picked = |slot: usize| choices[chosen / choices.len().pow(slot as u32) % choices.len()];
        let table: Vec<u32> = (0..slots).flat_map(picked).collect();
        if let Some(ledger) = Ledger::read(kind.known_rule(), words, &table, next) {
            let held: Vec<u32> = (1..=words as u32).collect();
            let pool = Pool::stored(kind, &ledger, segments, &held);
            every_call(bench, &pool);
            every_change(bench, &pool);
        }
    }
}

/// An empty slot and every record with ticket 1 or 2 that might lie in so many words. The second is another party's.
fn records(words: usize) -> Vec<[u32; 4]> {
    let both = |address, asked| [[1, address, asked, 1], [2, address, asked, 255]];
    let in_arena = |asked: u32| (0..words as u32).flat_map(move |address| both(address, asked));
    std::iter::once([0; 4]).chain((1..=words as u32).flat_map(in_arena)).collect()
}

fn every_call(bench: &mut Bench, pool: &Pool) {
    let most = pool.arena.len() as u32 + 1;
    for first in [0, 1, 2, u32::MAX] {
        bench.once(pool, &Call::Format { form: pool.head.form, first });
    }
    for form in FORMS.into_iter().filter(|_| pool.engine == Engine::Tree) {
        bench.once(pool, &Call::Format { form, first: 1 });
    }
    for words in 0..=most {
        for party in PARTIES {
            bench.once(pool, &Call::Allocate { party, words });
        }
        for (at, party) in (0..4 * most).flat_map(|at| [1, 255].map(|party| (at, party))) {
            every_naming(bench, pool, Record { ticket: at / most, address: at % most, words, party });
        }
    }
    for (slot, party) in (0..pool.table.len() / RECORD_WORDS).flat_map(|slot| PARTIES.map(|party| (slot, party))) {
        let stored = &pool.table[RECORD_WORDS * slot..];
        every_naming(bench, pool, Record { ticket: stored[0], address: stored[1], words: stored[2], party });
    }
    for party in PARTIES {
        bench.once(pool, &Call::List { party, requests: vec![], answers: vec![9; 5] });
    }
}

fn every_naming(bench: &mut Bench, pool: &Pool, named: Record) {
    let Record { ticket, address, words, party } = named;
    bench.once(pool, &Call::Release(named));
    let held = pool.table.chunks_exact(RECORD_WORDS).any(|record| record[..3] == [ticket, address, words]);
    for keep in if held { 0..=words + 1 } else { 0..=0 } {
        bench.once(pool, &Call::Trim(named, keep));
    }
    bench.once(pool, &Call::Find(named));
    bench.once(pool, &Call::Look(named, Placeholder::Own(vec![3, 4])));
    let requests = vec![2, ticket, address, words, 1, words, 0, 0];
    bench.once(pool, &Call::List { party, requests, answers: vec![9; 9] });
}

fn every_change(bench: &mut Bench, pool: &Pool) {
    let places = pool.arena.len() + pool.table.len() + pool.index.len() + 3;
    for (place, value) in (0..places).flat_map(|place| CHANGES.map(|value| (place, value))) {
        let mut struck = pool.clone();
        *word_of(&mut struck, place) = value;
        let named = Record { ticket: 1, address: pool.table[1], words: pool.table[2], party: 1 };
        bench.once(&struck, &Call::Find(named));
        bench.once(&struck, &Call::Allocate { party: 1, words: 1 });
        bench.once(&struck, &Call::Release(named));
        bench.once(&struck, &Call::Trim(named, 1));
    }
}

/// The words of a pool, one after another: head, arena, table, index.
fn word_of(pool: &mut Pool, place: usize) -> &mut u32 {
    let (arena, table) = (pool.arena.len(), pool.table.len());
    match place {
        0 if pool.engine == Engine::Tree => &mut pool.head.root,
        1 if pool.engine == Engine::Tree => &mut pool.head.form,
        0..=2 => &mut pool.head.next,
        _ if place - 3 < arena => &mut pool.arena[place - 3],
        _ if place - 3 - arena < table => &mut pool.table[place - 3 - arena],
        _ => &mut pool.index[place - 3 - arena - table],
    }
}
