//! The copy of an old table, three words to a record, into a new one (request 6): any contents, any lengths; and calls
//! on a pool that goes on with its copied table.

use crate::bench::Bench;
use crate::ledger::{Ledger, RECORD_WORDS};
use crate::model::{self, Kind, Pool};
use crate::random::Random;
use crate::{calls, pools};

const OLD_WORDS: usize = 3;

pub fn run(bench: &mut Bench, kind: Kind, cases: u64, random: &mut Random) {
    bench.section = "copies";
    for _ in 0..cases {
        match random.below(8) {
            0 | 1 => moved_pool(bench, kind, random),
            2 => misfit(bench, random),
            _ => any_contents(bench, random),
        }
    }
}

/// A table as it was before there were parties.
pub fn old_table(ledger: &Ledger) -> Vec<u32> {
    ledger.table().chunks_exact(RECORD_WORDS).flat_map(|record| record[..OLD_WORDS].to_vec()).collect()
}

/// A pool from before there were parties, and a call on it with the new table.
fn moved_pool(bench: &mut Bench, kind: Kind, random: &mut Random) {
    let shape = pools::shape(kind, random);
    let mut ledger = pools::ledger(shape, random);
    for record in ledger.slots.iter_mut().flatten() {
        record.party = 1;
    }
    let old = old_table(&ledger);
    let new = noise(RECORD_WORDS * shape.slots, random);
    copy(bench, &old, &new);
    let mut words = vec![0; shape.words];
    random.fill(&mut words);
    let mut pool = Pool::stored(kind, &ledger, shape.segments, &words);
    pool.table = model::copied_table(&old, new.len()).expect("as many records");
    let call = calls::any(kind, &ledger, shape.words, random);
    bench.once(&pool, &call);
}

/// Records with any words, full, or empty, or empty but for a word or two; and all of one sort.
fn any_contents(bench: &mut Bench, random: &mut Random) {
    let slots = random.pick(&[1, 2, 3, 4, 5, 8, 64, 255, 256]);
    let style = random.below(5);
    let mut old = noise(OLD_WORDS * slots, random);
    for record in old.chunks_exact_mut(OLD_WORDS) {
        match if style < 3 { style } else { random.below(4) } {
            0 => record.fill(0),
            1 => record[0] = 0,
            2 => record[random.below(OLD_WORDS)] |= 1,
            _ => {}
        }
    }
    let new = noise(RECORD_WORDS * slots, random);
    copy(bench, &old, &new);
}

/// A length outside the range, no whole number of records, or another number of them.
fn misfit(bench: &mut Bench, random: &mut Random) {
    let slots = random.pick(&[0, 1, 2, 3, 4, 6, 8, 192, 255, 256, 257, 258]);
    let old_len = (OLD_WORDS * slots + random.pick(&[0, 0, 1, 2, 3])).saturating_sub(random.pick(&[0, 0, 3]));
    let near = (RECORD_WORDS * slots + 4).saturating_sub(random.below(9));
    let new_len = random.pick(&[0, 4, old_len, RECORD_WORDS * slots, RECORD_WORDS * (slots + 1), near]);
    let (old, new) = (noise(old_len, random), noise(new_len, random));
    copy(bench, &old, &new);
}

fn noise(len: usize, random: &mut Random) -> Vec<u32> {
    let mut words = vec![0; len];
    random.fill(&mut words);
    words
}

fn copy(bench: &mut Bench, old: &[u32], new: &[u32]) {
    let done = bench.copy(old, new) == 0;
    let mut records = old.chunks_exact(OLD_WORDS);
    bench.tally.situation("copy: full table", done && records.clone().all(|record| record[0] != 0));
    bench.tally.situation("copy: empty table", done && old.iter().all(|word| *word == 0));
    let no_ticket = |record: &[u32]| record[0] == 0 && record[1..] != [0, 0];
    bench.tally.situation("copy: ticket 0 with words", done && records.any(no_ticket));
    bench.tally.situation("copy: lengths of none", !done && (old.is_empty() || old.len() > 768));
    bench.tally.situation("copy: as many words", !done && old.len() == new.len());
}
