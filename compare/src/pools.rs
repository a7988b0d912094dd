//! Sound pools built straight from random ledgers, whether or not traffic could reach them.

use crate::calls;
use crate::ledger::{Ledger, Record, Run};
use crate::model::{Engine, Kind, Pool};
use crate::random::Random;

#[derive(Clone, Copy, Debug)]
pub struct Shape {
    pub kind: Kind,
    pub words: usize,
    pub slots: usize,
    pub segments: u32,
}

/// How records lie in the arena.
#[derive(Clone, Copy, PartialEq)]
enum Layout {
    Loose,
    /// Up to the high end of a large arena.
    Wide,
    Dense,
    Comb,
    Ties,
    Rising,
    Falling,
}

const LAYOUTS: [Layout; 8] = [
    Layout::Loose,
    Layout::Loose,
    Layout::Dense,
    Layout::Comb,
    Layout::Ties,
    Layout::Ties,
    Layout::Rising,
    Layout::Falling,
];

/// Mostly short, now and then as long as form 1 allows, or as many units.
pub fn shape(kind: Kind, random: &mut Random) -> Shape {
    let (words, slots, segments) = match random.below(64) {
        0..16 => (random.between(2, 8), random.between(1, 3), 1 << random.below(5)),
        16..50 => (random.between(2, 64), random.between(1, 12), 1 << random.below(7)),
        50..61 => (random.between(64, 1_024), random.between(1, 80), 1 << random.below(9)),
        _ => big(random),
    };
    let most = *kind.arena_words().end();
    match kind.engine {
        Engine::Tree => {
            let words = words.div_ceil(2) * kind.known_rule().unit;
            Shape { kind, words: words.min(most), slots, segments: 0 }
        }
        Engine::Segment => Shape { kind, words, slots, segments },
    }
}

fn big(random: &mut Random) -> (usize, usize, u32) {
    let words = if random.one_in(2) { 16_384 } else { random.between(1_024, 16_384) };
    let slots = if random.one_in(2) { 256 } else { random.between(64, 256) };
    (words, slots, 1 << random.below(9))
}

pub fn ledger(shape: Shape, random: &mut Random) -> Ledger {
    let mut ledger = Ledger::empty(shape.kind.known_rule(), shape.words, shape.slots, 1);
    let mut blocks = blocks(&ledger, random);
    let tickets = tickets(&mut ledger, blocks.len(), random);
    let parties = parties(random);
    let mut slots: Vec<usize> = (0..shape.slots).collect();
    if !random.one_in(4) {
        random.shuffle(&mut slots);
        random.shuffle(&mut blocks);
    }
    for ((slot, ticket), (address, words)) in slots.into_iter().zip(tickets).zip(blocks) {
        ledger.slots[slot] = Some(Record { ticket, address, words, party: random.pick(&parties) });
    }
    ledger
}

/// Whose records there are: one party's alone, or those of some, each as often as it stands here.
fn parties(random: &mut Random) -> Vec<u32> {
    (0..random.pick(&[1, 2, 3, 8])).map(|_| calls::good_party(random)).collect()
}

/// Addresses and words of blocks that lie apart, by address.
fn blocks(ledger: &Ledger, random: &mut Random) -> Vec<(u32, u32)> {
    let layout = if ledger.units > 65_535 && !random.one_in(4) { Layout::Wide } else { random.pick(&LAYOUTS) };
    let slots = ledger.slots.len();
    let wanted = if random.one_in(2) { slots } else { random.between(0, slots) };
    let most = if random.one_in(3) { 1 } else { random.between(1, (2 * ledger.units / wanted.max(1)).clamp(1, 64)) };
    let mut blocks = Vec::new();
    let mut from = 0;
    for number in 0..wanted {
        from += gap(layout, number, wanted, ledger.units, random);
        let words = random.between(1, most) as u32;
        if from + ledger.rule.units_for(words) > ledger.units {
            break;
        }
        blocks.push((ledger.rule.address_of(from), words));
        from += ledger.rule.units_for(words);
    }
    if layout == Layout::Dense || random.one_in(8) {
        stretch_last(ledger, &mut blocks, random);
    }
    blocks
}

fn gap(layout: Layout, number: usize, wanted: usize, units: usize, random: &mut Random) -> usize {
    match layout {
        Layout::Loose => random.below(2 + units / (2 * wanted)),
        Layout::Wide => random.below(2 + 3 * units / (2 * wanted)),
        Layout::Dense => 0,
        Layout::Comb => 1,
        Layout::Ties => random.pick(&[0, 1, 2, 2, 3]),
        Layout::Rising => number / 2 + 1,
        Layout::Falling => (wanted - number) / 2 + 1,
    }
}

/// Makes the last block reach the arena's end, so that a dense pool has no free unit.
fn stretch_last(ledger: &Ledger, blocks: &mut [(u32, u32)], random: &mut Random) {
    let Some((address, words)) = blocks.last_mut() else { return };
    let arena_words = ledger.rule.words_of(Run { first: 0, count: ledger.units }).end as u32;
    let room = arena_words - *address;
    *words = room - random.below(ledger.rule.unit) as u32;
}

/// As many different tickets, and a next ticket that has passed them.
fn tickets(ledger: &mut Ledger, count: usize, random: &mut Random) -> Vec<u32> {
    let least = count as u32 + 1;
    ledger.next = match random.below(8) {
        0 => 0,
        1 => u32::MAX,
        2 => u32::MAX - random.below(4) as u32,
        3 => random.word().max(least),
        4 => least,
        _ => least + random.below(40) as u32,
    };
    let last = ledger.next.wrapping_sub(1);
    let span = if random.one_in(2) { last } else { last.min(least + 20) };
    let mut tickets: Vec<u32> = Vec::new();
    while tickets.len() < count {
        let ticket = last - (random.long() % span as u64) as u32;
        if !tickets.contains(&ticket) {
            tickets.push(ticket);
        }
    }
    tickets
}

/// A sound pool of this shape, its held words filled with anything.
pub fn sound(shape: Shape, random: &mut Random) -> Pool {
    let ledger = ledger(shape, random);
    let mut words = vec![0; shape.words];
    random.fill(&mut words);
    Pool::stored(shape.kind, &ledger, shape.segments, &words)
}

/// A pool that is sound in every form of the tree pool: all is held, in blocks of whole units of each.
pub fn of_every_form(kind: Kind, random: &mut Random) -> Pool {
    let (groups, words) = (random.between(1, 12), 8);
    let mut ledger = Ledger::empty(kind.known_rule(), groups * words, random.between(groups, 12), 0);
    for (slot, at) in (0..groups).enumerate() {
        let (ticket, party) = (slot as u32 + 1, calls::good_party(random));
        let record = Record { ticket, address: (at * words) as u32, words: words as u32, party };
        ledger.slots[slot] = Some(record);
    }
    ledger.next = random.pick(&[0, groups as u32 + 1, u32::MAX]);
    Pool::stored(kind, &ledger, 0, &vec![random.word(); groups * words])
}
