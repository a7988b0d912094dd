//! Random calls, aimed at a ledger so that every number is reached.

use crate::ledger::{Ledger, Record, UnitRule};
use crate::model::{Call, Engine, Kind, Placeholder};
use crate::random::Random;
use crate::tree_form::FORMS;

pub fn any(kind: Kind, ledger: &Ledger, arena_words: usize, random: &mut Random) -> Call {
    match random.below(36) {
        0 => format(kind, ledger, random),
        1..12 => Call::Allocate { party: party(ledger, random), words: words(ledger, random) },
        12..19 => Call::Release(named(ledger, random)),
        19..23 => Call::Find(named(ledger, random)),
        23..27 => look(ledger, arena_words, random),
        27..31 => trim(ledger, random),
        _ => list(ledger, random),
    }
}

/// Mostly in the form that the pool has.
fn format(kind: Kind, ledger: &Ledger, random: &mut Random) -> Call {
    let form = if kind.engine == Engine::Tree && random.one_in(3) { form(random) } else { kind.form };
    Call::Format { form, first: first(ledger, random) }
}

/// A form number: one that there is, one just outside, one that looks right in 8 or 16 bits, any.
pub fn form(random: &mut Random) -> u32 {
    match random.below(8) {
        0 => 0,
        1 => FORMS.len() as u32 + 1,
        2 => random.pick(&[5, 257, 258, 259, 65_537, 65_539, 1 << 31, (1 << 31) + 1]),
        3 => u32::MAX,
        4 => random.word(),
        _ => random.pick(&FORMS),
    }
}

/// A first ticket number: 0, 1, a small one, the next in turn, the last ones, any.
pub fn first(ledger: &Ledger, random: &mut Random) -> u32 {
    match random.below(8) {
        0 | 1 => 0,
        2 => 1,
        3 => random.between(2, 40) as u32,
        4 => ledger.next,
        5 => u32::MAX,
        6 => u32::MAX - random.between(1, 4) as u32,
        _ => random.word(),
    }
}

/// A party that there is: the ends of the range, or any.
pub fn good_party(random: &mut Random) -> u32 {
    let any = random.between(1, 255) as u32;
    random.pick(&[1, 1, 2, 3, 254, 255, 255, any])
}

/// One that there is not: just outside, one that looks right in 8 or 16 bits, any.
pub fn bad_party(random: &mut Random) -> u32 {
    let any = random.word() | 256;
    random.pick(&[0, 0, 256, 256, u32::MAX, u32::MAX, 257, 511, 512, 65_537, (1 << 31) + 1, any])
}

/// Whose call it is: mostly one that has a record.
pub fn party(ledger: &Ledger, random: &mut Random) -> u32 {
    match (random.below(20), ledger.live().nth(random.below(8))) {
        (0, _) => bad_party(random),
        (5.., Some(record)) => record.party,
        _ => good_party(random),
    }
}

/// Words to ask for: wrong ones, ones that just fit or just do not, small ones.
pub fn words(ledger: &Ledger, random: &mut Random) -> u32 {
    let free = ledger.free_runs();
    let longest = free.iter().map(|run| run.count).max().unwrap_or(0);
    let chosen = if free.is_empty() { 0 } else { free[random.below(free.len())].count };
    let UnitRule { unit, limit, .. } = ledger.rule;
    let most = ledger.rule.most_in(longest);
    match random.below(20) {
        0 => 0,
        1 => random.pick(&[limit + 1, limit + 2, limit * 2, 16_385, 65_536, 65_537, u32::MAX, u32::MAX - 1]),
        2 => limit,
        3 => random.word(),
        4..7 => most + 1,
        7..10 => most,
        10..13 => ((chosen * unit.max(2)) as u32).saturating_sub(random.below(unit + 2) as u32),
        13..16 => (chosen as u32).saturating_sub(random.below(3) as u32),
        _ => random.between(1, 8) as u32,
    }
}

/// A record to name: a live one in half the cases, else one wrong in a word or three; mostly by its own party.
pub fn named(ledger: &Ledger, random: &mut Random) -> Record {
    let live: Vec<Record> = ledger.live().collect();
    let named = named_among(&live, ledger, random);
    match random.below(20) {
        0 => Record { party: bad_party(random), ..named },
        1 => Record { party: good_party(random), ..named },
        2 if !live.is_empty() => Record { party: random.pick(&live).party, ..named },
        _ => named,
    }
}

/// As this party names records: mostly its own.
pub fn named_by(party: u32, ledger: &Ledger, random: &mut Random) -> Record {
    let all = random.one_in(4);
    let live: Vec<Record> = ledger.live().filter(|record| all || record.party == party).collect();
    Record { party, ..named_among(&live, ledger, random) }
}

fn named_among(live: &[Record], ledger: &Ledger, random: &mut Random) -> Record {
    let stray = Record {
        ticket: 0,
        address: random.below(ledger.units * ledger.rule.unit.max(2)) as u32,
        words: random.below(9) as u32,
        party: good_party(random),
    };
    if live.is_empty() {
        return Record { ticket: unknown(ledger, random), ..stray };
    }
    let right = random.pick(live);
    let other = random.pick(live);
    let near = |word: u32, random: &mut Random| match random.below(4) {
        0 => word.wrapping_add(1),
        1 => word.wrapping_sub(1),
        2 => word ^ (1 << random.below(32)),
        _ => random.word(),
    };
    match random.below(18) {
        0 => Record { address: near(right.address, random), ..right },
        1 => Record { words: near(right.words, random), ..right },
        2 => Record { ticket: near(right.ticket, random), ..right },
        3 => Record { ticket: unknown(ledger, random), ..right },
        4 => Record { ticket: 0, address: 0, words: 0, ..right },
        5 => Record { address: other.address, words: other.words, ..right },
        6 => Record { address: stray.address, words: stray.words, ..right },
        7 => Record { ticket: unknown(ledger, random), ..stray },
        _ => right,
    }
}

pub fn trim(ledger: &Ledger, random: &mut Random) -> Call {
    let named = named(ledger, random);
    Call::Trim(named, keep(named.words, ledger.rule, random))
}

/// Words to keep: all, all but one, one, none, too many; up to a unit's border or just off it; any.
pub fn keep(words: u32, rule: UnitRule, random: &mut Random) -> u32 {
    let border = rule.most_in(random.between(1, rule.units_for(words.min(rule.limit)).max(1)));
    match random.below(16) {
        0 => 0,
        1 => words.wrapping_add(1),
        2 => random.pick(&[u32::MAX, words | 1 << 31, words.wrapping_add(65_536)]),
        3 | 4 => words,
        5 | 6 => words.wrapping_sub(1),
        7 => 1,
        8..11 => border.min(words),
        11 => border.saturating_sub(1).max(1),
        12 => (border + 1).min(words),
        _ => random.between(1, words.clamp(1, 1 << 24) as usize) as u32,
    }
}

/// Mostly a ticket that is not live: 0, the next one, one given out before.
fn unknown(ledger: &Ledger, random: &mut Random) -> u32 {
    match random.below(4) {
        0 => 0,
        1 => ledger.next,
        2 => random.word(),
        _ => (random.long() % ledger.next.max(1) as u64) as u32,
    }
}

pub fn look(ledger: &Ledger, arena_words: usize, random: &mut Random) -> Call {
    let placeholder = if random.one_in(4) {
        let from = random.below(arena_words + 1);
        Placeholder::PartOfArena { from, len: random.below(arena_words - from + 1) }
    } else {
        let mut own = vec![0; random.pick(&[0, 1, 2, 3, 8, 64, 256])];
        random.fill(&mut own);
        Placeholder::Own(own)
    };
    Call::Look(named(ledger, random), placeholder)
}

/// A list, now and then as long as allowed or one longer, with answers' room of any length.
pub fn list(ledger: &Ledger, random: &mut Random) -> Call {
    let count = match random.below(200) {
        0..20 => 0,
        20..50 => 1,
        50..180 => random.between(2, 12),
        180..197 => random.between(12, 80),
        197 => 1_025,
        _ => 1_024,
    };
    let party = party(ledger, random);
    let mut requests = requests(party, ledger, count, random);
    if random.one_in(12) {
        requests.resize((requests.len() + 4).saturating_sub(random.between(1, 7)), 1);
    }
    let room = match random.below(10) {
        0..5 => requests.len(),
        5..9 => requests.len() + random.between(1, 24),
        _ => requests.len().saturating_sub(random.between(1, 8)),
    };
    let mut answers = vec![0; room];
    random.fill(&mut answers);
    Call::List { party, requests, answers }
}

/// Requests of one party, each aimed at the ledger as the ones before leave it.
pub fn requests(party: u32, ledger: &Ledger, count: usize, random: &mut Random) -> Vec<u32> {
    let mut ledger = ledger.clone();
    let mut requests = Vec::with_capacity(4 * count);
    for _ in 0..count {
        requests.extend(request(party, &mut ledger, random));
    }
    requests
}

fn request(party: u32, ledger: &mut Ledger, random: &mut Random) -> [u32; 4] {
    match random.below(24) {
        0 => [random.pick(&[0, 3, 4, 9, 257, 65_537, u32::MAX]), random.word() % 9, 0, 0],
        1 => [1, words(ledger, random), random.below(2) as u32, 1],
        2 => [1, words(ledger, random), random.pick(&[1, 65_536, u32::MAX]), 0],
        3..13 => {
            let words = words(ledger, random);
            let _ = ledger.grant(party, words);
            [1, words, 0, 0]
        }
        _ => {
            let named = named_by(party, ledger, random);
            let _ = ledger.release(named);
            [2, named.ticket, named.address, named.words]
        }
    }
}
