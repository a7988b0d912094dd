//! Damaged states, made from sound ones. The model decides which of them are no session's; some changes leave one.

use crate::damage;
use crate::ledger::RECORD_WORDS;
use crate::random::Random;
use crate::session::{ARENA_AT, KEPT_AT, KEPT_MOST, STATE_BYTES, Session, TABLE_AT};
use crate::text::Stage;
use std::ops::Range;

/// The changed state and what kind of change it was.
pub fn any(session: &Session, random: &mut Random) -> (Vec<u8>, &'static str) {
    let mut state = session.stored();
    let what = match random.below(20) {
        0 => noise(&mut state, random),
        1..3 if matches!(session.stage, Stage::Serving(_)) => return strike_pool(session, random),
        3 if matches!(session.stage, Stage::Serving(_)) => return strike_party(session, random),
        4 | 5 if !session.kept.is_empty() => {
            state[KEPT_AT + random.below(session.kept.len())] = 10;
            "damage seen: line feed kept"
        }
        6 | 7 => kept_length(&mut state, session, random),
        _ => {
            let (part, what) = part(session, random);
            strike(&mut state[part], random);
            what
        }
    };
    (state, what)
}

/// A part of the state to change something in; what is used of table and arena, and what lies behind.
fn part(session: &Session, random: &mut Random) -> (Range<usize>, &'static str) {
    let (table, arena) = match &session.stage {
        Stage::Serving(pool) => (TABLE_AT + 4 * pool.table.len(), ARENA_AT + 4 * pool.arena.len()),
        _ => (TABLE_AT, ARENA_AT),
    };
    let parts = [
        (0..4, "damage seen: stage"),
        (8..KEPT_AT, "damage seen: head"),
        (KEPT_AT + session.kept.len()..TABLE_AT, "damage seen: behind the line"),
        (TABLE_AT..table, "damage seen: table"),
        (table..ARENA_AT, "damage seen: behind the table"),
        (ARENA_AT..arena, "damage seen: arena"),
        (arena..STATE_BYTES, "damage seen: behind the arena"),
        (TABLE_AT - KEPT_MOST..TABLE_AT, "damage seen: behind the line"),
    ];
    let (part, what) = parts[random.below(parts.len())].clone();
    if part.is_empty() { (STATE_BYTES - 4..STATE_BYTES, "damage seen: behind the arena") } else { (part, what) }
}

/// Changes a byte, mostly near an end of the part, or a word, or fills some of it.
fn strike(part: &mut [u8], random: &mut Random) {
    let (near, any, small, word) =
        (random.below(part.len().min(8)), random.below(part.len()), random.below(64) as u32, random.word());
    let at = random.pick(&[near, part.len() - 1 - near, any]);
    match random.below(6) {
        0 => part[at] ^= 1 << random.below(8),
        1 => part[at] = part[at].wrapping_add(random.pick(&[1, 255])),
        2 => part[at] = random.word() as u8,
        3 => {
            let word = random.pick(&[0, 1, 2, 3, 4, small, word]).to_le_bytes();
            let at = at / 4 * 4;
            let end = part.len().min(at + 4);
            part[at..end].copy_from_slice(&word[..end - at]);
        }
        _ => {
            let end = at + 1 + random.below(part.len() - at);
            part[at..end].fill(random.pick(&[0, 1, 10, 255]));
        }
    }
}

/// One more or one fewer than are kept, more than can be, or one that looks right in 8 bits.
fn kept_length(state: &mut [u8], session: &Session, random: &mut Random) -> &'static str {
    let kept = session.kept.len() as u32;
    let lengths = [kept + 1, kept.wrapping_sub(1), 66, 67, 68, 69, 255, kept + 256, kept + 65_536, u32::MAX];
    state[4..8].copy_from_slice(&random.pick(&lengths).to_le_bytes());
    "damage seen: kept length"
}

/// Damage of the pool, as other calls meet it.
fn strike_pool(session: &Session, random: &mut Random) -> (Vec<u8>, &'static str) {
    let mut struck = session.clone();
    if let Stage::Serving(pool) = &mut struck.stage {
        let ledger = pool.ledger().expect("a session's pool is sound");
        damage::any(pool, &ledger, random);
    }
    (struck.stored(), "damage seen: pool")
}

/// A record of another party: a sound pool, but no session's.
fn strike_party(session: &Session, random: &mut Random) -> (Vec<u8>, &'static str) {
    let mut struck = session.clone();
    if let Stage::Serving(pool) = &mut struck.stage {
        let live: Vec<usize> = (0..pool.table.len()).step_by(RECORD_WORDS).filter(|at| pool.table[*at] != 0).collect();
        if !live.is_empty() {
            pool.table[random.pick(&live) + 3] = random.pick(&[0, 2, 255, 256, 257]);
        }
    }
    (struck.stored(), "damage seen: party")
}

/// All of one byte, or noise behind the first words, or all noise.
fn noise(state: &mut [u8], random: &mut Random) -> &'static str {
    let from = random.pick(&[0, 4, 8, KEPT_AT, TABLE_AT]);
    match random.below(3) {
        0 => state.fill(0),
        1 => state[from..].fill(random.word() as u8),
        _ => state[from..].iter_mut().for_each(|byte| *byte = random.long() as u8),
    }
    "damage seen: noise"
}
