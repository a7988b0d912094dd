//! Which of the situations that every run must reach a case was in.

use crate::ledger::{Ledger, Record, Run, is_party};
use crate::model::{Call, Engine, Kind, Outcome, Placeholder, Pool};
use crate::segment_form::blocks_of;
use crate::tally::Tally;
use crate::tree_form::{self, FORMS};

pub fn note(tally: &mut Tally, before: &Pool, call: &Call, outcome: &Outcome) {
    note_list(tally, call);
    note_form(tally, before, call, outcome.answer.number);
    if let Call::Look(_, Placeholder::PartOfArena { .. }) = call {
        tally.situation("placeholder inside the arena", true);
    }
    if let Call::Format { first, .. } = call {
        return note_format(tally, *first, outcome.answer.number);
    }
    let no_party = party_of(call).is_some_and(|party| !is_party(party));
    tally.situation("no such party on a damaged pool", no_party && outcome.answer.number == 1);
    if matches!(outcome.answer.number, 11 | 8 | 1) {
        return;
    }
    note_party(tally, call);
    let rule = before.kind().known_rule();
    let Some(ledger) = Ledger::read(rule, before.arena.len(), &before.table, before.head.next) else {
        return;
    };
    let free = ledger.free_runs();
    note_pool(tally, before, &ledger, &free);
    note_others(tally, &ledger, call);
    match call {
        Call::Allocate { .. } if outcome.answer.number == 0 => {
            note_grant(tally, &ledger, &free, outcome);
            note_search(tally, before, &ledger, outcome);
        }
        Call::Release(named) if outcome.answer.number == 0 => note_release(tally, &ledger, &free, *named),
        Call::Trim(named, keep) => note_trim(tally, &ledger, &free, *named, *keep, outcome.answer.number),
        Call::Release(named) | Call::Find(named) if outcome.answer.number == 6 => note_unknown(tally, &ledger, *named),
        _ => {}
    }
}

fn party_of(call: &Call) -> Option<u32> {
    match call {
        Call::Format { .. } => None,
        Call::Allocate { party, .. } | Call::List { party, .. } => Some(*party),
        Call::Release(named) | Call::Trim(named, _) | Call::Find(named) | Call::Look(named, _) => Some(named.party),
    }
}

/// Whose call it is, on a sound pool.
fn note_party(tally: &mut Tally, call: &Call) {
    let Some(party) = party_of(call) else { return };
    tally.situation("party 0", party == 0);
    tally.situation("party 1", party == 1);
    tally.situation("party 255", party == 255);
    tally.situation("party 256", party == 256);
    tally.situation("party 4,294,967,295", party == u32::MAX);
    if is_party(party) {
        return;
    }
    tally.situation("no such party: look", matches!(call, Call::Look(..)));
    if let Call::List { requests, .. } = call {
        tally.situation("no such party: empty list", requests.is_empty());
        let unknown = |request: &[u32]| !matches!(request, [1, _, 0, 0] | [2, ..]);
        tally.situation("no such party: request of unknown kind", requests.chunks_exact(4).any(unknown));
    }
}

/// What a party names that is another's.
fn note_others(tally: &mut Tally, ledger: &Ledger, call: &Call) {
    let others = |named: Record| ledger.live().find(|r| r.ticket == named.ticket && r.party != named.party);
    match call {
        Call::Release(named) | Call::Trim(named, _) | Call::Find(named) | Call::Look(named, _)
            if is_party(named.party) =>
        {
            let Some(other) = others(*named) else { return };
            let rightly = Record { party: other.party, ..*named } == other;
            tally.situation("another's ticket rightly named", rightly);
            tally.situation("another's ticket wrongly named", !rightly);
        }
        Call::List { party, requests, .. } if is_party(*party) => {
            let named = |r: &[u32]| Record { ticket: r[1], address: r[2], words: r[3], party: *party };
            let another = |r: &[u32]| r[0] == 2 && others(named(r)).is_some();
            tally.situation("listed: another's ticket", requests.chunks_exact(4).any(another));
        }
        _ => {}
    }
}

/// A form that there is not.
fn note_form(tally: &mut Tally, before: &Pool, call: &Call, number: u32) {
    let form = if let Call::Format { form, .. } = call { *form } else { before.head.form };
    let (words, none) = (before.arena.len(), number == 11);
    let suits = |form: &u32| {
        let kind = Kind::tree(*form);
        kind.arena_words().contains(&words) && words % kind.known_rule().unit == 0
    };
    tally.situation("no such form: 0", none && form == 0);
    tally.situation("no such form: one above the last", none && form == FORMS.len() as u32 + 1);
    tally.situation("no such form: 4,294,967,295", none && form == u32::MAX);
    tally.situation("no such form, and lengths of none", none && !FORMS.iter().any(suits));
    tally.situation("length of no whole number of units", form == 3 && number == 8 && words % 8 != 0 && words % 2 == 0);
}

fn note_format(tally: &mut Tally, first: u32, number: u32) {
    tally.situation("first ticket 1", first == 1 && number == 0);
    tally.situation("first ticket 4,294,967,295", first == u32::MAX && number == 0);
    tally.situation("first ticket 0 and wrong lengths", first == 0 && number == 8);
}

fn note_list(tally: &mut Tally, call: &Call) {
    let Call::List { requests, answers, .. } = call else { return };
    let (len, room) = (requests.len(), answers.len());
    tally.situation("list of 0 requests", len == 0);
    tally.situation("list of 1,024 requests", len == 4 * 1_024);
    tally.situation("list of 1,025 requests", len == 4 * 1_025);
    tally.situation("list no multiple of four", len % 4 != 0);
    tally.situation("answers longer than the list", room > len && len > 0);
    tally.situation("answers shorter than the list", room < len);
}

fn note_pool(tally: &mut Tally, pool: &Pool, ledger: &Ledger, free: &[Run]) {
    let (words, slots) = (pool.arena.len(), ledger.slots.len());
    let held = ledger.live().count();
    let segments = pool.segments as usize;
    let lengths = pool.kind().arena_words();
    tally.situation("shortest arena", words == *lengths.start());
    tally.situation("longest arena", words == *lengths.end());
    tally.situation("seven spare words in a block", ledger.live().any(|record| record.words % 8 == 1));
    tally.situation("links above 65,535", highest_link(pool, ledger) > 65_535);
    tally.situation("1 record", slots == 1);
    tally.situation("256 records held", held == 256);
    tally.situation("257 free runs", free.len() == 257);
    let mut parties: Vec<u32> = ledger.live().map(|record| record.party).collect();
    parties.sort_unstable();
    parties.dedup();
    tally.situation("records of three parties", parties.len() > 2);
    tally.situation("no free unit at all", free.is_empty());
    tally.situation("equal free runs", free.windows(2).any(|pair| pair[0].count == pair[1].count));
    if pool.engine == Engine::Segment {
        tally.situation("S of 1", segments == 1);
        tally.situation("S above W", segments > words);
        tally.situation("W no multiple of S", words % segments != 0);
        tally.situation("free block of one word", free.iter().any(|run| run.count == 1));
    }
}

/// Of those that stand in nodes; 0 if there is none.
pub fn highest_link(pool: &Pool, ledger: &Ledger) -> u32 {
    let Some(form) = tree_form::form(pool.head.form) else { return 0 };
    let links = form.free_cells(ledger).into_iter().map(|run| run.first as u32 + 1);
    links.filter(|link| *link != pool.head.root).max().unwrap_or(0)
}

fn note_grant(tally: &mut Tally, ledger: &Ledger, free: &[Run], outcome: &Outcome) {
    let wanted = ledger.rule.units_for(outcome.answer.words);
    let Some(run) = free.iter().find(|run| run.count >= wanted) else { return };
    tally.situation("grant of a whole run", run.count == wanted);
    tally.situation("grant from a longer run", run.count > wanted);
    tally.situation("more than 16,384 words granted", outcome.answer.words > 16_384);
    tally.situation("grant of the last ticket", outcome.answer.ticket == u32::MAX);
    let slot = ledger.slots.iter().position(Option::is_none).unwrap_or(0);
    let full_above = ledger.slots[slot..].iter().any(Option::is_some);
    tally.situation("grant in a slot below a full one", full_above);
}

/// What lies in the segment of the block granted.
fn note_search(tally: &mut Tally, pool: &Pool, ledger: &Ledger, outcome: &Outcome) {
    if pool.engine != Engine::Segment {
        return;
    }
    let per_segment = pool.arena.len().div_ceil(pool.segments as usize);
    let chosen = outcome.answer.address as usize - 1;
    let mut beside = blocks_of(ledger);
    beside.retain(|block| block.first / per_segment == chosen / per_segment);
    let below = |held: bool| beside.iter().any(|block| block.first < chosen && block.held == held);
    tally.situation("search past a held block", below(true));
    tally.situation("search past a free block", below(false));
    let above = beside.iter().any(|block| block.first > chosen);
    tally.situation("blocks above the chosen one in its segment", above);
}

fn note_release(tally: &mut Tally, ledger: &Ledger, free: &[Run], named: Record) {
    let Some(units) = ledger.units_of(named) else { return };
    let below = free.iter().any(|run| run.end() == units.first);
    let above = free.iter().any(|run| run.first == units.end());
    let situation = match (below, above) {
        (false, false) => "release between held blocks",
        (true, false) => "release that joins the run below",
        (false, true) => "release that joins the run above",
        (true, true) => "release that joins both",
    };
    tally.situation(situation, true);
}

fn note_trim(tally: &mut Tally, ledger: &Ledger, free: &[Run], named: Record, keep: u32, number: u32) {
    tally.situation("trim: none to keep, unknown ticket", keep == 0 && number == 6);
    tally.situation("trim: none to keep, other words", keep == 0 && number == 7);
    let (Some(units), 0) = (ledger.units_of(named), number) else { return };
    let kept = ledger.rule.units_for(keep);
    tally.situation("trim: all kept", keep == named.words);
    tally.situation("trim: all but one kept", keep + 1 == named.words);
    tally.situation("trim: one kept", keep == 1 && named.words > 1);
    tally.situation("trim: no unit given back", kept == units.count && keep < named.words);
    let border = ledger.rule.most_in(kept);
    tally.situation("trim: asked words stay as spare ones", kept < units.count && keep < border);
    if kept < units.count {
        let joins = free.iter().any(|run| run.first == units.end());
        tally.situation("trim: up to a unit's border", keep == border);
        tally.situation("trim: tail joins a free run", joins);
        tally.situation("trim: tail before a held block", !joins && units.end() < ledger.units);
        tally.situation("trim: tail at the arena's end", units.end() == ledger.units);
        tally.situation("trim: tail of one word, a block of its own", !joins && units.count - kept == 1);
    }
}

fn note_unknown(tally: &mut Tally, ledger: &Ledger, named: Record) {
    let spent = named.ticket != 0 && (ledger.next == 0 || named.ticket < ledger.next);
    let anew = ledger.live().any(|record| Record { ticket: named.ticket, ..record } == named);
    tally.situation("ticket spent and shown again", spent);
    tally.situation("words of a replay lie there anew", spent && anew);
}
