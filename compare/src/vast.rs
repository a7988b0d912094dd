//! Lengths above 4,294,967,295 words, or bytes: a length cut to 32 bits would look right. The memory is really
//! lent; the system gives pages only where they are touched.

use crate::abi::Burst;
use crate::guarded::{Lies, Words, map};
use crate::ledger::{Ledger, Record};
use crate::library::{Played, View, copy_table, play};
use crate::model::{Answer, Call, Engine, Head, Kind, Placeholder, Pool};
use crate::session::{LINE_FEED, Session, SessionCall};
use crate::session_bench::play as play_session;
use crate::tally::{Subject, Tally};

const VAST: usize = 1 << 32;
const SHOWN: usize = 4_096;
const LIVE: Record = Record { ticket: 1, address: 8, words: 3, party: 2 };
const UNKNOWN: Record = Record { ticket: 7, address: 8, words: 3, party: 2 };
const BUFFERS: [&str; 6] = ["arena", "table", "index", "requests", "answers", "placeholder"];

pub fn run(tally: &mut Tally, kinds: &[Kind]) {
    let Some(vast) = map((VAST + SHOWN) * 4) else {
        return println!("lengths above 32 bits: left out, the system does not map so much");
    };
    for (kind, which) in kinds.iter().flat_map(|kind| (0..BUFFERS.len()).map(|which| (*kind, which))) {
        if (kind.engine, BUFFERS[which]) != (Engine::Tree, "index") {
            // SAFETY: the mapping is longer, and nothing else uses it.
            let shown = unsafe { std::slice::from_raw_parts_mut(vast as *mut u32, SHOWN) };
            tally.subject = Subject::Pool(kind);
            one_vast(tally, kind, which, shown);
        }
    }
    copy_vast(tally, vast as *mut u32);
    tally.subject = Subject::Sessions;
    state_vast(tally, vast);
    burst_vast(tally, vast);
}

/// A vast buffer that begins with a session's state: 8, and nothing changes.
fn state_vast(tally: &mut Tally, vast: *mut u8) {
    let before = Session::started().stored();
    // SAFETY: the mapping is longer, and nothing else uses it.
    let shown = unsafe { std::slice::from_raw_parts_mut(vast, before.len()) };
    shown.copy_from_slice(&before);
    let (mut few, answers) = ([LINE_FEED; 8], vec![]);
    let [state, bytes, room] = [(vast, VAST + before.len()), (few.as_mut_ptr(), 4), (few[4..].as_mut_ptr(), 4)]
        .map(|(at, len)| Lies { at, len });
    let burst = SessionCall::Burst { bytes: vec![], answers: answers.clone() };
    for call in [SessionCall::Start, burst, SessionCall::End { answers }] {
        let got = play_session(state, bytes, room, &call);
        check(tally, format!("{call:?} on a vast state: {got:?}"), got == Burst { number: 8, taken: 0, written: 0 });
    }
    check(tally, "bytes of a vast state".to_string(), *shown == before && few == [LINE_FEED; 8]);
}

/// An empty first line in a vast burst, without room; then alone, with vast room.
fn burst_vast(tally: &mut Tally, vast: *mut u8) {
    let mut state = Session::started().stored();
    let (mut few, call) = ([LINE_FEED; 2], SessionCall::Burst { bytes: vec![], answers: vec![] });
    // SAFETY: the mapping is longer, and nothing else uses it.
    let shown = unsafe { std::slice::from_raw_parts_mut(vast, 8) };
    shown.fill(LINE_FEED);
    let whole = Lies { at: state.as_mut_ptr(), len: state.len() };
    let (one, none) = (Lies { at: few.as_mut_ptr(), len: 1 }, Lies { at: few[1..].as_mut_ptr(), len: 0 });
    let much = Lies { at: vast, len: VAST };
    let got = play_session(whole, much, none, &call);
    check(tally, format!("vast burst, no room: {got:?}"), got == Burst { number: 10, taken: 0, written: 0 });
    let got = play_session(whole, one, much, &call);
    check(tally, format!("vast room: {got:?}"), got == Burst { number: 0, taken: 1, written: 4 });
    check(tally, "answers in vast room".to_string(), shown == b"N\t9\n\n\n\n\n" && few == [LINE_FEED; 2]);
}

/// An old or a new table of vast length.
fn copy_vast(tally: &mut Tally, vast: *mut u32) {
    let (mut few, before) = ([6; 4], [7, 8, 9, 10]);
    for (old_len, new_len) in [(VAST + 3, 4), (3, VAST + 4)] {
        // SAFETY: the mapping is longer, and nothing else uses it.
        let shown = unsafe { std::slice::from_raw_parts_mut(vast, before.len()) };
        shown.copy_from_slice(&before);
        let at = [vast, few.as_mut_ptr()];
        let [old, new] = if old_len > new_len { at } else { [at[1], at[0]] };
        let number = copy_table(Words { at: old, len: old_len }, Words { at: new, len: new_len });
        let unchanged = *shown == before && few == [6; 4];
        check(tally, format!("copy of {old_len} words into {new_len}: {number}"), number == 8 && unchanged);
    }
}

/// A sound pool with one block held.
fn pool(kind: Kind) -> Pool {
    let mut ledger = Ledger::empty(kind.known_rule(), 24, 4, 2);
    ledger.slots[1] = Some(LIVE);
    Pool::stored(kind, &ledger, 4, &[5; 24])
}

/// One buffer vast, its first words those that would be right; the others as they should be.
fn one_vast(tally: &mut Tally, kind: Kind, which: usize, shown: &mut [u32]) {
    let mut pool = pool(kind);
    let mut more = [vec![2, UNKNOWN.ticket, 8, 3], vec![8; 4], vec![6; 7]];
    let [requests, answers, placeholder] = &mut more;
    let buffers = [&mut pool.arena, &mut pool.table, &mut pool.index, requests, answers, placeholder];
    shown.fill(0);
    shown[..buffers[which].len()].copy_from_slice(buffers[which]);
    let mut words = buffers.map(|buffer| Words { at: buffer.as_mut_ptr(), len: buffer.len() });
    words[which] = Words { at: shown.as_mut_ptr(), len: VAST + words[which].len };
    let [arena, table, index, requests, answers, placeholder] = words;
    let view = View { arena, table, index, requests, answers, placeholder };
    let before = shown.to_vec();
    for call in calls(kind, which) {
        let due = due(&pool, &view, &call, BUFFERS[which]);
        let got = play(&pool, &view, &call);
        check(tally, format!("{call:?} with vast {}: due {due:?}, got {got:?}", BUFFERS[which]), got == due);
    }
    let due = if BUFFERS[which] == "answers" { [&[6, 0, 0, 0], &before[4..]].concat() } else { before };
    check(tally, format!("words of vast {}", BUFFERS[which]), *shown == due);
    check(tally, format!("the pool beside vast {}", BUFFERS[which]), pool == self::pool(kind));
}

/// The calls that take this buffer.
fn calls(kind: Kind, which: usize) -> Vec<Call> {
    let list = Call::List { party: 2, requests: vec![], answers: vec![] };
    let look = Call::Look(UNKNOWN, Placeholder::Own(vec![]));
    match BUFFERS[which] {
        "requests" | "answers" => vec![list],
        "placeholder" => vec![look],
        _ => {
            let [format, format_none] = [1, 0].map(|first| Call::Format { form: kind.form, first });
            vec![
                format,
                format_none,
                Call::Allocate { party: 2, words: 2 },
                Call::Release(LIVE),
                Call::Trim(LIVE, 1),
                Call::Find(LIVE),
                look,
                list,
            ]
        }
    }
}

/// All is refused with 8 but a list with much room for answers; look hands back the placeholder.
fn due(pool: &Pool, view: &View, call: &Call, vast: &str) -> Played {
    let refused = Played { head: pool.head, answer: Answer::refusal(8), slice: None, places: None };
    match call {
        Call::Format { .. } => Played { head: Head::default(), ..refused },
        Call::Allocate { .. } => Played { places: (pool.engine == Engine::Segment).then_some(0), ..refused },
        Call::Look(..) => {
            let slice = Some((view.placeholder.at as usize, view.placeholder.len));
            Played { answer: Answer::default(), slice, ..refused }
        }
        _ if vast == "answers" => Played { answer: Answer::default(), ..refused },
        _ => refused,
    }
}

fn check(tally: &mut Tally, told: String, holds: bool) {
    tally.plain_case("vast lengths");
    if !holds {
        tally.mismatch("vast lengths", 0, format!("  {:?}, {told}", tally.subject));
    }
}
