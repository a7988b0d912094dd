//! Request 1: the text program by bursts. All that it is between two calls lies in one buffer of bytes, so a call reads
//! it there and leaves it there. A buffer is a session's if it is what some session is stored as.

use crate::ledger::RECORD_WORDS;
use crate::model::{Head, Pool};
use crate::text::{self, Reply, Stage};

pub const STATE_BYTES: usize = 36_956;
/// Of an unfinished line so many bytes are kept; a longer one is bad, whatever follows.
pub const KEPT_MOST: usize = 65;
pub const KEPT_AT: usize = 24;
pub const TABLE_AT: usize = 92;
pub const ARENA_AT: usize = TABLE_AT + 4 * RECORD_WORDS * text::MOST_SLOTS as usize;
pub const LINE_FEED: u8 = 10;

#[derive(Clone, PartialEq, Eq, Debug)]
pub struct Session {
    pub stage: Stage,
    /// What has come of the unfinished line.
    pub kept: Vec<u8>,
}

/// With the answer buffer as it is lent.
#[derive(Clone, PartialEq, Eq, Debug)]
pub enum SessionCall {
    Start,
    Burst { bytes: Vec<u8>, answers: Vec<u8> },
    End { answers: Vec<u8> },
}

/// What a call hands back, with the answer buffer after it; a start call only its number.
pub struct SessionOutcome {
    pub number: u32,
    pub taken: usize,
    pub written: usize,
    pub answers: Vec<u8>,
    /// The sorts of the lines that it served, each with its number.
    pub served: Vec<(&'static str, u32)>,
}

impl Session {
    pub fn started() -> Session {
        Session { stage: Stage::BeforeP, kept: Vec::new() }
    }

    pub fn stored(&self) -> Vec<u8> {
        let mut state = vec![0; STATE_BYTES];
        let stage = match &self.stage {
            Stage::BeforeP => 1,
            Stage::Serving(_) => 2,
            Stage::Stopped => 3,
        };
        put(&mut state, 0, &[stage, self.kept.len() as u32]);
        state[KEPT_AT..KEPT_AT + self.kept.len()].copy_from_slice(&self.kept);
        if let Stage::Serving(Pool { head, arena, table, .. }) = &self.stage {
            let slots = table.len() / RECORD_WORDS;
            put(&mut state, 8, &[arena.len() as u32, slots as u32, head.root, head.next]);
            put(&mut state, TABLE_AT, table);
            put(&mut state, ARENA_AT, arena);
        }
        state
    }

    /// The session that this buffer is, or 8, or 1.
    pub fn read(state: &[u8]) -> Result<Session, u32> {
        if state.len() != STATE_BYTES {
            return Err(8);
        }
        let kept_len = word(state, 4) as usize;
        let stage = match word(state, 0) {
            1 => Stage::BeforeP,
            2 => Stage::Serving(pool_in(state).ok_or(1u32)?),
            3 => Stage::Stopped,
            _ => return Err(1),
        };
        if kept_len > KEPT_MOST {
            return Err(1);
        }
        let session = Session { stage, kept: state[KEPT_AT..KEPT_AT + kept_len].to_vec() };
        if session.kept.contains(&LINE_FEED) || session.stored() != state { Err(1) } else { Ok(session) }
    }

    /// Takes lines as long as their answers have room. Hands back the bytes taken and the replies.
    pub fn take(&mut self, bytes: &[u8], room: usize) -> (usize, Vec<Reply>) {
        let (mut taken, mut written, mut replies) = (0, 0, Vec::new());
        while let Some(len) = bytes[taken..].iter().position(|byte| *byte == LINE_FEED) {
            let mut next = self.stage.clone();
            let reply = next.serve(&[&self.kept, &bytes[taken..taken + len]].concat());
            if written + reply.line.len() > room {
                return (taken, replies);
            }
            written += reply.line.len();
            taken += len + 1;
            replies.push(reply);
            *self = Session { stage: next, kept: Vec::new() };
        }
        self.kept.extend(&bytes[taken..]);
        self.kept.truncate(KEPT_MOST);
        (bytes.len(), replies)
    }

    /// Serves the last line, if something of it has come. None if its answer has no room.
    fn end(&mut self, room: usize) -> Option<Vec<Reply>> {
        if self.kept.is_empty() {
            return Some(Vec::new());
        }
        let mut next = self.stage.clone();
        let reply = next.serve(&self.kept);
        if reply.line.len() > room {
            return None;
        }
        *self = Session { stage: next, kept: Vec::new() };
        Some(vec![reply])
    }
}

fn word(state: &[u8], at: usize) -> u32 {
    words(state, at, 1)[0]
}

fn words(state: &[u8], at: usize, count: usize) -> Vec<u32> {
    let bytes = state[at..at + 4 * count].chunks_exact(4);
    bytes.map(|bytes| u32::from_le_bytes([bytes[0], bytes[1], bytes[2], bytes[3]])).collect()
}

fn put(state: &mut [u8], at: usize, words: &[u32]) {
    for (bytes, word) in state[at..].chunks_exact_mut(4).zip(words) {
        bytes.copy_from_slice(&word.to_le_bytes());
    }
}

/// The pool in the buffer, if there is a sound one of party 1 alone. What lies behind it is not looked at.
fn pool_in(state: &[u8]) -> Option<Pool> {
    let [words_len, slots, root, next] = [8, 12, 16, 20].map(|at| word(state, at));
    if words_len > text::MOST_WORDS || slots > text::MOST_SLOTS {
        return None;
    }
    let arena = words(state, ARENA_AT, words_len as usize);
    let table = words(state, TABLE_AT, RECORD_WORDS * slots as usize);
    let pool = text::pool(Head { root, next, form: 1 }, arena, table);
    let of_one_party = pool.ledger().ok()?.live().all(|record| record.party == text::PARTY);
    of_one_party.then_some(pool)
}

/// Makes the call on the buffer.
pub fn make(state: &mut Vec<u8>, call: &SessionCall) -> SessionOutcome {
    let answers = match call {
        SessionCall::Start => return start(state),
        SessionCall::Burst { answers, .. } | SessionCall::End { answers } => answers.clone(),
    };
    let nothing = SessionOutcome { number: 0, taken: 0, written: 0, answers, served: Vec::new() };
    let mut session = match Session::read(state) {
        Ok(session) => session,
        Err(number) => return SessionOutcome { number, ..nothing },
    };
    let room = nothing.answers.len();
    let (number, taken, replies) = match call {
        SessionCall::Burst { bytes, .. } => {
            let (taken, replies) = session.take(bytes, room);
            (if taken == bytes.len() { 0 } else { 10 }, taken, replies)
        }
        _ => session.end(room).map_or((10, 0, Vec::new()), |replies| (0, 0, replies)),
    };
    *state = session.stored();
    told(SessionOutcome { number, taken, ..nothing }, &replies)
}

/// The outcome with these answers in its buffer.
fn told(mut outcome: SessionOutcome, replies: &[Reply]) -> SessionOutcome {
    let said: Vec<u8> = replies.iter().flat_map(|reply| reply.line.clone()).collect();
    outcome.answers[..said.len()].copy_from_slice(&said);
    outcome.written = said.len();
    outcome.served = replies.iter().map(|reply| (reply.to, reply.number)).collect();
    outcome
}

fn start(state: &mut Vec<u8>) -> SessionOutcome {
    let suits = state.len() == STATE_BYTES;
    if suits {
        *state = Session::started().stored();
    }
    let number = if suits { 0 } else { 8 };
    SessionOutcome { number, taken: 0, written: 0, answers: Vec::new(), served: Vec::new() }
}
