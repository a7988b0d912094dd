//! Sessions on both sides: the library's three buffers beside the model's. Every step makes one call on both and
//! compares what it hands back and every byte of every buffer, guards included.

use crate::abi::{self, Burst};
use crate::bench::{Bench, compare_lent, differ};
use crate::guarded::{Guarded, Lies};
use crate::random::Random;
use crate::session::{self, SessionCall, SessionOutcome};
use crate::tally::Tally;

const ROOM: usize = 48 * 1_024;

pub struct SessionBench<'a> {
    bench: &'a mut Bench,
    place: Random,
    state: Guarded<u8>,
    bytes: Guarded<u8>,
    answers: Guarded<u8>,
}

impl SessionBench<'_> {
    pub fn new(bench: &mut Bench, seed: u64) -> SessionBench<'_> {
        let [state, bytes, answers] = [(); 3].map(|()| Guarded::new(ROOM));
        SessionBench { bench, place: Random::new(seed), state, bytes, answers }
    }

    /// The cases that follow are counted under this name.
    pub fn enter(&mut self, section: &'static str) {
        self.bench.section = section;
    }

    pub fn tally(&mut self) -> &mut Tally {
        &mut self.bench.tally
    }

    /// Lends the library a copy of this state.
    pub fn lend(&mut self, state: &[u8]) {
        self.state.lend(state, &mut self.place);
    }

    /// One call on a state of its own.
    pub fn once(&mut self, state: &[u8], call: &SessionCall) -> SessionOutcome {
        self.lend(state);
        self.step(&mut state.to_vec(), call)
    }

    /// One call on the state as lent: on the library's buffers, and on the model's.
    pub fn step(&mut self, state: &mut Vec<u8>, call: &SessionCall) -> SessionOutcome {
        self.bench.count_step();
        let before = state.clone();
        self.lend_for(call);
        let got = play(self.state.lies(), self.bytes.lies(), self.answers.lies(), call);
        let outcome = session::make(state, call);
        let differences = self.differences(state, call, got, &outcome);
        if !differences.is_empty() {
            let told = tell(&before, call, &differences);
            self.bench.tally.mismatch(self.bench.section, told.len(), told);
            self.lend(state);
        }
        self.bench.tally.session(self.bench.section, call, &outcome);
        outcome
    }

    fn lend_for(&mut self, call: &SessionCall) {
        if let SessionCall::Burst { bytes, .. } = call {
            self.bytes.lend(bytes, &mut self.place);
        }
        if let SessionCall::Burst { answers, .. } | SessionCall::End { answers } = call {
            self.answers.lend(answers, &mut self.place);
        }
    }

    fn differences(&self, state: &[u8], call: &SessionCall, got: Burst, outcome: &SessionOutcome) -> Vec<String> {
        let SessionOutcome { number, taken, written, .. } = *outcome;
        let mut all = Vec::new();
        differ("outcome", &Burst { number, taken, written }, &got, &mut all);
        compare_lent("state", state, &self.state, &mut all);
        if let SessionCall::Burst { bytes, .. } = call {
            compare_lent("bytes", bytes, &self.bytes, &mut all);
        }
        if !matches!(call, SessionCall::Start) {
            compare_lent("answers", &outcome.answers, &self.answers, &mut all);
        }
        all
    }
}

/// Makes the call on the bytes as they lie. A start call has its number alone.
pub fn play(state: Lies<u8>, bytes: Lies<u8>, answers: Lies<u8>, call: &SessionCall) -> Burst {
    // SAFETY: the bytes are lent as far as said, and none that a call writes overlap.
    unsafe {
        match call {
            SessionCall::Start => Burst { number: abi::lf_session_start(state.at, state.len), taken: 0, written: 0 },
            SessionCall::Burst { .. } => {
                abi::lf_session_burst(state.at, state.len, bytes.at, bytes.len, answers.at, answers.len)
            }
            SessionCall::End { .. } => abi::lf_session_end(state.at, state.len, answers.at, answers.len),
        }
    }
}

fn tell(before: &[u8], call: &SessionCall, differences: &[String]) -> String {
    let shown = &before[..before.len().min(92)];
    let called = match call {
        SessionCall::Start => "start".to_string(),
        SessionCall::Burst { bytes, answers } => {
            format!("burst of {:?}, room {}", String::from_utf8_lossy(bytes), answers.len())
        }
        SessionCall::End { answers } => format!("end, room {}", answers.len()),
    };
    let differences = differences.join("\n  ");
    format!("  state of {} bytes, the first {shown:?}\n  {called}\n  {differences}", before.len())
}
