//! Sessions of the text program (request 1): random lines, cut anywhere, with any room for answers, and what is not
//! taken handed over again; states that are no session's; end calls at any time. A session that began with a start call
//! and was handed its input whole must have written what 01's text program writes, and stand where that stands.

use crate::bench::Bench;
use crate::model::{Kind, Pool};
use crate::random::Random;
use crate::session::{self, KEPT_MOST, LINE_FEED, STATE_BYTES, Session, SessionCall, SessionOutcome};
use crate::session_bench::SessionBench;
use crate::tally::{Subject, Tally};
use crate::text::{self, MOST_WORDS, Stage};
use crate::{lines, pools, session_damage};

/// A session under way.
struct Course {
    state: Vec<u8>,
    input: Vec<u8>,
    taken: usize,
    said: Vec<u8>,
    bursts: usize,
    /// An end call came before all was taken.
    parted: bool,
}

pub fn run(bench: &mut Bench, cases: u64, random_only: bool, random: &mut Random) {
    bench.tally.subject = Subject::Sessions;
    let seed = random.long();
    let mut bench = SessionBench::new(bench, seed);
    if !random_only {
        whole_case(&mut bench);
    }
    let until = bench.tally().cases() + cases;
    while bench.tally().cases() < until {
        let from_start = !random.one_in(3);
        let state = if from_start { started(&mut bench, random) } else { built(random).stored() };
        bench.lend(&state);
        let session = Session::read(&state).expect("a session's state");
        let input = lines::input(&session, random);
        let mut course = Course { state, input, taken: 0, said: Vec::new(), bursts: 0, parted: false };
        hand_over(&mut bench, &mut course, random);
        finish(&mut bench, &mut course, random);
        if from_start && !course.parted {
            check_whole(&mut bench, &course);
        }
    }
}

/// 01's whole case, in every cut in two and with every room that is the same at each call.
fn whole_case(bench: &mut SessionBench) {
    let [input, output] = [
        "P 24 4/A 5/R 1 0 5/R 1 0 5/A 5/R 1 0 5/", // in
        "P 24 4/K 1 0 5/K 1 0 5/N 6/K 2 0 5/N 6/", // out
    ]
    .map(|lines| lines.replace(' ', "\t").replace('/', "\n").into_bytes());
    bench.enter("01's whole case");
    for (cut, room) in (0..=input.len()).flat_map(|cut| (0..=output.len()).map(move |room| (cut, room))) {
        let (first, second) = input.split_at(cut);
        let mut state = Session::started().stored();
        bench.lend(&state);
        let mut said = Vec::new();
        let taken = [first, second].iter().all(|part| hand_over_part(bench, &mut state, part, room, &mut said));
        // the first answer has 7 bytes, and none has more than 8
        let due = match room {
            0..7 => &[],
            7 => &output[..7],
            _ => &output[..],
        };
        if taken != (room >= 8) || said != due {
            let told = format!("  01's whole case cut at {cut}, room {room}: {:?}", String::from_utf8_lossy(&said));
            bench.tally().mismatch("01's whole case", cut + room, told);
        }
    }
}

/// Hands the part over until it is taken, or until the next answer is longer than the room.
fn hand_over_part(bench: &mut SessionBench, state: &mut Vec<u8>, part: &[u8], room: usize, said: &mut Vec<u8>) -> bool {
    let mut from = 0;
    loop {
        let call = SessionCall::Burst { bytes: part[from..].to_vec(), answers: vec![0; room] };
        let outcome = bench.step(state, &call);
        said.extend(&outcome.answers[..outcome.written]);
        from += outcome.taken;
        match (outcome.number, outcome.taken) {
            (0, _) => return true,
            (_, 0) => return false,
            _ => {}
        }
    }
}

/// A start call on anything or on another session, now and then on a buffer of another length before.
fn started(bench: &mut SessionBench, random: &mut Random) -> Vec<u8> {
    let mut state = if random.one_in(2) { noise(STATE_BYTES, random) } else { built(random).stored() };
    if random.one_in(4) {
        misfit(bench, &state, &SessionCall::Start, random);
    }
    bench.enter("starts");
    bench.lend(&state);
    bench.step(&mut state, &SessionCall::Start);
    state
}

/// A session with a pool built from a random ledger, and with some bytes of a line.
fn built(random: &mut Random) -> Session {
    let mut kept = noise(random.pick(&[0, 0, 0, 1, 2, 5, 12, 63, 64, KEPT_MOST]), random);
    for byte in kept.iter_mut().filter(|byte| **byte == LINE_FEED) {
        *byte = b'\t';
    }
    if random.one_in(2) && kept.len() > 2 {
        kept.truncate(2);
        kept.copy_from_slice(b"A\t");
    }
    let stage = match random.below(12) {
        0 => Stage::BeforeP,
        1 => Stage::Stopped,
        _ => Stage::Serving(sound_pool(random)),
    };
    Session { stage, kept }
}

fn sound_pool(random: &mut Random) -> Pool {
    let kind = Kind::tree(1);
    let mut shape = pools::shape(kind, random);
    shape.words = shape.words.min(MOST_WORDS as usize);
    let mut ledger = pools::ledger(shape, random);
    for record in ledger.slots.iter_mut().flatten() {
        record.party = text::PARTY;
    }
    let mut words = vec![0; shape.words];
    random.fill(&mut words);
    Pool::stored(kind, &ledger, 0, &words)
}

/// Calls until all of the input is taken.
fn hand_over(bench: &mut SessionBench, course: &mut Course, random: &mut Random) {
    while course.taken < course.input.len() {
        match random.below(24) {
            0..3 => strike(bench, course, random),
            3 => {
                let call = any_call(course, random);
                misfit(bench, &course.state, &call, random);
                bench.lend(&course.state);
            }
            4 if random.one_in(3) => course.parted |= end(bench, course, random).number == 0,
            _ => burst(bench, course, random),
        }
    }
}

/// The end call, again until it is served, and once more.
fn finish(bench: &mut SessionBench, course: &mut Course, random: &mut Random) {
    if random.one_in(2) {
        strike(bench, course, random);
    }
    while end(bench, course, random).number != 0 {}
    if random.one_in(2) {
        end(bench, course, random);
        bench.tally().situation("end: second one", true);
    }
}

fn noise(len: usize, random: &mut Random) -> Vec<u8> {
    (0..len).map(|_| random.long() as u8).collect()
}

fn kept_len(state: &[u8]) -> u8 {
    state[4]
}

/// Some of the bytes that are left, from none to all.
fn next_bytes<'a>(course: &'a Course, random: &mut Random) -> &'a [u8] {
    let left = &course.input[course.taken..];
    let line = left.iter().position(|byte| *byte == LINE_FEED).map_or(left.len(), |at| at + 1);
    let any = random.below(left.len() + 1);
    let len = random.pick(&[0, 1, 2, 8, line.saturating_sub(1), line, line + 1, any, any, left.len()]);
    &left[..len.min(left.len())]
}

/// Room for these bytes' answers: none, all, up to one of the answers, one byte off, any; and whether it is one short.
fn room(state: &[u8], bytes: &[u8], random: &mut Random) -> (usize, bool) {
    let Ok(mut session) = Session::read(state) else { return (random.below(80), false) };
    let (_, replies) = session.take(bytes, usize::MAX);
    let lengths: Vec<usize> = replies.iter().map(|reply| reply.line.len()).collect();
    let (all, some) = (lengths.iter().sum(), lengths[..random.below(lengths.len() + 1)].iter().sum::<usize>());
    match random.below(12) {
        0 => (0, false),
        1..4 => (all, false),
        4 | 5 => (some, false),
        6 | 7 => (some.saturating_sub(1), some > 0),
        8 => (some + 1, false),
        9 => (random.pick(&[34, 35, 36]), false),
        10 => (random.below(all + 1), false),
        _ => (all + random.below(100), false),
    }
}

/// A burst or an end call with room of any length.
fn any_call(course: &Course, random: &mut Random) -> SessionCall {
    let answers = noise(random.pick(&[0, 3, 4, 5, 35, 200]), random);
    match random.below(3) {
        0 => SessionCall::End { answers },
        _ => SessionCall::Burst { bytes: next_bytes(course, random).to_vec(), answers },
    }
}

fn burst(bench: &mut SessionBench, course: &mut Course, random: &mut Random) {
    bench.enter("bursts");
    let bytes = next_bytes(course, random).to_vec();
    let (room, short) = room(&course.state, &bytes, random);
    let call = SessionCall::Burst { bytes, answers: noise(room, random) };
    let before = course.state[..KEPT_MOST].to_vec();
    let outcome = bench.step(&mut course.state, &call);
    bench.tally().situation("room one byte short", short && outcome.number == 10);
    bench.tally().situation("end: and goes on", course.parted && outcome.number == 0);
    note_burst(bench.tally(), &before, &course.state, &call, &outcome);
    course.bursts += 1;
    course.taken += outcome.taken;
    course.said.extend(&outcome.answers[..outcome.written]);
}

fn end(bench: &mut SessionBench, course: &mut Course, random: &mut Random) -> SessionOutcome {
    bench.enter("ends");
    let answers = noise(random.pick(&[0, 3, 4, 5, 10, 12, 22, 34, 35, 100]), random);
    let before = course.state[..KEPT_MOST].to_vec();
    let outcome = bench.step(&mut course.state, &SessionCall::End { answers });
    note_end(bench.tally(), &before, &course.state, outcome.number);
    course.said.extend(&outcome.answers[..outcome.written]);
    outcome
}

/// A call or two on a damaged copy of the state, then the state as it was.
fn strike(bench: &mut SessionBench, course: &Course, random: &mut Random) {
    bench.enter("damaged states");
    let session = Session::read(&course.state).expect("a session's state");
    let (mut struck, what) = session_damage::any(&session, random);
    bench.lend(&struck);
    for _ in 0..random.between(1, 2) {
        let call = any_call(course, random);
        let number = bench.step(&mut struck, &call).number;
        bench.tally().situation(what, number == 1);
        bench.tally().situation("change that leaves a session", number != 1);
    }
    bench.lend(&course.state);
}

/// A call on a buffer of another length: a part of the state, or the state and more.
fn misfit(bench: &mut SessionBench, state: &[u8], call: &SessionCall, random: &mut Random) {
    bench.enter("other lengths");
    let (any, more) = (random.below(STATE_BYTES), STATE_BYTES + random.between(2, 4_096));
    let len = random.pick(&[0, 1, 4, any, STATE_BYTES - 4, STATE_BYTES - 1, STATE_BYTES + 1, STATE_BYTES + 4, more]);
    let mut other = state.to_vec();
    other.resize(len, random.pick(&[0, 1]));
    bench.once(&other, call);
    bench.tally().situation("one byte too few", len == STATE_BYTES - 1);
    bench.tally().situation("one byte too many", len == STATE_BYTES + 1);
}

/// Any cutting yields what one burst with room enough does, and with the end call what the text program does.
fn check_whole(bench: &mut SessionBench, course: &Course) {
    let (output, stage) = text::run(&course.input);
    let due = Session { stage, kept: Vec::new() }.stored();
    let mut at_once = Session::started().stored();
    let whole = SessionCall::Burst { bytes: course.input.clone(), answers: vec![0; output.len()] };
    session::make(&mut at_once, &whole);
    session::make(&mut at_once, &SessionCall::End { answers: vec![0; output.len()] });
    if course.said != output || course.state != due || at_once != due {
        let told = format!("  whole input {:?}", String::from_utf8_lossy(&course.input));
        bench.tally().mismatch("whole input", course.input.len(), told);
    }
    let tally = bench.tally();
    let fed = course.input.last() == Some(&LINE_FEED);
    tally.situation("whole input", fed);
    tally.situation("whole input, no last line feed", !fed && !course.input.is_empty());
    tally.situation("whole input, many bursts", course.bursts > 20);
    tally.situation("whole input, many lines", output.len() > 1_000);
    tally.situation("empty input", course.input.is_empty());
}

/// Situations of a burst on a session's state; of the states the first bytes tell enough.
fn note_burst(tally: &mut Tally, before: &[u8], after: &[u8], call: &SessionCall, outcome: &SessionOutcome) {
    let SessionCall::Burst { bytes, answers } = call else { return };
    let SessionOutcome { number, taken, written, .. } = *outcome;
    let (done, full, kept) = (number == 0, number == 10, kept_len(before));
    let no_line = !bytes.is_empty() && !bytes.contains(&LINE_FEED);
    let has_line = |len| bytes.split(|byte| *byte == LINE_FEED).any(|line| line.len() == len);
    tally.situation("burst of no bytes", done && bytes.is_empty());
    tally.situation("room just enough", done && written > 0 && written == answers.len());
    tally.situation("answers longer than written", done && written < answers.len());
    tally.situation("room for the first answers only", full && written > 0);
    tally.situation("no room, and nothing taken", full && taken == 0);
    tally.situation("no room for a line that began before", full && taken == 0 && kept > 0);
    tally.situation("no room, and only its line feed has come", full && kept > 0 && bytes[..] == [LINE_FEED]);
    tally.situation("line of 64 bytes", done && has_line(64));
    tally.situation("line of 65 bytes", done && has_line(65));
    tally.situation("65 bytes kept", done && kept_len(after) == 65);
    tally.situation("more bytes of a line than are kept", done && kept == 65 && no_line);
    tally.situation("burst amid a line", done && kept > 0 && no_line);
    tally.situation("bytes taken when stopped", done && before[0] == 3 && taken > 0);
    tally.situation("8,192 words", done && after[8..12] == MOST_WORDS.to_le_bytes());
    tally.situation("256 slots", done && after[12..16] == [0, 1, 0, 0]);
    tally.situation("last ticket", done && before[0] == 2 && before[20..24] != [0; 4] && after[20..24] == [0; 4]);
}

fn note_end(tally: &mut Tally, before: &[u8], after: &[u8], number: u32) {
    let (done, kept, stage) = (number == 0, kept_len(before) > 0, before[0]);
    tally.situation("end: no line", done && !kept);
    tally.situation("end: serves a P line", done && kept && stage == 1 && after[0] == 2);
    tally.situation("end: serves a later line", done && kept && stage == 2);
    tally.situation("end: clears a line when stopped", done && kept && stage == 3);
}
