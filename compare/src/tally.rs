//! Counts: cases, mismatches, and how often each number came from each call, so that a run which
//! never reached a number fails too.

use crate::model::{Call, Engine, Kind, Outcome, SEGMENT};
use crate::session::{SessionCall, SessionOutcome};
use std::collections::BTreeMap;

pub const NUMBERS: [u32; 13] = [0, 11, 8, 1, 12, 9, 2, 3, 4, 5, 6, 7, 10];

/// Each row of the table and the numbers that can occur in it, 11 in the tree pool alone.
pub const ROWS: [(&str, &[u32]); 11] = [
    ("format", &[0, 11, 8, 6]),
    ("allocate", &[0, 11, 8, 1, 12, 2, 3, 4, 5]),
    ("release", &[0, 11, 8, 1, 12, 6, 7]),
    ("trim", &[0, 11, 8, 1, 12, 2, 6, 7]),
    ("find", &[0, 11, 8, 1, 12, 6, 7]),
    ("look", &[0, 11, 8, 1, 12, 6, 7]),
    ("list", &[0, 11, 8, 1, 12]),
    ("listed allocate", &[0, 9, 2, 3, 4, 5]),
    ("listed release", &[0, 6, 7]),
    ("listed unknown", &[9]),
    ("copy", &[0, 8]),
];

/// The same of sessions: their calls, and the lines that they serve.
pub const SESSION_ROWS: [(&str, &[u32]); 9] = [
    ("start", &[0, 8]),
    ("burst", &[0, 8, 1, 10]),
    ("end", &[0, 8, 1, 10]),
    ("line P", &[0, 8, 6]),
    ("line A", &[0, 2, 3, 4, 5]),
    ("line R", &[0, 6, 7]),
    ("line T", &[0, 2, 6, 7]),
    ("bad line", &[9]),
    ("line, stopped", &[0]),
];

/// Situations each engine must have been in, the tree pool in each of its forms.
pub const SITUATIONS: &[&str] = &[
    "grant of a whole run",
    "grant from a longer run",
    "grant of the last ticket",
    "grant in a slot below a full one",
    "release between held blocks",
    "release that joins the run below",
    "release that joins the run above",
    "release that joins both",
    "no free unit at all",
    "equal free runs",
    "shortest arena",
    "longest arena",
    "1 record",
    "256 records held",
    "257 free runs",
    "damage seen: arena",
    "damage seen: table",
    "damage seen: head",
    "damage seen: built",
    "damage seen: noise",
    "list of 0 requests",
    "list of 1,024 requests",
    "list of 1,025 requests",
    "list no multiple of four",
    "answers longer than the list",
    "answers shorter than the list",
    "ticket spent and shown again",
    "words of a replay lie there anew",
    "placeholder inside the arena",
    "demand 3: one ticket or none",
    "demand 3: two to five tickets",
    "demand 3: six tickets or more",
    "first ticket 1",
    "first ticket 4,294,967,295",
    "first ticket 0 and wrong lengths",
    "restart: replay with today's address and words",
    "restart: listed replay",
    "restart: replay with other memory",
    "restart: format refused",
    "restart: accepted call on another arena",
    "party 0",
    "party 1",
    "party 255",
    "party 256",
    "party 4,294,967,295",
    "damage seen: party",
    "records of three parties",
    "another's ticket rightly named",
    "another's ticket wrongly named",
    "listed: another's ticket",
    "no such party: empty list",
    "no such party: request of unknown kind",
    "no such party: look",
    "no such party on a damaged pool",
    "old table: 8",
    "old table: 1",
    "old table: accepted",
    "copy: full table",
    "copy: empty table",
    "copy: ticket 0 with words",
    "copy: lengths of none",
    "copy: as many words",
    "two pools: released",
    "two pools: looked at",
    "two pools: another's ticket in one",
    "two pools: both damaged",
    "trim: all kept",
    "trim: all but one kept",
    "trim: one kept",
    "trim: up to a unit's border",
    "trim: tail joins a free run",
    "trim: tail before a held block",
    "trim: tail at the arena's end",
    "trim: none to keep, unknown ticket",
    "trim: none to keep, other words",
    "trim: old release",
    "trim: old trim",
    "trim: second one",
    "demand 3: trims",
    "demand 3: old name of a trimmed run",
    "every order: four calls",
];

/// And the segment pool alone.
pub const SEGMENT_SITUATIONS: [&str; 9] = [
    "damage seen: index",
    "S above W",
    "W no multiple of S",
    "free block of one word",
    "S of 1",
    "search past a held block",
    "search past a free block",
    "blocks above the chosen one in its segment",
    "trim: tail of one word, a block of its own",
];

/// The tree pool alone, in each of its forms.
pub const TREE_SITUATIONS: [&str; 9] = [
    "no such form: 0",
    "no such form: one above the last",
    "no such form: 4,294,967,295",
    "no such form, and lengths of none",
    "another form: 8",
    "another form: 1",
    "another form: accepted",
    "trim: no unit given back",
    "trim: asked words stay as spare ones",
];

/// And form 2 alone.
pub const FORM_2_SITUATIONS: [&str; 4] = [
    "damage seen: fourth node word",
    "more than 16,384 words granted",
    "links above 65,535",
    "damage seen: links above 65,535",
];

/// And form 3 alone.
pub const FORM_3_SITUATIONS: [&str; 3] =
    ["damage seen: record on a cell", "seven spare words in a block", "length of no whole number of units"];

/// Sessions of the text program.
pub const SESSION_SITUATIONS: &[&str] = &[
    "burst of no bytes",
    "room just enough",
    "room one byte short",
    "room for the first answers only",
    "no room, and nothing taken",
    "no room for a line that began before",
    "no room, and only its line feed has come",
    "answers longer than written",
    "line of 64 bytes",
    "line of 65 bytes",
    "65 bytes kept",
    "more bytes of a line than are kept",
    "burst amid a line",
    "bytes taken when stopped",
    "end: serves a P line",
    "end: serves a later line",
    "end: clears a line when stopped",
    "end: no line",
    "end: second one",
    "end: and goes on",
    "whole input",
    "whole input, no last line feed",
    "whole input, many bursts",
    "whole input, many lines",
    "empty input",
    "8,192 words",
    "256 slots",
    "last ticket",
    "damage seen: stage",
    "damage seen: kept length",
    "damage seen: line feed kept",
    "damage seen: behind the line",
    "damage seen: head",
    "damage seen: table",
    "damage seen: behind the table",
    "damage seen: arena",
    "damage seen: behind the arena",
    "damage seen: party",
    "damage seen: pool",
    "damage seen: noise",
    "change that leaves a session",
    "one byte too few",
    "one byte too many",
];

/// What cases are about.
#[derive(Clone, Copy, PartialEq, Eq, Debug)]
pub enum Subject {
    Pool(Kind),
    Sessions,
}

pub struct Tally {
    /// What the cases are about that are counted now.
    pub subject: Subject,
    pub mismatches: u64,
    cases: BTreeMap<(&'static str, &'static str), u64>,
    seen: BTreeMap<(&'static str, &'static str, u32), u64>,
    situations: BTreeMap<(&'static str, &'static str), u64>,
    mismatches_in: BTreeMap<&'static str, u64>,
    smallest: Option<(usize, String)>,
}

impl Subject {
    fn name(self) -> &'static str {
        let Subject::Pool(kind) = self else { return "sessions" };
        match (kind.engine, kind.form) {
            (Engine::Segment, _) => "segment",
            (Engine::Tree, 1) => "tree 1",
            (Engine::Tree, 2) => "tree 2",
            (Engine::Tree, 3) => "tree 3",
            (Engine::Tree, _) => "tree",
        }
    }

    fn rows(self) -> &'static [(&'static str, &'static [u32])] {
        if self == Subject::Sessions { &SESSION_ROWS } else { &ROWS }
    }

    /// 11 is the tree pool's.
    fn has_forms(self) -> bool {
        matches!(self, Subject::Pool(Kind { engine: Engine::Tree, .. }))
    }

    fn situations(self) -> Vec<&'static str> {
        let Subject::Pool(kind) = self else { return SESSION_SITUATIONS.to_vec() };
        match (kind.engine, kind.form) {
            (Engine::Segment, _) => [SITUATIONS, &SEGMENT_SITUATIONS].concat(),
            (Engine::Tree, 2) => [SITUATIONS, &TREE_SITUATIONS, &FORM_2_SITUATIONS].concat(),
            (Engine::Tree, 3) => [SITUATIONS, &TREE_SITUATIONS, &FORM_3_SITUATIONS].concat(),
            (Engine::Tree, _) => [SITUATIONS, &TREE_SITUATIONS].concat(),
        }
    }
}

fn row(call: &Call) -> &'static str {
    match call {
        Call::Format { .. } => "format",
        Call::Allocate { .. } => "allocate",
        Call::Release(_) => "release",
        Call::Trim(..) => "trim",
        Call::Find(_) => "find",
        Call::Look(..) => "look",
        Call::List { .. } => "list",
    }
}

fn session_row(call: &SessionCall) -> &'static str {
    match call {
        SessionCall::Start => "start",
        SessionCall::Burst { .. } => "burst",
        SessionCall::End { .. } => "end",
    }
}

fn listed_row(kind: u32) -> &'static str {
    match kind {
        1 => "listed allocate",
        2 => "listed release",
        _ => "listed unknown",
    }
}

impl Tally {
    pub fn new() -> Tally {
        let (cases, seen, situations, mismatches_in) = Default::default();
        Tally { subject: Subject::Pool(SEGMENT), mismatches: 0, cases, seen, situations, mismatches_in, smallest: None }
    }

    pub fn case(&mut self, section: &'static str, call: &Call, outcome: &Outcome) {
        self.plain_case(section);
        self.number(row(call), outcome.answer.number);
        if let (Call::List { requests, .. }, 0) = (call, outcome.answer.number) {
            for (request, answer) in requests.chunks_exact(4).zip(outcome.answers.chunks_exact(4)) {
                self.number(listed_row(request[0]), answer[0]);
            }
        }
    }

    /// A copy of an old table.
    pub fn copy(&mut self, section: &'static str, number: u32) {
        self.plain_case(section);
        self.number("copy", number);
    }

    /// A call of a session, with the lines that it served.
    pub fn session(&mut self, section: &'static str, call: &SessionCall, outcome: &SessionOutcome) {
        self.plain_case(section);
        self.number(session_row(call), outcome.number);
        for (line, number) in &outcome.served {
            self.number(line, *number);
        }
    }

    /// A case whose call is not among the model's.
    pub fn plain_case(&mut self, section: &'static str) {
        *self.cases.entry((self.subject.name(), section)).or_default() += 1;
    }

    fn number(&mut self, row: &'static str, number: u32) {
        *self.seen.entry((self.subject.name(), row, number)).or_default() += 1;
    }

    pub fn situation(&mut self, situation: &'static str, holds: bool) {
        if holds {
            *self.situations.entry((self.subject.name(), situation)).or_default() += 1;
        }
    }

    /// The first few are told at once; of all, the smallest is told at the end.
    pub fn mismatch(&mut self, section: &'static str, size: usize, told: String) {
        self.mismatches += 1;
        *self.mismatches_in.entry(section).or_default() += 1;
        if self.mismatches <= 3 {
            println!("MISMATCH\n{told}");
        }
        if self.smallest.as_ref().is_none_or(|(least, _)| size < *least) {
            self.smallest = Some((size, told));
        }
    }

    /// Cases so far of what is counted now.
    pub fn cases(&self) -> u64 {
        self.cases_of(self.subject)
    }

    fn cases_of(&self, subject: Subject) -> u64 {
        self.cases.iter().filter(|((of, _), _)| *of == subject.name()).map(|(_, count)| count).sum()
    }

    /// Prints everything; true if nothing is missing.
    pub fn report(&self, subjects: &[Subject]) -> bool {
        let mut whole = true;
        for subject in subjects {
            whole &= self.report_numbers(*subject) & self.report_situations(*subject);
        }
        for subject in subjects {
            self.report_cases(*subject);
        }
        if let Some((_, told)) = &self.smallest {
            println!("the smallest mismatch:\n{told}");
        }
        let parts = self.mismatches_in.iter().map(|(section, count)| format!(", {section} {count}"));
        println!("mismatches: {}{}", self.mismatches, parts.collect::<String>());
        whole
    }

    fn report_numbers(&self, subject: Subject) -> bool {
        let heading: String = NUMBERS.iter().map(|number| format!("{number:>9}")).collect();
        println!("{:<8} {:<16}{heading}", subject.name(), "number:");
        subject.rows().iter().fold(true, |whole, (row, possible)| self.report_row(subject, row, possible) & whole)
    }

    fn report_row(&self, subject: Subject, row: &'static str, possible: &[u32]) -> bool {
        let mut whole = true;
        let mut line = String::new();
        for number in NUMBERS {
            let count = self.seen.get(&(subject.name(), row, number)).copied().unwrap_or(0);
            let may = possible.contains(&number) && (number != 11 || subject.has_forms());
            whole &= may == (count > 0);
            line += &match (may, count) {
                (false, 0) => format!("{:>9}", "."),
                (true, 0) => format!("{:>9}", "NEVER"),
                (false, _) => format!("{:>8}!", count),
                (true, _) => format!("{count:>9}"),
            };
        }
        println!("{:<8} {row:<16}{line}", subject.name());
        whole
    }

    fn report_situations(&self, subject: Subject) -> bool {
        let count = |situation: &'static str| self.situations.get(&(subject.name(), situation)).copied().unwrap_or(0);
        let all = subject.situations().into_iter();
        let all: Vec<(&str, u64)> = all.map(|situation| (situation, count(situation))).collect();
        let told: Vec<String> = all.iter().map(|(situation, count)| format!("{situation} {count}")).collect();
        println!("{} situations: {}", subject.name(), told.join("; "));
        let missing: Vec<&str> = all.iter().filter(|(_, count)| *count == 0).map(|(situation, _)| *situation).collect();
        if !missing.is_empty() {
            println!("NEVER: {}", missing.join("; "));
        }
        missing.is_empty()
    }

    fn report_cases(&self, subject: Subject) {
        let of_it = self.cases.iter().filter(|((of, _), _)| *of == subject.name());
        let parts: Vec<String> = of_it.map(|((_, section), count)| format!("{section} {count}")).collect();
        println!("cases, {}: {} ({})", subject.name(), self.cases_of(subject), parts.join(", "));
    }
}
