//! The text program of document 01, on a tree pool of form 1 and party 1, with the optional third number of request
//! 2's P line and the T line of request 13.

use crate::ledger::{RECORD_WORDS, Record};
use crate::model::{self, Answer, Call, Engine, Head, Pool};

pub const PARTY: u32 = 1;
pub const MOST_WORDS: u32 = 8_192;
pub const MOST_SLOTS: u32 = 256;
const LONGEST_LINE: usize = 64;
const LINE_FEED: u8 = 10;

/// Where the program stands.
#[derive(Clone, PartialEq, Eq, Debug)]
pub enum Stage {
    BeforeP,
    Serving(Pool),
    Stopped,
}

/// What a line is answered: a line with its line feed, or nothing by a program that has stopped.
pub struct Reply {
    /// What sort of line it was.
    pub to: &'static str,
    pub number: u32,
    pub line: Vec<u8>,
}

/// A pool of so many words and slots with this head, both within the program's limits.
pub fn pool(head: Head, arena: Vec<u32>, table: Vec<u32>) -> Pool {
    Pool { engine: Engine::Tree, head, arena, table, segments: 0, index: Vec::new() }
}

/// The whole program: what it writes, and where it stands then.
pub fn run(input: &[u8]) -> (Vec<u8>, Stage) {
    let (mut stage, mut output) = (Stage::BeforeP, Vec::new());
    let mut lines: Vec<&[u8]> = input.split(|byte| *byte == LINE_FEED).collect();
    if lines.last().is_some_and(|last| last.is_empty()) {
        lines.pop();
    }
    for line in lines {
        output.extend(stage.serve(line).line);
    }
    (output, stage)
}

impl Stage {
    /// Serves a line, given without its line feed.
    pub fn serve(&mut self, line: &[u8]) -> Reply {
        match self {
            Stage::BeforeP => {
                let (stage, reply) = first_line(line);
                *self = stage;
                reply
            }
            Stage::Serving(pool) => later_line(pool, line),
            Stage::Stopped => Reply { to: "line, stopped", number: 0, line: Vec::new() },
        }
    }
}

/// The letter and the numbers; none of a bad line.
fn fields(line: &[u8]) -> Option<(&str, Vec<u32>)> {
    if line.len() > LONGEST_LINE {
        return None;
    }
    let mut fields = std::str::from_utf8(line).ok()?.split('\t');
    let letter = fields.next()?;
    let numbers: Option<Vec<u32>> = fields.map(number).collect();
    Some((letter, numbers?))
}

/// Decimal, without a leading zero.
fn number(field: &str) -> Option<u32> {
    let leading_zero = field.len() > 1 && field.starts_with('0');
    if leading_zero || !field.bytes().all(|byte| byte.is_ascii_digit()) { None } else { field.parse().ok() }
}

fn line_of(letter: &str, numbers: &[u32]) -> Vec<u8> {
    let fields: String = numbers.iter().map(|number| format!("\t{number}")).collect();
    format!("{letter}{fields}\n").into_bytes()
}

fn refusal(to: &'static str, number: u32) -> Reply {
    Reply { to, number, line: line_of("N", &[number]) }
}

fn bad_line() -> Reply {
    refusal("bad line", 9)
}

fn first_line(line: &[u8]) -> (Stage, Reply) {
    let numbers = match fields(line) {
        Some(("P", numbers)) if matches!(numbers.len(), 2 | 3) => numbers,
        _ => return (Stage::Stopped, bad_line()),
    };
    let (words, slots, first) = (numbers[0], numbers[1], *numbers.get(2).unwrap_or(&1));
    match formatted(words, slots, first) {
        Ok(pool) => (Stage::Serving(pool), Reply { to: "line P", number: 0, line: line_of("P", &numbers) }),
        Err(number) => (Stage::Stopped, refusal("line P", number)),
    }
}

fn formatted(words: u32, slots: u32, first: u32) -> Result<Pool, u32> {
    if words > MOST_WORDS || slots > MOST_SLOTS {
        return Err(8);
    }
    let mut pool = pool(Head::default(), vec![0; words as usize], vec![0; RECORD_WORDS * slots as usize]);
    match model::make(&mut pool, &Call::Format { form: 1, first }).answer.number {
        0 => Ok(pool),
        number => Err(number),
    }
}

fn later_line(pool: &mut Pool, line: &[u8]) -> Reply {
    let Some((letter, numbers)) = fields(line) else { return bad_line() };
    let named = |ticket, address, words| Record { ticket, address, words, party: PARTY };
    let (to, call) = match (letter, &numbers[..]) {
        ("A", &[words]) => ("line A", Call::Allocate { party: PARTY, words }),
        ("R", &[ticket, address, words]) => ("line R", Call::Release(named(ticket, address, words))),
        ("T", &[ticket, address, words, keep]) => ("line T", Call::Trim(named(ticket, address, words), keep)),
        _ => return bad_line(),
    };
    match model::make(pool, &call).answer {
        Answer { number: 0, ticket, address, words } => {
            Reply { to, number: 0, line: line_of("K", &[ticket, address, words]) }
        }
        Answer { number, .. } => refusal(to, number),
    }
}
