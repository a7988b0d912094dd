//! Random lines for the text program, each aimed at the pool as the lines before it leave it.

use crate::calls;
use crate::ledger::{Ledger, Record};
use crate::random::Random;
use crate::session::{LINE_FEED, Session};
use crate::text::{PARTY, Stage};

/// The lines that a session is handed from here on, the last one now and then without its line feed.
pub fn input(session: &Session, random: &mut Random) -> Vec<u8> {
    let (mut stage, mut kept) = (session.stage.clone(), session.kept.clone());
    let count = if random.one_in(40) { 300 } else { random.pick(&[0, 1, 2, 4, 8, 12, 24]) };
    let mut input = Vec::new();
    for _ in 0..count {
        let line = line(&stage, random);
        stage.serve(&[&kept[..], &line].concat());
        kept.clear();
        input.extend(line);
        input.push(LINE_FEED);
    }
    if random.one_in(3) {
        input.pop();
    }
    input
}

fn line(stage: &Stage, random: &mut Random) -> Vec<u8> {
    let mut line = match stage {
        Stage::Serving(pool) => later_line(&pool.ledger().expect("a program keeps its pool sound"), random),
        _ => first_line(random),
    };
    if random.one_in(12) {
        spoil(&mut line, random);
    }
    line
}

fn written(letter: char, numbers: &[u32]) -> Vec<u8> {
    let mut line = letter.to_string();
    for number in numbers {
        line += &format!("\t{number}");
    }
    line.into_bytes()
}

/// Mostly a good P line; sizes at and beyond both ends of their ranges.
fn first_line(random: &mut Random) -> Vec<u8> {
    let words = match random.below(16) {
        0 => random.pick(&[0, 1, 3, 8_191, 8_193, 8_194, 16_384, 65_544, u32::MAX]),
        1 => random.pick(&[2, 8_190, 8_192]),
        _ => 2 * random.between(1, 40) as u32,
    };
    let slots = match random.below(16) {
        0 => random.pick(&[0, 257, 258, 512, 65_537, u32::MAX]),
        1 => random.pick(&[1, 255, 256]),
        _ => random.between(1, 8) as u32,
    };
    let any = random.word();
    match random.below(16) {
        0 => written('P', &[words, slots, 0]),
        1 | 2 => written('P', &[words, slots, u32::MAX - random.below(4) as u32]),
        3 => written('P', &[words, slots, any]),
        4 | 5 => written('P', &[words, slots, random.between(1, 12) as u32]),
        6 if random.one_in(4) => written('A', &[words]),
        _ => written('P', &[words, slots]),
    }
}

fn later_line(ledger: &Ledger, random: &mut Random) -> Vec<u8> {
    let Record { ticket, address, words, .. } = calls::named_by(PARTY, ledger, random);
    match random.below(24) {
        0..11 => written('A', &[calls::words(ledger, random)]),
        11..18 => written('R', &[ticket, address, words]),
        18..22 => written('T', &[ticket, address, words, calls::keep(words, ledger.rule, random)]),
        22 => first_line(random),
        _ => Vec::new(),
    }
}

/// Makes it a bad line, or nearly one.
fn spoil(line: &mut Vec<u8>, random: &mut Random) {
    let at = random.below(line.len());
    let byte = random.pick(b" \t\r\0/:09+-aparnkPARTKN\x0b\x80\xff");
    match random.below(10) {
        0 => line.clear(),
        1 => line.insert(at, byte),
        2 if !line.is_empty() => line[at] = byte,
        3 => line.truncate(at),
        4 => line.extend(b"\t"),
        5 => line.extend(b"\t0"),
        6 => line.extend(b"\t4294967296"),
        7 => *line = zero_before_number(line),
        8 => line.resize(random.between(60, 70), byte),
        _ => line.resize(random.pick(&[63, 64, 65, 66, 128, 130, 200]), b'7'),
    }
}

fn zero_before_number(line: &[u8]) -> Vec<u8> {
    let tab = line.iter().rposition(|byte| *byte == b'\t').map_or(0, |at| at + 1);
    [&line[..tab], b"0", &line[tab..]].concat()
}
