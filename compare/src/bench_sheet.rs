//! The bench sheet of document 01, T1 to T14, with every word it names; one of its kind for form 2; and the case of
//! request 11.

use crate::bench::Bench;
use crate::ledger::Record;
use crate::model::{Answer, Call, Engine, Head, Kind, Pool, SEGMENT};

/// Plays one line of the sheet on both sides and holds the answer against the sheet.
struct Sheet<'a> {
    bench: &'a mut Bench,
    pool: Pool,
}

impl Sheet<'_> {
    fn new(bench: &mut Bench, kind: Kind, words: usize, segments: u32) -> Sheet<'_> {
        let junk = |len: usize| vec![0xDEAD_BEEF; len];
        let head = Head { form: kind.form, ..Head::default() };
        let index = junk(3 * segments as usize);
        let pool = Pool { engine: kind.engine, head, arena: junk(words), table: junk(16), segments, index };
        bench.lend(&pool);
        Sheet { bench, pool }
    }

    fn due<T: PartialEq + std::fmt::Debug>(&mut self, line: &str, got: T, due: T) {
        if got != due {
            let told = format!("  bench sheet {line}: due {due:?}, the model has {got:?}");
            self.bench.tally.mismatch(self.bench.section, 0, told);
        }
    }

    fn format(&mut self, line: &str) {
        let form = self.pool.head.form;
        let outcome = self.bench.step(&mut self.pool, &Call::Format { form, first: 1 });
        self.due(line, outcome.answer, Answer::default());
    }

    /// Hands back the places looked at.
    fn grant(&mut self, line: &str, words: u32, ticket: u32, address: u32) -> Option<u32> {
        let outcome = self.bench.step(&mut self.pool, &Call::Allocate { party: 1, words });
        self.due(line, outcome.answer, Answer { number: 0, ticket, address, words });
        outcome.places
    }

    fn no_grant(&mut self, line: &str, words: u32, number: u32) -> Option<u32> {
        let outcome = self.bench.step(&mut self.pool, &Call::Allocate { party: 1, words });
        self.due(line, outcome.answer, Answer::refusal(number));
        outcome.places
    }

    fn release(&mut self, line: &str, [ticket, address, words]: [u32; 3], number: u32) {
        let named = Record { ticket, address, words, party: 1 };
        let outcome = self.bench.step(&mut self.pool, &Call::Release(named));
        let done = Answer { number, ticket, address, words };
        self.due(line, outcome.answer, if number == 0 { done } else { Answer::refusal(number) });
    }

    fn word(&mut self, line: &str, at: usize, due: u32) {
        self.due(line, self.pool.arena[at], due);
    }

    fn words(&mut self, line: &str, from: usize, due: &[u32]) {
        self.due(line, self.pool.arena[from..from + due.len()].to_vec(), due.to_vec());
    }

    fn root(&mut self, line: &str, due: u32) {
        self.due(line, self.pool.head.root, due);
    }

    fn index(&mut self, line: &str, tree: [u32; 8], first: [u32; 4]) {
        self.due(line, self.pool.index.clone(), [&tree[..], &first[..]].concat());
    }
}

pub fn run(bench: &mut Bench, kind: Kind) {
    bench.section = "bench sheet";
    match (kind.engine, kind.form) {
        (Engine::Tree, 1) => tree_1(bench),
        (Engine::Tree, 3) => tree_3(bench),
        (Engine::Tree, _) => {
            tree_2(bench);
            tree_2_large(bench);
        }
        (Engine::Segment, _) => segment(bench),
    }
}

fn tree_1(bench: &mut Bench) {
    let mut sheet = Sheet::new(bench, Kind::tree(1), 24, 0);
    sheet.format("T1");
    sheet.word("T1", 0, 12);
    sheet.word("T1", 1, 0);
    sheet.root("T1", 1);
    sheet.grant("T2", 5, 1, 0);
    sheet.grant("T3", 4, 2, 6);
    sheet.grant("T4", 6, 3, 10);
    sheet.word("T4", 16, 4);
    sheet.word("T4", 17, 0);
    sheet.root("T4", 9);
    sheet.release("T5", [1, 0, 5], 0);
    sheet.word("T5", 0, 3);
    sheet.word("T5", 17, 1);
    sheet.root("T5", 9);
    sheet.release("T6", [1, 0, 5], 6);
    sheet.grant("T7", 7, 4, 16);
    sheet.due("T7", sheet.pool.table[..4].to_vec(), vec![4, 16, 7, 1]);
    sheet.root("T7", 1);
    tree_after_t7(&mut sheet);
}

fn tree_after_t7(sheet: &mut Sheet) {
    sheet.release("T8", [3, 10, 6], 0);
    sheet.root("T8", 1);
    sheet.word("T8", 1, 393_216);
    sheet.word("T8", 10, 3);
    sheet.word("T8", 11, 0);
    sheet.no_grant("T9", 8, 5);
    sheet.release("T10", [2, 6, 5], 7);
    sheet.release("T11", [2, 6, 4], 0);
    sheet.word("T11", 0, 8);
    sheet.words("T11", 1, &[0; 15]);
    sheet.no_grant("A 0", 0, 2);
    sheet.no_grant("A 16,385", 16_385, 2);
    sheet.no_grant("A 16,384", 16_384, 5);
}

/// The sheet's own course in cells of four words: length, left link, right link, 0.
fn tree_2(bench: &mut Bench) {
    let mut sheet = Sheet::new(bench, Kind::tree(2), 24, 0);
    sheet.format("form 2, fresh");
    sheet.words("form 2, fresh", 0, &[6, 0, 0, 0]);
    sheet.root("form 2, fresh", 1);
    sheet.grant("form 2, one cell", 1, 1, 0);
    sheet.grant("form 2, two cells", 5, 2, 4);
    sheet.grant("form 2, a whole cell", 4, 3, 12);
    sheet.words("form 2, the rest", 16, &[2, 0, 0, 0]);
    sheet.root("form 2, the rest", 5);
    sheet.release("form 2, release", [1, 0, 1], 0);
    sheet.words("form 2, release", 0, &[1, 0, 0, 0]);
    sheet.words("form 2, release", 16, &[2, 1, 0, 0]);
    sheet.release("form 2, again", [1, 0, 1], 6);
    sheet.grant("form 2, the last two cells", 8, 4, 16);
    sheet.root("form 2, the last two cells", 1);
    sheet.release("form 2, equal lengths", [3, 12, 4], 0);
    sheet.root("form 2, equal lengths", 1);
    sheet.words("form 2, equal lengths", 0, &[1, 0, 4, 0]);
    sheet.words("form 2, equal lengths", 12, &[1, 0, 0, 0]);
    sheet.no_grant("form 2, two cells apart", 5, 5);
    sheet.release("form 2, other words", [2, 4, 6], 7);
    sheet.release("form 2, both joined", [2, 4, 5], 0);
    sheet.words("form 2, both joined", 0, &[4, 0, 0, 0, 0, 0, 0, 0, 0, 0, 0, 0, 0, 0, 0, 0]);
    sheet.no_grant("form 2, A 0", 0, 2);
    sheet.no_grant("form 2, A 1,048,577", 1_048_577, 2);
    sheet.no_grant("form 2, A 1,048,576", 1_048_576, 5);
    sheet.no_grant("form 2, A 16,385", 16_385, 5);
}

/// As many words as there can be: links that do not go into half a word.
fn tree_2_large(bench: &mut Bench) {
    let mut sheet = Sheet::new(bench, Kind::tree(2), 1_048_576, 0);
    sheet.format("form 2, large");
    sheet.words("form 2, large", 0, &[262_144, 0, 0, 0]);
    sheet.grant("form 2, large", 700_001, 1, 0);
    sheet.grant("form 2, large", 3, 2, 700_004);
    sheet.root("form 2, large", 175_003);
    sheet.release("form 2, large", [1, 0, 700_001], 0);
    sheet.words("form 2, large", 0, &[175_001, 0, 175_003, 0]);
    sheet.words("form 2, large", 700_008, &[87_142, 0, 0, 0]);
    sheet.grant("form 2, large", 700_004, 3, 0);
    sheet.root("form 2, large", 175_003);
    sheet.release("form 2, large", [2, 700_004, 3], 0);
    sheet.words("form 2, large", 700_004, &[87_143, 0, 0, 0, 0]);
    sheet.root("form 2, large", 175_002);
    sheet.grant("form 2, large", 348_572, 4, 700_004);
    sheet.root("form 2, large", 0);
}

/// Request 11's case, then the releases in all six orders.
fn tree_3(bench: &mut Bench) {
    let held = [[1, 0, 5], [2, 8, 4], [3, 16, 6]];
    for order in [[0, 1, 2], [0, 2, 1], [1, 0, 2], [1, 2, 0], [2, 0, 1], [2, 1, 0]] {
        let mut sheet = Sheet::new(bench, Kind::tree(3), 24, 0);
        sheet.format("form 3, fresh");
        sheet.words("form 3, fresh", 0, &[12, 0]);
        for [ticket, address, words] in held {
            sheet.grant("form 3", words, ticket, address);
        }
        sheet.no_grant("form 3, A 1", 1, 5);
        sheet.root("form 3, full", 0);
        for at in order {
            sheet.release("form 3, release", held[at], 0);
            sheet.words("form 3, release", held[at][1] as usize + 2, &[0; 6]);
        }
        sheet.root("form 3, all released", 1);
        sheet.word("form 3, all released", 0, 12);
        sheet.words("form 3, all released", 1, &[0; 23]);
        sheet.no_grant("form 3, A 16,385", 16_385, 2);
    }
    let mut sheet = Sheet::new(bench, Kind::tree(3), 12, 0);
    let refused = sheet.bench.step(&mut sheet.pool, &Call::Format { form: 3, first: 1 });
    sheet.due("form 3, 12 words", refused.answer, Answer::refusal(8));
}

fn segment(bench: &mut Bench) {
    let mut sheet = Sheet::new(bench, SEGMENT, 16, 4);
    sheet.format("T12");
    sheet.word("T12", 0, 16);
    sheet.index("T12", [0, 16, 16, 0, 16, 0, 0, 0], [0, 16, 16, 16]);
    sheet.grant("T13", 3, 1, 1);
    sheet.word("T13", 0, -4i32 as u32);
    sheet.word("T13", 4, 12);
    sheet.index("T13", [0, 12, 12, 0, 1, 12, 0, 0], [0, 4, 16, 16]);
    let places = sheet.no_grant("A 12", 12, 5);
    sheet.due("A 12", places, Some(1));
    let places = sheet.grant("T14", 11, 2, 5);
    sheet.due("T14", places, Some(4));
    sheet.index("T14", [0, 1, 1, 0, 1, 1, 0, 0], [0, 4, 16, 16]);
}
