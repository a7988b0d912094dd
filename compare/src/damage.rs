//! Damaged pools, made from sound ones: a word or two changed, whole forms built by a wrong rule,
//! noise. The model decides which of them are no pool; some changes leave one.

use crate::calls;
use crate::ledger::{Ledger, RECORD_WORDS, Run};
use crate::model::{Engine, Kind, Pool};
use crate::random::Random;
use crate::segment_form;
use crate::tree_form::{self, Form};

/// The form that the pool's head names; forms that there are not are no damage of the kinds below.
fn form_of(pool: &Pool) -> Form {
    tree_form::form(pool.head.form).unwrap_or(Form { cell: 2, unit: 2, most: 16_384 })
}

/// Changes the pool and says what kind of change it was.
pub fn any(pool: &mut Pool, ledger: &Ledger, random: &mut Random) -> &'static str {
    match random.below(16) {
        0 => {
            noise(pool, random);
            "damage seen: noise"
        }
        1..5 => {
            build(pool, ledger, random);
            "damage seen: built"
        }
        5..13 => change(pool, ledger, random),
        _ => {
            change(pool, ledger, random);
            change(pool, ledger, random)
        }
    }
}

/// Changes one word of arena, table, index or head; in the arena, mostly where headers lie.
fn change(pool: &mut Pool, ledger: &Ledger, random: &mut Random) -> &'static str {
    let value = random.word();
    match random.below(12) {
        0..6 => {
            let at = arena_word(pool, ledger, random);
            change_in(&mut pool.arena, at, random);
            "damage seen: arena"
        }
        6 if random.one_in(2) => {
            strike_party(pool, random);
            "damage seen: party"
        }
        6..9 => {
            let at = random.below(pool.table.len());
            change_in(&mut pool.table, at, random);
            "damage seen: table"
        }
        9 if pool.engine == Engine::Tree && pool.head.form == 2 && random.one_in(2) => {
            fourth_word(pool, ledger, random);
            "damage seen: fourth node word"
        }
        9 if pool.engine == Engine::Tree && pool.head.form == 3 && random.one_in(2) => {
            lay_on_cells(pool, random);
            "damage seen: record on a cell"
        }
        9 if pool.engine == Engine::Tree => {
            pool.head.root = near(pool.head.root, value, random);
            "damage seen: head"
        }
        10 => {
            pool.head.next = match random.below(3) {
                0 => random.pick(&pool.table),
                1 => random.below(4) as u32,
                _ => near(pool.head.next, value, random),
            };
            "damage seen: head"
        }
        _ if pool.engine == Engine::Segment => {
            let at = random.below(pool.index.len());
            change_in(&mut pool.index, at, random);
            "damage seen: index"
        }
        _ => {
            rotate(pool, ledger, random);
            "damage seen: built"
        }
    }
}

/// A record's party, live or not, becomes one that there is not, or another.
fn strike_party(pool: &mut Pool, random: &mut Random) {
    let slot = random.below(pool.table.len() / RECORD_WORDS);
    let party = if random.one_in(5) { calls::good_party(random) } else { calls::bad_party(random) };
    pool.table[RECORD_WORDS * slot + 3] = party;
}

/// The word of a node of form 2 that is 0 in every pool.
fn fourth_word(pool: &mut Pool, ledger: &Ledger, random: &mut Random) {
    let runs = ledger.free_runs();
    if !runs.is_empty() {
        let at = 4 * random.pick(&runs).first + 3;
        let any = random.word() | 1;
        pool.arena[at] = random.pick(&[1, any, 65_536, pool.arena[at - 1], pool.arena[at - 2], pool.arena[at - 3]]);
    }
}

/// A record of form 3 is moved or made shorter or longer by cells, and all else is as form 1 has it then.
fn lay_on_cells(pool: &mut Pool, random: &mut Random) {
    let slot = RECORD_WORDS * random.below(pool.table.len() / RECORD_WORDS);
    match random.below(3) {
        0 => pool.table[slot + 1] = pool.table[slot + 1].wrapping_add(2 * random.between(1, 3) as u32),
        1 => pool.table[slot + 1] = pool.table[slot + 1].wrapping_sub(2 * random.between(1, 3) as u32),
        _ => {}
    }
    let cells = Kind::tree(1);
    let read = Ledger::read(cells.known_rule(), pool.arena.len(), &pool.table, pool.head.next);
    if let Some(ledger) = read {
        *pool = Pool::stored(cells, &ledger, pool.segments, &pool.arena);
        pool.head.form = 3;
    }
}

/// A place in the arena: any word, a block's first words, a word inside a free run.
fn arena_word(pool: &Pool, ledger: &Ledger, random: &mut Random) -> usize {
    let mut runs = ledger.free_runs();
    if pool.engine == Engine::Segment && random.one_in(2) {
        runs = ledger.held_runs();
    }
    if runs.is_empty() || random.one_in(4) {
        return random.below(pool.arena.len());
    }
    let words = ledger.rule.words_of(random.pick(&runs));
    match random.below(4) {
        0 => random.between(words.start, words.end - 1),
        1 => (words.start + 1 + random.below(ledger.rule.unit / 2)).min(words.end - 1),
        _ => words.start,
    }
}

fn change_in(words: &mut [u32], at: usize, random: &mut Random) {
    let other = random.pick(words);
    words[at] = near(words[at], other, random);
}

/// Another value a slip could leave: one off, a bit turned, a sign, a link, a neighbour's word.
fn near(old: u32, other: u32, random: &mut Random) -> u32 {
    match random.below(12) {
        0 => old.wrapping_add(1),
        1 => old.wrapping_sub(1),
        2 => old ^ (1 << random.below(32)),
        3 => old.wrapping_neg(),
        4 => 0,
        5 => 1,
        6 => random.word(),
        7 => old.rotate_left(16),
        8 => old.wrapping_add(65_536),
        9 => random.pick(&[i32::MIN as u32, i32::MAX as u32, u32::MAX, 65_536, 65_537]),
        10 => random.below(40) as u32,
        _ => other,
    }
}

/// Turns a node and its right son round: addresses stay in order, lengths may not.
fn rotate(pool: &mut Pool, ledger: &Ledger, random: &mut Random) {
    let form = form_of(pool);
    let nodes: Vec<usize> = form.free_cells(ledger).iter().map(|run| run.first).collect();
    let cells = (pool.arena.len() / form.cell) as u32;
    let links_of = |node: usize| form.links(&pool.arena, node);
    let turnable: Vec<usize> = nodes.iter().copied().filter(|node| (1..=cells).contains(&links_of(*node)[1])).collect();
    if turnable.is_empty() {
        return;
    }
    let father = random.pick(&turnable);
    let [outer, son_link] = links_of(father);
    let son = son_link as usize - 1;
    let [inner, far] = links_of(son);
    let father_link = father as u32 + 1;
    let turned = |link: u32| if link == father_link { son_link } else { link };
    for node in nodes {
        let links = form.links(&pool.arena, node).map(turned);
        form.set_links(&mut pool.arena, node, links);
    }
    form.set_links(&mut pool.arena, father, [outer, inner]);
    form.set_links(&mut pool.arena, son, [father_link, far]);
    pool.head.root = turned(pool.head.root);
}

/// A whole form built by a wrong rule.
fn build(pool: &mut Pool, ledger: &Ledger, random: &mut Random) {
    match (random.below(6), pool.engine) {
        (0, _) => forget_record(pool, ledger, random),
        (1, _) => add_record(pool, random),
        (2 | 3, Engine::Tree) => plant_wrong(pool, ledger, random),
        (_, Engine::Tree) => snare(pool, ledger, random),
        (2 | 3, Engine::Segment) => lay_wrong(pool, ledger, random),
        (_, Engine::Segment) => index_wrong(pool, ledger, random),
    }
}

/// The block stays as it was, the record goes.
fn forget_record(pool: &mut Pool, ledger: &Ledger, random: &mut Random) {
    let slot = random.below(ledger.slots.len());
    pool.table[RECORD_WORDS * slot..RECORD_WORDS * (slot + 1)].fill(0);
}

/// The record comes, perhaps over another block; half the time the form follows where it can.
fn add_record(pool: &mut Pool, random: &mut Random) {
    let slot = random.below(pool.table.len() / RECORD_WORDS);
    let party = random.pick(&[0, 1, 1, 2, 255, 256]);
    let record = [random.between(0, 9), random.below(pool.arena.len() + 2), random.between(0, 5), party];
    for (word, value) in pool.table[RECORD_WORDS * slot..].iter_mut().zip(record) {
        *word = value as u32;
    }
    let kind = pool.kind();
    let read = kind.rule().and_then(|rule| Ledger::read(rule, pool.arena.len(), &pool.table, pool.head.next));
    if let (Some(ledger), true) = (read, random.one_in(2)) {
        *pool = Pool::stored(kind, &ledger, pool.segments, &pool.arena);
    }
}

/// Free runs split in two, left out, or stretched, in a tree that is right for them.
fn plant_wrong(pool: &mut Pool, ledger: &Ledger, random: &mut Random) {
    let form = form_of(pool);
    let mut runs = form.free_cells(ledger);
    if runs.is_empty() {
        return;
    }
    let at = random.below(runs.len());
    let Run { first, count } = runs[at];
    match random.below(3) {
        0 if count > 1 => {
            let low = random.between(1, count - 1);
            runs[at].count = low;
            runs.insert(at + 1, Run { first: first + low, count: count - low });
        }
        1 if first + count < pool.arena.len() / form.cell => runs[at].count += 1,
        _ => {
            runs.remove(at);
        }
    }
    pool.head.root = form.plant(&runs, &mut pool.arena);
}

/// Links that lead a walk round or along very many ways: sons shared, fathers as sons.
fn snare(pool: &mut Pool, ledger: &Ledger, random: &mut Random) {
    let form = form_of(pool);
    let cells = pool.arena.len() / form.cell;
    let everywhere = random.one_in(2);
    let style = random.below(3);
    let nodes: Vec<usize> =
        if everywhere { (0..cells).collect() } else { form.free_cells(ledger).iter().map(|run| run.first).collect() };
    for (place, &node) in nodes.iter().enumerate() {
        let ahead = nodes[(place + 1) % nodes.len()] as u32 + 1;
        let back = nodes[place.saturating_sub(1)] as u32 + 1;
        let any = nodes[random.below(nodes.len())] as u32 + 1;
        pool.arena[form.cell * node] = if everywhere { 1 } else { pool.arena[form.cell * node] };
        let left = [ahead, back, any][style];
        form.set_links(&mut pool.arena, node, [left, ahead]);
    }
    if everywhere && random.one_in(2) {
        pool.table.fill(0);
        pool.head.root = 1;
    }
}

/// Blocks split in two, or with the wrong sign, under an index that is right for them.
fn lay_wrong(pool: &mut Pool, ledger: &Ledger, random: &mut Random) {
    let mut blocks = segment_form::blocks_of(ledger);
    let at = random.below(blocks.len());
    let block = blocks[at];
    if block.size > 1 && random.one_in(2) {
        let low = random.between(1, block.size - 1);
        blocks[at].size = low;
        let rest = segment_form::Block { first: block.first + low, size: block.size - low, held: block.held };
        blocks.insert(at + 1, rest);
    } else {
        blocks[at].held = !block.held;
    }
    segment_form::lay(&blocks, &mut pool.arena);
    pool.index = segment_form::index_of(&blocks, pool.arena.len(), pool.segments as usize);
}

/// Leaves of 0 for segments with held blocks only, a part of the index for another S, parts swapped.
fn index_wrong(pool: &mut Pool, ledger: &Ledger, random: &mut Random) {
    let segments = pool.segments as usize;
    let blocks = segment_form::blocks_of(ledger);
    match random.below(4) {
        0 => {
            let free: Vec<_> = blocks.iter().filter(|block| !block.held).copied().collect();
            let index = segment_form::index_of(&free, pool.arena.len(), segments);
            pool.index[..2 * segments].copy_from_slice(&index[..2 * segments]);
        }
        1 => {
            let index = segment_form::index_of(&blocks, pool.arena.len(), segments * 2);
            pool.index.copy_from_slice(&index[..3 * segments]);
        }
        2 => pool.index.rotate_left(segments),
        _ => pool.index[..segments].fill(0),
    }
}

/// Any contents at all, now and then with an empty table so that the arena decides.
fn noise(pool: &mut Pool, random: &mut Random) {
    random.fill(&mut pool.arena);
    random.fill(&mut pool.table);
    random.fill(&mut pool.index);
    if pool.engine == Engine::Tree {
        pool.head.root = random.pick(&[0, 1, 2, pool.head.root, u32::MAX]);
    }
    pool.head.next = random.pick(&[0, 1, 2, pool.head.next, u32::MAX]);
    if random.one_in(2) {
        pool.table.fill(0);
    }
}
