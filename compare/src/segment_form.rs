//! The stored form of the segment pool, computed from the ledger: control words and index.
//! Arena words are kept as bits; a control word is read as a signed number.

use crate::ledger::Ledger;

#[derive(Clone, Copy)]
pub struct Block {
    pub first: usize,
    pub size: usize,
    pub held: bool,
}

/// The arena, held words but control words taken from `words`, and the index.
pub fn stored(ledger: &Ledger, segments: usize, words: &[u32]) -> (Vec<u32>, Vec<u32>) {
    let blocks = blocks_of(ledger);
    let mut arena = words.to_vec();
    lay(&blocks, &mut arena);
    let index = index_of(&blocks, words.len(), segments);
    (arena, index)
}

/// Every block, free or held, by address.
pub fn blocks_of(ledger: &Ledger) -> Vec<Block> {
    let held = ledger.held_runs().into_iter().map(|run| (run, true));
    let free = ledger.free_runs().into_iter().map(|run| (run, false));
    let mut blocks: Vec<Block> =
        held.chain(free).map(|(run, held)| Block { first: run.first, size: run.count, held }).collect();
    blocks.sort_unstable_by_key(|block| block.first);
    blocks
}

/// Control words, positive if free and negative if held; the other words of free blocks are zero.
pub fn lay(blocks: &[Block], arena: &mut [u32]) {
    for block in blocks {
        let size = block.size as i32;
        if !block.held {
            arena[block.first..block.first + block.size].fill(0);
        }
        arena[block.first] = if block.held { -size } else { size } as u32;
    }
}

/// Word 0; the maxima; the leaves; the first control word of each segment.
pub fn index_of(blocks: &[Block], words: usize, segments: usize) -> Vec<u32> {
    let per_segment = words.div_ceil(segments);
    let mut index = vec![0; 2 * segments];
    index.resize(3 * segments, words as u32);
    for block in blocks {
        let segment = block.first / per_segment;
        let worth = if block.held { 1 } else { block.size as u32 };
        index[segments + segment] = index[segments + segment].max(worth);
        index[2 * segments + segment] = index[2 * segments + segment].min(block.first as u32);
    }
    raise(&mut index, segments);
    index
}

fn raise(index: &mut [u32], segments: usize) {
    for node in (1..segments).rev() {
        index[node] = index[2 * node].max(index[2 * node + 1]);
    }
}
