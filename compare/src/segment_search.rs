//! How many places an allocation in the segment pool looks at (request 5), twice: 001's search in the
//! stored words with its comparisons counted, and the number that document 02 defines from the ledger.

use crate::ledger::{Ledger, Record};
use crate::segment_form::blocks_of;

/// 001's search for a free block of n words or more, its control word counted: where it is, and one
/// place for the root, one for each level, one for each block scanned.
pub fn search(arena: &[u32], index: &[u32], segments: usize, n: u32) -> (Option<usize>, u32) {
    let mut places = 1;
    if index[1] < n {
        return (None, places);
    }
    let mut node = 1;
    while node < segments {
        places += 1;
        node = if index[2 * node] >= n { 2 * node } else { 2 * node + 1 };
    }
    let mut at = index[segments + node] as usize;
    loop {
        places += 1;
        let control = arena[at] as i32;
        if control >= n as i32 {
            return (Some(at), places);
        }
        at += control.unsigned_abs() as usize;
    }
}

/// 02's number: 1 for 5, 0 for other refusals, else 1, plus the logarithm of S, plus the blocks that
/// begin in the chosen segment at or below the chosen one.
pub fn places(before: &Ledger, segments: usize, granted: Result<Record, u32>) -> u32 {
    let chosen = match granted {
        Ok(record) => record.address as usize - 1,
        Err(number) => return (number == 5) as u32,
    };
    let per_segment = before.units.div_ceil(segments);
    let firsts = blocks_of(before).into_iter().map(|block| block.first);
    let counted = firsts.filter(|first| first / per_segment == chosen / per_segment && *first <= chosen);
    1 + segments.trailing_zeros() + counted.count() as u32
}

/// 02's limit.
pub fn most_places(words: usize, segments: usize) -> u32 {
    1 + segments.trailing_zeros() + words.div_ceil(segments) as u32
}
