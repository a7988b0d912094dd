//! Wrong lengths: lent buffers and S just outside the ranges, or far outside.

use crate::ledger::UnitRule;
use crate::model::{Engine, Pool};
use crate::random::Random;

/// Three times 0x5555_5556 is 2 in 32 bits. The last five are right, but mostly not for this pool.
const SEGMENTS: [u32; 21] =
    [0, 3, 5, 6, 7, 9, 12, 96, 255, 257, 384, 512, 1_024, 1 << 31, 0x5555_5556, u32::MAX, 1, 2, 4, 8, 256];

/// Makes one length or S wrong, or two of them; now and then the result suits after all.
pub fn misfit(pool: &mut Pool, random: &mut Random) {
    misfit_one(pool, random);
    if random.one_in(6) {
        misfit_one(pool, random);
    }
}

fn misfit_one(pool: &mut Pool, random: &mut Random) {
    match (random.below(6), pool.engine) {
        (0 | 1, _) => {
            let near = (pool.arena.len() + 1).saturating_sub(random.below(3));
            let outside = outside(pool, near, random);
            let len = random.pick(&[0, 1, 3, near, near, near, outside, outside]);
            resize(&mut pool.arena, len, random);
        }
        (2 | 3, _) | (_, Engine::Tree) => {
            let near = (pool.table.len() + 4).saturating_sub(random.below(9));
            let len = random.pick(&[0, 1, 2, 3, 5, 6, 1_023, 1_025, 1_026, 1_028, 1_032, near, near, near]);
            resize(&mut pool.table, len, random);
        }
        (4, Engine::Segment) => {
            let near = (pool.index.len() + 2).saturating_sub(random.below(5));
            let twice = 6 * (pool.segments as usize).min(256);
            let len = random.pick(&[0, 1, 2, 4, near, near, near, twice]);
            resize(&mut pool.index, len, random);
        }
        (_, Engine::Segment) => {
            pool.segments = random.pick(&SEGMENTS);
            if random.one_in(2) {
                resize(&mut pool.index, 3 * pool.segments.min(1_024) as usize, random);
            }
        }
    }
}

/// Just above the most, or below it and no whole number of units. A million words are lent seldom.
fn outside(pool: &Pool, near: usize, random: &mut Random) -> usize {
    let Some(UnitRule { unit, limit, .. }) = pool.kind().rule() else { return near };
    let most = limit as usize;
    if most > 16_384 && !random.one_in(60) {
        return random.pick(&[2, 6, 7, 16_385, 16_386]);
    }
    let near_cells = pool.arena.len() + 2 * random.between(1, 3);
    random.pick(&[most - 1, most + 1, most + 2, most + unit, most + 16, near_cells, near_cells])
}

fn resize(words: &mut Vec<u32>, len: usize, random: &mut Random) {
    let filler = if random.one_in(2) { 0 } else { random.word() };
    words.resize(len, filler);
}
