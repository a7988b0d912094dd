//! The stored form of the tree pool, computed from the ledger: one Cartesian tree of the free runs.
//! Form 1 is that of document 01, form 2 that of request 3, form 3 that of request 11.

use crate::ledger::{Ledger, Run, UnitRule};

/// The numbers of the forms.
pub const FORMS: [u32; 3] = [1, 2, 3];

#[derive(Clone, Copy, PartialEq, Eq, Debug)]
pub struct Form {
    /// Words to a cell: lengths and links of nodes count cells.
    pub cell: usize,
    /// Words to a unit of the ledger.
    pub unit: usize,
    /// The most words of an arena, and to ask for.
    pub most: usize,
}

pub fn form(number: u32) -> Option<Form> {
    match number {
        1 => Some(Form { cell: 2, unit: 2, most: 16_384 }),
        2 => Some(Form { cell: 4, unit: 4, most: 1_048_576 }),
        3 => Some(Form { cell: 2, unit: 8, most: 16_384 }),
        _ => None,
    }
}

/// The root link and the arena, held words taken from `words`.
pub fn stored(form: Form, ledger: &Ledger, words: &[u32]) -> (u32, Vec<u32>) {
    let mut arena = words.to_vec();
    let root = form.plant(&form.free_cells(ledger), &mut arena);
    (root, arena)
}

impl Form {
    pub fn rule(self) -> UnitRule {
        UnitRule { unit: self.unit, before: 0, limit: self.most as u32 }
    }

    /// The free runs, in cells.
    pub fn free_cells(self, ledger: &Ledger) -> Vec<Run> {
        let cells = self.unit / self.cell;
        let scaled = |run: Run| Run { first: cells * run.first, count: cells * run.count };
        ledger.free_runs().into_iter().map(scaled).collect()
    }

    /// Wipes these runs of cells (by address, none overlapping), writes their nodes and gives the root's link.
    pub fn plant(self, runs: &[Run], arena: &mut [u32]) -> u32 {
        let Some(top) = top_of(runs) else { return 0 };
        let left = self.plant(&runs[..top], arena);
        let right = self.plant(&runs[top + 1..], arena);
        let Run { first, count } = runs[top];
        arena[self.cell * first..self.cell * (first + count)].fill(0);
        arena[self.cell * first] = count as u32;
        self.set_links(arena, first, [left, right]);
        first as u32 + 1
    }

    /// Left and right link of the node in this cell. In form 2 each has a word of its own.
    pub fn links(self, arena: &[u32], cell: usize) -> [u32; 2] {
        let at = self.cell * cell;
        match self.cell {
            4 => [arena[at + 1], arena[at + 2]],
            _ => [arena[at + 1] % 65_536, arena[at + 1] / 65_536],
        }
    }

    pub fn set_links(self, arena: &mut [u32], cell: usize, [left, right]: [u32; 2]) {
        let at = self.cell * cell;
        match self.cell {
            4 => arena[at + 1..at + 3].copy_from_slice(&[left, right]),
            _ => arena[at + 1] = left % 65_536 + right % 65_536 * 65_536,
        }
    }
}

/// No son is longer than its father; of equal lengths the lower address stands above.
fn top_of(runs: &[Run]) -> Option<usize> {
    let longest = runs.iter().map(|run| run.count).max()?;
    runs.iter().position(|run| run.count == longest)
}
