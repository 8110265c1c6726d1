//! The samples of paper 01, with buffers of exactly the rows, too short and too long; depths 128 and
//! 129; 8,192 and 8,193 visits.

use crate::model::table::{BlockRow, LIMITS, Table};
use crate::model::{MAX_DEPTH, MAX_VISITS, walk};

/// Blocks over one place and one named identifier, with or without the one instruction.
#[derive(Clone, Default)]
struct Blocks {
    entry: u32,
    instructions: u32,
    rows: Vec<BlockRow>,
}

impl Blocks {
    fn add(&mut self, count: u32, code: u32, operands: &[u32], id: u32) -> u32 {
        let mut row = [0, count, code, 0, 0, 0, 0, 0, id, 0, 0];
        row[3..3 + operands.len()].copy_from_slice(operands);
        self.rows.push(row);
        self.rows.len() as u32 - 1
    }

    fn words(&self) -> Vec<u32> {
        assert!(self.rows.len() <= LIMITS[0] as usize);
        let mut words = vec![self.entry, self.rows.len() as u32, self.instructions, 0, 1, 1];
        words.extend(self.rows.as_flattened());
        words.extend([1, 0, 0, 0, 0, 0, 0].repeat(self.instructions as usize));
        words.extend([0, 1]);
        words
    }
}

/// Each table with the number of words that are lent.
pub fn samples() -> Vec<(Vec<u32>, usize)> {
    let returns = paper(&[(3, &[0], 7)]);
    let w = paper(&W);
    let mut samples = Vec::new();
    samples.extend([12, 11, 6, 17, 18, 0].map(|lent| (returns.words(), lent)));
    samples.extend([36, 35, 30, 41, 11, 0].map(|lent| (w.words(), lent)));
    let of_w = [
        paper(&[W[0], W[1], (4, &[3, 0], 3), W[3]]),
        paper(&[(9, &[1, 2, 1], 1), W[1], W[2], W[3]]),
        paper(&[W[0], (18, &[1], 2), W[2], W[3]]),
        paper(&[(20, &[1, 2, 5], 1), (4, &[2, 0], 2), (3, &[0], 4)]),
        paper(&[(5, &[0, 1, 1, 2], 1), (3, &[0], 2), (3, &[0], 4)]),
    ];
    samples.extend(of_w.map(|table| (table.words(), 36)));
    for depth in [MAX_DEPTH, MAX_DEPTH + 1] {
        let tables = [statements(depth), values(0, depth), values(64, depth - 64)];
        samples.extend(tables.map(|table| (table.words(), 2_400)));
    }
    // One visit too many is refused at the Return that is last, and 50 at a block of the last chain.
    for visits in [MAX_VISITS, MAX_VISITS + 1, MAX_VISITS + 50] {
        let least = walk(&Table::of(&chains(0).words())).visits;
        samples.push((chains(visits - least).words(), 2_400));
    }
    samples
}

const W: [(u32, &[u32], u32); 4] =
    [(9, &[1, 2, 3], 1), (6, &[0, 2, 3], 2), (4, &[1, 1], 3), (3, &[0], 4)];

fn paper(blocks: &[(u32, &[u32], u32)]) -> Blocks {
    let mut table = Blocks::default();
    for (code, operands, id) in blocks {
        table.add(0, *code, operands, *id);
    }
    table
}

/// Labels, each in the one before: the innermost block has this depth.
fn statements(depth: u32) -> Blocks {
    let mut table = Blocks::default();
    for level in 1..depth {
        let row = 2 * (level - 1);
        table.add(0, 16, &[row + 2, row + 1], 1);
        table.add(0, 3, &[0], 2);
    }
    table.add(0, 3, &[0], 3);
    table
}

/// Under so many Labels a Sequence whose value goes on from block to block: so many levels.
fn values(labels: u32, levels: u32) -> Blocks {
    let mut table = Blocks { instructions: 1, ..Blocks::default() };
    for level in 0..labels {
        let row = 2 * level;
        table.add(0, 16, &[row + 2, row + 1], 1);
        table.add(0, 3, &[0], 2);
    }
    let first = 2 * labels;
    table.add(0, 17, &[first + 2, first + 1], 1);
    table.add(0, 3, &[0], 2);
    for level in 2..levels {
        table.add(1, 18, &[first + level + 1], 2);
    }
    table.add(1, 4, &[first + 1, 0], 3);
    table
}

/// 80 values one after the other, each of which goes through the same chain of 100 blocks, with so many statements before.
fn chains(before: u32) -> Blocks {
    let mut table = Blocks { instructions: 1, ..Blocks::default() };
    let mut next = table.add(0, 3, &[0], 1);
    let mut chain = table.add(1, 4, &[next, 0], 2);
    for _ in 0..100 {
        chain = table.add(0, 18, &[chain], 3);
    }
    for _ in 0..80 {
        next = table.add(0, 17, &[chain, next], 5);
    }
    for _ in 0..before {
        next = table.add(0, 18, &[next], 7);
    }
    table.entry = next;
    table
}
