//! Long tables for measuring: 1,000 blocks or so, two instructions in each, all accepted.

use super::draft::Draft;

struct Long(Draft);

impl Long {
    fn new() -> Self {
        Self(Draft {
            instructions: vec![[1, 0, 1, 0, 0, 5, 6], [2, 0, 0, 0, 0, 6, 8]],
            places: vec![0],
            identifiers: vec![1],
            ..Draft::default()
        })
    }

    fn add(&mut self, code: u32, operands: &[u32]) -> u32 {
        let number = self.0.fresh();
        self.set(number, code, operands);
        number
    }

    fn set(&mut self, number: u32, code: u32, operands: &[u32]) {
        let mut row = [0, 2, code, 0, 0, 0, 0, 0, number, 7, 9];
        row[3..3 + operands.len()].copy_from_slice(operands);
        self.0.blocks[number as usize] = row;
    }
}

/// Ifs one after the other: each goes on where the one before falls through.
pub fn run_of_fallthroughs(blocks: u32) -> Vec<u32> {
    let mut long = Long::new();
    let statements = (blocks - 1) / 2;
    for at in 0..statements {
        long.add(5, &[0, 2 * at + 1, 2 * at + 2, 2 * at + 2]);
        long.add(4, &[2 * at + 2, 0]);
    }
    long.add(3, &[0]);
    long.0.words()
}

/// Switches without cases, one after the other: of 1,024 blocks the most lines that an index has (M-101).
pub fn run_of_switches(blocks: u32) -> Vec<u32> {
    let mut long = Long::new();
    for block in 1..blocks {
        long.add(7, &[0, 0, 0, block]);
    }
    long.add(3, &[0]);
    long.0.words()
}

/// Nests of Ifs so deep, one after the other.
pub fn nests(blocks: u32, depth: u32) -> Vec<u32> {
    let mut long = Long::new();
    long.0.entry = long.add(1, &[]);
    let mut next = long.0.entry;
    while long.0.block_count() + 2 * depth + 1 < blocks {
        let mut block = next;
        let mut out = Vec::new();
        for _ in 0..depth {
            let (inner, end) = (long.add(1, &[]), long.add(1, &[]));
            long.set(block, 5, &[0, inner, end, end]);
            out.push(end);
            block = inner;
        }
        long.set(block, 4, &[out[depth as usize - 1], 0]);
        for level in 1..depth as usize {
            long.set(out[level], 4, &[out[level - 1], 0]);
        }
        next = out[0];
    }
    long.set(next, 3, &[0]);
    long.0.words()
}

/// One Switch over all the blocks but its end, each breaking out.
pub fn wide_switch(blocks: u32) -> Vec<u32> {
    let mut long = Long::new();
    let end = blocks - 1;
    long.add(7, &[0, 0, blocks - 2, end]);
    for case in 1..end {
        long.0.cases.push([0, case]);
        long.add(4, &[end, 0]);
    }
    long.add(3, &[0]);
    long.0.words()
}
