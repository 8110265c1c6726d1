//! The tables that are timed.

use comparison::generate::program::program;
use comparison::model::{check::check, table::BlockRow, walk};
use comparison::rng::Rng;

pub struct Case {
    pub name: String,
    pub words: Vec<u32>,
}

/// Blocks over one place, with so many instructions in each.
pub struct Table {
    instructions: u32,
    blocks: Vec<BlockRow>,
    cases: Vec<[u32; 2]>,
    pub entry: u32,
}

impl Table {
    pub fn new(instructions: u32) -> Self {
        Self { instructions, blocks: Vec::new(), cases: Vec::new(), entry: 0 }
    }

    pub fn rows(&self) -> u32 {
        self.blocks.len() as u32
    }

    pub fn add(&mut self, code: u32, operands: &[u32]) -> u32 {
        let row = self.blocks.len() as u32;
        let first = row * self.instructions;
        let mut words = [first, self.instructions, code, 0, 0, 0, 0, 0, row, 0, 0];
        words[3..3 + operands.len()].copy_from_slice(operands);
        self.blocks.push(words);
        row
    }

    pub fn case(&self, name: &str) -> Case {
        let rows = self.blocks.len() as u32;
        let instructions = rows * self.instructions;
        let cases = self.cases.len() as u32;
        let mut words = vec![self.entry, rows, instructions, cases, 1, 1];
        words.extend(self.blocks.as_flattened());
        for row in 0..instructions {
            words.extend([row, 0, 0, 0, 0, row, row + 9]);
        }
        words.extend(self.cases.as_flattened());
        words.extend([0, 1]);
        let instructions = if self.instructions == 0 { String::new() } else { format!(", {} instructions a block", self.instructions) };
        Case { name: format!("{name}{instructions}"), words }
    }
}

/// Ifs one after the other: each goes on to the next one. Where an odd number of blocks is left, the last If has an alternate of its own.
pub fn fallthroughs(blocks: u32, instructions: u32) -> Case {
    let mut table = Table::new(instructions);
    let mut next = table.add(3, &[0]);
    while table.rows() + 1 < blocks {
        let last_three = blocks - table.rows() == 3;
        let consequent = table.add(4, &[next, 0]);
        let alternate = if last_three { table.add(4, &[next, 0]) } else { next };
        next = table.add(5, &[0, consequent, alternate, next]);
    }
    table.entry = next;
    table.case(&if blocks == 1_000 { "long run".to_string() } else { format!("long run, {blocks} blocks") })
}

/// Statements in one another, 100 deep, and five such nests one after the other; before them a nest of the nine blocks that are left of 1,000.
pub fn nests(instructions: u32) -> Case {
    let mut table = Table::new(instructions);
    let mut next = table.add(3, &[0]);
    for levels in [99, 99, 99, 99, 99, 4] {
        let mut inner = table.add(4, &[next, 0]);
        for level in 1..=levels {
            // A statement within another ends where its own fallthrough leaves that one.
            let out = if level == levels { next } else { table.add(4, &[next, 0]) };
            let alternate = if (level, levels) == (1, 4) { table.add(4, &[out, 0]) } else { out };
            inner = table.add(5, &[0, inner, alternate, out]);
        }
        next = inner;
    }
    table.entry = next;
    table.case("nests")
}

/// While loops in one another: three nests 100 deep, and one of the blocks that are left of 1,000.
pub fn loops(instructions: u32) -> Case {
    let mut table = Table::new(instructions);
    let mut next = table.add(3, &[0]);
    for levels in [99, 99, 99, 36] {
        let mut inner = None;
        let mut out = next;
        for _ in 0..levels {
            let test = table.add(6, &[0, 0, out]);
            let head = table.add(9, &[test, 0, out]);
            match inner {
                None => next = head,
                Some((outer_test, outer_head)) => set_loop(&mut table, outer_test, outer_head, head),
            }
            inner = Some((test, head));
            out = table.add(4, &[test, 1]);
        }
        let (test, head) = inner.expect("there are loops");
        set_loop(&mut table, test, head, out);
    }
    table.entry = next;
    table.case("while loops")
}

fn set_loop(table: &mut Table, test: u32, head: u32, body: u32) {
    table.blocks[test as usize][4] = body;
    table.blocks[head as usize][4] = body;
}

/// One Switch; each case ends it.
pub fn wide_switch(instructions: u32) -> Case {
    let mut table = Table::new(instructions);
    let end = table.add(3, &[0]);
    for _ in 0..998 {
        let block = table.add(4, &[end, 0]);
        table.cases.push([0, block]);
    }
    table.entry = table.add(7, &[0, 0, 998, end]);
    table.case("wide switch")
}

/// A lowered program of this many blocks, or a few more: the first that is accepted.
pub fn lowered(blocks: u32) -> Case {
    let words = (1..).find_map(|seed| {
        let draft = program(&mut Rng::new(seed), blocks);
        let count = draft.blocks.len() as u32;
        let words = draft.words();
        let fits = (blocks..blocks + blocks / 8 + 2).contains(&count);
        let accepted = fits && check(&words).is_ok_and(|table| {
            let walked = walk(&table);
            walked.result.is_ok() && walked.visits >= count / 2
        });
        accepted.then_some(words)
    });
    let words = words.expect("one of them is accepted");
    Case { name: format!("lowered, {} blocks", words[1]), words }
}

/// Depth 128, by Labels.
pub fn deep_statements() -> Case {
    let mut table = Table::new(1);
    let mut inner = table.add(3, &[0]);
    for _ in 2..=128 {
        let out = table.add(3, &[0]);
        inner = table.add(16, &[inner, out]);
    }
    table.entry = inner;
    table.case("depth 128 by statements")
}
