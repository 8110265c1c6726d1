//! A table under construction.

use crate::model::columns::{Column, LARGEST, NONE, operand_columns, terminal_columns};
use crate::model::table::{BLOCK_WORDS, BlockRow, InstructionRow, LIMITS};
use crate::rng::Rng;

#[derive(Clone, Debug, Default)]
pub struct Draft {
    pub entry: u32,
    pub blocks: Vec<BlockRow>,
    pub instructions: Vec<InstructionRow>,
    pub cases: Vec<[u32; 2]>,
    pub places: Vec<u32>,
    pub identifiers: Vec<u32>,
}

impl Draft {
    /// No blocks yet; some places over few identifiers, so that equal identifiers are common.
    pub fn with_places(rng: &mut Rng) -> Self {
        let more = if rng.percent(5) { 60 } else { 0 };
        let identifiers: Vec<u32> = (0..rng.from_to(1, 4 + more)).map(|_| rng.below(2)).collect();
        let count = identifiers.len() as u32;
        let places = (0..rng.from_to(1, 6 + more)).map(|_| rng.below(count)).collect();
        Self { places, identifiers, ..Self::default() }
    }

    pub fn words(&self) -> Vec<u32> {
        let counts = [
            self.blocks.len(),
            self.instructions.len(),
            self.cases.len(),
            self.places.len(),
            self.identifiers.len(),
        ];
        let mut words = vec![self.entry];
        words.extend(counts.map(|count| count as u32));
        words.extend(self.blocks.as_flattened());
        words.extend(self.instructions.as_flattened());
        words.extend(self.cases.as_flattened());
        words.extend(&self.places);
        words.extend(&self.identifiers);
        words
    }

    /// A new block, missing until it is given an end.
    pub fn fresh(&mut self) -> u32 {
        self.blocks.push([0; BLOCK_WORDS]);
        self.blocks.len() as u32 - 1
    }

    pub fn block_count(&self) -> u32 {
        self.blocks.len() as u32
    }

    pub fn any_block(&self, rng: &mut Rng) -> u32 {
        rng.below(self.block_count())
    }

    pub fn any_place(&self, rng: &mut Rng) -> u32 {
        rng.below(self.places.len() as u32)
    }

    pub fn any_place_or_none(&self, rng: &mut Rng) -> u32 {
        if rng.percent(50) { NONE } else { self.any_place(rng) }
    }

    /// Gives the block its instructions: new rows as a rule, rows of others now and then.
    pub fn fill(&mut self, block: u32, count: u32, rng: &mut Rng) {
        let rows = self.instructions.len() as u32;
        let first = if count <= rows && rng.percent(10) {
            rng.from_to(0, rows - count)
        } else if rows + count <= LIMITS[1] {
            for _ in 0..count {
                let row = self.any_instruction(rng);
                self.instructions.push(row);
            }
            rows
        } else {
            0
        };
        self.blocks[block as usize][0] = first;
        self.blocks[block as usize][1] = count;
    }

    pub fn any_instruction(&self, rng: &mut Rng) -> InstructionRow {
        let code = rng.below(3);
        let operands = operand_columns(code).map(|column| self.any_word(column, rng));
        let lvalue = self.any_place(rng);
        let ([p, q], [from, to]) = (operands, any_span(rng));
        [any_id(rng), lvalue, code, p, q, from, to]
    }

    /// Gives the block its end.
    pub fn end(&mut self, block: u32, code: u32, operands: &[u32], rng: &mut Rng) {
        let row = &mut self.blocks[block as usize];
        row[2] = code;
        row[3..8].fill(0);
        row[3..3 + operands.len()].copy_from_slice(operands);
        row[8] = any_id(rng);
        row[9..].copy_from_slice(&any_span(rng));
    }

    /// Gives the block any end of this code, over the blocks that are there.
    pub fn end_anyhow(&mut self, block: u32, code: u32, rng: &mut Rng) {
        if code == 0 {
            self.blocks[block as usize] = [0; BLOCK_WORDS];
            return;
        }
        if code == 7 {
            let count = rng.below(4);
            let first = self.cases.len() as u32;
            for _ in 0..count {
                let case = [self.any_place_or_none(rng), self.any_block(rng)];
                self.cases.push(case);
            }
            let operands = [self.any_place(rng), first, count, self.any_block(rng)];
            return self.end(block, code, &operands, rng);
        }
        let operands = terminal_columns(code).map(|column| self.any_word(column, rng));
        self.end(block, code, &operands, rng);
    }

    /// Gives the blocks other numbers: block `n` becomes block `to[n]`.
    pub fn renumber(&mut self, to: &[u32]) {
        let mut blocks = vec![[0; BLOCK_WORDS]; self.blocks.len()];
        for (row, number) in self.blocks.iter().zip(to) {
            blocks[*number as usize] = *row;
        }
        for row in &mut blocks {
            if row[2] == 0 {
                continue;
            }
            for (at, column) in terminal_columns(row[2]).into_iter().enumerate() {
                let word = &mut row[3 + at];
                if column == Column::Block || column == Column::BlockOrNone && *word != NONE {
                    *word = to[*word as usize];
                }
            }
        }
        for case in &mut self.cases {
            case[1] = to[case[1] as usize];
        }
        self.entry = to[self.entry as usize];
        self.blocks = blocks;
    }

    /// Any word that the column allows. Counts of rows and ends of spans are not asked for here.
    pub fn any_word(&self, column: Column, rng: &mut Rng) -> u32 {
        match column {
            Column::Zero | Column::InstructionCount | Column::CaseCount | Column::To => 0,
            Column::Any => any_id(rng),
            Column::UpTo(largest) => rng.from_to(0, largest),
            Column::Block => self.any_block(rng),
            Column::BlockOrNone if rng.percent(30) => NONE,
            Column::BlockOrNone => self.any_block(rng),
            Column::Place => self.any_place(rng),
            Column::PlaceOrNone => self.any_place_or_none(rng),
            Column::Identifier => rng.below(self.identifiers.len() as u32),
        }
    }
}

/// None, and spans whose ends tell one from the other: from 0, up to the largest end, any; and now
/// and then one that ends where it begins.
pub fn any_span(rng: &mut Rng) -> [u32; 2] {
    let from = any_id(rng);
    match rng.below(20) {
        0..=4 => [0, 0],
        5..=6 => [0, from],
        7 => [from, from],
        8 => [from, LARGEST],
        _ => [from, (from + 1 + rng.below(100)).min(LARGEST)],
    }
}

/// A number that the walk only copies: small as a rule, the largest now and then.
pub fn any_id(rng: &mut Rng) -> u32 {
    if rng.percent(2) { LARGEST } else { rng.below(100) }
}
