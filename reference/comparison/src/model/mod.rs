//! Paper 01 in plain Rust: vectors, recursion, nothing clever. It follows the paper's rules, and
//! its author had read the reference: a second opinion beside it, and not a blind one.

pub mod check;
pub mod columns;
mod context;
pub mod convert;
pub mod dot;
pub mod index;
pub mod order;
mod statements;
pub mod table;
pub mod text;
pub mod tree_check;
pub mod tree_run;
mod values;

use index::{LINE_WORDS, lines};
use table::{Span, Table};

/// Code (0 accepted), at, rows, visits, and M-101's number of lines.
#[derive(Clone, Copy, Debug, PartialEq, Eq)]
pub struct Outcome {
    pub code: u32,
    pub at: u32,
    pub rows: u32,
    pub visits: u32,
    pub lines: u32,
}

impl Outcome {
    /// At 40 alone a refusal tells rows, and none tells lines.
    pub fn refused(Refusal { code, at }: Refusal, visits: u32) -> Self {
        Self { code, at, rows: 0, visits, lines: 0 }
    }
}

/// A refusal and its place.
#[derive(Clone, Copy, Debug, PartialEq, Eq)]
pub struct Refusal {
    pub code: u32,
    pub at: u32,
}

pub const ROW_WORDS: usize = 6;
pub type Row = [u32; ROW_WORDS];

pub const MAX_DEPTH: u32 = 128;
pub const MAX_VISITS: u32 = 8_192;

/// What a whole walk gives: the rows or the refusal, and the visits begun.
pub struct Walked {
    pub result: Result<Vec<Row>, Refusal>,
    pub visits: u32,
    pub deepest: u32,
}

/// The two entries of paper 02, M-102: the one that equals the Rust, and the language entry.
#[derive(Clone, Copy, Debug, PartialEq, Eq)]
pub enum Rule {
    Rust,
    Language,
}

/// The public call: words in, rows of the tree and lines of its index (M-101) out.
pub fn build(words: &[u32], buffer: &mut [u32], index: &mut [u32]) -> Outcome {
    build_by(Rule::Rust, words, buffer, index)
}

pub fn build_language(words: &[u32], buffer: &mut [u32], index: &mut [u32]) -> Outcome {
    build_by(Rule::Language, words, buffer, index)
}

fn build_by(rule: Rule, words: &[u32], buffer: &mut [u32], index: &mut [u32]) -> Outcome {
    buffer.fill(0);
    index.fill(0);
    finish(&walked(rule, words), buffer, index)
}

/// M-106: what the build gives where both buffers are large enough, from the words alone.
pub fn preview(words: &[u32]) -> Outcome {
    previewed(&walked(Rule::Rust, words))
}

pub fn preview_language(words: &[u32]) -> Outcome {
    previewed(&walked(Rule::Language, words))
}

pub fn previewed(walked: &Walked) -> Outcome {
    match &walked.result {
        Err(refusal) => Outcome::refused(*refusal, walked.visits),
        Ok(rows) => accepted(rows.len(), lines(rows).len(), walked.visits),
    }
}

fn walked(rule: Rule, words: &[u32]) -> Walked {
    match check::check(words) {
        Ok(table) => walk_by(rule, &table),
        Err(refusal) => Walked { result: Err(refusal), visits: 0, deepest: 0 },
    }
}

fn accepted(rows: usize, lines: usize, visits: u32) -> Outcome {
    Outcome { code: 0, at: 0, rows: rows as u32, visits, lines: lines as u32 }
}

/// Puts the rows and the lines into buffers of zeros, if both fit.
pub fn finish(walked: &Walked, buffer: &mut [u32], index: &mut [u32]) -> Outcome {
    let visits = walked.visits;
    match &walked.result {
        Err(refusal) => Outcome::refused(*refusal, visits),
        Ok(rows) if rows.len() > buffer.len() / ROW_WORDS => {
            Outcome { rows: rows.len() as u32, ..Outcome::refused(Refusal { code: 40, at: 0 }, visits) }
        }
        Ok(rows) => {
            let lines = lines(rows);
            if lines.len() > index.len() / LINE_WORDS {
                return Outcome::refused(Refusal { code: 41, at: 0 }, visits);
            }
            buffer[..rows.len() * ROW_WORDS].copy_from_slice(rows.as_flattened());
            index[..lines.len() * LINE_WORDS].copy_from_slice(lines.as_flattened());
            accepted(rows.len(), lines.len(), visits)
        }
    }
}

/// The statement walk from the entry, closed by the root BLOCK.
pub fn walk(table: &Table) -> Walked {
    walk_by(Rule::Rust, table)
}

pub fn walk_by(rule: Rule, table: &Table) -> Walked {
    let mut walk = Walk::new(rule, *table);
    let result = walk.block_row(table.entry(), 1);
    Walked { result: result.map(|()| walk.rows), visits: walk.visits, deepest: walk.deepest }
}

/// The state of a walk.
struct Walk<'w> {
    table: Table<'w>,
    rows: Vec<Row>,
    visits: u32,
    deepest: u32,
    context: context::Context,
    rule: Rule,
    around: Vec<Around>,
}

/// A statement that is being built, with its label; the innermost comes last.
#[derive(Clone, Copy, PartialEq, Eq)]
enum Around {
    Loop(Option<u32>),
    Switch(Option<u32>),
    Other(Option<u32>),
}

/// The columns of a block's row.
#[derive(Clone, Copy)]
struct Block {
    number: u32,
    first: u32,
    count: u32,
    code: u32,
    operands: [u32; 5],
    id: u32,
    span: Span,
}

impl<'w> Walk<'w> {
    fn new(rule: Rule, table: Table<'w>) -> Self {
        let blocks = table.words[1] as usize;
        let context = context::Context::new(blocks);
        let around = Vec::new();
        Self { table, rows: Vec::new(), visits: 0, deepest: 0, context, rule, around }
    }

    /// A visit begins: 30, 31, 10 in this order.
    fn begin_visit(&mut self, number: u32, depth: u32) -> Result<Block, Refusal> {
        if depth > MAX_DEPTH {
            return Err(Refusal { code: 30, at: number });
        }
        if self.visits == MAX_VISITS {
            return Err(Refusal { code: 31, at: number });
        }
        self.visits += 1;
        self.deepest = self.deepest.max(depth);
        self.look_up(number)
    }

    /// Looks at a block without visiting it: 10 if it is missing.
    fn look_up(&self, number: u32) -> Result<Block, Refusal> {
        let [first, count, code, a, b, c, d, e, id, from, to] = *self.table.block(number);
        if code == 0 {
            return Err(Refusal { code: 10, at: number });
        }
        let (operands, span) = ([a, b, c, d, e], Span { from, to });
        Ok(Block { number, first, count, code, operands, id, span })
    }

    fn row(&mut self, row: Row) {
        self.rows.push(row);
    }

    /// INSTR.
    fn instruction_row(&mut self, id: u32, lvalue: u32, span: Span) {
        self.row([4, id, lvalue, span.from, span.to, 0]);
    }

    /// INSTR rows, each after its PLAIN, for instruction rows from `first`.
    fn instruction_rows(&mut self, first: u32, count: u32) {
        for instruction in first..first + count {
            let [id, lvalue, _, _, _, from, to] = *self.table.instruction(instruction);
            self.row([1, instruction, 0, 0, 0, 0]);
            self.instruction_row(id, lvalue, Span { from, to });
        }
    }
}
