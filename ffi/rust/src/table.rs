//! A table of blocks as typed values, to words and from words.
//!
//! ```
//! use reactive_build::table::{Ending, Table};
//!
//! // One block, which returns place 0; place 0 is identifier 0, which has a name.
//! let mut table = Table::default();
//! let named = table.identifier(true);
//! let value = table.place(named);
//! table.entry = table.block(&[], Ending::Return { value }, 7, None);
//! assert_eq!(table.words(), [0, 1, 0, 0, 1, 1, 0, 0, 3, 0, 0, 0, 0, 0, 7, 0, 0, 0, 1]);
//! assert_eq!(reactive_build::rows(&table.words())?, [[22, 0, 7, 0, 0, 0], [9, 1, 0, 0, 0, 0]]);
//! # Ok::<(), reactive_build::Refusal>(())
//! ```

use crate::refusal::code;
pub use crate::rows::{BlockRow, IdentifierRow, InstructionRow, PlaceRow};
pub use crate::tree::{NONE, Operator};
use crate::{BLOCK_WORDS, INSTRUCTION_WORDS, Refusal, Span, rows};

/// Words in the head: entry, and the numbers of blocks, instructions, cases, places and identifiers.
pub const HEAD_WORDS: usize = 6;

/// Words in a row of the cases: test, block.
pub const CASE_WORDS: usize = 2;

/// The most rows that the build takes: blocks, instructions, cases, places, identifiers.
pub const LIMITS: [u32; 5] = [1_024, 4_096, 1_024, 4_096, 4_096];

/// The variant of a Goto.
#[derive(Clone, Copy, Debug, PartialEq, Eq, Hash)]
#[repr(u32)]
pub enum Variant {
    /// Out of a statement, to the block that it goes on with.
    Break = 0,
    /// To the continue block of a loop.
    Continue = 1,
    /// Out of a Try's block: the tree has nothing for it.
    Try = 2,
}

impl Variant {
    /// Every variant: number n is at n.
    pub const ALL: [Self; 3] = [Self::Break, Self::Continue, Self::Try];

    /// The variant of this number, if there is one.
    pub fn of(number: u32) -> Option<Self> {
        Self::ALL.get(number as usize).copied()
    }

    /// The number that stands for it in a table.
    pub const fn number(self) -> u32 {
        self as u32
    }

    /// The name that docs/FORMAT.md gives it.
    pub const fn name(self) -> &'static str {
        ["Break", "Continue", "Try"][self as usize]
    }
}

/// What a block ends in, with its columns a to e. Blocks and places are rows of the table.
#[rustfmt::skip] // a line a variant
#[derive(Clone, Copy, Debug, PartialEq, Eq, Hash)]
pub enum Ending {
    /// There is no such block: its whole row is 0.
    Missing,
    /// Control does not get here.
    Unreachable,
    /// Throws a value.
    Throw {
        /// What is thrown.
        value: PlaceRow,
    },
    /// Returns a value.
    Return {
        /// What is returned.
        value: PlaceRow,
    },
    /// Goes to a block.
    Goto {
        /// Where to.
        block: BlockRow,
        /// What sort of jump it is.
        variant: Variant,
    },
    /// An `if`.
    If {
        /// What is tested.
        test: PlaceRow,
        /// Where it goes on yes.
        consequent: BlockRow,
        /// Where it goes on no; the fallthrough where there is no `else`.
        alternate: BlockRow,
        /// Where the statement goes on.
        fallthrough: BlockRow,
    },
    /// The end of a test: of a loop or of a value.
    Branch {
        /// What is tested.
        test: PlaceRow,
        /// Where it goes on yes.
        consequent: BlockRow,
        /// Where it goes on no.
        alternate: BlockRow,
    },
    /// A `switch`. [`Table::switch`] makes one with its cases.
    Switch {
        /// What is compared.
        test: PlaceRow,
        /// The row of its first case.
        first_case: u32,
        /// How many rows from there on are its cases.
        cases: u32,
        /// Where the statement goes on.
        fallthrough: BlockRow,
    },
    /// A `do` with its `while`.
    DoWhile {
        /// The first block of the body.
        loop_block: BlockRow,
        /// Where the test begins: the loop's continue block.
        test: BlockRow,
        /// Where the statement goes on.
        fallthrough: BlockRow,
    },
    /// A `while`.
    While {
        /// Where the test begins: the loop's continue block.
        test: BlockRow,
        /// The first block of the body.
        loop_block: BlockRow,
        /// Where the statement goes on.
        fallthrough: BlockRow,
    },
    /// A `for`.
    For {
        /// Where the initializer begins.
        init: BlockRow,
        /// Where the test begins: the loop's continue block, where there is no update.
        test: BlockRow,
        /// Where the update begins, the loop's continue block; none where there is no update.
        update: Option<BlockRow>,
        /// The first block of the body.
        loop_block: BlockRow,
        /// Where the statement goes on.
        fallthrough: BlockRow,
    },
    /// A `for` with `of`.
    ForOf {
        /// Where the iterated value begins: the loop's continue block.
        init: BlockRow,
        /// Where the test for a next item begins.
        test: BlockRow,
        /// The first block of the body.
        loop_block: BlockRow,
        /// Where the statement goes on.
        fallthrough: BlockRow,
    },
    /// A `for` with `in`.
    ForIn {
        /// Where the value begins whose keys are gone through: the loop's continue block.
        init: BlockRow,
        /// The first block of the body.
        loop_block: BlockRow,
        /// Where the statement goes on.
        fallthrough: BlockRow,
    },
    /// A value of `||`, `&&` or `??`.
    Logical {
        /// Which of them.
        operator: Operator,
        /// Where the left side begins, which ends in a Branch.
        test: BlockRow,
        /// Where the value is complete.
        fallthrough: BlockRow,
    },
    /// A value of `? :`.
    Ternary {
        /// Where the test begins, which ends in a Branch.
        test: BlockRow,
        /// Where the value is complete.
        fallthrough: BlockRow,
    },
    /// A part of an optional chain.
    Optional {
        /// Whether `?.` stands here; it is copied.
        optional: bool,
        /// Where the test begins, which ends in a Branch.
        test: BlockRow,
        /// Where the value is complete.
        fallthrough: BlockRow,
    },
    /// A statement with a label.
    Label {
        /// The first block of the body.
        block: BlockRow,
        /// Where the statement goes on.
        fallthrough: BlockRow,
    },
    /// A value of `,`.
    Sequence {
        /// Where the value begins.
        block: BlockRow,
        /// Where the value is complete.
        fallthrough: BlockRow,
    },
    /// The end of a block that may throw.
    MaybeThrow {
        /// Where it goes on if nothing is thrown.
        continuation: BlockRow,
    },
    /// A `try` with its `catch`.
    Try {
        /// The first block of the body.
        block: BlockRow,
        /// The first block of the handler.
        handler: BlockRow,
        /// Where the statement goes on.
        fallthrough: BlockRow,
        /// Where the handler finds what was thrown; none where it does not ask.
        binding: Option<PlaceRow>,
    },
    /// Statements that are memoized together.
    Scope {
        /// The first block of the body.
        block: BlockRow,
        /// Where the statement goes on.
        fallthrough: BlockRow,
        /// The scope's number, which is copied.
        scope: u32,
    },
    /// A scope that is not memoized.
    PrunedScope {
        /// The first block of the body.
        block: BlockRow,
        /// Where the statement goes on.
        fallthrough: BlockRow,
        /// The scope's number, which is copied.
        scope: u32,
    },
}

impl Ending {
    /// The names of docs/FORMAT.md, by code.
    #[rustfmt::skip]
    pub const NAMES: [&str; 22] = [
        "no such block", "Unreachable", "Throw", "Return", "Goto", "If", "Branch", "Switch", "DoWhile", "While", "For", "ForOf", "ForIn",
        "Logical", "Ternary", "Optional", "Label", "Sequence", "MaybeThrow", "Try", "Scope", "PrunedScope",
    ];

    /// The ending of a code and its columns; none where the code, a variant, an operator or a flag is out of range, or a column that the
    /// code does not use is not 0.
    pub fn of_columns(code: u32, [a, b, c, d, e]: [u32; 5]) -> Option<Self> {
        let [first, second, third, fourth, fifth] = [a, b, c, d, e].map(BlockRow);
        let some = |word| (word != NONE).then_some(word);
        let ending = match code {
            0 => Self::Missing,
            1 => Self::Unreachable,
            2 => Self::Throw { value: PlaceRow(a) },
            3 => Self::Return { value: PlaceRow(a) },
            4 => Self::Goto { block: first, variant: Variant::of(b)? },
            5 => Self::If { test: PlaceRow(a), consequent: second, alternate: third, fallthrough: fourth },
            6 => Self::Branch { test: PlaceRow(a), consequent: second, alternate: third },
            7 => Self::Switch { test: PlaceRow(a), first_case: b, cases: c, fallthrough: fourth },
            8 => Self::DoWhile { loop_block: first, test: second, fallthrough: third },
            9 => Self::While { test: first, loop_block: second, fallthrough: third },
            10 => Self::For { init: first, test: second, update: some(c).map(BlockRow), loop_block: fourth, fallthrough: fifth },
            11 => Self::ForOf { init: first, test: second, loop_block: third, fallthrough: fourth },
            12 => Self::ForIn { init: first, loop_block: second, fallthrough: third },
            13 => Self::Logical { operator: Operator::of(a)?, test: second, fallthrough: third },
            14 => Self::Ternary { test: first, fallthrough: second },
            15 => Self::Optional { optional: a == 1, test: second, fallthrough: third },
            16 => Self::Label { block: first, fallthrough: second },
            17 => Self::Sequence { block: first, fallthrough: second },
            18 => Self::MaybeThrow { continuation: first },
            19 => Self::Try { block: first, handler: second, fallthrough: third, binding: some(d).map(PlaceRow) },
            20 => Self::Scope { block: first, fallthrough: second, scope: c },
            21 => Self::PrunedScope { block: first, fallthrough: second, scope: c },
            _ => return None,
        };
        (ending.columns() == [a, b, c, d, e]).then_some(ending)
    }

    /// The columns a to e: the inverse.
    pub fn columns(&self) -> [u32; 5] {
        let update_word = |update: Option<BlockRow>| update.map_or(NONE, |update| update.0);
        let binding_word = |binding: Option<PlaceRow>| binding.map_or(NONE, |binding| binding.0);
        match *self {
            Self::Missing | Self::Unreachable => [0; 5],
            Self::Throw { value } | Self::Return { value } => [value.0, 0, 0, 0, 0],
            Self::Goto { block, variant } => [block.0, variant.number(), 0, 0, 0],
            Self::If { test, consequent, alternate, fallthrough } => [test.0, consequent.0, alternate.0, fallthrough.0, 0],
            Self::Branch { test, consequent, alternate } => [test.0, consequent.0, alternate.0, 0, 0],
            Self::Switch { test, first_case, cases, fallthrough } => [test.0, first_case, cases, fallthrough.0, 0],
            Self::DoWhile { loop_block, test, fallthrough } => [loop_block.0, test.0, fallthrough.0, 0, 0],
            Self::While { test, loop_block, fallthrough } => [test.0, loop_block.0, fallthrough.0, 0, 0],
            Self::For { init, test, update, loop_block, fallthrough } => {
                [init.0, test.0, update_word(update), loop_block.0, fallthrough.0]
            }
            Self::ForOf { init, test, loop_block, fallthrough } => [init.0, test.0, loop_block.0, fallthrough.0, 0],
            Self::ForIn { init, loop_block, fallthrough } => [init.0, loop_block.0, fallthrough.0, 0, 0],
            Self::Logical { operator, test, fallthrough } => [operator.number(), test.0, fallthrough.0, 0, 0],
            Self::Ternary { test, fallthrough } => [test.0, fallthrough.0, 0, 0, 0],
            Self::Optional { optional, test, fallthrough } => [optional.into(), test.0, fallthrough.0, 0, 0],
            Self::Label { block, fallthrough } | Self::Sequence { block, fallthrough } => [block.0, fallthrough.0, 0, 0, 0],
            Self::MaybeThrow { continuation } => [continuation.0, 0, 0, 0, 0],
            Self::Try { block, handler, fallthrough, binding } => [block.0, handler.0, fallthrough.0, binding_word(binding), 0],
            Self::Scope { block, fallthrough, scope } | Self::PrunedScope { block, fallthrough, scope } => {
                [block.0, fallthrough.0, scope, 0, 0]
            }
        }
    }

    /// The blocks that its columns name, in the order of the columns. A Switch also names those of its cases, which are rows of their own.
    pub fn blocks(&self) -> impl Iterator<Item = BlockRow> + use<> {
        let named = match *self {
            Self::Missing | Self::Unreachable | Self::Throw { .. } | Self::Return { .. } => [None; 5],
            Self::Goto { block, .. } => first([block]),
            Self::If { consequent, alternate, fallthrough, .. } => first([consequent, alternate, fallthrough]),
            Self::Branch { consequent, alternate, .. } => first([consequent, alternate]),
            Self::Switch { fallthrough, .. } => first([fallthrough]),
            Self::DoWhile { loop_block, test, fallthrough } => first([loop_block, test, fallthrough]),
            Self::While { test, loop_block, fallthrough } => first([test, loop_block, fallthrough]),
            Self::For { init, test, update, loop_block, fallthrough } => {
                [Some(init), Some(test), update, Some(loop_block), Some(fallthrough)]
            }
            Self::ForOf { init, test, loop_block, fallthrough } => first([init, test, loop_block, fallthrough]),
            Self::ForIn { init, loop_block, fallthrough } => first([init, loop_block, fallthrough]),
            Self::Logical { test, fallthrough, .. } | Self::Ternary { test, fallthrough } | Self::Optional { test, fallthrough, .. } => {
                first([test, fallthrough])
            }
            Self::Label { block, fallthrough }
            | Self::Sequence { block, fallthrough }
            | Self::Scope { block, fallthrough, .. }
            | Self::PrunedScope { block, fallthrough, .. } => first([block, fallthrough]),
            Self::MaybeThrow { continuation } => first([continuation]),
            Self::Try { block, handler, fallthrough, .. } => first([block, handler, fallthrough]),
        };
        named.into_iter().flatten()
    }

    /// The code of the table's column.
    pub const fn code(&self) -> u32 {
        match self {
            Self::Missing => 0,
            Self::Unreachable => 1,
            Self::Throw { .. } => 2,
            Self::Return { .. } => 3,
            Self::Goto { .. } => 4,
            Self::If { .. } => 5,
            Self::Branch { .. } => 6,
            Self::Switch { .. } => 7,
            Self::DoWhile { .. } => 8,
            Self::While { .. } => 9,
            Self::For { .. } => 10,
            Self::ForOf { .. } => 11,
            Self::ForIn { .. } => 12,
            Self::Logical { .. } => 13,
            Self::Ternary { .. } => 14,
            Self::Optional { .. } => 15,
            Self::Label { .. } => 16,
            Self::Sequence { .. } => 17,
            Self::MaybeThrow { .. } => 18,
            Self::Try { .. } => 19,
            Self::Scope { .. } => 20,
            Self::PrunedScope { .. } => 21,
        }
    }

    /// The name that docs/FORMAT.md gives it.
    pub const fn name(&self) -> &'static str {
        Self::NAMES[self.code() as usize]
    }
}

/// These, and nothing after them.
fn first<const N: usize>(blocks: [BlockRow; N]) -> [Option<BlockRow>; 5] {
    std::array::from_fn(|place| blocks.get(place).copied())
}

/// A row of the blocks: `count` instructions from row `first` on, then its ending.
#[derive(Clone, Copy, Debug, PartialEq, Eq, Hash)]
pub struct Block {
    /// The first of its instructions.
    pub first: InstructionRow,
    /// How many it has: rows from `first` on.
    pub count: u32,
    /// What it ends in.
    pub ending: Ending,
    /// The number of its ending in the order of evaluation, which is copied.
    pub id: u32,
    /// The source text of its ending.
    pub span: Option<Span>,
}

impl Block {
    /// None where [`Ending::of_columns`] has none.
    pub fn of_row(row: &[u32; BLOCK_WORDS]) -> Option<Self> {
        let [first, count, code, a, b, c, d, e, id, from, to] = *row;
        let ending = Ending::of_columns(code, [a, b, c, d, e])?;
        Some(Self { first: InstructionRow(first), count, ending, id, span: Span::of_words(from, to) })
    }

    /// The eleven words: the inverse.
    pub fn row(&self) -> [u32; BLOCK_WORDS] {
        let [a, b, c, d, e] = self.ending.columns();
        let [from, to] = Span::words(self.span);
        [self.first.0, self.count, self.ending.code(), a, b, c, d, e, self.id, from, to]
    }
}

/// What an instruction is to the build.
#[rustfmt::skip] // a line a variant
#[derive(Clone, Copy, Debug, PartialEq, Eq, Hash)]
pub enum Value {
    /// Any that the build need not know.
    Other,
    /// Loads a local variable.
    LoadLocal {
        /// What is loaded.
        place: PlaceRow,
    },
    /// Stores to a local variable.
    StoreLocal {
        /// What is stored to.
        place: PlaceRow,
        /// What is stored.
        value: PlaceRow,
    },
}

/// A row of the instructions.
#[derive(Clone, Copy, Debug, PartialEq, Eq, Hash)]
pub struct Instruction {
    /// Its number in the order of evaluation, which is copied.
    pub id: u32,
    /// The place that gets its result.
    pub lvalue: PlaceRow,
    /// What it is.
    pub value: Value,
    /// Its source text.
    pub span: Option<Span>,
}

impl Instruction {
    /// None where the code is above 2, or p or q is not 0 where the code does not use it.
    pub fn of_row(row: &[u32; INSTRUCTION_WORDS]) -> Option<Self> {
        let [id, lvalue, code, p, q, from, to] = *row;
        let value = match (code, p, q) {
            (0, 0, 0) => Value::Other,
            (1, place, 0) => Value::LoadLocal { place: PlaceRow(place) },
            (2, place, value) => Value::StoreLocal { place: PlaceRow(place), value: PlaceRow(value) },
            _ => return None,
        };
        Some(Self { id, lvalue: PlaceRow(lvalue), value, span: Span::of_words(from, to) })
    }

    /// The seven words: the inverse.
    pub fn row(&self) -> [u32; INSTRUCTION_WORDS] {
        let (code, p, q) = match self.value {
            Value::Other => (0, 0, 0),
            Value::LoadLocal { place } => (1, place.0, 0),
            Value::StoreLocal { place, value } => (2, place.0, value.0),
        };
        let [from, to] = Span::words(self.span);
        [self.id, self.lvalue.0, code, p, q, from, to]
    }
}

/// A row of the cases.
#[derive(Clone, Copy, Debug, PartialEq, Eq, Hash)]
pub struct Case {
    /// What the Switch's value is compared with; none is the default.
    pub test: Option<PlaceRow>,
    /// The first block of its statements.
    pub block: BlockRow,
}

/// A table. Rows are pushed and changed freely; the build looks at everything when it gets the words. Of more rows of a sort than
/// 4,294,967,295 there is no number: the row and the count are then this number, which the build refuses.
#[derive(Clone, Debug, Default, PartialEq, Eq)]
pub struct Table {
    /// The block at which the build begins.
    pub entry: BlockRow,
    /// The blocks, by row.
    pub blocks: Vec<Block>,
    /// The instructions of all blocks, by row.
    pub instructions: Vec<Instruction>,
    /// The cases of all Switches, by row.
    pub cases: Vec<Case>,
    /// The identifier of each place.
    pub places: Vec<IdentifierRow>,
    /// Of each identifier, whether it has a name.
    pub identifiers: Vec<bool>,
}

impl Table {
    /// Adds an identifier and gives its row.
    pub fn identifier(&mut self, named: bool) -> IdentifierRow {
        IdentifierRow(push(&mut self.identifiers, named))
    }

    /// Adds a place and gives its row.
    pub fn place(&mut self, identifier: IdentifierRow) -> PlaceRow {
        PlaceRow(push(&mut self.places, identifier))
    }

    /// Adds a block with its instructions and gives its row. A block may name rows that are added later.
    pub fn block(&mut self, instructions: &[Instruction], ending: Ending, id: u32, span: Option<Span>) -> BlockRow {
        let (first, count) = (InstructionRow(rows::count(self.instructions.len())), rows::count(instructions.len()));
        self.instructions.extend(instructions);
        BlockRow(push(&mut self.blocks, Block { first, count, ending, id, span }))
    }

    /// Adds cases and gives the Switch over them.
    pub fn switch(&mut self, test: PlaceRow, cases: &[Case], fallthrough: BlockRow) -> Ending {
        let first_case = rows::count(self.cases.len());
        self.cases.extend(cases);
        Ending::Switch { test, first_case, cases: rows::count(cases.len()), fallthrough }
    }

    /// The words that the build takes. A span from 0 to 0 becomes none, and `Some(65,535)` becomes none: words have no other.
    pub fn words(&self) -> Vec<u32> {
        let counts = [self.blocks.len(), self.instructions.len(), self.cases.len(), self.places.len(), self.identifiers.len()];
        let length = HEAD_WORDS
            + BLOCK_WORDS * self.blocks.len()
            + INSTRUCTION_WORDS * self.instructions.len()
            + CASE_WORDS * self.cases.len()
            + self.places.len()
            + self.identifiers.len();
        let mut words = Vec::with_capacity(length);
        words.push(self.entry.0);
        words.extend(counts.map(rows::count));
        self.blocks.iter().for_each(|block| words.extend(block.row()));
        self.instructions.iter().for_each(|instruction| words.extend(instruction.row()));
        self.cases.iter().for_each(|case| words.extend([case.test.map_or(NONE, |test| test.0), case.block.0]));
        words.extend(self.places.iter().map(|identifier| identifier.0));
        words.extend(self.identifiers.iter().map(|named| u32::from(*named)));
        words
    }

    /// The table of words, of any content and number: 1 where the words are not as many as their head says, 4 at the first word of a row
    /// that has no typed value (an unknown code, variant, operator or flag; a word in a column that is not used). All else that the build
    /// tests (limits, rows that are named, spans) is not tested here.
    pub fn of_words(words: &[u32]) -> Result<Self, Refusal> {
        let short = Refusal { code: code::WORD_COUNT, at: 0 };
        let (head, mut rest) = words.split_first_chunk::<HEAD_WORDS>().ok_or(short)?;
        let [entry, counts @ ..] = *head;
        let widths = [BLOCK_WORDS, INSTRUCTION_WORDS, CASE_WORDS, 1, 1];
        let mut parts = [rest; 5];
        for ((part, count), width) in parts.iter_mut().zip(counts).zip(widths) {
            let length = (count as usize).checked_mul(width).ok_or(short)?;
            (*part, rest) = rest.split_at_checked(length).ok_or(short)?;
        }
        if !rest.is_empty() {
            return Err(short);
        }
        let [blocks, instructions, cases, places, identifiers] = parts;
        let at = |part: &[u32]| part.as_ptr().addr().wrapping_sub(words.as_ptr().addr()) / size_of::<u32>();
        Ok(Self {
            entry: BlockRow(entry),
            blocks: typed(blocks, at(blocks), Block::of_row)?,
            instructions: typed(instructions, at(instructions), Instruction::of_row)?,
            cases: typed(cases, at(cases), |[test, block]: &[u32; CASE_WORDS]| {
                Some(Case { test: (*test != NONE).then_some(PlaceRow(*test)), block: BlockRow(*block) })
            })?,
            places: places.iter().copied().map(IdentifierRow).collect(),
            identifiers: typed(identifiers, at(identifiers), |[named]: &[u32; 1]| (*named < 2).then_some(*named == 1))?,
        })
    }
}

fn push<T>(rows: &mut Vec<T>, row: T) -> u32 {
    rows.push(row);
    rows::last(rows.len())
}

fn typed<T, const WIDTH: usize>(words: &[u32], at: usize, of_row: fn(&[u32; WIDTH]) -> Option<T>) -> Result<Vec<T>, Refusal> {
    let (rows, _) = words.as_chunks();
    let row = |(number, row)| of_row(row).ok_or(Refusal { code: code::WORD, at: rows::count(at + number * WIDTH) });
    rows.iter().enumerate().map(row).collect()
}
