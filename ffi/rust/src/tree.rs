//! The rows of a tree as typed values: [`Op`], [`Node`], and [`Nodes`], which finds the parts of each row.
//!
//! ```
//! use reactive_build::tree::{Node, Nodes, PlaceRow};
//!
//! // RETURN of place 0 with id 7, then the BLOCK of one statement that is the body (docs/FORMAT.md)
//! let rows = [[22, 0, 7, 0, 0, 0], [9, 1, 0, 0, 0, 0]];
//! let nodes = Nodes::of(&rows).expect("the rows of one tree");
//! assert_eq!(nodes.as_slice(), [Node::Return { value: PlaceRow(0), id: 7 }, Node::Block { statements: 1 }]);
//! assert_eq!(nodes.parts(1).collect::<Vec<_>>(), [0]);
//! for visit in nodes.walk() {
//!     println!("{:indent$}{}", "", nodes[visit.row].op().name(), indent = 2 * visit.depth);
//! }
//! println!("{nodes}"); // the same in words (`outline`)
//! ```

use crate::refusal::code;
pub use crate::rows::{BlockRow, InstructionRow, PlaceRow};
use crate::{ROW_WORDS, Refusal, Span, rows};
use std::ops::{Index, Range};

/// A label, a test of a CASE or a binding that is not there, as a word.
pub const NONE: u32 = 65_535;

/// A row of a tree: op, a, b, c, d, e.
pub type Row = [u32; ROW_WORDS];

/// What a row is: its first word.
#[derive(Clone, Copy, Debug, PartialEq, Eq, Hash)]
#[repr(u32)]
pub enum Op {
    /// A value: of an instruction of the table.
    Plain = 1,
    /// A value: of a place, which the walk loads.
    Load = 2,
    /// A value: `undefined`.
    Undef = 3,
    /// A statement, or a part of a SEQ: an instruction with its value.
    Instr = 4,
    /// A value: instructions, and then a value.
    Seq = 5,
    /// A value: `||`, `&&` or `??`.
    Logical = 6,
    /// A value: `? :`.
    Cond = 7,
    /// A value: a part of an optional chain.
    Optional = 8,
    /// A list of statements.
    Block = 9,
    /// A statement: `if`.
    If = 10,
    /// A part of a SWITCH.
    Case = 11,
    /// A statement: `switch`.
    Switch = 12,
    /// A statement: `do` with `while`.
    DoWhile = 13,
    /// A statement: `while`.
    While = 14,
    /// A statement: `for`.
    For = 15,
    /// A statement: `for` with `of`.
    ForOf = 16,
    /// A statement: `for` with `in`.
    ForIn = 17,
    /// A statement with a label.
    Label = 18,
    /// A statement: `try` with `catch`.
    Try = 19,
    /// A statement: statements that are memoized together.
    Scope = 20,
    /// A statement: a scope that is not memoized.
    Pruned = 21,
    /// A statement: `return`.
    Return = 22,
    /// A statement: `throw`.
    Throw = 23,
    /// A statement: `break`.
    Break = 24,
    /// A statement: `continue`.
    Continue = 25,
}

impl Op {
    /// Every op: op n is at n - 1.
    #[rustfmt::skip]
    pub const ALL: [Self; 25] = [
        Self::Plain, Self::Load, Self::Undef, Self::Instr, Self::Seq, Self::Logical, Self::Cond, Self::Optional, Self::Block, Self::If,
        Self::Case, Self::Switch, Self::DoWhile, Self::While, Self::For, Self::ForOf, Self::ForIn, Self::Label, Self::Try, Self::Scope,
        Self::Pruned, Self::Return, Self::Throw, Self::Break, Self::Continue,
    ];

    #[rustfmt::skip]
    const NAMES: [&str; 25] = [
        "PLAIN", "LOAD", "UNDEF", "INSTR", "SEQ", "LOGICAL", "COND", "OPTIONAL", "BLOCK", "IF", "CASE", "SWITCH", "DOWHILE", "WHILE", "FOR",
        "FOROF", "FORIN", "LABEL", "TRY", "SCOPE", "PRUNED", "RETURN", "THROW", "BREAK", "CONTINUE",
    ];

    /// The op of this number, if there is one.
    pub fn of(number: u32) -> Option<Self> {
        Self::ALL.get(number.checked_sub(1)? as usize).copied()
    }

    /// The first word of a row.
    pub const fn number(self) -> u32 {
        self as u32
    }

    /// The name that docs/FORMAT.md gives it.
    pub const fn name(self) -> &'static str {
        Self::NAMES[self as usize - 1]
    }
}

/// The operator of a LOGICAL.
#[derive(Clone, Copy, Debug, PartialEq, Eq, Hash)]
#[repr(u32)]
pub enum Operator {
    /// `||`.
    Or = 0,
    /// `&&`.
    And = 1,
    /// `??`.
    Coalesce = 2,
}

impl Operator {
    /// Every operator: number n is at n.
    pub const ALL: [Self; 3] = [Self::Or, Self::And, Self::Coalesce];

    /// The operator of this number, if there is one.
    pub fn of(number: u32) -> Option<Self> {
        Self::ALL.get(number as usize).copied()
    }

    /// The number that stands for it in a table and in a row.
    pub const fn number(self) -> u32 {
        self as u32
    }

    /// The name that docs/FORMAT.md gives it.
    pub const fn name(self) -> &'static str {
        ["or", "and", "coalesce"][self as usize]
    }
}

/// How a jump is written.
#[derive(Clone, Copy, Debug, PartialEq, Eq, Hash)]
#[repr(u32)]
pub enum Kind {
    /// Not at all: control gets there without it.
    Implicit = 0,
    /// With the label of the statement that it goes to.
    Labeled = 1,
    /// As a bare `break` or `continue`.
    Unlabeled = 2,
}

impl Kind {
    /// Every kind: number n is at n.
    pub const ALL: [Self; 3] = [Self::Implicit, Self::Labeled, Self::Unlabeled];

    /// The kind of this number, if there is one.
    pub fn of(number: u32) -> Option<Self> {
        Self::ALL.get(number as usize).copied()
    }

    /// The number that stands for it in a row.
    pub const fn number(self) -> u32 {
        self as u32
    }

    /// The name that docs/FORMAT.md gives it.
    pub const fn name(self) -> &'static str {
        ["Implicit", "Labeled", "Unlabeled"][self as usize]
    }
}

/// A row as a typed value. A label, a test of a CASE, a binding or a span that is not there is `None`. Its parts are rows before it
/// ([`Nodes::parts`]).
#[rustfmt::skip] // a line a variant
#[derive(Clone, Copy, Debug, PartialEq, Eq, Hash)]
pub enum Node {
    /// A value: of an instruction of the table.
    Plain {
        /// The instruction.
        instruction: InstructionRow,
    },
    /// A value: of a place, which the walk loads. A LoadLocal of the table is a PLAIN.
    Load {
        /// What is loaded.
        place: PlaceRow,
    },
    /// A value: `undefined`.
    Undef {
        /// The source text of the block's ending.
        span: Option<Span>,
    },
    /// A statement, or a part of a SEQ: an instruction. Its part is its value.
    Instr {
        /// Its number in the order of evaluation.
        id: u32,
        /// The place that gets its result.
        lvalue: PlaceRow,
        /// Its source text.
        span: Option<Span>,
    },
    /// A value. Its parts are INSTRs, and then a value.
    Seq {
        /// How many INSTRs.
        instructions: u32,
        /// The number of its value in the order of evaluation.
        id: u32,
    },
    /// A value. Its parts are the left and the right side.
    Logical {
        /// Which operator.
        operator: Operator,
    },
    /// A value of `? :`. Its parts are test, consequent and alternate.
    Cond,
    /// A value: a part of an optional chain. Its part is a value.
    Optional {
        /// Whether `?.` stands here.
        optional: bool,
    },
    /// A list of statements, which are its parts.
    Block {
        /// How many statements.
        statements: u32,
    },
    /// An `if`. Its parts are the consequent and the alternate, where there is one.
    If {
        /// What is tested.
        test: PlaceRow,
        /// Whether there is an alternate.
        has_alternate: bool,
        /// The number of the block's ending in the order of evaluation.
        id: u32,
        /// The label by which jumps name it.
        label: Option<BlockRow>,
    },
    /// A part of a SWITCH. Its part is a BLOCK.
    Case {
        /// What the SWITCH's value is compared with; none is the default.
        test: Option<PlaceRow>,
    },
    /// A `switch`. Its parts are its CASEs, the last one first.
    Switch {
        /// What is compared.
        test: PlaceRow,
        /// How many CASEs.
        cases: u32,
        /// The number of the block's ending in the order of evaluation.
        id: u32,
        /// The label by which jumps name it.
        label: Option<BlockRow>,
    },
    /// A `do` with its `while`. Its parts are the body and the test.
    DoWhile {
        /// The number of the block's ending in the order of evaluation.
        id: u32,
        /// The label by which jumps name it.
        label: Option<BlockRow>,
    },
    /// A `while`. Its parts are the test and the body.
    While {
        /// The number of the block's ending in the order of evaluation.
        id: u32,
        /// The label by which jumps name it.
        label: Option<BlockRow>,
    },
    /// A `for`. Its parts are the initializer, the test, the update, where there is one, and the body.
    For {
        /// The number of the block's ending in the order of evaluation.
        id: u32,
        /// The label by which jumps name it.
        label: Option<BlockRow>,
        /// Whether there is an update.
        has_update: bool,
    },
    /// A `for` with `of`. Its parts are the iterated value, the test for a next item, and the body.
    ForOf {
        /// The number of the block's ending in the order of evaluation.
        id: u32,
        /// The label by which jumps name it.
        label: Option<BlockRow>,
        /// The source text of the block's ending.
        span: Option<Span>,
    },
    /// A `for` with `in`. Its parts are the value whose keys are gone through, and the body.
    ForIn {
        /// The number of the block's ending in the order of evaluation.
        id: u32,
        /// The label by which jumps name it.
        label: Option<BlockRow>,
        /// The source text of the block's ending.
        span: Option<Span>,
    },
    /// A statement with a label. Its part is a BLOCK.
    Label {
        /// The number of the block's ending in the order of evaluation.
        id: u32,
        /// The label by which jumps name it.
        label: Option<BlockRow>,
    },
    /// A `try` with its `catch`. Its parts are the body and the handler.
    Try {
        /// The number of the block's ending in the order of evaluation.
        id: u32,
        /// The label by which jumps name it.
        label: Option<BlockRow>,
        /// Where the handler finds what was thrown.
        binding: Option<PlaceRow>,
    },
    /// Statements that are memoized together. Its part is a BLOCK.
    Scope {
        /// The scope's number.
        scope: u32,
    },
    /// A scope that is not memoized. Its part is a BLOCK.
    Pruned {
        /// The scope's number.
        scope: u32,
    },
    /// A `return`.
    Return {
        /// What is returned.
        value: PlaceRow,
        /// The number of the block's ending in the order of evaluation.
        id: u32,
    },
    /// A `throw`.
    Throw {
        /// What is thrown.
        value: PlaceRow,
        /// The number of the block's ending in the order of evaluation.
        id: u32,
    },
    /// A `break`.
    Break {
        /// The label of the statement that it goes out of.
        target: BlockRow,
        /// The number of the block's ending in the order of evaluation.
        id: u32,
        /// How it is written.
        kind: Kind,
        /// How many loops it leaves before its target, at most 128.
        loops_left: u32,
    },
    /// A `continue`.
    Continue {
        /// The fallthrough of the loop that it goes on with, which is the loop's label where it has one.
        target: BlockRow,
        /// The number of the block's ending in the order of evaluation.
        id: u32,
        /// How it is written.
        kind: Kind,
        /// How many loops it leaves before its target, at most 128.
        loops_left: u32,
    },
}

impl Node {
    /// The node of a row; none where its op, a flag, an operator or a kind is out of range, or a column that the op does not use is not 0.
    #[inline]
    pub fn of_row(row: &Row) -> Option<Self> {
        Some(match *row {
            [1, instruction, 0, 0, 0, 0] => Self::Plain { instruction: InstructionRow(instruction) },
            [2, place, 0, 0, 0, 0] => Self::Load { place: PlaceRow(place) },
            [3, from, to, 0, 0, 0] => Self::Undef { span: Span::of_words(from, to) },
            [4, id, lvalue, from, to, 0] => Self::Instr { id, lvalue: PlaceRow(lvalue), span: Span::of_words(from, to) },
            [5, instructions, id, 0, 0, 0] => Self::Seq { instructions, id },
            [6, operator, 0, 0, 0, 0] => Self::Logical { operator: Operator::of(operator)? },
            [7, 0, 0, 0, 0, 0] => Self::Cond,
            [8, optional @ (0 | 1), 0, 0, 0, 0] => Self::Optional { optional: optional == 1 },
            [9, statements, 0, 0, 0, 0] => Self::Block { statements },
            [10, test, alternate @ (0 | 1), id, label, 0] => {
                Self::If { test: PlaceRow(test), has_alternate: alternate == 1, id, label: label_of(label) }
            }
            [11, test, 0, 0, 0, 0] => Self::Case { test: place_of(test) },
            [12, test, cases, id, label, 0] => Self::Switch { test: PlaceRow(test), cases, id, label: label_of(label) },
            [13, id, label, 0, 0, 0] => Self::DoWhile { id, label: label_of(label) },
            [14, id, label, 0, 0, 0] => Self::While { id, label: label_of(label) },
            [15, id, label, update @ (0 | 1), 0, 0] => Self::For { id, label: label_of(label), has_update: update == 1 },
            [16, id, label, from, to, 0] => Self::ForOf { id, label: label_of(label), span: Span::of_words(from, to) },
            [17, id, label, from, to, 0] => Self::ForIn { id, label: label_of(label), span: Span::of_words(from, to) },
            [18, id, label, 0, 0, 0] => Self::Label { id, label: label_of(label) },
            [19, id, label, binding, 0, 0] => Self::Try { id, label: label_of(label), binding: place_of(binding) },
            [20, scope, 0, 0, 0, 0] => Self::Scope { scope },
            [21, scope, 0, 0, 0, 0] => Self::Pruned { scope },
            [22, value, id, 0, 0, 0] => Self::Return { value: PlaceRow(value), id },
            [23, value, id, 0, 0, 0] => Self::Throw { value: PlaceRow(value), id },
            [24, target, id, kind, loops_left, 0] => Self::Break { target: BlockRow(target), id, kind: Kind::of(kind)?, loops_left },
            [25, target, id, kind, loops_left, 0] => {
                Self::Continue { target: BlockRow(target), id, kind: Kind::of(kind)?, loops_left }
            }
            _ => return None,
        })
    }

    /// The row of a node: the inverse.
    pub fn row(&self) -> Row {
        let [a, b, c, d] = match *self {
            Self::Plain { instruction } => [instruction.0, 0, 0, 0],
            Self::Load { place } => [place.0, 0, 0, 0],
            Self::Undef { span } => {
                let [from, to] = Span::words(span);
                [from, to, 0, 0]
            }
            Self::Instr { id, lvalue, span } => with_span([id, lvalue.0], span),
            Self::Seq { instructions, id } => [instructions, id, 0, 0],
            Self::Logical { operator } => [operator.number(), 0, 0, 0],
            Self::Cond => [0; 4],
            Self::Optional { optional } => [optional.into(), 0, 0, 0],
            Self::Block { statements } => [statements, 0, 0, 0],
            Self::If { test, has_alternate, id, label } => [test.0, has_alternate.into(), id, label_word(label)],
            Self::Case { test } => [place_word(test), 0, 0, 0],
            Self::Switch { test, cases, id, label } => [test.0, cases, id, label_word(label)],
            Self::DoWhile { id, label } | Self::While { id, label } | Self::Label { id, label } => [id, label_word(label), 0, 0],
            Self::For { id, label, has_update } => [id, label_word(label), has_update.into(), 0],
            Self::ForOf { id, label, span } | Self::ForIn { id, label, span } => with_span([id, label_word(label)], span),
            Self::Try { id, label, binding } => [id, label_word(label), place_word(binding), 0],
            Self::Scope { scope } | Self::Pruned { scope } => [scope, 0, 0, 0],
            Self::Return { value, id } | Self::Throw { value, id } => [value.0, id, 0, 0],
            Self::Break { target, id, kind, loops_left } | Self::Continue { target, id, kind, loops_left } => {
                [target.0, id, kind.number(), loops_left]
            }
        };
        [self.op().number(), a, b, c, d, 0]
    }

    /// What it is: the first word of its row.
    pub fn op(&self) -> Op {
        match self {
            Self::Plain { .. } => Op::Plain,
            Self::Load { .. } => Op::Load,
            Self::Undef { .. } => Op::Undef,
            Self::Instr { .. } => Op::Instr,
            Self::Seq { .. } => Op::Seq,
            Self::Logical { .. } => Op::Logical,
            Self::Cond => Op::Cond,
            Self::Optional { .. } => Op::Optional,
            Self::Block { .. } => Op::Block,
            Self::If { .. } => Op::If,
            Self::Case { .. } => Op::Case,
            Self::Switch { .. } => Op::Switch,
            Self::DoWhile { .. } => Op::DoWhile,
            Self::While { .. } => Op::While,
            Self::For { .. } => Op::For,
            Self::ForOf { .. } => Op::ForOf,
            Self::ForIn { .. } => Op::ForIn,
            Self::Label { .. } => Op::Label,
            Self::Try { .. } => Op::Try,
            Self::Scope { .. } => Op::Scope,
            Self::Pruned { .. } => Op::Pruned,
            Self::Return { .. } => Op::Return,
            Self::Throw { .. } => Op::Throw,
            Self::Break { .. } => Op::Break,
            Self::Continue { .. } => Op::Continue,
        }
    }

    /// The label of a statement, where it can have one and has it.
    pub fn label(&self) -> Option<BlockRow> {
        match *self {
            Self::If { label, .. }
            | Self::Switch { label, .. }
            | Self::DoWhile { label, .. }
            | Self::While { label, .. }
            | Self::For { label, .. }
            | Self::ForOf { label, .. }
            | Self::ForIn { label, .. }
            | Self::Label { label, .. }
            | Self::Try { label, .. } => label,
            _ => None,
        }
    }

    /// The span of an UNDEF, INSTR, FOROF or FORIN, where it has one.
    pub fn span(&self) -> Option<Span> {
        match *self {
            Self::Undef { span } | Self::Instr { span, .. } | Self::ForOf { span, .. } | Self::ForIn { span, .. } => span,
            _ => None,
        }
    }

    /// How many parts of its own it has: those of docs/FORMAT.md, "Parts before it".
    pub fn part_count(&self) -> usize {
        let (_, count, after) = self.expected();
        count as usize + after.len()
    }

    /// The parts before it, first to last: so many of one sort, then these.
    fn expected(&self) -> (Sort, u32, &'static [Sort]) {
        use Sort::{Block, Case, Instruction, Statement, Value};
        match *self {
            Self::Plain { .. } | Self::Load { .. } | Self::Undef { .. } => (Value, 0, &[]),
            Self::Return { .. } | Self::Throw { .. } | Self::Break { .. } | Self::Continue { .. } => (Value, 0, &[]),
            Self::Instr { .. } | Self::Optional { .. } => (Value, 1, &[]),
            Self::Seq { instructions, .. } => (Instruction, instructions, &[Value]),
            Self::Logical { .. } => (Value, 2, &[]),
            Self::Cond => (Value, 3, &[]),
            Self::Block { statements } => (Statement, statements, &[]),
            Self::If { has_alternate, .. } => (Block, 1 + u32::from(has_alternate), &[]),
            Self::Case { .. } | Self::Label { .. } | Self::Scope { .. } | Self::Pruned { .. } => (Block, 1, &[]),
            Self::Switch { cases, .. } => (Case, cases, &[]),
            Self::DoWhile { .. } => (Block, 1, &[Value]),
            Self::While { .. } | Self::ForIn { .. } => (Value, 1, &[Block]),
            Self::For { has_update, .. } => (Value, 2 + u32::from(has_update), &[Block]),
            Self::ForOf { .. } => (Value, 2, &[Block]),
            Self::Try { .. } => (Block, 2, &[]),
        }
    }

    fn sort(&self) -> Sort {
        match self.op() {
            Op::Plain | Op::Load | Op::Undef | Op::Seq | Op::Logical | Op::Cond | Op::Optional => Sort::Value,
            Op::Instr => Sort::Instruction,
            Op::Block => Sort::Block,
            Op::Case => Sort::Case,
            _ => Sort::Statement,
        }
    }
}

/// What a part is. An INSTR is a statement too.
#[derive(Clone, Copy, PartialEq, Eq)]
enum Sort {
    Value,
    Instruction,
    Statement,
    Block,
    Case,
}

impl Sort {
    fn is(self, expected: Self) -> bool {
        self == expected || (self, expected) == (Self::Instruction, Self::Statement)
    }
}

fn label_of(word: u32) -> Option<BlockRow> {
    (word != NONE).then_some(BlockRow(word))
}

fn place_of(word: u32) -> Option<PlaceRow> {
    (word != NONE).then_some(PlaceRow(word))
}

fn label_word(label: Option<BlockRow>) -> u32 {
    label.map_or(NONE, |label| label.0)
}

fn place_word(place: Option<PlaceRow>) -> u32 {
    place.map_or(NONE, |place| place.0)
}

fn with_span([a, b]: [u32; 2], span: Option<Span>) -> [u32; 4] {
    let [from, to] = Span::words(span);
    [a, b, from, to]
}

/// The rows of one tree as nodes, each with the rows of its parts. A node is known by its row: `nodes[row]`.
#[derive(Clone, Debug, PartialEq, Eq)]
pub struct Nodes {
    nodes: Vec<Node>,
    /// Of each row: the first row of its subtree. The subtree ends in the row itself.
    first: Vec<usize>,
}

/// A node met on a walk.
#[derive(Clone, Copy, Debug, PartialEq, Eq)]
pub struct Visit {
    /// Its row.
    pub row: usize,
    /// How many nodes are around it.
    pub depth: usize,
}

impl Nodes {
    /// The nodes of a tree's rows. Rows of any content and number may be passed: 60 at the first row that is no node (see
    /// [`Node::of_row`]), 61 at the first that does not find its parts before it, whichever comes first; 62 where anything is left in the
    /// end but one BLOCK. These are the refusals of the proved check of rows (`tree_check`), which also limits the numbers in the columns
    /// and the number of rows.
    pub fn of(tree: &[Row]) -> Result<Self, Refusal> {
        let mut nodes = Vec::with_capacity(tree.len());
        let mut first = Vec::with_capacity(tree.len());
        // The rows that are no part yet, last on top.
        let mut open: Vec<usize> = Vec::new();
        for (row, words) in tree.iter().enumerate() {
            let refused = |code| Refusal { code, at: rows::count(row) };
            let node = Node::of_row(words).ok_or(refused(code::ROW_OUT_OF_RANGE))?;
            let (sort, count, after) = node.expected();
            let mut begin = row;
            for expected in after.iter().rev().copied().chain((0..count).map(|_| sort)) {
                match open.pop() {
                    Some(part) if nodes.get(part).is_some_and(|part: &Node| part.sort().is(expected)) => begin = first[part],
                    _ => return Err(refused(code::PARTS_MISSING)),
                }
            }
            nodes.push(node);
            first.push(begin);
            open.push(row);
        }
        match open[..] {
            [body] if matches!(nodes[body], Node::Block { .. }) => Ok(Self { nodes, first }),
            _ => Err(Refusal { code: code::NOT_ONE_TREE, at: 0 }),
        }
    }

    /// The row of the body: the last.
    pub fn body(&self) -> usize {
        self.nodes.len() - 1
    }

    /// Row by row, as a slice.
    pub fn as_slice(&self) -> &[Node] {
        &self.nodes
    }

    /// Row by row: the parts of a node come before it.
    pub fn iter(&self) -> std::slice::Iter<'_, Node> {
        self.nodes.iter()
    }

    /// The rows of a node and all that is in it, the node's own row last.
    ///
    /// # Panics
    ///
    /// Where there is no such row, as an index of a slice does.
    pub fn subtree(&self, row: usize) -> Range<usize> {
        self.first[row]..row + 1
    }

    /// The rows of a node's own parts, in the order of the rows: a SWITCH has its last CASE first, a DOWHILE its body before its test.
    ///
    /// # Panics
    ///
    /// Where there is no such row, as an index of a slice does.
    pub fn parts(&self, row: usize) -> impl DoubleEndedIterator<Item = usize> + use<> {
        let mut parts = Vec::new();
        let (begin, mut end) = (self.first[row], row);
        while end > begin {
            parts.push(end - 1);
            end = self.first[end - 1];
        }
        parts.reverse();
        parts.into_iter()
    }

    /// The same in the order of the source: a SWITCH has its first CASE first. In all others that is the order of the rows.
    ///
    /// # Panics
    ///
    /// Where there is no such row, as an index of a slice does.
    pub fn parts_of_source(&self, row: usize) -> impl DoubleEndedIterator<Item = usize> + use<> {
        let mut parts: Vec<usize> = self.parts(row).collect();
        if matches!(self[row], Node::Switch { .. }) {
            parts.reverse();
        }
        parts.into_iter()
    }

    /// Every node once, the body first, a node before its parts, these in the order of the source.
    pub fn walk(&self) -> impl Iterator<Item = Visit> + '_ {
        let mut open = vec![Visit { row: self.body(), depth: 0 }];
        std::iter::from_fn(move || {
            let visit = open.pop()?;
            open.extend(self.parts_of_source(visit.row).rev().map(|row| Visit { row, depth: visit.depth + 1 }));
            Some(visit)
        })
    }
}

impl Index<usize> for Nodes {
    type Output = Node;

    /// # Panics
    ///
    /// Where there is no such row, as an index of a slice does.
    fn index(&self, row: usize) -> &Node {
        &self.nodes[row]
    }
}

impl<'n> IntoIterator for &'n Nodes {
    type Item = &'n Node;
    type IntoIter = std::slice::Iter<'n, Node>;

    fn into_iter(self) -> Self::IntoIter {
        self.iter()
    }
}
