//! What each column of a row holds: of the blocks, by what they end in, and of a tree, by op.

use crate::table::Ending;
use crate::tree::Op;

/// What a column holds.
#[derive(Clone, Copy, Debug, PartialEq, Eq, Hash)]
pub enum Holds {
    /// A block: a row of the blocks.
    Block,
    /// A block, or 65,535.
    BlockOrNone,
    /// A place: a row of the places.
    Place,
    /// A place, or 65,535.
    PlaceOrNone,
    /// An instruction: a row of the instructions.
    Instruction,
    /// A case: a row of the cases.
    Case,
    /// How many.
    Count,
    /// A number that is copied: an id, an end of a span, a scope.
    Number,
    /// 0 or 1.
    Flag,
    /// A [`Variant`](crate::table::Variant).
    Variant,
    /// An [`Operator`](crate::tree::Operator).
    Operator,
    /// A [`Kind`](crate::tree::Kind).
    Kind,
}

impl Holds {
    /// The name of `reactive_column_kind` in reactive.h, in words: "block or none".
    pub const fn name(self) -> &'static str {
        match self {
            Self::Block => "block",
            Self::BlockOrNone => "block or none",
            Self::Place => "place",
            Self::PlaceOrNone => "place or none",
            Self::Instruction => "instruction",
            Self::Case => "case",
            Self::Count => "count",
            Self::Number => "number",
            Self::Flag => "flag",
            Self::Variant => "variant",
            Self::Operator => "operator",
            Self::Kind => "kind",
        }
    }
}

/// A column that is used.
#[derive(Clone, Copy, Debug, PartialEq, Eq, Hash)]
pub struct Column {
    /// Its name in docs/FORMAT.md.
    pub name: &'static str,
    /// What it holds.
    pub holds: Holds,
}

macro_rules! columns {
    ($($name:ident: $holds:ident),*) => { &[$(Column { name: stringify!($name), holds: Holds::$holds }),*] };
}

/// Op n is at n - 1.
const OPS: [&[Column]; 25] = [
    columns![instruction: Instruction],
    columns![place: Place],
    columns![from: Number, to: Number],
    columns![id: Number, lvalue: Place, from: Number, to: Number],
    columns![instructions: Count, id: Number],
    columns![operator: Operator],
    columns![],
    columns![optional: Flag],
    columns![statements: Count],
    columns![test: Place, alternate: Flag, id: Number, label: BlockOrNone],
    columns![test: PlaceOrNone],
    columns![test: Place, cases: Count, id: Number, label: BlockOrNone],
    columns![id: Number, label: BlockOrNone],
    columns![id: Number, label: BlockOrNone],
    columns![id: Number, label: BlockOrNone, update: Flag],
    columns![id: Number, label: BlockOrNone, from: Number, to: Number],
    columns![id: Number, label: BlockOrNone, from: Number, to: Number],
    columns![id: Number, label: BlockOrNone],
    columns![id: Number, label: BlockOrNone, binding: PlaceOrNone],
    columns![scope: Number],
    columns![scope: Number],
    columns![value: Place, id: Number],
    columns![value: Place, id: Number],
    columns![target: Block, id: Number, kind: Kind, loops_left: Count],
    columns![target: Block, id: Number, kind: Kind, loops_left: Count],
];

/// By code.
const ENDINGS: [&[Column]; 22] = [
    columns![],
    columns![],
    columns![value: Place],
    columns![value: Place],
    columns![block: Block, variant: Variant],
    columns![test: Place, consequent: Block, alternate: Block, fallthrough: Block],
    columns![test: Place, consequent: Block, alternate: Block],
    columns![test: Place, first_case: Case, cases: Count, fallthrough: Block],
    columns![loop_block: Block, test: Block, fallthrough: Block],
    columns![test: Block, loop_block: Block, fallthrough: Block],
    columns![init: Block, test: Block, update: BlockOrNone, loop_block: Block, fallthrough: Block],
    columns![init: Block, test: Block, loop_block: Block, fallthrough: Block],
    columns![init: Block, loop_block: Block, fallthrough: Block],
    columns![operator: Operator, test: Block, fallthrough: Block],
    columns![test: Block, fallthrough: Block],
    columns![optional: Flag, test: Block, fallthrough: Block],
    columns![block: Block, fallthrough: Block],
    columns![block: Block, fallthrough: Block],
    columns![continuation: Block],
    columns![block: Block, handler: Block, fallthrough: Block, binding: PlaceOrNone],
    columns![block: Block, fallthrough: Block, scope: Number],
    columns![block: Block, fallthrough: Block, scope: Number],
];

impl Op {
    /// The columns of its row, from a on; the others are 0.
    ///
    /// ```
    /// use reactive_build::columns::Holds;
    /// use reactive_build::tree::Op;
    ///
    /// let columns = Op::Return.columns().iter().map(|column| (column.name, column.holds));
    /// assert!(columns.eq([("value", Holds::Place), ("id", Holds::Number)]));
    /// ```
    pub const fn columns(self) -> &'static [Column] {
        OPS[self as usize - 1]
    }
}

impl Ending {
    /// The columns of a block with this code, from a on; the others are 0. None of a code that there is not.
    pub fn columns_of(code: u32) -> Option<&'static [Column]> {
        ENDINGS.get(code as usize).copied()
    }
}
