//! What each word of a row must be (paper 01, "Input words").

/// `none`, where a column allows it.
pub const NONE: u32 = 65_535;
/// The largest word that a row may hold.
pub const LARGEST: u32 = 65_535;

#[derive(Clone, Copy, PartialEq, Eq)]
pub enum Column {
    /// Any word up to `LARGEST`.
    Any,
    /// A column that the code does not use: 0.
    Zero,
    /// A number up to the one given.
    UpTo(u32),
    Block,
    BlockOrNone,
    Place,
    PlaceOrNone,
    Identifier,
    /// How many rows of a table are meant, from the one that the column before names.
    InstructionCount,
    CaseCount,
    /// The end of a span: up to `LARGEST`, and not below the word before it.
    To,
}

/// Columns a to e of a block whose row ends in this code, 1 to 21.
pub fn terminal_columns(code: u32) -> [Column; 5] {
    use Column::{Any, Block, BlockOrNone, CaseCount, Place, PlaceOrNone, UpTo, Zero};
    match code {
        1 => [Zero, Zero, Zero, Zero, Zero],
        2 | 3 => [Place, Zero, Zero, Zero, Zero],
        4 => [Block, UpTo(2), Zero, Zero, Zero],
        5 => [Place, Block, Block, Block, Zero],
        6 => [Place, Block, Block, Zero, Zero],
        7 => [Place, Any, CaseCount, Block, Zero],
        8 | 9 => [Block, Block, Block, Zero, Zero],
        10 => [Block, Block, BlockOrNone, Block, Block],
        11 => [Block, Block, Block, Block, Zero],
        12 => [Block, Block, Block, Zero, Zero],
        13 => [UpTo(2), Block, Block, Zero, Zero],
        14 => [Block, Block, Zero, Zero, Zero],
        15 => [UpTo(1), Block, Block, Zero, Zero],
        16 | 17 => [Block, Block, Zero, Zero, Zero],
        18 => [Block, Zero, Zero, Zero, Zero],
        19 => [Block, Block, Block, PlaceOrNone, Zero],
        20 | 21 => [Block, Block, Any, Zero, Zero],
        _ => unreachable!("the code is tested before its columns"),
    }
}

/// Columns p and q of an instruction with this code, 0 to 2.
pub fn operand_columns(code: u32) -> [Column; 2] {
    match code {
        0 => [Column::Zero, Column::Zero],
        1 => [Column::Place, Column::Zero],
        _ => [Column::Place, Column::Place],
    }
}
