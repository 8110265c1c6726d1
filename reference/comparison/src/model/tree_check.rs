//! M-100 in plain Rust: whether a list of rows reads as one tree. It is written from the papers: a
//! part is read from its closing row back, over and over, and nothing is kept from row to row.

use super::{ROW_WORDS, Refusal, Row};

pub const MAX_ROWS: usize = 2_048;
pub const NONE: u32 = 65_535;

/// What a column may hold.
#[derive(Clone, Copy)]
pub enum Column {
    Unused,
    Flag,
    /// A kind or an operator.
    Choice,
    Block,
    Label,
    Instruction,
    Place,
    PlaceOrNone,
    Count,
    /// Loops that a jump leaves (M-107).
    Crossed,
    Free,
}

impl Column {
    pub fn fits(self, word: u32) -> bool {
        match self {
            Self::Unused => word == 0,
            Self::Flag => word <= 1,
            Self::Choice => word <= 2,
            Self::Block => word < 1_024,
            Self::Label => word < 1_024 || word == NONE,
            Self::Instruction | Self::Place => word < 4_096,
            Self::PlaceOrNone => word < 4_096 || word == NONE,
            Self::Count => word < 2_048,
            Self::Crossed => word <= 128,
            Self::Free => word <= NONE,
        }
    }
}

/// The columns of an op; those not listed are unused. `None`: there is no such op.
pub fn columns(op: u32) -> Option<&'static [Column]> {
    use Column::*;
    Some(match op {
        1 => &[Instruction],
        2 => &[Place],
        3 => &[Free, Free],
        4 => &[Free, Place, Free, Free],
        5 => &[Count, Free],
        6 => &[Choice],
        7 => &[],
        8 => &[Flag],
        9 => &[Count],
        10 => &[Place, Flag, Free, Label],
        11 => &[PlaceOrNone],
        12 => &[Place, Count, Free, Label],
        13 | 14 | 18 => &[Free, Label],
        15 => &[Free, Label, Flag],
        16 | 17 => &[Free, Label, Free, Free],
        19 => &[Free, Label, PlaceOrNone],
        20 | 21 => &[Free],
        22 | 23 => &[Place, Free],
        24 | 25 => &[Block, Free, Choice, Crossed],
        _ => return None,
    })
}

fn in_range([op, columns_a_to_e @ ..]: &Row) -> bool {
    columns(*op).is_some_and(|columns| {
        let unused = std::iter::repeat(&Column::Unused);
        let mut pairs = columns_a_to_e.iter().zip(columns.iter().chain(unused));
        pairs.all(|(word, column)| column.fits(*word))
    })
}

/// What a part must be.
#[derive(Clone, Copy)]
enum Part {
    Value,
    Instr,
    Statement,
    Block,
    Case,
}

impl Part {
    /// By the op of its closing row.
    fn is_closed_by(self, op: u32) -> bool {
        match self {
            Self::Value => matches!(op, 1..=3 | 5..=8),
            Self::Instr => op == 4,
            Self::Statement => matches!(op, 4 | 10 | 12..=25),
            Self::Block => op == 9,
            Self::Case => op == 11,
        }
    }
}

/// The parts of a row, in the order of their rows.
fn parts(&[op, a, b, c, ..]: &Row) -> Vec<Part> {
    use Part::*;
    match op {
        4 | 8 => vec![Value],
        5 => [vec![Instr; a as usize], vec![Value]].concat(),
        6 => vec![Value, Value],
        7 => vec![Value, Value, Value],
        9 => vec![Statement; a as usize],
        10 if b == 0 => vec![Block],
        10 => vec![Block, Block],
        11 | 18 | 20 | 21 => vec![Block],
        12 => vec![Case; b as usize],
        13 => vec![Block, Value],
        15 if c == 0 => vec![Value, Value, Block],
        15 => vec![Value, Value, Value, Block],
        14 | 17 => vec![Value, Block],
        16 => vec![Value, Value, Block],
        19 => vec![Block, Block],
        _ => vec![],
    }
}

/// The first row of the part that row `at` closes, if its parts are there.
fn first_row(rows: &[Row], at: usize) -> Option<usize> {
    let mut begin = at;
    for part in parts(&rows[at]).into_iter().rev() {
        let closing = begin.checked_sub(1)?;
        if !part.is_closed_by(rows[closing][0]) {
            return None;
        }
        begin = first_row(rows, closing)?;
    }
    Some(begin)
}

/// Whether the words are the rows of one tree.
pub fn check(words: &[u32]) -> Result<(), Refusal> {
    let (rows, rest) = words.as_chunks::<ROW_WORDS>();
    if rows.is_empty() || rows.len() > MAX_ROWS || !rest.is_empty() {
        return Err(Refusal { code: 62, at: 0 });
    }
    for (at, row) in rows.iter().enumerate() {
        if !in_range(row) {
            return Err(Refusal { code: 60, at: at as u32 });
        }
        if first_row(rows, at).is_none() {
            return Err(Refusal { code: 61, at: at as u32 });
        }
    }
    let last = rows.len() - 1;
    match (rows[last][0], first_row(rows, last)) {
        (9, Some(0)) => Ok(()),
        _ => Err(Refusal { code: 62, at: 0 }),
    }
}
