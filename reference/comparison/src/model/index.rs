//! M-101 in plain Rust: the lines of a tree, read off its rows, and the lookup of a statement by its
//! label.

use std::ops::Range;

use super::{ROW_WORDS, Refusal, Row};

pub const LINE_WORDS: usize = 3;

/// A label is a block other than the entry, and no two lines have the same: of 1,024 blocks these are the most.
pub const MOST_LINES: usize = 1_023;

/// Label, first row of the statement, closing row.
pub type Line = [u32; LINE_WORDS];

const NONE: u32 = 65_535;

/// How many parts a row takes.
fn parts([op, a, b, c, ..]: Row) -> u32 {
    match op {
        4 | 8 | 11 | 18 | 20 | 21 => 1,
        5 => a + 1,
        6 | 13 | 14 | 17 | 19 => 2,
        7 | 16 => 3,
        9 => a,
        10 => 1 + b,
        12 => b,
        15 => 3 + c,
        _ => 0,
    }
}

fn label(row: Row) -> Option<u32> {
    let label = match row[0] {
        10 | 12 => row[4],
        13..=19 => row[2],
        _ => NONE,
    };
    (label != NONE).then_some(label)
}

/// A line for each labelled row of a tree, in the order of closing rows.
pub fn lines(rows: &[Row]) -> Vec<Line> {
    // Where each part begins that no row has taken yet.
    let mut begins: Vec<u32> = Vec::new();
    let mut lines = Vec::new();
    for (closing, &row) in (0..).zip(rows) {
        let left = begins.len() - parts(row) as usize;
        let first = begins.get(left).copied().unwrap_or(closing);
        begins.truncate(left);
        begins.push(first);
        if let Some(label) = label(row) {
            lines.push([label, first, closing]);
        }
    }
    lines
}

/// The words of the statement's own rows in a tree buffer of so many words.
pub fn lookup(index: &[u32], number: u32, label: u32, tree_words: usize) -> Result<Range<usize>, Refusal> {
    let read = index.chunks_exact(LINE_WORDS).take(number as usize);
    for line in read {
        if line[0] == label {
            let (first, closing) = (line[1] as usize, line[2] as usize);
            return if first <= closing && closing < tree_words / ROW_WORDS {
                Ok(first * ROW_WORDS..(closing + 1) * ROW_WORDS)
            } else {
                Err(Refusal { code: 43, at: 0 })
            };
        }
    }
    Err(Refusal { code: 42, at: 0 })
}
