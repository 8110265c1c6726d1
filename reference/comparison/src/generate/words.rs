//! Word lists for the check alone: refusals 1 to 4 at every column of every code, with the last
//! good word and the first bad one, and the lengths and counts about every limit.

use std::collections::BTreeSet;

use super::draft::Draft;
use crate::model::columns::{Column, NONE, operand_columns, terminal_columns};
use crate::model::table::{BLOCK_WORDS, HEAD_WORDS, INSTRUCTION_WORDS, LIMITS, Table};

/// All of them, the plainest first.
pub fn word_lists() -> Vec<Vec<u32>> {
    let mut lists = heads();
    lists.extend(lengths());
    for code in 0..22 {
        lists.extend(block_rows(code));
    }
    for code in 0..3 {
        lists.extend(instruction_rows(code));
    }
    lists.extend(other_rows());
    lists.extend(orders());
    lists.extend(spans());
    let mut known = BTreeSet::new();
    lists.retain(|words| known.insert(words.clone()));
    lists
}

/// A good table whose block 1 ends in this code, with two rows or more in every table.
fn with_block(code: u32) -> Draft {
    let mut draft = Draft {
        instructions: vec![[3, 1, 0, 0, 0, 4, 5], [5, 0, 1, 1, 0, 0, 6], [7, 1, 2, 0, 1, 0, 0]],
        cases: vec![[NONE, 0], [1, 1]],
        places: vec![1, 0],
        identifiers: vec![0, 1],
        ..Draft::default()
    };
    draft.blocks.push([0, 1, 3, 0, 0, 0, 0, 0, 8, 9, 10]);
    draft.blocks.push([0; BLOCK_WORDS]);
    if code > 0 {
        let mut row = [1, 2, code, 0, 0, 0, 0, 0, 10, 11, 13];
        for (at, column) in terminal_columns(code).into_iter().enumerate() {
            row[3 + at] = match column {
                Column::Zero => 0,
                Column::Any if code == 7 => 0,
                Column::Any => 12,
                Column::UpTo(largest) => largest,
                Column::CaseCount => 2,
                _ => 1,
            };
        }
        draft.blocks[1] = row;
    }
    draft
}

/// The words about the edges of a column: good and bad.
fn edges(column: Column, limit: u32) -> Vec<u32> {
    match column {
        Column::Any | Column::To => vec![0, 65_535, 65_536, u32::MAX],
        Column::Zero => vec![1, 65_535],
        Column::UpTo(largest) => vec![0, largest, largest + 1, u32::MAX],
        Column::Block | Column::Place | Column::Identifier => {
            vec![limit - 1, limit, 65_535, u32::MAX]
        }
        Column::BlockOrNone | Column::PlaceOrNone => {
            vec![limit - 1, limit, 65_534, 65_535, 65_536]
        }
        Column::InstructionCount | Column::CaseCount => {
            vec![0, limit, limit + 1, 65_535, 65_536, u32::MAX]
        }
    }
}

/// Where the row of block 1 begins.
const BLOCK_1: usize = HEAD_WORDS + BLOCK_WORDS;

fn block_rows(code: u32) -> Vec<Vec<u32>> {
    let good = with_block(code).words();
    let mut lists = vec![good.clone()];
    let mut columns = vec![Column::Any, Column::InstructionCount, Column::UpTo(21)];
    let operands = if code == 0 { [Column::Zero; 5] } else { terminal_columns(code) };
    columns.extend(operands);
    let last = [Column::Any, Column::Any, Column::To];
    columns.extend(if code == 0 { [Column::Zero; 3] } else { last });
    lists.extend(change_row(&good, BLOCK_1, &columns));
    lists
}

fn instruction_rows(code: u32) -> Vec<Vec<u32>> {
    let good = with_block(1).words();
    let row = Table::of(&good).instructions + INSTRUCTION_WORDS * code as usize;
    let [p, q] = operand_columns(code);
    let columns = [Column::Any, Column::Place, Column::UpTo(2), p, q, Column::Any, Column::To];
    change_row(&good, row, &columns)
}

fn change_row(good: &[u32], row: usize, columns: &[Column]) -> Vec<Vec<u32>> {
    let mut lists = Vec::new();
    for (at, column) in columns.iter().enumerate() {
        for word in edges(*column, 2) {
            let mut words = good.to_vec();
            words[row + at] = word;
            lists.push(words);
        }
    }
    lists
}

/// Cases, places and identifiers: the first row of each and the last.
fn other_rows() -> Vec<Vec<u32>> {
    let good = with_block(7).words();
    let case = [Column::PlaceOrNone, Column::Block];
    let Table { cases, places, identifiers, .. } = Table::of(&good);
    let mut lists = change_row(&good, cases, &case);
    lists.extend(change_row(&good, cases + 2, &case));
    lists.extend(change_row(&good, places, &[Column::Identifier, Column::Identifier]));
    lists.extend(change_row(&good, identifiers, &[Column::UpTo(1), Column::UpTo(1)]));
    lists
}

/// Head words: under six of them, counts about their limits, the entry.
fn heads() -> Vec<Vec<u32>> {
    let mut lists: Vec<Vec<u32>> = (0..=6).map(|length| vec![0; length]).collect();
    lists.extend((0..=6).map(|length| vec![u32::MAX; length]));
    lists.extend((1..=5).map(|length| vec![1; length]));
    let good = with_block(3).words();
    for entry in [0, 1, 2, 3, 65_535, 65_536, u32::MAX] {
        let mut words = good.clone();
        words[0] = entry;
        lists.push(words);
    }
    for count in 1..=5 {
        let limit = LIMITS[count - 1];
        for number in [0, 1, 3, limit - 1, limit, limit + 1, 65_535, 65_536, 1 << 31, u32::MAX] {
            let mut words = good.clone();
            words[count] = number;
            lists.push(words);
        }
        // The count at its limit with all its rows, and one over.
        for number in [limit, limit + 1] {
            let mut words = vec![0; HEAD_WORDS];
            words[count] = number;
            if count != 1 {
                words[1] = 1;
            }
            if count != 4 && count != 1 {
                words[4] += 1;
            }
            if count != 5 {
                words[5] += 1;
            }
            words.resize(Table::of(&words).end, 0);
            lists.push(words);
        }
    }
    // Two counts over: the first is told. A count over comes before a wrong length and the entry.
    let mut words = good.clone();
    words[2] = 4_097;
    words[4] = 4_097;
    lists.push(words.clone());
    words[0] = 9;
    words.truncate(7);
    lists.push(words);
    // Counts whose lengths wrap if they are added carelessly.
    for counts in [
        [390_451_573, 0, 0, 0, 0],
        [0, 613_566_757, 0, 0, 0],
        [0, 0, 1 << 31, 0, 0],
        [0, 0, 0, u32::MAX, 1],
        [0, 0, 0, 1, u32::MAX],
        [0, 0, 0, 0, u32::MAX],
    ] {
        let mut words = vec![0];
        words.extend(counts);
        lists.push(words);
    }
    lists
}

/// Lengths about the right one.
fn lengths() -> Vec<Vec<u32>> {
    let mut lists = Vec::new();
    for code in [0, 3, 7] {
        let good = with_block(code).words();
        let length = good.len();
        for other in [6, 7, 16, 17, length - BLOCK_WORDS, length - 2, length - 1] {
            lists.push(good[..other].to_vec());
        }
        for more in [1, 2, BLOCK_WORDS] {
            let mut words = good.clone();
            words.resize(length + more, 0);
            lists.push(words);
        }
    }
    // No rows at all: no entry either.
    lists.push(vec![0, 0, 0, 0, 0, 0]);
    lists.push(vec![0, 0, 0, 0, 0, 1, 1]);
    lists.push(vec![0, 0, 0, 0, 0, 1, 7]);
    lists
}

/// More than one fault: the order of the tests and of the words.
fn orders() -> Vec<Vec<u32>> {
    let good = with_block(9).words();
    let length = good.len();
    let change = |changes: &[(usize, u32)]| {
        let mut words = good.clone();
        for (at, word) in changes {
            words[*at] = *word;
        }
        words
    };
    let Table { instructions, cases, .. } = Table::of(&good);
    let [first, count, code, a, b, c, .., id, from, to] = columns_of(BLOCK_1);
    let mut lists = vec![
        change(&[(0, 2), (first, 65_536)]),
        change(&[(first, 65_536), (count, 65_536)]),
        change(&[(count, 65_536), (code, 22)]),
        change(&[(count, 3), (code, 22)]),
        change(&[(code, 22), (a, 65_536)]),
        change(&[(code, 22), (first - 1, 65_536)]),
        change(&[(c, 2), (instructions, 65_536)]),
        change(&[(length - 1, 2), (length - 2, 2)]),
        change(&[(length - 1, 2), (cases, 2)]),
        // A run that begins past the last row is charged to its count, even when it is empty.
        change(&[(first, 3), (count, 0)]),
        change(&[(first, 4), (count, 0)]),
        change(&[(first, 65_535), (count, 0)]),
        change(&[(first, 65_535), (count, 65_535)]),
        change(&[(first, 0), (count, 3)]),
        change(&[(first, 0), (count, 4)]),
    ];
    // No such block: the first word of the row that is not 0.
    let mut absent = vec![(code, 0)];
    lists.push(change(&absent));
    lists.push(change(&[(code, 0), (first, 9), (count, 9)]));
    for column in [first, count, a, b, c, id, from, to] {
        absent.push((column, 0));
        lists.push(change(&absent));
    }
    // The run of cases, charged to c.
    let switch = with_block(7).words();
    for (first, count) in [(2, 0), (3, 0), (1, 1), (1, 2), (0, 3), (65_535, 1), (65_536, 0)] {
        let mut words = switch.clone();
        words[b] = first;
        words[c] = count;
        lists.push(words);
    }
    lists
}

/// The places of a block's words, whose row begins here.
fn columns_of(row: usize) -> [usize; BLOCK_WORDS] {
    std::array::from_fn(|column| row + column)
}

/// Spans about every edge: none, from 0, empty ones, ends below their beginnings, words too large;
/// in a block's row, an instruction's, both, and in the row of no block.
fn spans() -> Vec<Vec<u32>> {
    let good = with_block(3).words();
    let to_of_block = BLOCK_1 + BLOCK_WORDS - 1;
    let to_of_instruction = Table::of(&good).instructions + INSTRUCTION_WORDS - 1;
    let absent = with_block(0).words();
    let mut lists = Vec::new();
    for (from, to) in SPANS {
        for (words, ends) in [
            (&good, &[to_of_block][..]),
            (&good, &[to_of_instruction]),
            (&good, &[to_of_block, to_of_instruction]),
            (&absent, &[to_of_block]),
        ] {
            let mut words = words.clone();
            for end in ends {
                words[end - 1] = from;
                words[*end] = to;
            }
            lists.push(words);
        }
    }
    lists
}

const SPANS: [(u32, u32); 18] = [
    (0, 0),
    (0, 1),
    (0, 5),
    (0, 65_535),
    (0, 65_536),
    (1, 0),
    (1, 1),
    (2, 1),
    (5, 4),
    (5, 5),
    (5, 65_535),
    (5, 65_536),
    (65_535, 65_534),
    (65_535, 65_535),
    (65_535, 65_536),
    (65_536, 0),
    (65_536, 65_536),
    (u32::MAX, u32::MAX),
];
