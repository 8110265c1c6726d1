//! Refusals 1 to 4, in paper 01's order.

use super::Refusal;
use super::columns::{Column, LARGEST, NONE, operand_columns, terminal_columns};
use super::table::{BLOCK_WORDS, CASE_WORDS, HEAD_WORDS, INSTRUCTION_WORDS, LIMITS, Table};

/// The words as tables, or the refusal of whoever filled them.
pub fn check(words: &[u32]) -> Result<Table<'_>, Refusal> {
    if words.len() < HEAD_WORDS {
        return Err(Refusal { code: 1, at: 0 });
    }
    for (count, limit) in LIMITS.iter().enumerate() {
        if words[1 + count] > *limit {
            return Err(Refusal { code: 2, at: 1 + count as u32 });
        }
    }
    let table = Table::of(words);
    if words.len() != table.end {
        return Err(Refusal { code: 1, at: 0 });
    }
    if words[0] >= words[1] {
        return Err(Refusal { code: 3, at: 0 });
    }
    match first_bad_word(&table) {
        Some(at) => Err(Refusal { code: 4, at: at as u32 }),
        None => Ok(table),
    }
}

fn first_bad_word(table: &Table) -> Option<usize> {
    let rows = |from: usize, to: usize, width: usize| (from..to).step_by(width);
    let blocks = rows(HEAD_WORDS, table.instructions, BLOCK_WORDS);
    let instructions = rows(table.instructions, table.cases, INSTRUCTION_WORDS);
    let cases = rows(table.cases, table.places, CASE_WORDS);
    None.or_else(|| blocks.clone().find_map(|row| bad_in_block(table, row)))
        .or_else(|| instructions.clone().find_map(|row| bad_in_instruction(table, row)))
        .or_else(|| {
            let columns = [Column::PlaceOrNone, Column::Block];
            cases.clone().find_map(|row| bad_in_columns(table, row, &columns))
        })
        .or_else(|| {
            (table.places..table.identifiers).find(|at| !is_good(table.words, *at, Column::Identifier))
        })
        .or_else(|| (table.identifiers..table.end).find(|at| !is_good(table.words, *at, Column::UpTo(1))))
}

fn bad_in_block(table: &Table, row: usize) -> Option<usize> {
    let code = table.words[row + 2];
    if code == 0 {
        // No such block: the whole row is 0.
        return bad_in_columns(table, row, &[Column::Zero; BLOCK_WORDS]);
    }
    let head = [Column::Any, Column::InstructionCount, Column::UpTo(21)];
    bad_in_columns(table, row, &head)
        .or_else(|| bad_in_columns(table, row + 3, &terminal_columns(code)))
        .or_else(|| bad_in_columns(table, row + 8, &[Column::Any, Column::Any, Column::To]))
}

fn bad_in_instruction(table: &Table, row: usize) -> Option<usize> {
    let code = table.words[row + 2];
    bad_in_columns(table, row, &[Column::Any, Column::Place, Column::UpTo(2)])
        .or_else(|| bad_in_columns(table, row + 3, &operand_columns(code)))
        .or_else(|| bad_in_columns(table, row + 5, &[Column::Any, Column::To]))
}

fn bad_in_columns(table: &Table, first: usize, columns: &[Column]) -> Option<usize> {
    (0..columns.len()).find(|at| !is_good(table.words, first + at, columns[*at])).map(|at| first + at)
}

pub(super) fn is_good(words: &[u32], at: usize, column: Column) -> bool {
    let word = words[at];
    // A run of rows is charged to its number of rows, after a first row that may be any number.
    let run_fits = |rows: u32| word <= LARGEST && words[at - 1] + word <= rows;
    match column {
        Column::Any => word <= LARGEST,
        Column::Zero => word == 0,
        Column::UpTo(largest) => word <= largest,
        Column::Block => word < words[1],
        Column::BlockOrNone => word < words[1] || word == NONE,
        Column::Place => word < words[4],
        Column::PlaceOrNone => word < words[4] || word == NONE,
        Column::Identifier => word < words[5],
        Column::InstructionCount => run_fits(words[2]),
        Column::CaseCount => run_fits(words[3]),
        Column::To => word <= LARGEST && words[at - 1] <= word,
    }
}
