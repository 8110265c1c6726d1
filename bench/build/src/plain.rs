//! (a): an ordinary Rust program over the same words and rows, with vectors and recursion, written to be quick. It checks a row at a
//! time, and looks for the first bad word only where a row is bad; then it walks as the model of paper 01 does.

use comparison::model::check::check;
use comparison::model::index::{LINE_WORDS, lines};
use comparison::model::table::{BlockRow, HEAD_WORDS, InstructionRow, LIMITS, Table};
use comparison::model::{self, Outcome, Refusal};

const LARGEST: u32 = 65_535;
const NONE: u32 = 65_535;

pub fn build(words: &[u32], buffer: &mut [u32], index: &mut [u32]) -> Outcome {
    match checked(words) {
        Ok(table) => place(model::walk(&table), buffer, index),
        Err(refusal) => refuse(refusal, 0, buffer, index),
    }
}

fn place(walked: model::Walked, buffer: &mut [u32], index: &mut [u32]) -> Outcome {
    let visits = walked.visits;
    let rows = match &walked.result {
        Err(refusal) => return refuse(*refusal, visits, buffer, index),
        Ok(rows) => rows,
    };
    if rows.len() > buffer.len() / model::ROW_WORDS {
        return Outcome { rows: rows.len() as u32, ..refuse(Refusal { code: 40, at: 0 }, visits, buffer, index) };
    }
    let lines = lines(rows);
    if lines.len() > index.len() / LINE_WORDS {
        return refuse(Refusal { code: 41, at: 0 }, visits, buffer, index);
    }
    hold(rows.as_flattened(), buffer);
    hold(lines.as_flattened(), index);
    Outcome { code: 0, at: 0, rows: rows.len() as u32, visits, lines: lines.len() as u32 }
}

fn hold(words: &[u32], buffer: &mut [u32]) {
    let (held, rest) = buffer.split_at_mut(words.len());
    held.copy_from_slice(words);
    rest.fill(0);
}

fn refuse(refusal: Refusal, visits: u32, buffer: &mut [u32], index: &mut [u32]) -> Outcome {
    buffer.fill(0);
    index.fill(0);
    Outcome::refused(refusal, visits)
}

pub fn checked(words: &[u32]) -> Result<Table<'_>, Refusal> {
    checked_by_rows(words).map_or_else(|| check(words), Ok)
}

/// The check a row at a time: the table, if it is good.
pub fn checked_by_rows(words: &[u32]) -> Option<Table<'_>> {
    if words.len() < HEAD_WORDS || (0..5).any(|count| words[1 + count] > LIMITS[count]) {
        return None;
    }
    let table = Table::of(words);
    (words.len() == table.end && words[0] < words[1] && is_good(&table)).then_some(table)
}

fn is_good(table: &Table) -> bool {
    let &[_, blocks, instructions, cases, places, identifiers, ..] = table.words else { return false };
    let rows = |from: usize, to: usize| &table.words[from..to];
    let block_rows = rows(HEAD_WORDS, table.instructions).as_chunks().0;
    block_rows.iter().all(|row| block_row(row, blocks, places, instructions, cases))
        && rows(table.instructions, table.cases).as_chunks().0.iter().all(|row| instruction_row(row, places))
        && rows(table.cases, table.places).as_chunks().0.iter().all(|[test, block]| (*test < places || *test == NONE) && *block < blocks)
        && rows(table.places, table.identifiers).iter().all(|identifier| *identifier < identifiers)
        && rows(table.identifiers, table.end).iter().all(|named| *named <= 1)
}

fn block_row(row: &BlockRow, blocks: u32, places: u32, instructions: u32, cases: u32) -> bool {
    let [first, count, code, a, b, c, d, e, id, from, to] = *row;
    let block = |word: u32| word < blocks;
    let place = |word: u32| word < places;
    let run = |first: u32, count: u32, rows: u32| first <= LARGEST && count <= LARGEST && first + count <= rows;
    let columns = match code {
        0 => return *row == BlockRow::default(),
        1 => (a | b | c | d | e) == 0,
        2 | 3 => place(a) && (b | c | d | e) == 0,
        4 => block(a) && b <= 2 && (c | d | e) == 0,
        5 => place(a) && block(b) && block(c) && block(d) && e == 0,
        6 => place(a) && block(b) && block(c) && (d | e) == 0,
        7 => place(a) && run(b, c, cases) && block(d) && e == 0,
        8 | 9 | 12 => block(a) && block(b) && block(c) && (d | e) == 0,
        10 => block(a) && block(b) && (block(c) || c == NONE) && block(d) && block(e),
        11 => block(a) && block(b) && block(c) && block(d) && e == 0,
        13 => a <= 2 && block(b) && block(c) && (d | e) == 0,
        14 | 16 | 17 => block(a) && block(b) && (c | d | e) == 0,
        15 => a <= 1 && block(b) && block(c) && (d | e) == 0,
        18 => block(a) && (b | c | d | e) == 0,
        19 => block(a) && block(b) && block(c) && (place(d) || d == NONE) && e == 0,
        20 | 21 => block(a) && block(b) && c <= LARGEST && (d | e) == 0,
        _ => false,
    };
    columns && run(first, count, instructions) && id <= LARGEST && span(from, to)
}

fn instruction_row(row: &InstructionRow, places: u32) -> bool {
    let [id, lvalue, code, p, q, from, to] = *row;
    let operands = match code {
        0 => (p | q) == 0,
        1 => p < places && q == 0,
        2 => p < places && q < places,
        _ => false,
    };
    operands && lvalue < places && id <= LARGEST && span(from, to)
}

fn span(from: u32, to: u32) -> bool {
    from <= to && to <= LARGEST
}
