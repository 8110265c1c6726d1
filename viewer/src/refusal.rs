//! A refusal in words: the sentence of docs/FORMAT.md, and its place as a person finds it.

use crate::names;
use crate::proved::numbers;
use reactive_build::Refusal;
use reactive_build::table::Table;

/// What `at` is of a refusal.
#[derive(Clone, Copy, Debug, PartialEq, Eq)]
pub enum Place {
    Nowhere,
    Byte(usize),
    Word(usize),
    Block(usize),
    Row(usize),
}

pub fn place(refusal: &Refusal) -> Place {
    let at = refusal.at as usize;
    match refusal.at_counts().and_then(|counts| counts.split([' ', ':']).next()) {
        Some("byte") => Place::Byte(at),
        Some("word") => Place::Word(at),
        Some("block") => Place::Block(at),
        Some("row") => Place::Row(at),
        _ => Place::Nowhere,
    }
}

/// The refusal as a sentence or two. `file` is the text that was read, `table` its table where there is one.
pub fn told(refusal: &Refusal, file: &[u8], table: Option<&Table>) -> String {
    let sentence = refusal.sentence().unwrap_or("This code is not known here.");
    let found = match place(refusal) {
        Place::Nowhere => String::new(),
        Place::Byte(byte) => format!(" {}", byte_place(file, byte)),
        Place::Word(word) => format!(" Word {word} is {}.", word_place(file, word)),
        Place::Block(block) => format!(" {}", block_place(block, table)),
        Place::Row(row) => format!(" It is row {row}."),
    };
    format!("Refused with {}. {sentence}{found}", refusal.code)
}

fn byte_place(file: &[u8], byte: usize) -> String {
    let (line, column) = position(file, byte);
    let end = if byte >= file.len() { ", the end of the file" } else { "" };
    format!("It is byte {byte}: line {line}, column {column}{end}.")
}

/// Line and column from 1, a column being a byte.
pub fn position(file: &[u8], byte: usize) -> (usize, usize) {
    let before = &file[..byte.min(file.len())];
    let line = before.iter().filter(|byte| **byte == b'\n').count() + 1;
    let column = before.iter().rev().take_while(|byte| **byte != b'\n').count() + 1;
    (line, column)
}

/// The six tables of a file: what a row of each is called, and its columns.
const TABLES: [(&str, &[&str]); 6] = [
    ("head", &["entry", "blocks", "instructions", "cases", "places", "identifiers"]),
    ("block", &["first", "count", "code", "a", "b", "c", "d", "e", "id", "from", "to"]),
    ("instruction", &["id", "lvalue", "code", "p", "q", "from", "to"]),
    ("case", &["test", "block"]),
    ("place", &["identifier"]),
    ("identifier", &["named"]),
];

fn word_place(file: &[u8], word: usize) -> String {
    let head: Vec<usize> = numbers(file).take(6).map(|(_, number)| number as usize).collect();
    let mut before = 0;
    for (table, (name, columns)) in TABLES.iter().enumerate() {
        let rows = if table == 0 { 1 } else { head.get(table).copied().unwrap_or(0) };
        let row = (word - before) / columns.len();
        if row < rows {
            let column = columns[(word - before) % columns.len()];
            return if table == 0 { format!("`{column}` of the head") } else { format!("`{column}` of {name} {row}") };
        }
        before += rows * columns.len();
    }
    "none of the table".to_string()
}

fn block_place(block: usize, table: Option<&Table>) -> String {
    match table.and_then(|table| table.blocks.get(block)) {
        Some(row) => format!("It is block {block}: {}.", names::ending(&row.ending)),
        None => format!("It is block {block}."),
    }
}

#[cfg(test)]
mod tests {
    use super::*;

    const FILE: &[u8] =
        b"entry blocks instructions cases places identifiers\n0 1 0 0 1 1\nfirst count code a b c d e id from to\n0 0 99 0 0 0 0 0 7 0 0\n";

    #[test]
    fn a_word_has_a_row_and_a_column() {
        assert_eq!(word_place(FILE, 1), "`blocks` of the head");
        assert_eq!(word_place(FILE, 8), "`code` of block 0");
        assert_eq!(word_place(FILE, 17), "`identifier` of place 0");
        assert_eq!(word_place(FILE, 19), "none of the table");
    }

    #[test]
    fn a_byte_has_a_line_and_a_column() {
        assert_eq!(position(FILE, 0), (1, 1));
        assert_eq!(position(FILE, 51), (2, 1));
        assert_eq!(position(FILE, 53), (2, 3));
    }
}
