//! M-110 of paper 02: the blocks as a graph in DOT, into a lent buffer.

use super::Refusal;
use super::check::check;
use super::columns::NONE;
use super::table::Table;

/// Code (0 accepted), at, and the length of the text.
#[derive(Clone, Copy, Debug, PartialEq, Eq)]
pub struct Drawn {
    pub code: u32,
    pub at: u32,
    pub length: usize,
}

/// The text of a table that the check accepts.
pub fn text(table: &Table) -> String {
    let mut text = String::from("digraph g {\n");
    for row in 0..table.words[1] {
        for block in named(table, row) {
            text += &format!("n{row} -> n{block};\n");
        }
    }
    text + "}\n"
}

/// The blocks that a row names, by column; a Switch's cases before its fallthrough.
pub fn named(table: &Table, row: u32) -> Vec<u32> {
    let [_, _, code, a, b, c, d, e, ..] = *table.block(row);
    match code {
        4 | 18 => vec![a],
        5 => vec![b, c, d],
        6 | 13 | 15 => vec![b, c],
        7 => {
            let cases = (b..b + c).map(|case| table.case(case)[1]);
            cases.chain([d]).collect()
        }
        8 | 9 | 12 | 19 => vec![a, b, c],
        10 if c == NONE => vec![a, b, d, e],
        10 => vec![a, b, c, d, e],
        11 => vec![a, b, c, d],
        14 | 16 | 17 | 20 | 21 => vec![a, b],
        _ => vec![],
    }
}

/// The public call: words in, text out.
pub fn draw(words: &[u32], buffer: &mut [u8]) -> Drawn {
    buffer.fill(0);
    let text = match check(words) {
        Ok(table) => text(&table),
        Err(Refusal { code, at }) => return Drawn { code, at, length: 0 },
    };
    match buffer.get_mut(..text.len()) {
        Some(place) => place.copy_from_slice(text.as_bytes()),
        None => return Drawn { code: 44, at: 0, length: 0 },
    }
    Drawn { code: 0, at: 0, length: text.len() }
}
