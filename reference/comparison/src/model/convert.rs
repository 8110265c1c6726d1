//! M-112 of paper 02: the canonical text of a table, and texts of the old form, in which a span is one word,
//! into the new one and back, into a lent buffer. The old check is written on the old words.

use super::Refusal;
use super::check::{check, is_good};
use super::columns::{Column, operand_columns, terminal_columns};
use super::table::{LIMITS, NAMES, WIDTHS};
use super::text::{parse_as, write_as};

/// Code (0 accepted), at, and the length of the text.
#[derive(Clone, Copy, Debug, PartialEq, Eq)]
pub struct Placed {
    pub code: u32,
    pub at: u32,
    pub length: usize,
}

/// A form of a file: each table's line of names, and the words of a row.
#[derive(Clone, Copy)]
pub struct Form {
    pub names: [&'static str; 6],
    pub widths: [usize; 6],
}

pub const NEW: Form = Form { names: NAMES, widths: WIDTHS };

pub const OLD: Form = Form {
    names: [
        NAMES[0],
        "first count code a b c d e id span",
        "id lvalue code p q span",
        NAMES[3],
        NAMES[4],
        NAMES[5],
    ],
    widths: [6, 10, 6, 2, 1, 1],
};

/// The public calls: words or a file in, text out.
pub fn write_table(words: &[u32], buffer: &mut [u8]) -> Placed {
    place(buffer, check(words).map(|_| write_as(NEW, words)))
}

pub fn old_to_new(file: &[u8], buffer: &mut [u8]) -> Placed {
    place(buffer, new_text(file))
}

pub fn new_to_old(file: &[u8], buffer: &mut [u8]) -> Placed {
    place(buffer, old_text(file))
}

/// The new text of an old file.
pub fn new_text(file: &[u8]) -> Result<String, Refusal> {
    let old = parse_as(OLD, file)?;
    check_old(&old)?;
    Ok(write_as(NEW, &widen(&old)))
}

/// The old text of a new file.
pub fn old_text(file: &[u8]) -> Result<String, Refusal> {
    let new = parse_as(NEW, file)?;
    check(&new)?;
    if let Some(at) = first_apart(&new) {
        return Err(Refusal { code: 52, at: at as u32 });
    }
    Ok(write_as(OLD, &narrow(&new)))
}

fn place(buffer: &mut [u8], text: Result<String, Refusal>) -> Placed {
    buffer.fill(0);
    let text = match text {
        Ok(text) => text,
        Err(Refusal { code, at }) => return Placed { code, at, length: 0 },
    };
    match buffer.get_mut(..text.len()) {
        Some(place) => place.copy_from_slice(text.as_bytes()),
        None => return Placed { code: 53, at: 0, length: 0 },
    }
    Placed { code: 0, at: 0, length: text.len() }
}

/// The rows of the blocks and of the instructions, and the words behind them.
fn rows(form: Form, words: &[u32]) -> (Vec<&[u32]>, &[u32]) {
    let (mut rows, mut rest) = (Vec::new(), &words[6..]);
    for table in 1..3 {
        for _ in 0..words[table] {
            let (row, after) = rest.split_at(form.widths[table]);
            rows.push(row);
            rest = after;
        }
    }
    (rows, rest)
}

/// An old span s becomes from s and to s.
pub fn widen(old: &[u32]) -> Vec<u32> {
    let (rows, rest) = rows(OLD, old);
    let mut new = old[..6].to_vec();
    for row in rows {
        new.extend(row);
        new.extend(row.last());
    }
    new.extend(rest);
    new
}

/// The new words without each `to`.
pub fn narrow(new: &[u32]) -> Vec<u32> {
    let (rows, rest) = rows(NEW, new);
    let mut old = new[..6].to_vec();
    for row in rows {
        old.extend(&row[..row.len() - 1]);
    }
    old.extend(rest);
    old
}

/// The word of the first `to` that differs from its `from`.
fn first_apart(new: &[u32]) -> Option<usize> {
    let mut at = 6;
    for row in rows(NEW, new).0 {
        at += row.len();
        if row[row.len() - 2] != row[row.len() - 1] {
            return Some(at - 1);
        }
    }
    None
}

/// Refusals 1 to 4 of old words, with their places in them.
pub fn check_old(words: &[u32]) -> Result<(), Refusal> {
    if words.len() < 6 {
        return Err(Refusal { code: 1, at: 0 });
    }
    for (count, limit) in LIMITS.iter().enumerate() {
        if words[1 + count] > *limit {
            return Err(Refusal { code: 2, at: 1 + count as u32 });
        }
    }
    let needed: usize = (1..6).map(|table| words[table] as usize * OLD.widths[table]).sum();
    if words.len() != 6 + needed {
        return Err(Refusal { code: 1, at: 0 });
    }
    if words[0] >= words[1] {
        return Err(Refusal { code: 3, at: 0 });
    }
    let mut at = 6;
    for table in 1..6 {
        for _ in 0..words[table] {
            for column in columns(table, &words[at..]) {
                if !is_good(words, at, column) {
                    return Err(Refusal { code: 4, at: at as u32 });
                }
                at += 1;
            }
        }
    }
    Ok(())
}

/// What each word of the row must be that these words begin with.
fn columns(table: usize, row: &[u32]) -> Vec<Column> {
    use Column::{Any, Block, Identifier, InstructionCount, Place, PlaceOrNone, UpTo, Zero};
    match table {
        1 if row[2] == 0 => vec![Zero; 10],
        1 => {
            // A code that is not known is refused before its columns are looked at.
            let ends = if row[2] <= 21 { terminal_columns(row[2]) } else { [Zero; 5] };
            [&[Any, InstructionCount, UpTo(21)][..], &ends, &[Any, Any]].concat()
        }
        2 => [&[Any, Place, UpTo(2)][..], &operand_columns(row[2]), &[Any]].concat(),
        3 => vec![PlaceOrNone, Block],
        4 => vec![Identifier],
        _ => vec![UpTo(1)],
    }
}
