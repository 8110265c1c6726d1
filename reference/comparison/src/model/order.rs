//! M-111 of paper 02: a table's blocks in walking order, and the inverse.

use std::collections::VecDeque;

use super::Refusal;
use super::Row;
use super::check::check;
use super::columns::{Column, NONE, terminal_columns};
use super::dot::named;
use super::table::{CASE_WORDS, Table};

/// Code (0 accepted) and at.
#[derive(Clone, Copy, Debug, PartialEq, Eq)]
pub struct Moved {
    pub code: u32,
    pub at: u32,
}

const NO_ROOM: Moved = Moved { code: 45, at: 0 };
const NO_PERMUTATION: Moved = Moved { code: 46, at: 0 };
const ACCEPTED: Moved = Moved { code: 0, at: 0 };

/// The old numbers of a checked table's blocks in walking order.
pub fn walking_order(table: &Table) -> Vec<u32> {
    let mut order = vec![table.entry()];
    let mut queue = VecDeque::from([table.entry()]);
    let mut numbered = vec![false; table.words[1] as usize];
    numbered[table.entry() as usize] = true;
    while let Some(row) = queue.pop_front() {
        for block in named(table, row) {
            if !numbered[block as usize] {
                numbered[block as usize] = true;
                order.push(block);
                queue.push_back(block);
            }
        }
    }
    order.extend((0..table.words[1]).filter(|block| !numbered[*block as usize]));
    order
}

/// The place of each block in a list of them.
pub fn places(list: &[u32]) -> Vec<u32> {
    let mut places = vec![0; list.len()];
    for (place, block) in list.iter().enumerate() {
        places[*block as usize] = place as u32;
    }
    places
}

/// The words of a checked table with each block named anew, `new[b]` for b; every case row too, used or not.
pub fn renamed(table: &Table, new: &[u32]) -> Vec<u32> {
    let mut words = table.words.to_vec();
    words[0] = new[table.entry() as usize];
    for (block, number) in new.iter().enumerate() {
        let mut row = *table.block(block as u32);
        let code = row[2];
        if code != 0 {
            for (word, column) in row[3..8].iter_mut().zip(terminal_columns(code)) {
                match column {
                    Column::Block => *word = new[*word as usize],
                    Column::BlockOrNone if *word != NONE => *word = new[*word as usize],
                    _ => {}
                }
            }
        }
        let begin = 6 + *number as usize * row.len();
        words[begin..begin + row.len()].copy_from_slice(&row);
    }
    for case in words[table.cases..table.places].chunks_exact_mut(CASE_WORDS) {
        case[1] = new[case[1] as usize];
    }
    words
}

/// A row of a tree with the block that it names renamed: a label, unless it is none, or a jump's target.
pub fn renamed_row(row: Row, new: &[u32]) -> Row {
    let column = match row[0] {
        10 | 12 => 4,
        13..=19 => 2,
        24 | 25 => 1,
        _ => return row,
    };
    let mut row = row;
    if row[column] != NONE {
        row[column] = new[row[column] as usize];
    }
    row
}

/// The public call: words in, the table rearranged and the list of old numbers out.
pub fn rearrange(words: &[u32], new_words: &mut [u32], old_numbers: &mut [u32]) -> Moved {
    new_words.fill(0);
    old_numbers.fill(0);
    let table = match check(words) {
        Ok(table) => table,
        Err(Refusal { code, at }) => return Moved { code, at },
    };
    if new_words.len() != words.len() || old_numbers.len() != words[1] as usize {
        return NO_ROOM;
    }
    let order = walking_order(&table);
    new_words.copy_from_slice(&renamed(&table, &places(&order)));
    old_numbers.copy_from_slice(&order);
    ACCEPTED
}

/// The inverse: every block, the entry too, to its old number in the list.
pub fn restore(words: &[u32], old_numbers: &[u32], first_words: &mut [u32]) -> Moved {
    first_words.fill(0);
    let table = match check(words) {
        Ok(table) => table,
        Err(Refusal { code, at }) => return Moved { code, at },
    };
    if first_words.len() != words.len() {
        return NO_ROOM;
    }
    let mut sorted = old_numbers.to_vec();
    sorted.sort_unstable();
    if !sorted.iter().copied().eq(0..words[1]) {
        return NO_PERMUTATION;
    }
    first_words.copy_from_slice(&renamed(&table, old_numbers));
    ACCEPTED
}
