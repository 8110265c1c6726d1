//! Small changes to a table. The first kind keeps every word good, so that the graph's own faults
//! are met; the second spoils words.

use super::draft::Draft;
use crate::model::columns::{Column, terminal_columns};
use crate::model::table::{BLOCK_WORDS, HEAD_WORDS, INSTRUCTION_WORDS, LIMITS, Table};
use crate::rng::Rng;

/// One change after which the words still pass the check.
pub fn mutate(draft: &mut Draft, rng: &mut Rng) {
    let block = draft.any_block(rng);
    match rng.below(16) {
        0..=3 => retarget(draft, block, rng),
        12..=15 => to_an_end(draft, block, rng),
        4 => {
            let code = rng.below(22);
            draft.end_anyhow(block, code, rng);
        }
        5 => {
            // The same words for two of the row's blocks.
            let columns = block_columns(draft, block);
            if !columns.is_empty() {
                let (from, to) = (rng.pick(&columns), rng.pick(&columns));
                let row = &mut draft.blocks[block as usize];
                row[to] = row[from];
            }
        }
        6 => {
            let other = draft.any_block(rng);
            draft.blocks.swap(block as usize, other as usize);
        }
        7 if draft.blocks[block as usize][2] != 0 => {
            let count = rng.below(3).min(draft.instructions.len() as u32);
            draft.blocks[block as usize][0] = 0;
            draft.blocks[block as usize][1] = count;
        }
        8 => {
            let count = draft.cases.len() as u32;
            if count > 0 {
                let case = rng.below(count) as usize;
                draft.cases[case][1] = draft.any_block(rng);
            }
        }
        9 => draft.entry = block,
        10 => {
            let row = &mut draft.blocks[block as usize];
            if row[2] == 4 {
                row[4] = rng.below(3);
            }
        }
        _ => {
            let named = rng.below(draft.identifiers.len() as u32) as usize;
            draft.identifiers[named] ^= 1;
        }
    }
}

/// Which words of the row name blocks.
fn block_columns(draft: &Draft, block: u32) -> Vec<usize> {
    let code = draft.blocks[block as usize][2];
    if code == 0 {
        return Vec::new();
    }
    let columns = terminal_columns(code).into_iter().zip(3..);
    columns.filter(|(column, _)| matches!(column, Column::Block)).map(|(_, at)| at).collect()
}

fn retarget(draft: &mut Draft, block: u32, rng: &mut Rng) {
    let columns = block_columns(draft, block);
    if !columns.is_empty() {
        let other = draft.any_block(rng);
        draft.blocks[block as usize][rng.pick(&columns)] = other;
    }
}

/// Has a part of the block's end be where an earlier statement ends: often one that is open.
fn to_an_end(draft: &mut Draft, block: u32, rng: &mut Rng) {
    let columns = match draft.blocks[block as usize][2] {
        5 => vec![5],
        _ => block_columns(draft, block),
    };
    let statement = rng.from_to(0, block);
    let ends = block_columns(draft, statement);
    if let (Some(end), false) = (ends.last(), columns.is_empty()) {
        let end = draft.blocks[statement as usize][*end];
        draft.blocks[block as usize][rng.pick(&columns)] = end;
    }
}

/// Other numbers for all the blocks.
pub fn shuffle(draft: &mut Draft, rng: &mut Rng) {
    let mut to: Vec<u32> = (0..draft.block_count()).collect();
    for last in (1..to.len()).rev() {
        to.swap(last, rng.below(last as u32 + 1) as usize);
    }
    draft.renumber(&to);
}

/// Spoils the words: a word out of its range, the end of a span, a head count, the length.
pub fn spoil(words: &mut Vec<u32>, rng: &mut Rng) {
    let length = words.len() as u32;
    match rng.below(11) {
        0 => words[0] = any_bad_word(words, rng),
        1 => {
            let count = rng.from_to(1, 5) as usize;
            let limit = LIMITS[count - 1];
            words[count] = rng.pick(&[0, 1, limit - 1, limit, limit + 1, 65_535, u32::MAX]);
        }
        2 => words.truncate(rng.below(length + 1) as usize),
        3 => {
            for _ in 0..rng.from_to(1, 3) {
                words.push(rng.below(3));
            }
        }
        4 if length as usize > HEAD_WORDS + BLOCK_WORDS => {
            // A column of a block's row: its code's columns are the rule's largest part.
            let table = Table::of(words);
            let at = rng.from_to(6, (table.instructions as u32).min(length) - 1);
            words[at as usize] = any_bad_word(words, rng);
        }
        5 => {
            let at = any_end_of_a_span(words, rng);
            if at < words.len() {
                let from = words[at - 1];
                words[at] = rng.pick(&[0, from.wrapping_sub(1), from, from.wrapping_add(1)]);
            }
        }
        _ if length > 6 => {
            let at = rng.from_to(6, length - 1) as usize;
            words[at] = any_bad_word(words, rng);
        }
        _ => {}
    }
}

/// The place of a `to`, in the words if they are as long as their head says.
fn any_end_of_a_span(words: &[u32], rng: &mut Rng) -> usize {
    let (table, count, width) = if rng.percent(50) {
        (HEAD_WORDS, words[1], BLOCK_WORDS)
    } else {
        (Table::of(words).instructions, words[2], INSTRUCTION_WORDS)
    };
    let row = rng.below(count.max(1)) as usize;
    table + width * row + width - 1
}

/// Words at and about the ends of every range.
fn any_bad_word(words: &[u32], rng: &mut Rng) -> u32 {
    let count = words[rng.from_to(1, 5) as usize];
    rng.pick(&[
        0,
        1,
        2,
        3,
        21,
        22,
        count.wrapping_sub(1),
        count,
        count.wrapping_add(1),
        65_534,
        65_535,
        65_536,
        u32::MAX - 1,
        u32::MAX,
    ])
}
