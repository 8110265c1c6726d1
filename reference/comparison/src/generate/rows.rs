//! Lists of rows for the check of M-100: every short list over a small alphabet, and spoilt trees.

use crate::model::tree_check::{Column, MAX_ROWS, NONE, columns};
use crate::model::{ROW_WORDS, Row};
use crate::rng::Rng;

/// Rows of every sort of part and every number of parts; the last is no row.
#[rustfmt::skip]
pub const ALPHABET: [Row; 18] = [
    [1, 0, 0, 0, 0, 0],
    [4, 0, 0, 0, 0, 0],
    [5, 1, 0, 0, 0, 0],
    [6, 0, 0, 0, 0, 0],
    [9, 0, 0, 0, 0, 0],
    [9, 1, 0, 0, 0, 0],
    [9, 2, 0, 0, 0, 0],
    [10, 0, 0, 0, NONE, 0],
    [10, 0, 1, 0, NONE, 0],
    [11, 0, 0, 0, 0, 0],
    [12, 0, 1, 0, NONE, 0],
    [13, 0, NONE, 0, 0, 0],
    [14, 0, NONE, 0, 0, 0],
    [15, 0, NONE, 0, 0, 0],
    [15, 0, NONE, 1, 0, 0],
    [19, 0, NONE, NONE, 0, 0],
    [22, 0, 0, 0, 0, 0],
    [26, 0, 0, 0, 0, 0],
];

/// The list with this number of so many rows over the alphabet.
pub fn short_list(mut number: u64, rows: u32) -> Vec<u32> {
    let letters = ALPHABET.len() as u64;
    let mut words = Vec::with_capacity(rows as usize * ROW_WORDS);
    for _ in 0..rows {
        words.extend(ALPHABET[(number % letters) as usize]);
        number /= letters;
    }
    words
}

/// Words at the ends of the ranges.
const ENDS: [u32; 21] = [
    0, 1, 2, 3, 4, 9, 11, 25, 26, 128, 129, 1_023, 1_024, 2_047, 2_048, 4_095, 4_096, 65_534, 65_535, 65_536,
    u32::MAX,
];

/// A row in range.
fn any_row(rng: &mut Rng) -> Row {
    let op = rng.from_to(1, 25);
    let mut row = [op, 0, 0, 0, 0, 0];
    for (word, column) in row[1..].iter_mut().zip(columns(op).expect("an op")) {
        *word = match column {
            Column::Count => rng.below(3),
            Column::Flag => rng.below(2),
            Column::Choice => rng.below(3),
            Column::Crossed => rng.below(129),
            Column::Label if rng.percent(50) => NONE,
            _ => rng.below(1_024),
        };
    }
    row
}

/// Spoils the rows of a tree in one way.
pub fn spoil(words: &mut Vec<u32>, rng: &mut Rng) {
    let rows = words.len() / ROW_WORDS;
    if rows == 0 {
        words.extend(any_row(rng));
        return;
    }
    let at = rng.below(rows as u32) as usize * ROW_WORDS;
    let place = at..at + ROW_WORDS;
    match rng.below(12) {
        0..=2 => {
            let column = rng.below(6) as usize;
            words[at + column] = rng.pick(&ENDS);
        }
        3 => {
            let column = rng.below(6) as usize;
            words[at + column] = words[at + column].wrapping_add(rng.pick(&[1, u32::MAX]));
        }
        4 => drop(words.drain(place)),
        5 => {
            let row: Vec<u32> = words[place].to_vec();
            words.splice(at..at, row);
        }
        6 => drop(words.splice(at..at, any_row(rng))),
        7 => drop(words.splice(place, any_row(rng))),
        8 => {
            let other = rng.below(rows as u32) as usize * ROW_WORDS;
            for column in 0..ROW_WORDS {
                words.swap(at + column, other + column);
            }
        }
        9 => words.truncate(at),
        10 => words.truncate(words.len() - rng.from_to(1, 7) as usize % words.len().max(1)),
        _ => words.extend([0; ROW_WORDS].into_iter().take(rng.from_to(1, 6) as usize)),
    }
}

/// Lists at the limits of their length and of their depth.
pub fn limits() -> Vec<Vec<u32>> {
    let block = |count: u32| [9, count, 0, 0, 0, 0];
    let returns = |count: usize| [22, 0, 0, 0, 0, 0].repeat(count);
    let mut labels = block(0).to_vec();
    (0..1_023).for_each(|_| labels.extend([[18, 0, NONE, 0, 0, 0], block(1)].as_flattened()));
    let mut sequences = vec![3, 0, 0, 0, 0, 0];
    sequences.extend([5, 0, 0, 0, 0, 0].repeat(2_045));
    sequences.extend([[4, 0, 0, 0, 0, 0], block(1)].as_flattened());
    vec![
        vec![],
        vec![9, 0, 0, 0, 0],
        vec![9, 0, 0, 0, 0, 0, 0],
        [returns(MAX_ROWS - 1), block(2_047).to_vec()].concat(),
        [returns(MAX_ROWS), block(2_047).to_vec()].concat(),
        vec![0; 12_289],
        returns(MAX_ROWS + 1),
        labels,
        sequences,
    ]
}
