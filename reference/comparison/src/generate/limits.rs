//! Tables at the limits: counts, depth 128 and 129, 8,192 and 8,193 visits.

use super::draft::Draft;
use crate::model::columns::NONE;
use crate::model::table::{LIMITS, Table};
use crate::model::{MAX_DEPTH, MAX_VISITS, walk};

/// Ways to nest one level: a statement's body, or a part of a value.
const STATEMENTS: [u32; 14] = [5, 105, 6, 106, 7, 8, 9, 10, 11, 12, 16, 19, 119, 20];
const VALUES: [u32; 11] = [13, 113, 213, 14, 114, 214, 15, 115, 17, 117, 18];

const NESTS: u64 = 2 * (STATEMENTS.len() + VALUES.len()) as u64;
pub const COUNT: u64 = NESTS + 15;

/// The table of this number, below `COUNT`.
pub fn limit(number: u64) -> Vec<u32> {
    let ways: Vec<u32> = STATEMENTS.iter().chain(&VALUES).copied().collect();
    if number < NESTS {
        let way = ways[(number / 2) as usize];
        let depth = MAX_DEPTH + (number % 2) as u32;
        let is_value = (number / 2) as usize >= STATEMENTS.len();
        return if is_value { value_nest(way, depth) } else { statement_nest(way, depth) }.words();
    }
    match number - NESTS {
        0 => chain(LIMITS[0]).words(),
        1 => over(1),
        2 => over(2),
        3 => over(3),
        4 => over(4),
        5 => over(5),
        6 => visits(MAX_VISITS),
        7 => visits(MAX_VISITS + 1),
        8 => full().words(),
        9 => many_cases(LIMITS[2]).words(),
        10 => tall_stack().words(),
        11 => long_sequence(MAX_DEPTH - 1, 64).words(),
        12 => long_sequence(MAX_DEPTH, 1).words(),
        13 => statement_visits(MAX_VISITS),
        _ => statement_visits(MAX_VISITS + 1),
    }
}

/// One place, one unnamed identifier, one instruction.
fn base() -> Draft {
    Draft {
        instructions: vec![[1, 0, 0, 0, 0, 0, 0]],
        places: vec![0],
        identifiers: vec![0],
        ..Draft::default()
    }
}

fn add(draft: &mut Draft, count: u32, code: u32, operands: &[u32]) -> u32 {
    let mut row = [0, count, code, 0, 0, 0, 0, 0, 2, 3, 4];
    row[3..3 + operands.len()].copy_from_slice(operands);
    draft.blocks.push(row);
    draft.blocks.len() as u32 - 1
}

/// Statement blocks one after the other, each the continuation of the one before.
fn chain(blocks: u32) -> Draft {
    let mut draft = base();
    for next in 1..blocks {
        add(&mut draft, 0, 18, &[next]);
    }
    add(&mut draft, 0, 3, &[0]);
    draft
}

/// Statements, each in the body of the one before.
fn statement_nest(way: u32, depth: u32) -> Draft {
    let mut draft = base();
    let mut inner = add(&mut draft, 0, 3, &[0]);
    let test = add(&mut draft, 1, 6, &[0, inner, inner]);
    for _ in 1..depth {
        let out = add(&mut draft, 0, 3, &[0]);
        let other = add(&mut draft, 0, 3, &[0]);
        // A test of its own for each loop, since each is the continue block of its loop.
        let test = if matches!(way, 8..=12) { add(&mut draft, 1, 6, &[0, out, out]) } else { test };
        inner = match way {
            5 => add(&mut draft, 1, 5, &[0, inner, out, out]),
            105 => add(&mut draft, 1, 5, &[0, other, inner, out]),
            6 => add(&mut draft, 1, 6, &[0, inner, other]),
            106 => add(&mut draft, 1, 6, &[0, other, inner]),
            7 => {
                draft.cases.push([NONE, inner]);
                let case = draft.cases.len() as u32 - 1;
                add(&mut draft, 1, 7, &[0, case, 1, out])
            }
            8 => add(&mut draft, 1, 8, &[inner, test, out]),
            9 => add(&mut draft, 1, 9, &[test, inner, out]),
            10 => add(&mut draft, 1, 10, &[test, test, NONE, inner, out]),
            11 => add(&mut draft, 1, 11, &[test, test, inner, out]),
            12 => add(&mut draft, 1, 12, &[test, inner, out]),
            16 => add(&mut draft, 1, 16, &[inner, out]),
            19 => add(&mut draft, 1, 19, &[inner, other, out, NONE]),
            119 => add(&mut draft, 1, 19, &[other, inner, out, NONE]),
            _ => add(&mut draft, 1, way, &[inner, out, 4]),
        };
    }
    draft.entry = inner;
    draft
}

/// Values, each in a part of the one before, under one statement.
fn value_nest(way: u32, depth: u32) -> Draft {
    let mut draft = base();
    let out = add(&mut draft, 0, 3, &[0]);
    let leaf = add(&mut draft, 1, 4, &[out, 0]);
    let mut inner = add(&mut draft, 1, 6, &[0, leaf, leaf]);
    for level in 1..depth {
        let first = level == depth - 1;
        let last = if first { out } else { add(&mut draft, 1, 6, &[0, leaf, leaf]) };
        let code = way % 100;
        inner = match code {
            13..=15 => {
                let test = match way / 100 {
                    0 => inner,
                    1 => add(&mut draft, 1, 6, &[0, inner, leaf]),
                    _ => add(&mut draft, 1, 6, &[0, leaf, inner]),
                };
                let operands = if code == 14 { vec![test, last] } else { vec![1, test, last] };
                add(&mut draft, 1, code, &operands)
            }
            17 if way == 17 => add(&mut draft, 1, 17, &[inner, last]),
            17 if !first => add(&mut draft, 1, 17, &[leaf, inner]),
            18 if !first => add(&mut draft, 1, 18, &[inner]),
            _ => add(&mut draft, 1, 17, &[inner, out]),
        };
    }
    draft.entry = inner;
    draft
}

/// A head count one over its limit, with all the rows that it asks for.
fn over(count: usize) -> Vec<u32> {
    let mut words = full().words();
    words[count] += 1;
    words.push(0);
    words
}

/// Every table as long as it may be.
fn full() -> Draft {
    let [blocks, instructions, cases, places, identifiers] = LIMITS;
    let mut draft = Draft {
        instructions: (0..instructions).map(|row| [row, places - 1 - row, 0, 0, 0, 7, 8]).collect(),
        cases: (0..cases).map(|row| [row, blocks - 1]).collect(),
        places: (0..places).map(|row| identifiers - 1 - row).collect(),
        identifiers: (0..identifiers).map(|row| row % 2).collect(),
        ..Draft::default()
    };
    for row in 0..blocks - 2 {
        draft.blocks.push([4 * row, 4, 18, row + 1, 0, 0, 0, 0, 65_535, 65_535, 65_535]);
    }
    draft.blocks.push([4_095, 1, 7, 4_095, 0, cases, blocks - 1, 0, 5, 6, 7]);
    draft.blocks.push([4_096, 0, 3, 4_095, 0, 0, 0, 0, 8, 9, 9]);
    draft
}

/// One Switch over as many cases as there may be, each block falling into the next.
fn many_cases(cases: u32) -> Draft {
    let mut draft = base();
    let blocks = LIMITS[0] - 2;
    add(&mut draft, 0, 7, &[0, 0, cases, LIMITS[0] - 1]);
    for case in 0..blocks {
        draft.cases.push([0, case + 1]);
        let next = if case + 1 < blocks { case + 2 } else { LIMITS[0] - 1 };
        add(&mut draft, 0, 4, &[next, 0]);
    }
    while (draft.cases.len() as u32) < cases {
        draft.cases.push([NONE, LIMITS[0] - 1]);
    }
    add(&mut draft, 0, 3, &[0]);
    draft
}

/// Switches, each in the first case of the one before, with many cases built before it.
fn tall_stack() -> Draft {
    let mut draft = base();
    let mut inner = add(&mut draft, 0, 3, &[0]);
    let mut first = 0;
    while draft.blocks.len() < 1_016 {
        let out = add(&mut draft, 0, 3, &[0]);
        draft.cases.push([0, inner]);
        for _ in 0..6 {
            let case = add(&mut draft, 0, 3, &[0]);
            draft.cases.push([0, case]);
        }
        let count = draft.cases.len() as u32 - first;
        inner = add(&mut draft, 0, 7, &[0, first, count, out]);
        first += count;
        if draft.blocks.len() > 8 * 120 {
            break;
        }
    }
    draft.entry = inner;
    draft
}

/// A ForIn whose init value is flattened from as many sequences as the depth allows.
fn long_sequence(blocks: u32, instructions: u32) -> Draft {
    let mut draft = base();
    draft.instructions = vec![[1, 0, 0, 0, 0, 0, 0]; instructions as usize];
    let out = add(&mut draft, 0, 3, &[0]);
    let body = add(&mut draft, 0, 3, &[0]);
    let mut value = add(&mut draft, instructions, 6, &[0, body, out]);
    for _ in 1..blocks {
        value = add(&mut draft, instructions, 18, &[value]);
    }
    draft.entry = add(&mut draft, 0, 12, &[value, body, out]);
    draft
}

/// So many visits, by two values with shared parts and a chain of statements before them.
fn visits(number: u32) -> Vec<u32> {
    let build = |before: u32| {
        let mut draft = base();
        let out = add(&mut draft, 0, 3, &[0]);
        let end = add(&mut draft, 1, 4, &[out, 0]);
        let mut levels = vec![end];
        for _ in 0..11 {
            let inner = *levels.last().unwrap();
            let again = add(&mut draft, 0, 18, &[inner]);
            levels.push(add(&mut draft, 1, 17, &[inner, again]));
        }
        let second = add(&mut draft, 0, 17, &[levels[9], out]);
        let mut next = add(&mut draft, 0, 17, &[levels[11], second]);
        for _ in 0..before {
            next = add(&mut draft, 0, 18, &[next]);
        }
        draft.entry = next;
        draft.words()
    };
    let least = walk(&Table::of(&build(0))).visits;
    build(number - least)
}

/// So many visits, each a statement's: values are visited once for each of many loops.
fn statement_visits(number: u32) -> Vec<u32> {
    let build = |before: u32| {
        let mut draft = base();
        let end = add(&mut draft, 0, 3, &[0]);
        let leaf = add(&mut draft, 1, 4, &[end, 0]);
        let mut shared = leaf;
        for _ in 0..3 {
            let again = add(&mut draft, 0, 18, &[shared]);
            shared = add(&mut draft, 1, 17, &[shared, again]);
        }
        let mut next = end;
        for _ in 0..300 {
            next = add(&mut draft, 0, 17, &[shared, next]);
        }
        for _ in 0..before {
            next = add(&mut draft, 0, 18, &[next]);
        }
        draft.entry = next;
        draft.words()
    };
    let least = walk(&Table::of(&build(0))).visits;
    build(number - least)
}
