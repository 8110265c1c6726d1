//! Trees: those of tables, and for the runner of M-103 rows that the check accepts, with every statement that is run, few labels, and jumps of every sort.

use super::generate;
use crate::model::check::check;
use crate::model::tree_check::NONE;
use crate::model::{Row, walk};
use crate::rng::Rng;

/// The rows of table `number` of the run with this seed, if the model builds it.
pub fn built(seed: u64, number: u64) -> Option<Vec<Row>> {
    let words = generate(seed, number).words;
    walk(&check(&words).ok()?).result.ok()
}

/// Labels are few, so that jumps meet them; some statements have none.
fn label(rng: &mut Rng) -> u32 {
    if rng.percent(30) { NONE } else { rng.below(4) }
}

/// A random tree of some depth. One in forty has a row that is not run.
pub fn tree(rng: &mut Rng) -> Vec<u32> {
    let mut rows = Vec::new();
    let depth = rng.from_to(1, 5);
    block(rng, depth, &mut rows);
    if rng.percent(2) {
        let at = rng.below(rows.len() as u32) as usize;
        rows.splice(at..at, [[1, 7, 0, 0, 0, 0], [8, 0, 0, 0, 0, 0], [4, 0, 0, 0, 0, 0], [9, 1, 0, 0, 0, 0]]);
    }
    rows.into_flattened()
}

/// A WHILE around so many LABELs, one in the other, and a jump out of all.
pub fn deep(labels: u32, rng: &mut Rng) -> Vec<u32> {
    let mut rows: Vec<Row> = vec![[1, 5, 0, 0, 0, 0], [1, 9, 0, 0, 0, 0], [4, 0, 0, 0, 0, 0], [rng.pick(&[24, 25]), 3, 0, rng.from_to(0, 2), 0, 0], [9, 2, 0, 0, 0, 0]];
    for _ in 0..labels {
        rows.push([18, 0, rng.pick(&[NONE, 1, 2]), 0, 0, 0]);
        rows.push([9, 1, 0, 0, 0, 0]);
    }
    rows.push([14, 0, 3, 0, 0, 0]);
    rows.push([9, 1, 0, 0, 0, 0]);
    rows.into_flattened()
}

fn value(rng: &mut Rng, rows: &mut Vec<Row>) {
    match rng.below(6) {
        0 => rows.push([2, rng.below(4_096), 0, 0, 0, 0]),
        1 => rows.push([3, 0, 0, 0, 0, 0]),
        2 => {
            let instructions = rng.below(3);
            (0..instructions).for_each(|_| instruction(rng, rows));
            value(rng, rows);
            rows.push([5, instructions, 0, 0, 0, 0]);
        }
        _ => rows.push([1, rng.below(4_096), 0, 0, 0, 0]),
    }
}

fn instruction(rng: &mut Rng, rows: &mut Vec<Row>) {
    value(rng, rows);
    rows.push([4, 0, 0, 0, 0, 0]);
}

fn block(rng: &mut Rng, depth: u32, rows: &mut Vec<Row>) {
    let statements = rng.below(4);
    (0..statements).for_each(|_| statement(rng, depth, rows));
    rows.push([9, statements, 0, 0, 0, 0]);
}

fn statement(rng: &mut Rng, depth: u32, rows: &mut Vec<Row>) {
    let inner = depth.saturating_sub(1);
    let op = if depth == 0 { rng.pick(&[4, 4, 4, 24, 25, 22, 23]) } else { rng.pick(&[4, 4, 10, 12, 13, 14, 15, 18, 20, 21, 24, 25, 22, 12, 15]) };
    match op {
        4 => instruction(rng, rows),
        10 => {
            let alternate = rng.below(2);
            (0..=alternate).for_each(|_| block(rng, inner, rows));
            let row = [10, 0, alternate, 0, label(rng), 0];
            rows.push(row);
        }
        12 => {
            let cases = rng.below(4);
            for _ in 0..cases {
                block(rng, inner, rows);
                rows.push([11, rng.pick(&[0, NONE]), 0, 0, 0, 0]);
            }
            let row = [12, 0, cases, 0, label(rng), 0];
            rows.push(row);
        }
        13 => {
            block(rng, inner, rows);
            value(rng, rows);
            let row = [13, 0, label(rng), 0, 0, 0];
            rows.push(row);
        }
        14 => {
            value(rng, rows);
            block(rng, inner, rows);
            let row = [14, 0, label(rng), 0, 0, 0];
            rows.push(row);
        }
        15 => {
            let update = rng.below(2);
            (0..2 + update).for_each(|_| value(rng, rows));
            block(rng, inner, rows);
            let row = [15, 0, label(rng), update, 0, 0];
            rows.push(row);
        }
        18 => {
            block(rng, inner, rows);
            let row = [18, 0, label(rng), 0, 0, 0];
            rows.push(row);
        }
        20 | 21 => {
            block(rng, inner, rows);
            rows.push([op, 3, 0, 0, 0, 0]);
        }
        22 | 23 => rows.push([op, 1, 2, 0, 0, 0]),
        _ => {
            let row = [op, rng.below(4), 0, rng.below(3), 0, 0];
            rows.push(row);
        }
    }
}
