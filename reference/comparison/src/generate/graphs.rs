//! Graphs: any ends over any blocks, and Switches over any run of the case rows, so that rows are
//! shared or in no Switch. No walk is meant to get through.

use super::draft::Draft;
use super::generate;
use crate::rng::Rng;

/// Table `number` of a run in which every other one is a graph.
pub fn graph_or_table(seed: u64, number: u64, rng: &mut Rng) -> Vec<u32> {
    match number % 2 {
        0 => graph(rng).words(),
        _ => generate(seed, number / 2).words,
    }
}

pub fn graph(rng: &mut Rng) -> Draft {
    let mut draft = Draft::with_places(rng);
    let blocks = match rng.below(100) {
        0 => 1_024,
        1..=20 => rng.from_to(10, 120),
        _ => rng.from_to(1, 9),
    };
    for _ in 0..blocks {
        draft.fresh();
    }
    for _ in 0..rng.below(12) {
        let case = [draft.any_place_or_none(rng), draft.any_block(rng)];
        draft.cases.push(case);
    }
    draft.entry = draft.any_block(rng);
    let cases = draft.cases.len() as u32;
    for block in 0..blocks {
        match rng.below(22) {
            7 => {
                let first = rng.from_to(0, cases);
                let number = rng.from_to(0, cases - first);
                let operands = [draft.any_place(rng), first, number, draft.any_block(rng)];
                draft.end(block, 7, &operands, rng);
            }
            code => draft.end_anyhow(block, code, rng),
        }
    }
    draft
}
