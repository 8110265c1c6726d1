//! Tables of few blocks: all of one and two, and any of up to six.

use std::sync::LazyLock;

use super::draft::Draft;
use crate::model::columns::NONE;
use crate::model::table::BLOCK_WORDS;
use crate::rng::Rng;

/// Every end over two blocks, with each of its block columns free; operators, flags, bindings and
/// ids fixed. A Switch has no case, one to either block, or one to each in either order.
fn ends(blocks: u32) -> Vec<Vec<u32>> {
    let mut ends = vec![vec![0], vec![1], vec![2, 0], vec![3, 0]];
    let columns: [(u32, &[u32], usize, &[u32]); 16] = [
        (5, &[0], 3, &[]),
        (6, &[0], 2, &[]),
        (8, &[], 3, &[]),
        (9, &[], 3, &[]),
        (11, &[], 4, &[]),
        (12, &[], 3, &[]),
        (13, &[1], 2, &[]),
        (14, &[], 2, &[]),
        (15, &[1], 2, &[]),
        (16, &[], 2, &[]),
        (17, &[], 2, &[]),
        (18, &[], 1, &[]),
        (19, &[], 3, &[1]),
        (20, &[], 2, &[4]),
        (21, &[], 2, &[4]),
        (10, &[], 5, &[]),
    ];
    for (code, before, named, after) in columns {
        for choice in 0..blocks.pow(named as u32) {
            let named = (0..named as u32).map(|column| choice / blocks.pow(column) % blocks);
            let end: Vec<u32> =
                [code].into_iter().chain(before.iter().copied()).chain(named).collect();
            ends.push(end.into_iter().chain(after.iter().copied()).collect());
        }
    }
    let no_update = ends.iter().filter(|end| end[0] == 10 && end[3] == 0).cloned();
    let no_update: Vec<_> =
        no_update.map(|end| vec![10, end[1], end[2], NONE, end[4], end[5]]).collect();
    ends.extend(no_update);
    for target in 0..blocks {
        ends.extend((0..3).map(|variant| vec![4, target, variant]));
    }
    for fallthrough in 0..blocks {
        for (first, count) in [(0, 0), (0, 1), (1, 1), (0, 2), (1, 2)] {
            ends.push(vec![7, 0, first, count, fallthrough]);
        }
    }
    ends
}

/// How many such ends there are; each comes with no instruction and with two.
const ENDS: u64 = 158;
pub const EXHAUSTIVE: u64 = (2 * ENDS) * (2 * ENDS);

/// The exhaustive table of this number.
pub fn exhaustive(number: u64) -> Vec<u32> {
    static ALL: LazyLock<Vec<Vec<u32>>> = LazyLock::new(|| ends(2));
    assert_eq!(ALL.len() as u64, ENDS);
    let choices = [number % (2 * ENDS), number / (2 * ENDS)];
    let mut draft = Draft {
        instructions: vec![[5, 1, 1, 0, 0, 6, 7], [7, 2, 2, 1, 2, 0, 8]],
        cases: vec![[0, 0], [65_535, 1], [1, 0]],
        places: vec![0, 1, 0],
        identifiers: vec![0, 1],
        ..Draft::default()
    };
    for (block, choice) in choices.into_iter().enumerate() {
        let end = &ALL[(choice / 2) as usize];
        let mut row = [0; BLOCK_WORDS];
        row[2..2 + end.len()].copy_from_slice(end);
        if end[0] != 0 {
            row[1] = 2 * (choice % 2) as u32;
            row[8] = 10 + block as u32;
            row[9] = 20 + block as u32;
            row[10] = 30 + block as u32;
        }
        draft.blocks.push(row);
    }
    draft.words()
}

/// Any good table of one to six blocks.
pub fn random(rng: &mut Rng) -> Draft {
    let mut draft = Draft::with_places(rng);
    let blocks = rng.from_to(1, 6);
    for _ in 0..blocks {
        draft.fresh();
    }
    for block in 0..blocks {
        let code = if rng.percent(25) { rng.pick(&[3, 4, 6]) } else { rng.below(22) };
        if code != 0 {
            let count = rng.below(3);
            draft.fill(block, count, rng);
        }
        draft.end_anyhow(block, code, rng);
    }
    draft
}
