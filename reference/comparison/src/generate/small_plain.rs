//! Every small table that is plain with switches (M-113), or beyond the papers with loops, and that the
//! language entry accepts, but for the numbers of its blocks: these are given as they are first named.
//!
//! A block has no row of its own until the build visits it: a DoWhile of the block alone stands for it,
//! which no plain table has and which the build refuses with 15 there. Then the block gets every end
//! in turn. Where the build refuses otherwise, it refuses every table with these rows.
//!
//! A statement names blocks that nothing named before: its parts and its fallthrough are all visited,
//! once each, and a Goto finds what it names on the stack. With `reused` this is not taken for
//! granted: with switches alone the same tables come out, after a longer search. With loops more come
//! out: a For's init may be a block that a statement names too.

use super::draft::Draft;
use crate::model::table::{BLOCK_WORDS, Table};
use crate::model::columns::NONE;
use crate::model::{Refusal, Rule, walk_by};
use crate::runs::{Width, is_plain};

#[derive(Clone, Copy, Debug)]
pub struct Bound {
    pub width: Width,
    pub blocks: u32,
    /// The most cases of a Switch.
    pub cases: u32,
    pub reused: bool,
}

/// Tables met on the way.
#[derive(Clone, Copy, Debug, Default)]
pub struct Counted {
    /// Those with a Switch are apart.
    pub accepted: u64,
    pub with_switch: u64,
    /// With a For or a DoWhile.
    pub with_loops: u64,
    pub refused: u64,
}

/// Each block performs one row, that of its own number; the ids are those of the blocks.
pub fn each(bound: Bound, mut visit: impl FnMut(&Draft)) -> Counted {
    let blocks = bound.blocks;
    let draft = Draft {
        entry: 0,
        blocks: vec![[0; BLOCK_WORDS]; blocks as usize],
        instructions: (0..blocks).map(|row| [50 + row, 0, 0, 0, 0, 0, 0]).collect(),
        cases: Vec::new(),
        places: vec![0],
        identifiers: vec![1],
    };
    let mut grower = Grower { bound, visit: &mut visit, counted: Counted::default() };
    grower.grow(&draft, 1);
    grower.counted
}

struct Grower<'v> {
    bound: Bound,
    visit: &'v mut dyn FnMut(&Draft),
    counted: Counted,
}

/// An end's code, the columns before the blocks that it names, how many it names, and the columns after.
type Shape = (u32, &'static [u32], u32, &'static [u32]);
const SHAPES: [Shape; 9] = [
    (2, &[0], 0, &[]),
    (3, &[0], 0, &[]),
    (4, &[], 1, &[0]),
    (4, &[], 1, &[1]),
    (5, &[0], 3, &[]),
    (9, &[], 3, &[]),
    (16, &[], 2, &[]),
    (20, &[], 2, &[7]),
    (21, &[], 2, &[7]),
];

/// Beyond the papers: Unreachable, DoWhile, and For with update and without.
const LOOPS: [Shape; 4] = [(1, &[], 0, &[]), (8, &[], 3, &[]), (10, &[], 5, &[]), (10, &[NONE], 4, &[])];

impl Grower<'_> {
    /// Blocks below `named` are named so far.
    fn grow(&mut self, draft: &Draft, named: u32) {
        let words = draft.words();
        let table = Table::of(&words);
        if !is_plain(&table, self.bound.width) {
            return;
        }
        let is_open = |block: u32| table.block(block)[2] == 0;
        match walk_by(Rule::Language, &Table::of(&closed(draft).words())).result {
            Err(Refusal { code: 15, at }) if is_open(at) => self.ends(draft, at, named),
            Err(_) => self.counted.refused += 1,
            Ok(_) => {
                self.counted.accepted += 1;
                let has = |codes: &[u32]| draft.blocks.iter().any(|row| codes.contains(&row[2]));
                self.counted.with_switch += u64::from(has(&[7]));
                self.counted.with_loops += u64::from(has(&[8, 10]));
                (self.visit)(draft);
            }
        }
    }

    fn ends(&mut self, draft: &Draft, block: u32, named: u32) {
        let loops: &[Shape] = if self.bound.width == Width::Loops { &LOOPS } else { &[] };
        for (code, before, names, after) in SHAPES.iter().chain(loops).copied() {
            let from = if code == 4 || self.bound.reused { 0 } else { named };
            self.choose(names, from, named, &mut Vec::new(), &mut |grower, blocks, named| match (code, blocks) {
                (10, [init, test, rest @ ..]) => grower.fors(draft, block, [*init, *test], before, rest, named),
                _ => grower.grow(&ended(draft, block, code, &[before, blocks, after].concat()), named),
            });
        }
        let from = if self.bound.reused { 0 } else { named };
        for count in 0..=self.bound.cases {
            self.choose(count + 1, from, named, &mut Vec::new(), &mut |grower, blocks, named| {
                let [cases @ .., fallthrough] = blocks else { unreachable!() };
                let mut draft = draft.clone();
                let first = draft.cases.len() as u32;
                draft.cases.extend(cases.iter().map(|case| [0, *case]));
                grower.grow(&ended(&draft, block, 7, &[0, first, count, *fallthrough]), named);
            });
        }
    }

    /// A For, whose init and update get their Gotos with it, of either variant, where they have no end yet.
    fn fors(&mut self, draft: &Draft, block: u32, [init, test]: [u32; 2], no_update: &[u32], rest: &[u32], named: u32) {
        let columns = [&[init, test][..], no_update, rest].concat();
        let mut values = vec![init];
        if no_update.is_empty() && rest[0] != init {
            values.push(rest[0]);
        }
        values.retain(|value| draft.blocks[*value as usize][2] == 0 && *value != block);
        for variants in 0..1 << values.len() {
            let mut draft = ended(draft, block, 10, &columns);
            for (place, value) in values.iter().enumerate() {
                if draft.blocks[*value as usize][2] == 0 {
                    draft.blocks[*value as usize] = row(*value, 4, &[test, variants >> place & 1]);
                }
            }
            self.grow(&draft, named);
        }
    }

    /// Every choice of so many more blocks: each is the next one, or was named and is at least `from`.
    fn choose(
        &mut self,
        more: u32,
        from: u32,
        named: u32,
        chosen: &mut Vec<u32>,
        then: &mut dyn FnMut(&mut Self, &[u32], u32),
    ) {
        if more == 0 {
            return then(self, chosen, named);
        }
        for block in from..(named + 1).min(self.bound.blocks) {
            chosen.push(block);
            self.choose(more - 1, from, named.max(block + 1), chosen, then);
            chosen.pop();
        }
    }
}

/// With something in place of the blocks that have no row yet.
fn closed(draft: &Draft) -> Draft {
    let mut draft = draft.clone();
    for block in 0..draft.block_count() {
        if draft.blocks[block as usize][2] == 0 {
            draft.blocks[block as usize] = row(block, 8, &[block; 3]);
        }
    }
    draft
}

/// With an end for a block. A loop's test must be its Branch, which it gets with it.
fn ended(draft: &Draft, block: u32, code: u32, columns: &[u32]) -> Draft {
    let mut draft = draft.clone();
    draft.blocks[block as usize] = row(block, code, columns);
    let test = match (code, columns) {
        (9, [test, body, fallthrough]) | (8, [body, test, fallthrough]) | (10, [_, test, _, body, fallthrough]) => {
            Some((*test, [0, *body, *fallthrough]))
        }
        _ => None,
    };
    if let Some((test, columns)) = test
        && draft.blocks[test as usize][2] == 0
    {
        draft.blocks[test as usize] = row(test, 6, &columns);
    }
    draft
}

fn row(block: u32, code: u32, columns: &[u32]) -> [u32; BLOCK_WORDS] {
    let mut row = [0; BLOCK_WORDS];
    row[..3].copy_from_slice(&[block, 1, code]);
    row[3..3 + columns.len()].copy_from_slice(columns);
    row[8] = 10 + block;
    row
}
