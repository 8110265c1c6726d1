//! Every small table with some of the terminals that a build accepts, but for the numbers of its blocks: these are given as they are first
//! named. A row may name blocks that were named before.
//!
//! A block is missing until the build looks it up, which it refuses with 10. Then the block gets every end in turn. Where the build refuses
//! otherwise, it refuses every table with these rows. In an accepted table the blocks that the build never looks up, but a row names, get
//! every end too.

use super::draft::Draft;
use crate::model::columns::NONE;
use crate::model::table::{BLOCK_WORDS, BlockRow, Table};
use crate::model::{Refusal, Rule, walk_by};
use crate::rng::Rng;
use crate::wide::ends::{names, present};

#[derive(Clone, Copy, Debug)]
pub struct Family<'f> {
    pub blocks: u32,
    /// The terminals, by their codes.
    pub codes: &'f [u32],
    /// The most cases of a Switch.
    pub cases: u32,
    /// How many blocks may have something else than the one row of their own: no row, a store to an unnamed identifier, a load of their own
    /// identifier.
    pub shapes: u32,
    pub rule: Rule,
}

#[derive(Clone, Copy, Debug, Default)]
pub struct Counted {
    pub accepted: u64,
    pub refused: u64,
    pub cut: u64,
}

/// Rows of each block: another instruction, a store to an unnamed identifier, a load of its own identifier.
const SHAPES: u32 = 3;

/// `keep`: a table that it refuses is cut, with all that would come of it.
pub fn each(family: Family, keep: impl Fn(&Draft) -> bool, mut visit: impl FnMut(&Draft)) -> Counted {
    let mut grower = Grower { family, keep: &keep, visit: &mut visit, counted: Counted::default() };
    grower.grow(&empty(family.blocks), 1, 0);
    grower.counted
}

/// A table without ends yet. Each block has two places of its own, of two identifiers without a name.
fn empty(blocks: u32) -> Draft {
    let rows = (0..blocks).flat_map(|block| {
        let lvalue = 2 * block;
        [
            [50 + block, lvalue, 0, 0, 0, 0, 0],
            [50 + block, lvalue, 2, lvalue, lvalue + 1, 0, 0],
            [50 + block, lvalue, 1, lvalue, 0, 0, 0],
        ]
    });
    Draft {
        entry: 0,
        blocks: vec![[0; BLOCK_WORDS]; blocks as usize],
        instructions: rows.collect(),
        cases: Vec::new(),
        places: (0..2 * blocks).collect(),
        identifiers: vec![0; 2 * blocks as usize],
    }
}

/// How often a choice of an end is tried again before the table is given up.
const TRIES: u32 = 40;

/// One such table, with ends drawn at random: as a rule a row names new blocks. Nothing if none came out.
pub fn sampled(family: Family, rng: &mut Rng, keep: impl Fn(&Draft) -> bool) -> Option<Draft> {
    let mut draft = empty(family.blocks);
    let mut named = 1;
    loop {
        let words = draft.words();
        let table = Table::of(&words);
        let block = match walk_by(family.rule, &table).result {
            Err(Refusal { code: 10, at }) => at,
            Err(_) => return None,
            Ok(_) => {
                let all = present(&table).into_iter().flat_map(|(_, row)| names(&table, row));
                match all.map(|(_, block)| block).find(|block| table.block(*block)[2] == 0) {
                    Some(block) => block,
                    None => return Some(draft),
                }
            }
        };
        let goes_on = |draft: &Draft| {
            let is_open = |refusal: Refusal| refusal.code == 10;
            keep(draft) && walk_by(family.rule, &Table::of(&draft.words())).result.err().is_none_or(is_open)
        };
        (draft, named) = (0..TRIES).map(|_| any_end(family, &draft, block, named, rng)).find(|(draft, _)| goes_on(draft))?;
    }
}

fn any_end(family: Family, draft: &Draft, block: u32, named: u32, rng: &mut Rng) -> (Draft, u32) {
    let (mut draft, mut named) = (draft.clone(), named);
    let mut name = |rng: &mut Rng| {
        if named < family.blocks && rng.percent(65) {
            named += 1;
            named - 1
        } else {
            rng.below(named)
        }
    };
    let code = rng.pick(family.codes);
    let mut columns = Vec::new();
    if code == 7 {
        let count = rng.below(family.cases + 1);
        let first = draft.cases.len() as u32;
        for _ in 0..count {
            draft.cases.push([0, name(rng)]);
        }
        columns.extend([0, first, count, name(rng)]);
    } else {
        let (before, names, after) = rng.pick(&family.shapes_of(code));
        columns.extend(before);
        columns.extend((0..names).map(|_| name(rng)));
        columns.extend(after);
        if code == 10 && rng.percent(40) {
            columns[2] = NONE;
        }
    }
    let kind = if may_vary(code) { rng.pick(&[0, 0, 0, 1, 1, 2, 3]) } else { 0 };
    draft.blocks[block as usize] = row(block, code, &columns, kind);
    (draft, named)
}

/// A block with this end. Its rows: 0 its own, 1 a store, 2 a load of its own, 3 none.
fn row(block: u32, code: u32, columns: &[u32], kind: u32) -> BlockRow {
    let mut row = [0; BLOCK_WORDS];
    row[..3].copy_from_slice(&[SHAPES * block + kind % SHAPES, u32::from(kind < SHAPES), code]);
    row[3..3 + columns.len()].copy_from_slice(columns);
    if matches!(code, 2 | 3 | 5 | 6 | 7) {
        row[3] = 2 * block;
    }
    row[8] = 10 + block;
    row
}

fn may_vary(code: u32) -> bool {
    matches!(code, 1 | 4 | 6 | 18)
}

struct Grower<'v> {
    family: Family<'v>,
    keep: &'v dyn Fn(&Draft) -> bool,
    visit: &'v mut dyn FnMut(&Draft),
    counted: Counted,
}

/// The columns before the blocks that a terminal names, how many it names, and the columns after.
type Shape = (&'static [u32], u32, &'static [u32]);

fn shapes_of(code: u32) -> &'static [Shape] {
    match code {
        1 => &[(&[], 0, &[])],
        2 | 3 => &[(&[0], 0, &[])],
        4 => &[(&[], 1, &[0]), (&[], 1, &[1]), (&[], 1, &[2])],
        5 => &[(&[0], 3, &[])],
        6 => &[(&[0], 2, &[])],
        8 | 9 | 12 => &[(&[], 3, &[])],
        10 => &[(&[], 5, &[])],
        11 => &[(&[], 4, &[])],
        13 => &[(&[1], 2, &[])],
        15 => &[(&[1], 2, &[])],
        14 | 16 | 17 => &[(&[], 2, &[])],
        18 => &[(&[], 1, &[])],
        19 => &[(&[], 3, &[NONE])],
        20 | 21 => &[(&[], 2, &[7])],
        _ => unreachable!("a Switch has its own way"),
    }
}

impl Family<'_> {
    /// A Goto is a Continue only where there are loops, and a Try only where there are Trys.
    fn shapes_of(&self, code: u32) -> Vec<Shape> {
        let has_loops = self.codes.iter().any(|code| (8..=12).contains(code));
        let is_met = |variant: u32| variant == 0 || variant == 1 && has_loops || variant == 2 && self.codes.contains(&19);
        shapes_of(code).iter().copied().filter(|(.., after)| code != 4 || is_met(after[0])).collect()
    }
}

impl Grower<'_> {
    /// Blocks below `named` are named so far, and so many have another row than their own.
    fn grow(&mut self, draft: &Draft, named: u32, shapes: u32) {
        if !(self.keep)(draft) {
            self.counted.cut += 1;
            return;
        }
        let words = draft.words();
        let table = Table::of(&words);
        let is_open = |block: u32| table.block(block)[2] == 0;
        match walk_by(self.family.rule, &table).result {
            Err(Refusal { code: 10, at }) if is_open(at) => self.ends(draft, at, named, shapes),
            Err(_) => self.counted.refused += 1,
            Ok(_) => {
                let named_by_all = present(&table).into_iter().flat_map(|(_, row)| names(&table, row));
                match named_by_all.map(|(_, block)| block).find(|block| is_open(*block)) {
                    Some(block) => self.ends(draft, block, named, shapes),
                    None => {
                        self.counted.accepted += 1;
                        (self.visit)(draft);
                    }
                }
            }
        }
    }

    fn ends(&mut self, draft: &Draft, block: u32, named: u32, shapes: u32) {
        for code in self.family.codes {
            if *code == 7 {
                self.switches(draft, block, named, shapes);
                continue;
            }
            for (before, names, after) in self.family.shapes_of(*code) {
                self.choose(names, named, &mut Vec::new(), &mut |grower, blocks, named| {
                    grower.ended(draft, block, *code, &[before, blocks, after].concat(), named, shapes);
                    if let (10, [init, test, _, body, end]) = (*code, blocks)
                        && blocks[2] == 0
                    {
                        grower.ended(draft, block, 10, &[*init, *test, NONE, *body, *end], named, shapes);
                    }
                });
            }
        }
    }

    fn switches(&mut self, draft: &Draft, block: u32, named: u32, shapes: u32) {
        for count in 0..=self.family.cases {
            self.choose(count + 1, named, &mut Vec::new(), &mut |grower, blocks, named| {
                let [cases @ .., fallthrough] = blocks else { unreachable!() };
                let mut draft = draft.clone();
                let first = draft.cases.len() as u32;
                draft.cases.extend(cases.iter().map(|case| [0, *case]));
                grower.ended(&draft, block, 7, &[0, first, count, *fallthrough], named, shapes);
            });
        }
    }

    /// With an end for a block, and each of the rows that a block with this end may have.
    fn ended(&mut self, draft: &Draft, block: u32, code: u32, columns: &[u32], named: u32, shapes: u32) {
        let mut draft = draft.clone();
        for kind in 0..=SHAPES {
            let other = u32::from(kind != 0);
            if kind == 0 || shapes < self.family.shapes && may_vary(code) {
                draft.blocks[block as usize] = row(block, code, columns, kind);
                self.grow(&draft, named, shapes + other);
            }
        }
    }

    /// Every choice of so many more blocks: each is the next one, or was named.
    fn choose(&mut self, more: u32, named: u32, chosen: &mut Vec<u32>, then: &mut dyn FnMut(&mut Self, &[u32], u32)) {
        if more == 0 {
            return then(self, chosen, named);
        }
        for block in 0..(named + 1).min(self.family.blocks) {
            chosen.push(block);
            self.choose(more - 1, named.max(block + 1), chosen, then);
            chosen.pop();
        }
    }
}
