//! Values whose blocks are shared, so that one block is visited many times over.

use super::draft::Draft;
use crate::model::columns::NONE;
use crate::rng::Rng;

struct Shared<'r> {
    draft: Draft,
    rng: &'r mut Rng,
    /// Blocks whose value ends in a Goto, and those whose value ends in a Branch.
    values: Vec<u32>,
    tests: Vec<u32>,
}

/// Value blocks over those made before them, most often the last ones, under one statement.
pub fn shared_values(rng: &mut Rng) -> Draft {
    let draft = Draft::with_places(rng);
    let mut shared = Shared { draft, rng, values: Vec::new(), tests: Vec::new() };
    let after = shared.block(0, 3, &[0]);
    let leaf = shared.block(1, 4, &[after, 0]);
    shared.values.push(leaf);
    let test = shared.block(1, 6, &[0, leaf, leaf]);
    shared.tests.push(test);
    for _ in 0..shared.rng.from_to(1, 40) {
        shared.level();
    }
    shared.statement(after);
    shared.draft
}

impl Shared<'_> {
    fn block(&mut self, least: u32, code: u32, operands: &[u32]) -> u32 {
        let block = self.draft.fresh();
        let count = self.rng.from_to(least, 2);
        self.draft.fill(block, count, self.rng);
        self.draft.end(block, code, operands, self.rng);
        block
    }

    fn value(&mut self) -> u32 {
        recent(&self.values, self.rng)
    }

    fn test(&mut self) -> u32 {
        recent(&self.tests, self.rng)
    }

    /// One more value or test.
    fn level(&mut self) {
        if self.rng.percent(25) {
            let (place, one, other) = (self.draft.any_place(self.rng), self.value(), self.value());
            let block = self.block(0, 6, &[place, one, other]);
            return self.tests.push(block);
        }
        // What it goes on to says whether it is a value or a test.
        let is_test = self.rng.percent(30);
        let next = self.end(is_test);
        let (test, value) = (self.test(), self.value());
        let block = match self.rng.below(5) {
            0 => {
                let operator = self.rng.below(3);
                self.block(0, 13, &[operator, test, next])
            }
            1 => self.block(0, 14, &[test, next]),
            2 => {
                let flag = self.rng.below(2);
                self.block(0, 15, &[flag, test, next])
            }
            3 => self.block(0, 17, &[value, next]),
            _ => self.block(0, 18, &[next]),
        };
        if is_test { self.tests.push(block) } else { self.values.push(block) }
    }

    /// A block of its own to go on to, since one that is also a part would be refused 23.
    fn end(&mut self, is_test: bool) -> u32 {
        let shared = if is_test { self.test() } else { self.value() };
        match self.rng.below(20) {
            0 => shared,
            1..=9 => self.block(0, 18, &[shared]),
            _ if is_test => {
                let (place, value) = (self.draft.any_place(self.rng), self.value());
                self.block(0, 6, &[place, value, value])
            }
            _ => self.block(1, 4, &[0, 0]),
        }
    }

    fn statement(&mut self, after: u32) {
        let body = self.block(0, 3, &[0]);
        let (init, test, update) = (self.value(), self.test(), self.value());
        let entry = match self.rng.below(8) {
            0 => self.block(0, 8, &[body, test, after]),
            1 => self.block(0, 9, &[test, body, after]),
            2 => self.block(0, 10, &[init, test, update, body, after]),
            3 => self.block(0, 10, &[init, test, NONE, body, after]),
            4 => self.block(0, 11, &[init, test, body, after]),
            5 => self.block(0, 12, &[test, body, after]),
            6 => self.block(0, 14, &[test, after]),
            _ => self.block(0, 17, &[init, after]),
        };
        self.draft.entry = entry;
    }
}

/// Most often one of the last two, so that sharing adds up.
fn recent(blocks: &[u32], rng: &mut Rng) -> u32 {
    let last = blocks.len() as u32 - 1;
    let back = if rng.percent(90) { rng.below(2) } else { rng.from_to(0, last) };
    blocks[last.saturating_sub(back) as usize]
}
