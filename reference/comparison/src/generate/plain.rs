//! Plain tables (paper 01, "Plain tables"): If, While, Label, scopes, jumps and ends only; and with
//! Switch (M-113). Beyond the papers: with For and DoWhile, with switches as compilers lower them and
//! with Unreachable in place of an end that nothing reaches.

use super::draft::Draft;
use super::program::{BREAK, CONTINUE};
use crate::model::columns::NONE;
use crate::model::table::BLOCK_WORDS;
use crate::rng::Rng;
use crate::runs::Width;

struct Plain<'r> {
    width: Width,
    draft: Draft,
    rng: &'r mut Rng,
    budget: i32,
    /// Jumps that may be made: a block and a variant.
    jumps: Vec<(u32, u32)>,
}

pub fn plain(rng: &mut Rng, width: Width) -> Draft {
    let draft = Draft::with_places(rng);
    let budget = rng.from_to(1, 60) as i32;
    let mut plain = Plain { width, draft, rng, budget, jumps: Vec::new() };
    let entry = plain.fresh();
    plain.statements(entry, None);
    plain.draft
}

impl Plain<'_> {
    fn fresh(&mut self) -> u32 {
        self.budget -= 1;
        self.draft.fresh()
    }

    fn end(&mut self, block: u32, code: u32, operands: &[u32]) {
        self.draft.end(block, code, operands, self.rng);
    }

    fn statements(&mut self, block: u32, after: Option<(u32, u32)>) {
        let count = self.rng.below(3);
        self.draft.fill(block, count, self.rng);
        if self.budget <= 0 || self.rng.percent(10) {
            return self.leave(block, after);
        }
        let kinds = match self.width {
            Width::Paper01 => 6,
            Width::WithSwitch => 8,
            Width::Loops => 13,
        };
        match self.rng.below(kinds) {
            0 => self.if_statement(block, after),
            1 | 2 => self.while_statement(block, after),
            3 => self.body_statement(block, 16, after),
            4 => self.body_statement(block, 20, after),
            5 => self.body_statement(block, 21, after),
            6 | 7 => self.switch_statement(block, after),
            8 | 9 => self.do_while_statement(block, after),
            _ => self.for_statement(block, after),
        }
    }

    fn leave(&mut self, block: u32, after: Option<(u32, u32)>) {
        let chance = self.rng.below(100);
        let value = self.draft.any_place(self.rng);
        match after {
            Some((next, variant)) if chance < 55 => self.end(block, 4, &[next, variant]),
            _ if chance < 90 && !self.jumps.is_empty() => {
                let (target, variant) = self.rng.pick(&self.jumps);
                self.end(block, 4, &[target, variant]);
            }
            _ => {
                let code = self.rng.from_to(2, 3);
                self.end(block, code, &[value]);
            }
        }
    }

    fn body(&mut self, block: u32, after: (u32, u32), jumps: &[(u32, u32)]) {
        let open = self.jumps.len();
        self.jumps.extend(jumps);
        self.statements(block, Some(after));
        self.jumps.truncate(open);
    }

    fn if_statement(&mut self, block: u32, after: Option<(u32, u32)>) {
        let test = self.draft.any_place(self.rng);
        let (consequent, fallthrough) = (self.fresh(), self.fresh());
        let alternate = if self.rng.percent(40) { fallthrough } else { self.fresh() };
        self.end(block, 5, &[test, consequent, alternate, fallthrough]);
        let out = (fallthrough, BREAK);
        self.body(consequent, out, &[out]);
        if alternate != fallthrough {
            self.body(alternate, out, &[out]);
        }
        self.end_of(fallthrough, alternate != fallthrough, after);
    }

    /// What follows an If, a Switch, a Label or a scope. Where nothing leads there, it may be Unreachable.
    fn end_of(&mut self, fallthrough: u32, may_be_open: bool, after: Option<(u32, u32)>) {
        let named = |row: &[u32; BLOCK_WORDS]| row[2] == 4 && row[3] == fallthrough;
        if self.width == Width::Loops && may_be_open && !self.draft.blocks.iter().any(named) {
            return self.end(fallthrough, 1, &[]);
        }
        self.statements(fallthrough, after);
    }

    /// The cases go on where the switch ends: no Goto names a case block. Beyond the papers a case may go on into the next, and a missing default is the
    /// fallthrough as last case.
    fn switch_statement(&mut self, block: u32, after: Option<(u32, u32)>) {
        let test = self.draft.any_place(self.rng);
        let cases: Vec<u32> = (0..self.rng.below(5)).map(|_| self.fresh()).collect();
        let fallthrough = self.fresh();
        let no_default = self.width == Width::Loops && self.rng.percent(50);
        let first = self.draft.cases.len() as u32;
        for case in cases.iter().chain(no_default.then_some(&fallthrough)) {
            let test = self.draft.any_place_or_none(self.rng);
            self.draft.cases.push([test, *case]);
        }
        self.end(block, 7, &[test, first, cases.len() as u32 + u32::from(no_default), fallthrough]);
        let out = (fallthrough, BREAK);
        for (place, case) in cases.iter().enumerate() {
            let next = cases.get(place + 1).filter(|_| self.width == Width::Loops && self.rng.percent(40));
            self.body(*case, next.map_or(out, |next| (*next, BREAK)), &[out]);
        }
        self.end_of(fallthrough, !no_default && !cases.is_empty(), after);
    }

    fn while_statement(&mut self, block: u32, after: Option<(u32, u32)>) {
        let (test, loop_block, fallthrough) = (self.fresh(), self.fresh(), self.fresh());
        self.end(block, 9, &[test, loop_block, fallthrough]);
        self.rounds(test, test, loop_block, fallthrough, after);
    }

    fn do_while_statement(&mut self, block: u32, after: Option<(u32, u32)>) {
        let (test, loop_block, fallthrough) = (self.fresh(), self.fresh(), self.fresh());
        self.end(block, 8, &[loop_block, test, fallthrough]);
        self.rounds(test, test, loop_block, fallthrough, after);
    }

    fn for_statement(&mut self, block: u32, after: Option<(u32, u32)>) {
        let (init, test, loop_block, fallthrough) = (self.fresh(), self.fresh(), self.fresh(), self.fresh());
        let update = self.rng.percent(70).then(|| self.fresh());
        self.end(block, 10, &[init, test, update.unwrap_or(NONE), loop_block, fallthrough]);
        for value in [Some(init), update].into_iter().flatten() {
            let count = self.rng.from_to(1, 3);
            self.draft.fill(value, count, self.rng);
            let variant = self.rng.below(2);
            self.end(value, 4, &[test, variant]);
        }
        self.rounds(test, update.unwrap_or(test), loop_block, fallthrough, after);
    }

    /// A loop's test, its body, and what follows.
    fn rounds(&mut self, test: u32, again: u32, loop_block: u32, fallthrough: u32, after: Option<(u32, u32)>) {
        let place = self.draft.any_place(self.rng);
        let count = self.rng.below(3);
        self.draft.fill(test, count, self.rng);
        let [first, count, ..] = self.draft.blocks[test as usize];
        if count > 0 && self.draft.instructions[(first + count - 1) as usize][2] == 2 {
            self.draft.blocks[test as usize][1] = 0;
        }
        self.end(test, 6, &[place, loop_block, fallthrough]);
        let again = (again, CONTINUE);
        self.body(loop_block, again, &[(fallthrough, BREAK), again]);
        self.statements(fallthrough, after);
    }

    fn body_statement(&mut self, block: u32, code: u32, after: Option<(u32, u32)>) {
        let (body, fallthrough) = (self.fresh(), self.fresh());
        let operands = [body, fallthrough, self.rng.below(9)];
        self.end(block, code, if code == 16 { &operands[..2] } else { &operands });
        let out = (fallthrough, BREAK);
        self.body(body, out, &[out]);
        self.end_of(fallthrough, true, after);
    }
}
