//! Nested programs lowered to blocks, as a compiler would: every kind of statement and value, jumps
//! to the statements around, ends that are taken and ends that are not.

use super::draft::Draft;
use crate::model::columns::NONE;
use crate::rng::Rng;

pub const BREAK: u32 = 0;
pub const CONTINUE: u32 = 1;
pub const TRY: u32 = 2;

/// How a list of statements goes on after its last block.
#[derive(Clone, Copy)]
enum After {
    Goto { block: u32, variant: u32 },
    Leave,
}

/// How a value ends.
#[derive(Clone, Copy)]
enum Ends {
    Branch { consequent: u32, alternate: u32 },
    Goto { block: u32 },
}

/// What a jump may mean: the end of a statement around, or the continue block of a loop.
#[derive(Clone, Copy)]
struct Jump {
    block: u32,
    variant: u32,
}

pub struct Lowering<'r> {
    draft: Draft,
    rng: &'r mut Rng,
    /// How many more blocks a statement may ask for; those begun are always finished.
    budget: i32,
    jumps: Vec<Jump>,
}

/// A program of about so many blocks.
pub fn program(rng: &mut Rng, blocks: u32) -> Draft {
    let draft = Draft::with_places(rng);
    let mut lowering = Lowering { draft, rng, budget: blocks as i32, jumps: Vec::new() };
    let entry = lowering.fresh();
    lowering.statements(entry, After::Leave);
    lowering.draft
}

impl Lowering<'_> {
    fn fresh(&mut self) -> u32 {
        self.budget -= 1;
        self.draft.fresh()
    }

    fn end(&mut self, block: u32, code: u32, operands: &[u32]) {
        self.draft.end(block, code, operands, self.rng);
    }

    fn fill(&mut self, block: u32, least: u32, most: u32) {
        let count = self.rng.from_to(least, most);
        self.draft.fill(block, count, self.rng);
    }

    fn place(&mut self) -> u32 {
        self.draft.any_place(self.rng)
    }

    fn statements(&mut self, block: u32, after: After) {
        self.fill(block, 0, 2);
        if self.budget <= 0 || self.rng.percent(12) {
            return self.leave(block, after);
        }
        match self.rng.from_to(5, 22) {
            5 => self.if_statement(block, after),
            6 => self.branch_statement(block, after),
            7 => self.switch_statement(block, after),
            8 => self.do_while_statement(block, after),
            9 => self.while_statement(block, after),
            10 => self.for_statement(block, after),
            11 => self.for_of_statement(block, after),
            12 => self.for_in_statement(block, after),
            13..=15 | 17 => {
                let end = self.value_terminal(block);
                self.statements(end, after);
            }
            16 => self.body_statement(block, 16, &[], after),
            18 => {
                let next = self.fresh();
                self.end(block, 18, &[next]);
                self.statements(next, after);
            }
            19 => self.try_statement(block, after),
            20 | 21 => {
                let (code, scope) = (self.rng.from_to(20, 21), self.rng.below(9));
                self.body_statement(block, code, &[scope], after);
            }
            _ => self.leave(block, after),
        }
    }

    /// Ends a list: by going on as is due, by a jump, or for good.
    fn leave(&mut self, block: u32, after: After) {
        let chance = self.rng.below(100);
        let jump = if self.jumps.is_empty() { None } else { Some(self.rng.pick(&self.jumps)) };
        match (after, jump) {
            (After::Goto { block: next, variant }, _) if chance < 60 => {
                self.end(block, 4, &[next, variant]);
            }
            (_, Some(Jump { block: target, variant })) if chance < 85 => {
                self.end(block, 4, &[target, variant]);
            }
            _ => match self.rng.below(5) {
                0 => self.end(block, 1, &[]),
                1 => {
                    let value = self.place();
                    self.end(block, 2, &[value]);
                }
                _ => {
                    let value = self.place();
                    self.end(block, 3, &[value]);
                }
            },
        }
    }

    /// The statements of a body that goes on to `after`, with these jumps open.
    fn body(&mut self, block: u32, after: After, jumps: &[Jump]) {
        let open = self.jumps.len();
        self.jumps.extend(jumps);
        self.statements(block, after);
        self.jumps.truncate(open);
    }

    fn body_to(&mut self, block: u32, fallthrough: u32, variant: u32) {
        let jump = Jump { block: fallthrough, variant: BREAK };
        self.body(block, After::Goto { block: fallthrough, variant }, &[jump]);
    }

    /// The fallthrough: as a rule the list goes on there; now and then it is unreachable.
    fn fallthrough(&mut self, fallthrough: u32, after: After) {
        if self.rng.percent(6) {
            return self.end(fallthrough, 1, &[]);
        }
        self.statements(fallthrough, after);
    }

    fn if_statement(&mut self, block: u32, after: After) {
        let (test, consequent, fallthrough) = (self.place(), self.fresh(), self.fresh());
        let alternate = if self.rng.percent(40) { fallthrough } else { self.fresh() };
        self.end(block, 5, &[test, consequent, alternate, fallthrough]);
        self.body_to(consequent, fallthrough, BREAK);
        if alternate != fallthrough {
            self.body_to(alternate, fallthrough, BREAK);
        }
        self.fallthrough(fallthrough, after);
    }

    fn branch_statement(&mut self, block: u32, after: After) {
        let (test, alternate) = (self.place(), self.fresh());
        let jump = self.jumps.iter().rev().find(|jump| jump.variant == BREAK).copied();
        let consequent = match jump {
            Some(jump) if self.rng.percent(60) => jump.block,
            _ => {
                let consequent = self.fresh();
                self.statements(consequent, after);
                consequent
            }
        };
        self.end(block, 6, &[test, consequent, alternate]);
        self.statements(alternate, after);
    }

    fn switch_statement(&mut self, block: u32, after: After) {
        let (test, fallthrough) = (self.place(), self.fresh());
        let count = self.rng.below(5);
        let first = self.draft.cases.len() as u32;
        for _ in 0..count {
            let case_block = if self.rng.percent(15) { fallthrough } else { self.fresh() };
            let case_test = self.draft.any_place_or_none(self.rng);
            self.draft.cases.push([case_test, case_block]);
        }
        self.end(block, 7, &[test, first, count, fallthrough]);
        let mut next = fallthrough;
        for case in (first..first + count).rev() {
            let case_block = self.draft.cases[case as usize][1];
            if case_block != fallthrough {
                let to = if self.rng.percent(50) { next } else { fallthrough };
                let jump = Jump { block: fallthrough, variant: BREAK };
                self.body(case_block, After::Goto { block: to, variant: BREAK }, &[jump]);
                next = case_block;
            }
        }
        self.fallthrough(fallthrough, after);
    }

    fn loop_body(&mut self, loop_block: u32, continue_block: u32, fallthrough: u32) {
        let jumps = [
            Jump { block: fallthrough, variant: BREAK },
            Jump { block: continue_block, variant: CONTINUE },
        ];
        self.body(loop_block, After::Goto { block: continue_block, variant: CONTINUE }, &jumps);
    }

    fn do_while_statement(&mut self, block: u32, after: After) {
        let (loop_block, test, fallthrough) = (self.fresh(), self.fresh(), self.fresh());
        self.end(block, 8, &[loop_block, test, fallthrough]);
        self.loop_body(loop_block, test, fallthrough);
        self.value(test, Ends::Branch { consequent: loop_block, alternate: fallthrough });
        self.fallthrough(fallthrough, after);
    }

    fn while_statement(&mut self, block: u32, after: After) {
        let (test, loop_block, fallthrough) = (self.fresh(), self.fresh(), self.fresh());
        self.end(block, 9, &[test, loop_block, fallthrough]);
        self.value(test, Ends::Branch { consequent: loop_block, alternate: fallthrough });
        self.loop_body(loop_block, test, fallthrough);
        self.fallthrough(fallthrough, after);
    }

    fn for_statement(&mut self, block: u32, after: After) {
        let (init, test) = (self.fresh(), self.fresh());
        let (loop_block, fallthrough) = (self.fresh(), self.fresh());
        let update = if self.rng.percent(40) { NONE } else { self.fresh() };
        self.end(block, 10, &[init, test, update, loop_block, fallthrough]);
        self.value(init, Ends::Goto { block: test });
        self.value(test, Ends::Branch { consequent: loop_block, alternate: fallthrough });
        if update != NONE {
            self.value(update, Ends::Goto { block: test });
        }
        let continue_block = if update == NONE { test } else { update };
        self.loop_body(loop_block, continue_block, fallthrough);
        self.fallthrough(fallthrough, after);
    }

    fn for_of_statement(&mut self, block: u32, after: After) {
        let (init, test) = (self.fresh(), self.fresh());
        let (loop_block, fallthrough) = (self.fresh(), self.fresh());
        self.end(block, 11, &[init, test, loop_block, fallthrough]);
        self.value(init, Ends::Goto { block: test });
        self.value(test, Ends::Branch { consequent: loop_block, alternate: fallthrough });
        self.loop_body(loop_block, init, fallthrough);
        self.fallthrough(fallthrough, after);
    }

    fn for_in_statement(&mut self, block: u32, after: After) {
        let (init, loop_block, fallthrough) = (self.fresh(), self.fresh(), self.fresh());
        self.end(block, 12, &[init, loop_block, fallthrough]);
        self.value(init, Ends::Branch { consequent: loop_block, alternate: fallthrough });
        self.loop_body(loop_block, init, fallthrough);
        self.fallthrough(fallthrough, after);
    }

    /// Label, Scope and PrunedScope: a body, a fallthrough, and what else the code has.
    fn body_statement(&mut self, block: u32, code: u32, rest: &[u32], after: After) {
        let (body, fallthrough) = (self.fresh(), self.fresh());
        let mut operands = vec![body, fallthrough];
        operands.extend(rest);
        self.end(block, code, &operands);
        self.body_to(body, fallthrough, BREAK);
        self.fallthrough(fallthrough, after);
    }

    fn try_statement(&mut self, block: u32, after: After) {
        let (body, handler, fallthrough) = (self.fresh(), self.fresh(), self.fresh());
        let binding = self.draft.any_place_or_none(self.rng);
        self.end(block, 19, &[body, handler, fallthrough, binding]);
        let variant = if self.rng.percent(70) { TRY } else { BREAK };
        self.body_to(body, fallthrough, variant);
        self.body_to(handler, fallthrough, BREAK);
        self.fallthrough(fallthrough, after);
    }

    /// A value that begins in this block and ends as is due.
    fn value(&mut self, block: u32, ends: Ends) {
        let chance = self.rng.below(100);
        if self.budget > 0 && chance < 15 {
            self.fill(block, 0, 2);
            let end = self.value_terminal(block);
            return self.value(end, ends);
        }
        if self.budget > 0 && chance < 35 {
            self.fill(block, 0, 2);
            let next = self.fresh();
            self.end(block, 18, &[next]);
            return self.value(next, ends);
        }
        match ends {
            Ends::Branch { consequent, alternate } => {
                self.fill(block, 0, 3);
                let test = self.place();
                self.end(block, 6, &[test, consequent, alternate]);
            }
            Ends::Goto { block: next } => {
                let least = u32::from(!self.rng.percent(1));
                self.fill(block, least, 3);
                let variant = if self.rng.percent(90) { BREAK } else { self.rng.below(3) };
                if self.budget > 0 && self.rng.percent(15) {
                    let empty = self.fresh();
                    self.end(block, 18, &[empty]);
                    return self.end(empty, 4, &[next, variant]);
                }
                self.end(block, 4, &[next, variant]);
            }
        }
    }

    /// Ends the block in a value terminal, and gives its fallthrough.
    fn value_terminal(&mut self, block: u32) -> u32 {
        let fallthrough = self.fresh();
        let inner = self.fresh();
        let code = self.rng.pick(&[13, 14, 15, 17]);
        match code {
            13 => {
                let operator = self.rng.below(3);
                self.end(block, 13, &[operator, inner, fallthrough]);
            }
            15 => {
                let flag = self.rng.below(2);
                self.end(block, 15, &[flag, inner, fallthrough]);
            }
            _ => self.end(block, code, &[inner, fallthrough]),
        }
        if code == 17 {
            self.value(inner, Ends::Goto { block: fallthrough });
            return fallthrough;
        }
        let (consequent, alternate) = (self.fresh(), self.fresh());
        self.value(inner, Ends::Branch { consequent, alternate });
        self.value(consequent, Ends::Goto { block: fallthrough });
        self.value(alternate, Ends::Goto { block: fallthrough });
        fallthrough
    }
}
