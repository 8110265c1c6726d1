//! The statement walk.

use super::columns::NONE;
use super::context::{IMPLICIT, LABELED, UNLABELED};
use super::table::Span;
use super::{Around, Block, Refusal, Rule, Walk};

/// What the end of a block gives besides its rows: how many statements they are, and the block
/// that the walk takes next at the same depth.
struct Ended {
    statements: u32,
    next: Option<u32>,
}

/// What a statement asks of its fallthrough before it is taken.
#[derive(Clone, Copy, PartialEq, Eq)]
enum Asks {
    Reachable,
    Nothing,
}

impl Walk<'_> {
    /// The statements from this block on, closed by their BLOCK.
    pub fn block_row(&mut self, number: u32, depth: u32) -> Result<(), Refusal> {
        let mut statements = 0;
        let mut next = Some(number);
        while let Some(number) = next {
            let block = self.begin_visit(number, depth)?;
            self.context.emit(number)?;
            self.instruction_rows(block.first, block.count);
            let ended = self.terminal(&block, depth)?;
            statements += block.count + ended.statements;
            next = ended.next;
        }
        self.row([9, statements, 0, 0, 0, 0]);
        Ok(())
    }

    /// A list nested in a statement.
    fn nested(&mut self, statement: Around, number: u32, depth: u32) -> Result<(), Refusal> {
        self.around.push(statement);
        self.block_row(number, depth + 1)?;
        self.around.pop();
        Ok(())
    }

    fn terminal(&mut self, block: &Block, depth: u32) -> Result<Ended, Refusal> {
        let [a, b, _, _, _] = block.operands;
        match block.code {
            1 => Ok(Ended { statements: 0, next: None }),
            2 => Ok(self.statement([23, a, block.id, 0, 0, 0], None)),
            3 => Ok(self.statement([22, a, block.id, 0, 0, 0], None)),
            4 => {
                let statements = match b {
                    0 => self.visit_break(block, a)?,
                    1 => self.visit_continue(block, a)?,
                    _ => 0,
                };
                Ok(Ended { statements, next: None })
            }
            5 => self.if_statement(block, depth),
            6 => self.branch_statement(block, depth),
            7 => self.switch_statement(block, depth),
            8 => self.do_while_statement(block, depth),
            9 => self.while_statement(block, depth),
            10 => self.for_statement(block, depth),
            11 => self.for_of_statement(block, depth),
            12 => self.for_in_statement(block, depth),
            13 | 15 => self.value_statement(block, block.operands[2], depth),
            14 | 17 => self.value_statement(block, block.operands[1], depth),
            16 => self.label_statement(block, depth),
            18 => {
                let next = Some(a).filter(|next| !self.context.is_scheduled(*next));
                Ok(Ended { statements: 0, next })
            }
            19 => self.try_statement(block, depth),
            20 => self.scope_statement(block, 20, depth),
            _ => self.scope_statement(block, 21, depth),
        }
    }

    fn statement(&mut self, row: [u32; 6], next: Option<u32>) -> Ended {
        self.row(row);
        Ended { statements: 1, next }
    }

    /// The fallthrough if it is taken, scheduled then.
    fn take_fallthrough(&mut self, fallthrough: u32, asks: Asks) -> Result<Option<u32>, Refusal> {
        let taken = self.free_fallthrough(fallthrough, asks)?;
        if let Some(block) = taken {
            self.context.schedule(block);
        }
        Ok(taken)
    }

    fn free_fallthrough(&self, fallthrough: u32, asks: Asks) -> Result<Option<u32>, Refusal> {
        let reachable = asks == Asks::Nothing || self.look_up(fallthrough)?.code != 1;
        Ok((reachable && !self.context.is_scheduled(fallthrough)).then_some(fallthrough))
    }

    fn leave(&mut self, taken: Option<u32>) {
        if taken.is_some() {
            self.context.unschedule();
        }
    }

    fn if_statement(&mut self, block: &Block, depth: u32) -> Result<Ended, Refusal> {
        let [test, consequent, alternate, fallthrough, _] = block.operands;
        let taken = self.take_fallthrough(fallthrough, Asks::Reachable)?;
        if self.context.is_scheduled(consequent) {
            return Err(Refusal { code: 12, at: consequent });
        }
        self.nested(Around::Other(taken), consequent, depth)?;
        let has_alternate = alternate != fallthrough;
        if has_alternate {
            if self.context.is_scheduled(alternate) {
                return Err(Refusal { code: 13, at: alternate });
            }
            self.nested(Around::Other(taken), alternate, depth)?;
        }
        self.leave(taken);
        let row = [10, test, has_alternate.into(), block.id, label(taken), 0];
        Ok(self.statement(row, taken))
    }

    fn branch_statement(&mut self, block: &Block, depth: u32) -> Result<Ended, Refusal> {
        let [test, consequent, alternate, _, _] = block.operands;
        if self.context.is_scheduled(consequent) {
            let statements = self.visit_break(block, consequent)?;
            self.row([9, statements, 0, 0, 0, 0]);
        } else {
            self.nested(Around::Other(None), consequent, depth)?;
        }
        if self.context.is_scheduled(alternate) {
            return Err(Refusal { code: 19, at: block.number });
        }
        self.nested(Around::Other(None), alternate, depth)?;
        Ok(self.statement([10, test, 1, block.id, NONE, 0], None))
    }

    fn switch_statement(&mut self, block: &Block, depth: u32) -> Result<Ended, Refusal> {
        let [test, first, count, fallthrough, _] = block.operands;
        let taken = self.take_fallthrough(fallthrough, Asks::Reachable)?;
        let mut built = 0;
        for case in (first..first + count).rev() {
            let [case_test, case_block] = *self.table.case(case);
            if self.context.is_scheduled(case_block) {
                if case_block != fallthrough {
                    return Err(Refusal { code: 14, at: block.number });
                }
                continue;
            }
            self.nested(Around::Switch(taken), case_block, depth)?;
            self.row([11, case_test, 0, 0, 0, 0]);
            self.context.schedule(case_block);
            built += 1;
        }
        for _ in 0..built {
            self.context.unschedule();
        }
        self.leave(taken);
        Ok(self.statement([12, test, built, block.id, label(taken), 0], taken))
    }

    /// Whether the loop block can be entered: asked before the loop is scheduled, answered by a
    /// refusal only when the body is due.
    fn loop_is_free(&self, loop_block: u32, fallthrough: u32) -> bool {
        !self.context.is_scheduled(loop_block) && loop_block != fallthrough
    }

    fn loop_body(
        &mut self,
        block: &Block,
        number: u32,
        free: bool,
        taken: Option<u32>,
        depth: u32,
    ) -> Result<(), Refusal> {
        if !free {
            return Err(Refusal { code: 16, at: block.number });
        }
        self.nested(Around::Loop(taken), number, depth)
    }

    fn do_while_statement(&mut self, block: &Block, depth: u32) -> Result<Ended, Refusal> {
        let [loop_block, test, fallthrough, _, _] = block.operands;
        let taken = self.free_fallthrough(fallthrough, Asks::Nothing)?;
        let free = self.loop_is_free(loop_block, fallthrough);
        self.context.schedule_loop(fallthrough, test, loop_block)?;
        self.loop_body(block, loop_block, free, taken, depth)?;
        self.visit_value_block(test, block.span, None, depth + 1)?;
        self.context.unschedule();
        Ok(self.statement([13, block.id, label(taken), 0, 0, 0], taken))
    }

    fn while_statement(&mut self, block: &Block, depth: u32) -> Result<Ended, Refusal> {
        let [test, loop_block, fallthrough, _, _] = block.operands;
        let taken = self.free_fallthrough(fallthrough, Asks::Reachable)?;
        let free = self.loop_is_free(loop_block, fallthrough);
        self.context.schedule_loop(fallthrough, test, loop_block)?;
        self.visit_value_block(test, block.span, None, depth + 1)?;
        self.loop_body(block, loop_block, free, taken, depth)?;
        self.context.unschedule();
        Ok(self.statement([14, block.id, label(taken), 0, 0, 0], taken))
    }

    fn for_statement(&mut self, block: &Block, depth: u32) -> Result<Ended, Refusal> {
        let [init, test, update, loop_block, fallthrough] = block.operands;
        let taken = self.free_fallthrough(fallthrough, Asks::Nothing)?;
        let free = self.loop_is_free(loop_block, fallthrough);
        let has_update = update != NONE;
        let continue_block = if has_update { update } else { test };
        self.context.schedule_loop(fallthrough, continue_block, loop_block)?;
        self.visit_flattened(init, block.span, depth + 1)?;
        self.visit_value_block(test, block.span, None, depth + 1)?;
        if has_update {
            self.visit_value_block(update, block.span, None, depth + 1)?;
        }
        self.loop_body(block, loop_block, free, taken, depth)?;
        self.context.unschedule();
        Ok(self.statement([15, block.id, label(taken), has_update.into(), 0, 0], taken))
    }

    fn for_of_statement(&mut self, block: &Block, depth: u32) -> Result<Ended, Refusal> {
        let [init, test, loop_block, fallthrough, _] = block.operands;
        let taken = self.free_fallthrough(fallthrough, Asks::Nothing)?;
        let free = self.loop_is_free(loop_block, fallthrough);
        self.context.schedule_loop(fallthrough, init, loop_block)?;
        self.visit_flattened(init, block.span, depth + 1)?;
        self.visit_flattened(test, block.span, depth + 1)?;
        self.loop_body(block, loop_block, free, taken, depth)?;
        self.context.unschedule();
        let Span { from, to } = block.span;
        Ok(self.statement([16, block.id, label(taken), from, to, 0], taken))
    }

    fn for_in_statement(&mut self, block: &Block, depth: u32) -> Result<Ended, Refusal> {
        let [init, loop_block, fallthrough, _, _] = block.operands;
        let taken = self.free_fallthrough(fallthrough, Asks::Nothing)?;
        let free = self.loop_is_free(loop_block, fallthrough);
        self.context.schedule_loop(fallthrough, init, loop_block)?;
        self.visit_flattened(init, block.span, depth + 1)?;
        self.loop_body(block, loop_block, free, taken, depth)?;
        self.context.unschedule();
        let Span { from, to } = block.span;
        Ok(self.statement([17, block.id, label(taken), from, to, 0], taken))
    }

    /// A value terminal as a statement: one INSTR with the terminal's own span.
    fn value_statement(
        &mut self,
        block: &Block,
        fallthrough: u32,
        depth: u32,
    ) -> Result<Ended, Refusal> {
        let taken = self.take_fallthrough(fallthrough, Asks::Nothing)?;
        let value = self.visit_value_block_terminal(block, depth)?;
        self.leave(taken);
        let Span { from, to } = block.span;
        Ok(self.statement([4, block.id, value.place, from, to, 0], taken))
    }

    fn label_statement(&mut self, block: &Block, depth: u32) -> Result<Ended, Refusal> {
        let [body, fallthrough, _, _, _] = block.operands;
        let taken = self.take_fallthrough(fallthrough, Asks::Reachable)?;
        if self.context.is_scheduled(body) {
            return Err(Refusal { code: 17, at: block.number });
        }
        self.nested(Around::Other(taken), body, depth)?;
        self.leave(taken);
        Ok(self.statement([18, block.id, label(taken), 0, 0, 0], taken))
    }

    fn try_statement(&mut self, block: &Block, depth: u32) -> Result<Ended, Refusal> {
        let [body, handler, fallthrough, binding, _] = block.operands;
        let taken = self.take_fallthrough(fallthrough, Asks::Reachable)?;
        self.context.schedule_catch_handler(handler);
        self.nested(Around::Other(taken), body, depth)?;
        self.nested(Around::Other(taken), handler, depth)?;
        self.leave(taken);
        Ok(self.statement([19, block.id, label(taken), binding, 0, 0], taken))
    }

    fn scope_statement(&mut self, block: &Block, op: u32, depth: u32) -> Result<Ended, Refusal> {
        let [body, fallthrough, scope, _, _] = block.operands;
        let taken = self.take_fallthrough(fallthrough, Asks::Nothing)?;
        if taken.is_some() {
            self.context.remember_scope_fallthrough(fallthrough);
        }
        if self.context.is_scheduled(body) {
            return Err(Refusal { code: 18, at: block.number });
        }
        self.nested(Around::Other(None), body, depth)?;
        self.leave(taken);
        Ok(self.statement([op, scope, 0, 0, 0, 0], taken))
    }

    /// The number of statements that a break gives: none if it ends a scope.
    fn visit_break(&mut self, block: &Block, target: u32) -> Result<u32, Refusal> {
        let Some((kind, loops)) = self.context.break_kind(target) else {
            return Err(Refusal { code: 20, at: target });
        };
        if self.context.is_scope_fallthrough(target) {
            if kind != IMPLICIT {
                return Err(Refusal { code: 22, at: block.number });
            }
            return Ok(0);
        }
        let kind = self.break_kind_in(kind);
        let named = self.around.iter().any(|statement| names(*statement, target));
        self.refuse_unnamed(block, kind, named)?;
        self.row([24, target, block.id, kind, loops, 0]);
        Ok(1)
    }

    /// M-102: a break to a loop is Labeled also when a switch is being built between.
    fn break_kind_in(&self, kind: u32) -> u32 {
        let inner = self.around.iter().rfind(|statement| !matches!(statement, Around::Other(_)));
        match (self.rule, kind, inner) {
            (Rule::Language, UNLABELED, Some(Around::Switch(_))) => LABELED,
            _ => kind,
        }
    }

    /// M-102: 29 where a Labeled jump finds no such label.
    fn refuse_unnamed(&self, block: &Block, kind: u32, named: bool) -> Result<(), Refusal> {
        if self.rule == Rule::Language && kind == LABELED && !named {
            return Err(Refusal { code: 29, at: block.number });
        }
        Ok(())
    }

    fn visit_continue(&mut self, block: &Block, target: u32) -> Result<u32, Refusal> {
        let Some((end, kind, loops)) = self.context.continue_target(target) else {
            return Err(Refusal { code: 21, at: target });
        };
        let open = self.around.iter().rev().filter(|one| matches!(one, Around::Loop(_)));
        let named = open.skip(loops as usize).next().is_some_and(|found| names(*found, end));
        self.refuse_unnamed(block, kind, named)?;
        self.row([25, end, block.id, kind, loops, 0]);
        Ok(1)
    }
}

fn names(statement: Around, target: u32) -> bool {
    let (Around::Loop(label) | Around::Switch(label) | Around::Other(label)) = statement;
    label == Some(target)
}

/// A statement's label: its fallthrough if taken.
fn label(taken: Option<u32>) -> u32 {
    taken.unwrap_or(NONE)
}
