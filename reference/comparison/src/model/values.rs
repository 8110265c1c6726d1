//! The value walk.

use super::table::Span;
use super::{Block, Refusal, Row, Walk};

/// What a value visit gives besides its rows: the block that ended it, its place and its id.
pub struct Value {
    pub block: u32,
    pub place: u32,
    pub id: u32,
}

/// What a value terminal gives besides its rows.
pub struct TerminalValue {
    pub place: u32,
    pub fallthrough: u32,
}

/// The Branch that ends a test block: where it goes, and its span.
struct Test {
    value: Value,
    consequent: u32,
    alternate: u32,
    branch_span: Span,
}

impl Walk<'_> {
    /// Visits a value block at this depth. `span` goes to the INSTR of a value terminal inside it;
    /// reaching `forbidden`, the end of the terminal around it, is refused 23.
    pub fn visit_value_block(
        &mut self,
        number: u32,
        span: Span,
        forbidden: Option<u32>,
        depth: u32,
    ) -> Result<Value, Refusal> {
        let block = self.begin_visit(number, depth)?;
        if forbidden == Some(number) {
            return Err(Refusal { code: 23, at: number });
        }
        match block.code {
            4 if block.count == 0 => Err(Refusal { code: 24, at: number }),
            6 if block.count == 0 => {
                let test = block.operands[0];
                self.row([2, test, 0, 0, 0, 0]);
                Ok(Value { block: number, place: test, id: block.id })
            }
            4 | 6 => Ok(self.last_instruction_value(&block, number)),
            18 => self.maybe_throw_value(&block, span, forbidden, depth),
            _ => {
                self.instruction_rows(block.first, block.count);
                let init = self.visit_value_block_terminal(&block, depth)?;
                self.instruction_row(block.id, init.place, span);
                let last = self.visit_value_block(init.fallthrough, span, None, depth + 1)?;
                self.row([5, block.count + 1, last.id, 0, 0, 0]);
                Ok(last)
            }
        }
    }

    fn maybe_throw_value(
        &mut self,
        block: &Block,
        span: Span,
        forbidden: Option<u32>,
        depth: u32,
    ) -> Result<Value, Refusal> {
        let continuation = self.look_up(block.operands[0])?;
        if continuation.code == 4 && continuation.count == 0 {
            if block.count == 0 {
                return Err(Refusal { code: 28, at: block.number });
            }
            return Ok(self.last_instruction_value(block, continuation.number));
        }
        self.instruction_rows(block.first, block.count);
        let value = self.visit_value_block(continuation.number, span, forbidden, depth + 1)?;
        if block.count > 0 {
            self.row([5, block.count, value.id, 0, 0, 0]);
        }
        Ok(value)
    }

    /// The last instruction as a value, after the others.
    fn last_instruction_value(&mut self, block: &Block, ended_by: u32) -> Value {
        let others = block.count - 1;
        let last = block.first + others;
        self.instruction_rows(block.first, others);
        let [id, lvalue, code, p, q, ..] = *self.table.instruction(last);
        let stores_unnamed = code == 2 && !self.table.is_named(self.table.identifier_of(p));
        let (row, place) =
            if stores_unnamed { ([2, q, 0, 0, 0, 0], p) } else { ([1, last, 0, 0, 0, 0], lvalue) };
        self.row(row);
        if others > 0 {
            self.row([5, others, id, 0, 0, 0]);
        }
        Value { block: ended_by, place, id }
    }

    /// The value of a block that ends in a value terminal; 26 or 27 if it ends otherwise.
    pub fn visit_value_block_terminal(
        &mut self,
        block: &Block,
        depth: u32,
    ) -> Result<TerminalValue, Refusal> {
        let [a, b, c, _, _] = block.operands;
        let span = block.span;
        let inner = depth + 1;
        let (place, fallthrough) = match block.code {
            13 => {
                let test = self.visit_test_block(block, b, inner)?;
                self.instruction_row(test.value.id, test.value.place, span);
                let left = self.visit_value_block(test.consequent, span, Some(c), inner)?;
                self.row([5, 1, left.id, 0, 0, 0]);
                self.visit_value_block(test.alternate, span, Some(c), inner)?;
                self.row([6, a, 0, 0, 0, 0]);
                (left.place, c)
            }
            14 => {
                let test = self.visit_test_block(block, a, inner)?;
                let consequent = self.visit_value_block(test.consequent, span, Some(b), inner)?;
                self.visit_value_block(test.alternate, span, Some(b), inner)?;
                self.row([7, 0, 0, 0, 0, 0]);
                (consequent.place, b)
            }
            15 => {
                let test = self.visit_test_block(block, b, inner)?;
                self.instruction_row(test.value.id, test.value.place, test.branch_span);
                let call = self.visit_value_block(test.consequent, span, Some(c), inner)?;
                self.row([5, 1, call.id, 0, 0, 0]);
                self.row([8, a, 0, 0, 0, 0]);
                (call.place, c)
            }
            16 => return Err(Refusal { code: 26, at: block.number }),
            17 => (self.visit_value_block(a, span, Some(b), inner)?.place, b),
            _ => return Err(Refusal { code: 27, at: block.number }),
        };
        Ok(TerminalValue { place, fallthrough })
    }

    /// The test of a value terminal: 25 at the terminal's block unless a Branch ends it.
    fn visit_test_block(&mut self, owner: &Block, test: u32, depth: u32) -> Result<Test, Refusal> {
        let value = self.visit_value_block(test, owner.span, None, depth)?;
        let end = self.look_up(value.block)?;
        if end.code != 6 {
            return Err(Refusal { code: 25, at: owner.number });
        }
        let [_, consequent, alternate, _, _] = end.operands;
        Ok(Test { value, consequent, alternate, branch_span: end.span })
    }

    /// Visits a value and flattens it through every trailing sequence: the SEQ rows at the end are
    /// taken back, and the value that they led to becomes one more instruction, unless it is a
    /// load of the result's own identifier.
    pub fn visit_flattened(&mut self, number: u32, span: Span, depth: u32) -> Result<(), Refusal> {
        let result = self.visit_value_block(number, span, None, depth)?;
        let mut instructions = 0;
        while let Some([5, number_of, ..]) = self.rows.last() {
            instructions += number_of;
            self.rows.pop();
        }
        let value = *self.rows.last().expect("a value has a row");
        if self.loaded_identifier(value) == Some(self.table.identifier_of(result.place)) {
            self.rows.pop();
        } else {
            self.instruction_row(result.id, result.place, span);
            instructions += 1;
        }
        self.row([3, span.from, span.to, 0, 0, 0]);
        self.row([5, instructions, result.id, 0, 0, 0]);
        Ok(())
    }

    /// The identifier that a LOAD, or the PLAIN of a LoadLocal, reads.
    fn loaded_identifier(&self, row: Row) -> Option<u32> {
        match row {
            [1, instruction, ..] => match *self.table.instruction(instruction) {
                [_, _, 1, place, ..] => Some(self.table.identifier_of(place)),
                _ => None,
            },
            [2, place, ..] => Some(self.table.identifier_of(place)),
            _ => None,
        }
    }
}
