//! The reference's tree as paper 01's rows.

use oxc_ast::ast::LogicalOperator;
use oxc_react_compiler::react_compiler_hir::{
    BlockId, EvaluationOrder, InstructionValue, Place, ReactiveBlock, ReactiveInstruction,
    ReactiveLabel, ReactiveStatement, ReactiveSwitchCase, ReactiveTerminal,
    ReactiveTerminalTargetKind, ReactiveValue,
};
use oxc_span::Span;

use super::hir::{INSTRUCTION_ROW, PLACE_ROW};
use crate::model::Row;
use crate::model::columns::{LARGEST, NONE};

/// Rows in the order in which they are closed.
#[derive(Default)]
pub struct Rows(pub Vec<Row>);

impl Rows {
    fn close<const N: usize>(&mut self, words: [u32; N]) {
        let mut row = [0; 6];
        row[..N].copy_from_slice(&words);
        self.0.push(row);
    }

    pub fn block(&mut self, statements: &ReactiveBlock) {
        for statement in statements.iter() {
            self.statement(statement);
        }
        self.close([9, statements.len() as u32]);
    }

    fn statement(&mut self, statement: &ReactiveStatement) {
        match statement {
            ReactiveStatement::Instruction(instruction) => self.instruction(instruction),
            ReactiveStatement::Terminal(statement) => {
                self.terminal(&statement.terminal, label(&statement.label));
            }
            ReactiveStatement::Scope(scope) => {
                self.block(&scope.instructions);
                self.close([20, scope.scope.index() as u32]);
            }
            ReactiveStatement::PrunedScope(scope) => {
                self.block(&scope.instructions);
                self.close([21, scope.scope.index() as u32]);
            }
        }
    }

    fn instruction(&mut self, instruction: &ReactiveInstruction) {
        self.value(&instruction.value);
        let lvalue = place(&instruction.lvalue.expect("the walk gives every instruction a place"));
        let [from, to] = span(instruction.span);
        self.close([4, order(instruction.id), lvalue, from, to]);
    }

    fn value(&mut self, value: &ReactiveValue) {
        match value {
            ReactiveValue::Instruction(value) => self.instruction_value(value),
            ReactiveValue::SequenceExpression { instructions, id, value } => {
                for instruction in instructions.iter() {
                    self.instruction(instruction);
                }
                self.value(value);
                self.close([5, instructions.len() as u32, order(*id)]);
            }
            ReactiveValue::LogicalExpression { operator, left, right } => {
                self.value(left);
                self.value(right);
                self.close([6, operator_number(*operator)]);
            }
            ReactiveValue::ConditionalExpression { test, consequent, alternate } => {
                self.value(test);
                self.value(consequent);
                self.value(alternate);
                self.close([7]);
            }
            ReactiveValue::OptionalExpression { value, optional } => {
                self.value(value);
                self.close([8, (*optional).into()]);
            }
        }
    }

    /// PLAIN for a value of the table, whose span carries its row; LOAD and UNDEF for those that
    /// the walk makes.
    fn instruction_value(&mut self, value: &InstructionValue) {
        match value {
            InstructionValue::LoadLocal { place: loaded, span: Some(span) }
                if span.end == PLACE_ROW =>
            {
                self.close([2, place(loaded)]);
            }
            InstructionValue::LoadLocal { span: Some(Span { start, end }), .. }
            | InstructionValue::StoreLocal { span: Some(Span { start, end }), .. }
            | InstructionValue::Debugger { span: Some(Span { start, end }) } => {
                assert_eq!(*end, INSTRUCTION_ROW);
                self.close([1, *start]);
            }
            InstructionValue::Primitive { span: own, .. } => {
                let [from, to] = span(*own);
                self.close([3, from, to]);
            }
            _ => unreachable!("every value of the table has its row"),
        }
    }

    fn case(&mut self, case: &ReactiveSwitchCase) {
        self.block(case.block.as_ref().expect("the walk gives every case a block"));
        self.close([11, place_or_none(&case.test)]);
    }

    fn terminal(&mut self, terminal: &ReactiveTerminal, label: u32) {
        match terminal {
            ReactiveTerminal::Break { target, id, target_kind } => {
                self.close([24, block(*target), order(*id), kind(target_kind)]);
            }
            ReactiveTerminal::Continue { target, id, target_kind } => {
                self.close([25, block(*target), order(*id), kind(target_kind)]);
            }
            ReactiveTerminal::Return { value, id } => self.close([22, place(value), order(*id)]),
            ReactiveTerminal::Throw { value, id } => self.close([23, place(value), order(*id)]),
            ReactiveTerminal::Switch { test, cases, id } => {
                for case in cases.iter().rev() {
                    self.case(case);
                }
                self.close([12, place(test), cases.len() as u32, order(*id), label]);
            }
            ReactiveTerminal::DoWhile { loop_block, test, id } => {
                self.block(loop_block);
                self.value(test);
                self.close([13, order(*id), label]);
            }
            ReactiveTerminal::While { test, loop_block, id } => {
                self.value(test);
                self.block(loop_block);
                self.close([14, order(*id), label]);
            }
            ReactiveTerminal::For { init, test, update, loop_block, id } => {
                self.value(init);
                self.value(test);
                if let Some(update) = update {
                    self.value(update);
                }
                self.block(loop_block);
                self.close([15, order(*id), label, update.is_some().into()]);
            }
            ReactiveTerminal::ForOf { init, test, loop_block, id, span: own } => {
                self.value(init);
                self.value(test);
                self.block(loop_block);
                let [from, to] = span(*own);
                self.close([16, order(*id), label, from, to]);
            }
            ReactiveTerminal::ForIn { init, loop_block, id, span: own } => {
                self.value(init);
                self.block(loop_block);
                let [from, to] = span(*own);
                self.close([17, order(*id), label, from, to]);
            }
            ReactiveTerminal::If { test, consequent, alternate, id } => {
                self.block(consequent);
                if let Some(alternate) = alternate {
                    self.block(alternate);
                }
                self.close([10, place(test), alternate.is_some().into(), order(*id), label]);
            }
            ReactiveTerminal::Label { block, id } => {
                self.block(block);
                self.close([18, order(*id), label]);
            }
            ReactiveTerminal::Try { block, handler_binding, handler, id } => {
                self.block(block);
                self.block(handler);
                self.close([19, order(*id), label, place_or_none(handler_binding)]);
            }
        }
    }
}

fn block(block: BlockId) -> u32 {
    block.index() as u32
}

fn order(id: EvaluationOrder) -> u32 {
    id.index() as u32
}

fn label(label: &Option<ReactiveLabel>) -> u32 {
    label.as_ref().map_or(NONE, |label| block(label.id))
}

fn span(span: Option<Span>) -> [u32; 2] {
    span.map_or([0, 0], |Span { start, end }| {
        assert!(end <= LARGEST, "a span of the table");
        [start, end]
    })
}

fn place(place: &Place) -> u32 {
    let span = place.span.expect("every place has its row");
    assert_eq!(span.end, PLACE_ROW);
    span.start
}

fn place_or_none(of: &Option<Place>) -> u32 {
    of.as_ref().map_or(NONE, place)
}

fn kind(kind: &ReactiveTerminalTargetKind) -> u32 {
    match kind {
        ReactiveTerminalTargetKind::Implicit => 0,
        ReactiveTerminalTargetKind::Labeled => 1,
        ReactiveTerminalTargetKind::Unlabeled => 2,
    }
}

fn operator_number(operator: LogicalOperator) -> u32 {
    match operator {
        LogicalOperator::Or => 0,
        LogicalOperator::And => 1,
        LogicalOperator::Coalesce => 2,
    }
}
