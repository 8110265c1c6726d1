//! Checked words as the HIR function that the reference takes.

use oxc_allocator::{Allocator, Vec as ArenaVec};
use oxc_ast::ast::LogicalOperator;
use oxc_react_compiler::react_compiler_hir::environment::{Environment, Identifiers};
use oxc_react_compiler::react_compiler_hir::{
    AliasingEffect, BasicBlock, BlockId, BlockKind, Case, DeclarationId, Effect, EvaluationOrder,
    GotoVariant, HIR, HirFunction, Identifier, IdentifierId, IdentifierName, Instruction,
    InstructionId, InstructionKind, InstructionValue, LValue, MutableRange, MutableRangeId, Phi,
    Place, ReactFunctionType, ReturnVariant, ScopeId, Terminal, TypeId,
};
use oxc_react_compiler::react_compiler_utils::OrderedMap;
use oxc_react_compiler::react_compiler_utils::ordered_map::ArenaOrderedSet;
use oxc_span::Span;
use oxc_str::Ident;

use crate::model::columns::{LARGEST, NONE};
use crate::model::table::Table;

/// Ends of spans that are no table's, since a table's end is at most `LARGEST`. The reference copies
/// spans and never looks into one, so a place's and a value's can carry its row through the walk.
pub const PLACE_ROW: u32 = LARGEST + 1;
pub const INSTRUCTION_ROW: u32 = LARGEST + 2;

/// What the parts of a function are that a table tells by numbers.
pub trait Dress {
    /// The id of a block; of two numbers, the greater has the greater id.
    fn block(&self, number: u32) -> BlockId {
        BlockId::from_usize(number as usize)
    }

    /// The identifier of a number; of two numbers, the greater has the greater one.
    fn identifier(&self, number: u32) -> IdentifierId {
        IdentifierId::from_usize(number as usize)
    }

    /// Where an instruction stands in the function.
    fn instruction(&self, row: u32) -> InstructionId {
        InstructionId::from_usize(row as usize)
    }

    /// How many instructions the function has, of so many in the table.
    fn instructions(&self, count: u32) -> u32 {
        count
    }

    fn scope(&self, number: u32) -> ScopeId {
        ScopeId::from_usize(number as usize)
    }

    fn place(&self, row: u32, identifier: IdentifierId) -> Place {
        Place { identifier, effect: Effect::Unknown, reactive: false, span: Some(Span { start: row, end: PLACE_ROW }) }
    }

    fn lvalue(&self, place: Place) -> LValue {
        LValue { place, kind: InstructionKind::Const }
    }

    /// 0 and 0 alone is none.
    fn span(&self, start: u32, end: u32) -> Option<Span> {
        ((start, end) != (0, 0)).then_some(Span { start, end })
    }

    /// The span that a value carries.
    fn value_span(&self, row: u32) -> Option<Span> {
        Some(Span { start: row, end: INSTRUCTION_ROW })
    }

    /// A value that is neither a LoadLocal nor a StoreLocal.
    fn other<'a>(&self, _: Place, span: Option<Span>, _: &'a Allocator) -> InstructionValue<'a> {
        InstructionValue::Debugger { span }
    }

    fn name(&self) -> IdentifierName<'static> {
        IdentifierName::Named(Ident("named"))
    }

    // What follows the walk never reads.

    fn effects<'a>(&self, _: &'a Allocator) -> Option<ArenaVec<'a, AliasingEffect<'a>>> {
        None
    }

    fn phis<'a>(&self, allocator: &'a Allocator) -> ArenaVec<'a, Phi<'a>> {
        ArenaVec::new_in(&allocator)
    }

    fn return_variant(&self) -> ReturnVariant {
        ReturnVariant::Explicit
    }

    fn block_kind(&self) -> BlockKind {
        BlockKind::Block
    }

    /// A block's predecessors, a Branch's fallthrough, a MaybeThrow's handler: none, or anywhere.
    fn unread_block(&self) -> Option<BlockId> {
        None
    }
}

/// Every part is told by its number, so that it can be read off the tree.
pub struct Plain;

impl Dress for Plain {}

/// Makes the parts of a function from a table's rows.
pub struct Lowering<'w, 'a, D> {
    pub table: Table<'w>,
    pub allocator: &'a Allocator,
    pub dress: D,
}

impl<'a, D: Dress> Lowering<'_, 'a, D> {
    pub fn environment(&self) -> Environment<'a> {
        let mut identifiers = Vec::new();
        for number in 0..self.table.words[5] {
            let name = self.table.is_named(number).then(|| self.dress.name());
            identifiers.resize(self.dress.identifier(number).index(), identifier(None));
            identifiers.push(identifier(name));
        }
        Environment { allocator: self.allocator, identifiers: Identifiers(identifiers) }
    }

    pub fn function(&self) -> HirFunction<'a> {
        let [entry, blocks, instructions, ..] = *self.table.words else { unreachable!() };
        let mut values = OrderedMap::default();
        for block in (0..blocks).filter_map(|number| self.block(number)) {
            values.insert(block.id, block);
        }
        HirFunction {
            span: None,
            id: None,
            name_hint: None,
            fn_type: ReactFunctionType::Other,
            params: self.list([]),
            returns: unread_place(),
            context: self.list([]),
            body: HIR { entry: self.dress.block(entry), blocks: values },
            instructions: self.instructions(instructions),
            generator: false,
            is_async: false,
            directives: self.list([]),
            aliasing_effects: self.effects(),
        }
    }

    fn effects(&self) -> Option<ArenaVec<'a, AliasingEffect<'a>>> {
        self.dress.effects(self.allocator)
    }

    fn list<T>(&self, items: impl IntoIterator<Item = T>) -> ArenaVec<'a, T> {
        ArenaVec::from_iter_in(items, &self.allocator)
    }

    fn block(&self, number: u32) -> Option<BasicBlock<'a>> {
        let [first, count, ..] = *self.table.block(number);
        let terminal = self.terminal(number)?;
        let instructions = self.list((first..first + count).map(|row| self.dress.instruction(row)));
        Some(BasicBlock {
            kind: self.dress.block_kind(),
            id: self.dress.block(number),
            instructions,
            terminal,
            preds: ArenaOrderedSet::from_iter_in(self.dress.unread_block(), &self.allocator),
            phis: self.dress.phis(self.allocator),
        })
    }

    /// Each at its place; between them, where there is room, strangers that no block has.
    fn instructions(&self, count: u32) -> ArenaVec<'a, Instruction<'a>> {
        let mut list: Vec<_> = (0..self.dress.instructions(count)).map(|_| stranger()).collect();
        for row in 0..count {
            list[self.dress.instruction(row).index()] = self.instruction(row);
        }
        self.list(list)
    }

    fn instruction(&self, row: u32) -> Instruction<'a> {
        let [id, lvalue, code, p, q, from, to] = *self.table.instruction(row);
        let span = self.dress.value_span(row);
        let value = match code {
            0 => self.dress.other(self.place(lvalue), span, self.allocator),
            1 => InstructionValue::LoadLocal { place: self.place(p), span },
            _ => {
                let lvalue = self.dress.lvalue(self.place(p));
                InstructionValue::StoreLocal { lvalue, value: self.place(q), span }
            }
        };
        let id = EvaluationOrder::from_usize(id as usize);
        Instruction { id, lvalue: self.place(lvalue), value, span: self.dress.span(from, to), effects: self.effects() }
    }

    fn place(&self, row: u32) -> Place {
        self.dress.place(row, self.dress.identifier(self.table.identifier_of(row)))
    }

    fn place_or_none(&self, row: u32) -> Option<Place> {
        (row != NONE).then(|| self.place(row))
    }

    fn cases(&self, first: u32, count: u32) -> ArenaVec<'a, Case> {
        self.list((first..first + count).map(|row| {
            let [test, block] = *self.table.case(row);
            Case { test: self.place_or_none(test), block: self.dress.block(block) }
        }))
    }

    /// Branch fallthroughs and MaybeThrow handlers have no column and are never read.
    fn terminal(&self, number: u32) -> Option<Terminal<'a>> {
        let [_, _, code, a, b, c, d, e, id, from, to] = *self.table.block(number);
        let id = EvaluationOrder::from_usize(id as usize);
        let span = self.dress.span(from, to);
        let block = |number| self.dress.block(number);
        Some(match code {
            0 => return None,
            1 => Terminal::Unreachable { id, span },
            2 => Terminal::Throw { value: self.place(a), id, span },
            3 => Terminal::Return {
                value: self.place(a),
                return_variant: self.dress.return_variant(),
                id,
                span,
                effects: self.effects(),
            },
            4 => Terminal::Goto { block: block(a), variant: goto_variant(b), id, span },
            5 => Terminal::If {
                test: self.place(a),
                consequent: block(b),
                alternate: block(c),
                fallthrough: block(d),
                id,
                span,
            },
            6 => Terminal::Branch {
                test: self.place(a),
                consequent: block(b),
                alternate: block(c),
                fallthrough: self.dress.unread_block().unwrap_or(block(number)),
                id,
                span,
            },
            7 => Terminal::Switch {
                test: self.place(a),
                cases: self.cases(b, c),
                fallthrough: block(d),
                id,
                span,
            },
            8 => Terminal::DoWhile {
                loop_block: block(a),
                test: block(b),
                fallthrough: block(c),
                id,
                span,
            },
            9 => Terminal::While {
                test: block(a),
                loop_block: block(b),
                fallthrough: block(c),
                id,
                span,
            },
            10 => Terminal::For {
                init: block(a),
                test: block(b),
                update: (c != NONE).then(|| block(c)),
                loop_block: block(d),
                fallthrough: block(e),
                id,
                span,
            },
            11 => Terminal::ForOf {
                init: block(a),
                test: block(b),
                loop_block: block(c),
                fallthrough: block(d),
                id,
                span,
            },
            12 => Terminal::ForIn {
                init: block(a),
                loop_block: block(b),
                fallthrough: block(c),
                id,
                span,
            },
            13 => Terminal::Logical {
                operator: operator(a),
                test: block(b),
                fallthrough: block(c),
                id,
                span,
            },
            14 => Terminal::Ternary { test: block(a), fallthrough: block(b), id, span },
            15 => Terminal::Optional {
                optional: a == 1,
                test: block(b),
                fallthrough: block(c),
                id,
                span,
            },
            16 => Terminal::Label { block: block(a), fallthrough: block(b), id, span },
            17 => Terminal::Sequence { block: block(a), fallthrough: block(b), id, span },
            18 => Terminal::MaybeThrow {
                continuation: block(a),
                handler: self.dress.unread_block(),
                id,
                span,
                effects: self.effects(),
            },
            19 => Terminal::Try {
                block: block(a),
                handler_binding: self.place_or_none(d),
                handler: block(b),
                fallthrough: block(c),
                id,
                span,
            },
            20 => Terminal::Scope {
                block: block(a),
                fallthrough: block(b),
                scope: self.dress.scope(c),
                id,
                span,
            },
            _ => Terminal::PrunedScope {
                block: block(a),
                fallthrough: block(b),
                scope: self.dress.scope(c),
                id,
                span,
            },
        })
    }
}

fn identifier(name: Option<IdentifierName>) -> Identifier {
    let none = EvaluationOrder::UNSET;
    Identifier {
        id: IdentifierId::from_usize(0),
        declaration_id: DeclarationId::from_usize(0),
        name,
        mutable_range: MutableRange { id: MutableRangeId::from_usize(0), start: none, end: none },
        scope: None,
        type_: TypeId::from_usize(0),
        span: None,
    }
}

fn unread_place() -> Place {
    Place { identifier: IdentifierId::from_usize(0), effect: Effect::Store, reactive: true, span: None }
}

fn stranger<'a>() -> Instruction<'a> {
    Instruction {
        id: EvaluationOrder::from_usize(1),
        lvalue: unread_place(),
        value: InstructionValue::Debugger { span: None },
        span: None,
        effects: None,
    }
}

fn goto_variant(number: u32) -> GotoVariant {
    match number {
        0 => GotoVariant::Break,
        1 => GotoVariant::Continue,
        _ => GotoVariant::Try,
    }
}

fn operator(number: u32) -> LogicalOperator {
    match number {
        0 => LogicalOperator::Or,
        1 => LogicalOperator::And,
        _ => LogicalOperator::Coalesce,
    }
}
