//! A table's function as a compiler might have it: sparse ids, instructions in another order with strangers between them, a place of its
//! own at every occurrence, any spans, values of every kind, and all that the walk never reads.

use std::cell::RefCell;

use comparison::model::table::Table;
use comparison::reference::hir::{Dress, Lowering};
use comparison::rng::Rng;
use oxc_allocator::{Allocator, Vec as ArenaVec};
use oxc_react_compiler::react_compiler_hir::{
    AliasingEffect, BlockId, BlockKind, HirFunction, IdentifierId, IdentifierName, InstructionId,
    InstructionValue, LValue, ParamPattern, Phi, Place, ReactFunctionType, ReturnVariant, ScopeId,
    SpreadPattern,
};
use oxc_react_compiler::react_compiler_utils::ordered_map::ArenaOrderedMap;
use oxc_span::Span;
use oxc_str::{Ident, Str};

#[path = "values.rs"]
mod values;
use values::Draw;

pub struct Scrambled {
    rng: RefCell<Rng>,
    /// Where each instruction of the table stands in the function.
    moved: Vec<u32>,
    length: u32,
    factor: u32,
    offset: u32,
}

impl Scrambled {
    pub fn lowering<'w, 'a>(
        table: Table<'w>,
        allocator: &'a Allocator,
        mut rng: Rng,
    ) -> Lowering<'w, 'a, Self> {
        let length = table.words[2] + rng.below(5);
        let mut moved: Vec<u32> = (0..length).collect();
        for last in (1..length).rev() {
            moved.swap(last as usize, rng.below(last + 1) as usize);
        }
        let (factor, offset) = (rng.from_to(1, 4), rng.below(3_000));
        Lowering {
            table,
            allocator,
            dress: Self { rng: RefCell::new(rng), moved, length, factor, offset },
        }
    }

    /// The function of a table, with all that the build only copies.
    pub fn function<'a>(lowering: &Lowering<'_, 'a, Self>) -> HirFunction<'a> {
        let dress = &lowering.dress;
        let parameters = (0..dress.below(3)).map(|_| match dress.below(2) {
            0 => ParamPattern::Place(dress.any_place()),
            _ => ParamPattern::Spread(SpreadPattern { place: dress.any_place() }),
        });
        HirFunction {
            span: dress.any_span(),
            id: (dress.below(2) == 1).then_some(Ident("Kerning")),
            name_hint: (dress.below(2) == 1).then_some(Ident("pairs")),
            fn_type: ReactFunctionType::Hook,
            returns: dress.any_place(),
            context: dress.list(lowering.allocator, || dress.any_place()),
            aliasing_effects: dress.aliasing_effects(lowering.allocator),
            params: ArenaVec::from_iter_in(parameters, &lowering.allocator),
            generator: dress.below(2) == 1,
            is_async: dress.below(2) == 1,
            directives: ArenaVec::from_iter_in(
                (0..dress.below(3)).map(|_| Str("use memo")),
                &lowering.allocator,
            ),
            ..lowering.function()
        }
    }
}

impl Draw for Scrambled {
    fn below(&self, bound: u32) -> u32 {
        self.rng.borrow_mut().below(bound)
    }

    /// Of an identifier that the function need not have.
    fn any_place(&self) -> Place {
        self.place(0, IdentifierId::from_usize(self.below(5_000) as usize))
    }

    fn any_span(&self) -> Option<Span> {
        let word = || self.rng.borrow_mut().word() as u32;
        match self.below(7) {
            0 => None,
            1 => Some(Span { start: 0, end: 0 }),
            2 => Some(Span { start: 5, end: 5 }),
            3 => Some(Span { start: 7, end: 3 }),
            4 => Some(Span { start: u32::MAX, end: u32::MAX }),
            _ => Some(Span { start: word(), end: word() }),
        }
    }
}

impl Dress for Scrambled {
    fn block(&self, number: u32) -> BlockId {
        BlockId::from_usize((number * self.factor + self.offset) as usize)
    }

    fn identifier(&self, number: u32) -> IdentifierId {
        IdentifierId::from_usize((number * self.factor + self.offset) as usize)
    }

    fn instruction(&self, row: u32) -> InstructionId {
        InstructionId::from_usize(self.moved[row as usize] as usize)
    }

    fn instructions(&self, _: u32) -> u32 {
        self.length
    }

    fn scope(&self, number: u32) -> ScopeId {
        ScopeId::from_usize(70_000 + 31 * number as usize)
    }

    fn place(&self, _: u32, identifier: IdentifierId) -> Place {
        Place {
            identifier,
            effect: self.effect(),
            reactive: self.below(2) == 1,
            span: self.any_span(),
        }
    }

    fn lvalue(&self, place: Place) -> LValue {
        LValue { place, kind: self.kind() }
    }

    fn span(&self, _: u32, _: u32) -> Option<Span> {
        self.any_span()
    }

    fn value_span(&self, _: u32) -> Option<Span> {
        self.any_span()
    }

    fn other<'a>(
        &self,
        _: Place,
        span: Option<Span>,
        alloc: &'a Allocator,
    ) -> InstructionValue<'a> {
        values::value(self, self.below(values::KINDS), span, alloc)
    }

    fn name(&self) -> IdentifierName<'static> {
        if self.flag() {
            IdentifierName::Named(self.ident())
        } else {
            IdentifierName::Promoted(self.ident())
        }
    }

    fn effects<'a>(&self, alloc: &'a Allocator) -> Option<ArenaVec<'a, AliasingEffect<'a>>> {
        self.aliasing_effects(alloc)
    }

    fn phis<'a>(&self, alloc: &'a Allocator) -> ArenaVec<'a, Phi<'a>> {
        self.list(alloc, || Phi {
            place: self.any_place(),
            operands: ArenaOrderedMap::from_iter_in(
                self.unread_block().map(|block| (block, self.any_place())),
                &alloc,
            ),
        })
    }

    fn return_variant(&self) -> ReturnVariant {
        [ReturnVariant::Void, ReturnVariant::Implicit, ReturnVariant::Explicit]
            [self.below(3) as usize]
    }

    fn block_kind(&self) -> BlockKind {
        use BlockKind::*;
        [Block, Value, Loop, Sequence, Catch][self.below(5) as usize]
    }

    fn unread_block(&self) -> Option<BlockId> {
        match self.below(3) {
            0 => None,
            1 => Some(BlockId::PLACEHOLDER),
            _ => Some(self.block(self.below(40))),
        }
    }
}
