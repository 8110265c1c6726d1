//! What the drop-in does not serve, and what it just serves: places and ids.

use dropin::proved;
use dropin::proved::library::{Failed, Outside, build_reactive_function};
use oxc_allocator::{Allocator, Vec as ArenaVec};
use oxc_react_compiler::react_compiler_hir::environment::{Environment, Identifiers};
use oxc_react_compiler::react_compiler_hir::{
    BasicBlock, BlockId, BlockKind, DeclarationId, Effect, EvaluationOrder, GotoVariant, HIR,
    HirFunction, Identifier, IdentifierId, Instruction, InstructionId, InstructionKind,
    InstructionValue, LValue, MutableRange, MutableRangeId, Place, ReactFunctionType,
    ReactiveFunction, ReturnVariant, Terminal, TypeId,
};
use oxc_react_compiler::react_compiler_reactive_scopes::build_reactive_function::build_reactive_function as rust;
use oxc_react_compiler::react_compiler_utils::OrderedMap;
use oxc_react_compiler::react_compiler_utils::ordered_map::ArenaOrderedSet;
use oxc_span::Span;
use reactive_build::{Refusal, code};

fn place(identifier: u32, start: u32) -> Place {
    Place {
        identifier: IdentifierId::from_usize(identifier as usize),
        effect: Effect::Read,
        reactive: false,
        span: Some(Span { start, end: start }),
    }
}

/// One block of stores, which returns; `place` gives the place of each occurrence.
fn function<'a>(
    allocator: &'a Allocator,
    stores: u32,
    block: u32,
    place: fn(u32) -> Place,
) -> HirFunction<'a> {
    let instruction = |number: u32| {
        let lvalue = LValue { place: place(3 * number), kind: InstructionKind::Let };
        let value =
            InstructionValue::StoreLocal { lvalue, value: place(3 * number + 1), span: None };
        Instruction {
            id: EvaluationOrder::from_usize(number as usize),
            lvalue: place(3 * number + 2),
            value,
            span: None,
            effects: None,
        }
    };
    let (id, entry) =
        (EvaluationOrder::from_usize(stores as usize), BlockId::from_usize(block as usize));
    let terminal = Terminal::Return {
        value: place(0),
        return_variant: ReturnVariant::Void,
        id,
        span: None,
        effects: None,
    };
    let instructions =
        ArenaVec::from_iter_in((0..stores as usize).map(InstructionId::from_usize), &allocator);
    let mut blocks = OrderedMap::default();
    blocks.insert(entry, basic_block(allocator, entry, instructions, terminal));
    HirFunction {
        span: None,
        id: None,
        name_hint: None,
        fn_type: ReactFunctionType::Hook,
        params: ArenaVec::new_in(&allocator),
        returns: place(0),
        context: ArenaVec::new_in(&allocator),
        body: HIR { entry, blocks },
        instructions: ArenaVec::from_iter_in((0..stores).map(instruction), &allocator),
        generator: false,
        is_async: false,
        directives: ArenaVec::new_in(&allocator),
        aliasing_effects: None,
    }
}

fn basic_block<'a>(
    allocator: &'a Allocator,
    id: BlockId,
    instructions: ArenaVec<'a, InstructionId>,
    terminal: Terminal<'a>,
) -> BasicBlock<'a> {
    BasicBlock {
        kind: BlockKind::Block,
        id,
        instructions,
        terminal,
        preds: ArenaOrderedSet::from_iter_in([], &allocator),
        phis: ArenaVec::new_in(&allocator),
    }
}

fn environment(allocator: &Allocator, identifiers: usize) -> Environment<'_> {
    let none = EvaluationOrder::UNSET;
    let identifier = |number: usize| Identifier {
        id: IdentifierId::from_usize(number),
        declaration_id: DeclarationId::from_usize(number),
        name: None,
        mutable_range: MutableRange { id: MutableRangeId::from_usize(0), start: none, end: none },
        scope: None,
        type_: TypeId::from_usize(0),
        span: None,
    };
    Environment { allocator, identifiers: Identifiers((0..identifiers).map(identifier).collect()) }
}

fn same_as_the_rust<'a>(hir: &HirFunction<'a>, env: &Environment<'a>) {
    let text = |function: &ReactiveFunction| format!("{function:?}");
    let theirs = rust(hir, env).expect("the Rust takes it");
    assert_eq!(
        text(&build_reactive_function(hir, env).expect("the library takes it")),
        text(&theirs)
    );
}

/// The library does not serve it, and the drop-in by the Rust's signature gives what the Rust gives.
fn outside<'a>(hir: &HirFunction<'a>, env: &Environment<'a>) -> Outside {
    let text = |answer: Result<ReactiveFunction, _>| format!("{answer:?}");
    assert_eq!(text(proved::build_reactive_function(hir, env)), text(rust(hir, env)));
    match build_reactive_function(hir, env) {
        Err(Failed::Outside(outside)) => outside,
        other => panic!("{other:?}"),
    }
}

#[test]
fn equal_places_have_one_row_where_all_would_be_too_many() {
    let (allocator, places) = (Allocator, |number: u32| place(number % 4_000 % 7, number % 4_000));
    let hir = function(&allocator, 4_000, 0, places);
    same_as_the_rust(&hir, &environment(&allocator, 7));
}

#[test]
fn as_many_places_as_fit_and_one_more() {
    let allocator = Allocator;
    let env = environment(&allocator, 1);
    // Three for each store, and the one that is returned.
    same_as_the_rust(&function(&allocator, 1_365, 0, |number| place(0, number)), &env);
    let over = function(&allocator, 1_366, 0, |number| place(0, number));
    assert_eq!(outside(&over, &env), Outside::Code(Refusal { code: code::COUNT_LIMIT, at: 4 }));
}

#[test]
fn too_many_instructions() {
    let allocator = Allocator;
    let over = function(&allocator, 4_097, 0, |_| place(0, 0));
    let refused = outside(&over, &environment(&allocator, 1));
    assert_eq!(refused, Outside::Code(Refusal { code: code::COUNT_LIMIT, at: 2 }));
    assert!(
        refused
            .to_string()
            .starts_with("outside the library: 2 at word 2: A count is over its limit")
    );
}

#[test]
fn ids_below_and_from_2_to_the_20() {
    let allocator = Allocator;
    let env = environment(&allocator, 1);
    same_as_the_rust(&function(&allocator, 1, (1 << 20) - 1, |_| place(0, 0)), &env);
    assert_eq!(outside(&function(&allocator, 1, 1 << 20, |_| place(0, 0)), &env), Outside::LargeId);
    let env = environment(&allocator, (1 << 20) + 1);
    same_as_the_rust(&function(&allocator, 1, 0, |_| place((1 << 20) - 1, 0)), &env);
    assert_eq!(outside(&function(&allocator, 1, 0, |_| place(1 << 20, 0)), &env), Outside::LargeId);
}

#[test]
fn a_block_under_anothers_id() {
    let allocator = Allocator;
    let mut hir = function(&allocator, 1, 3, |_| place(0, 0));
    let [entry, block] = [5, 6].map(BlockId::from_usize);
    let (id, fallthrough) = (EvaluationOrder::UNSET, hir.body.entry);
    let none = || ArenaVec::new_in(&&allocator);
    let label = Terminal::Label { block, fallthrough, id, span: None };
    let goto = Terminal::Goto { block: fallthrough, variant: GotoVariant::Break, id, span: None };
    // It says that it is the fallthrough, which the Rust then has emitted already.
    hir.body.blocks.insert(entry, basic_block(&allocator, fallthrough, none(), label));
    hir.body.blocks.insert(block, basic_block(&allocator, block, none(), goto));
    hir.body.entry = entry;
    let env = environment(&allocator, 1);
    assert_eq!(rust(&hir, &env).unwrap_err().message, "Block bb3 was already emitted");
    assert_eq!(outside(&hir, &env), Outside::OtherId);
}

#[test]
fn an_instruction_that_is_not_there_in_a_block_that_is_not_visited() {
    let allocator = Allocator;
    let mut hir = function(&allocator, 1, 3, |_| place(0, 0));
    let (entry, away) = (BlockId::from_usize(0), BlockId::from_usize(1));
    let id = EvaluationOrder::UNSET;
    let missing = ArenaVec::from_iter_in([InstructionId::from_usize(9)], &&allocator);
    let unreachable = || Terminal::Unreachable { id, span: None };
    // The handler is visited, the try's fallthrough is not, since it ends in Unreachable.
    hir.body.blocks.insert(away, basic_block(&allocator, away, missing, unreachable()));
    let block = BlockId::from_usize(2);
    let none = || ArenaVec::new_in(&&allocator);
    hir.body.blocks.insert(block, basic_block(&allocator, block, none(), unreachable()));
    let tried = Terminal::Try {
        block,
        handler_binding: None,
        handler: BlockId::from_usize(3),
        fallthrough: away,
        id,
        span: None,
    };
    hir.body.blocks.insert(entry, basic_block(&allocator, entry, none(), tried));
    hir.body.entry = entry;
    assert_eq!(outside(&hir, &environment(&allocator, 1)), Outside::NoInstruction);
}

#[test]
fn an_identifier_that_is_not_there_and_whose_name_is_not_asked() {
    let allocator = Allocator;
    let hir = function(&allocator, 1, 0, |_| place(7, 0));
    assert_eq!(outside(&hir, &environment(&allocator, 7)), Outside::NoIdentifier);
    same_as_the_rust(&hir, &environment(&allocator, 8));
}

#[test]
fn orders_up_to_65535_and_one_more() {
    let allocator = Allocator;
    let env = environment(&allocator, 1);
    let ends_at = |order| {
        let mut hir = function(&allocator, 1, 0, |_| place(0, 0));
        hir.instructions[0].id = EvaluationOrder::from_usize(order);
        hir
    };
    same_as_the_rust(&ends_at(65_535), &env);
    let Outside::Code(refused) = outside(&ends_at(65_536), &env) else { panic!("another") };
    assert_eq!(refused.code, code::WORD);
}

#[test]
fn the_label_of_code_24_is_the_rusts() {
    let allocator = Allocator;
    let mut hir = function(&allocator, 1, 3, |_| place(0, 0));
    let [entry, test] = [0, 1].map(BlockId::from_usize);
    let (id, body) = (EvaluationOrder::UNSET, hir.body.entry);
    let span = Some(Span { start: 4, end: 9 });
    let looped = Terminal::While { test, loop_block: body, fallthrough: body, id, span };
    let goto = Terminal::Goto { block: body, variant: GotoVariant::Break, id, span: None };
    let none = || ArenaVec::new_in(&&allocator);
    hir.body.blocks.insert(entry, basic_block(&allocator, entry, none(), looped));
    hir.body.blocks.insert(test, basic_block(&allocator, test, none(), goto));
    hir.body.entry = entry;
    let env = environment(&allocator, 1);
    let (ours, theirs) = (proved::build_reactive_function(&hir, &env), rust(&hir, &env));
    assert_eq!(format!("{ours:?}"), format!("{theirs:?}"));
    assert_eq!(ours.unwrap_err().labels.len(), 1);
    let Err(Failed::Refused(alone)) = build_reactive_function(&hir, &env) else { panic!("other") };
    assert_eq!((alone.message, alone.labels.len()), (theirs.unwrap_err().message, 0));
}
