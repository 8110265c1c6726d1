//! A value of any kind but LoadLocal and StoreLocal, all of whose parts are drawn. The build copies it whole.

use oxc_allocator::{Allocator, Vec as ArenaVec};
use oxc_ast::ast::{BinaryOperator, TSType, UpdateOperator};
use oxc_react_compiler::react_compiler_hir::type_config::{ValueKind, ValueReason};
use oxc_react_compiler::react_compiler_hir::*;
use oxc_span::Span;
use oxc_str::{Ident, Str};

/// What is drawn: a number below a bound, a place and a span like the function's others.
pub trait Draw {
    fn below(&self, bound: u32) -> u32;
    fn any_place(&self) -> Place;
    fn any_span(&self) -> Option<Span>;
    /// Only Display and Debug look at these.
    fn function_id(&self) -> FunctionId {
        FunctionId::from_usize(self.below(9) as usize)
    }
    fn flag(&self) -> bool {
        self.below(2) == 1
    }
    fn or_none<T>(&self, some: impl FnOnce() -> T) -> Option<T> {
        self.flag().then(some)
    }
    fn ident<'a>(&self) -> Ident<'a> {
        Ident(["a", "b", "useMemo", ""][self.below(4) as usize])
    }
    fn str<'a>(&self) -> Str<'a> {
        Str(["x", "\"quoted\"", "\u{1F600}", ""][self.below(4) as usize])
    }
    fn number(&self) -> FloatValue {
        FloatValue::new([0.0, -0.0, f64::NAN, f64::INFINITY, 1.5][self.below(5) as usize])
    }
    fn list<'a, T>(&self, alloc: &'a Allocator, item: impl Fn() -> T) -> ArenaVec<'a, T> {
        ArenaVec::from_iter_in((0..self.below(4)).map(|_| item()), &alloc)
    }
    fn kind(&self) -> InstructionKind {
        use InstructionKind::*;
        [Const, Let, Reassign, Catch, HoistedConst, HoistedLet, HoistedFunction, Function]
            [self.below(8) as usize]
    }
    fn effect(&self) -> Effect {
        use Effect::*;
        [
            Unknown,
            Freeze,
            Read,
            Capture,
            ConditionallyMutateIterator,
            ConditionallyMutate,
            Mutate,
            Store,
        ][self.below(8) as usize]
    }
    fn lvalue_of(&self) -> LValue {
        LValue { place: self.any_place(), kind: self.kind() }
    }
    fn spread(&self) -> SpreadPattern {
        SpreadPattern { place: self.any_place() }
    }
    fn argument(&self) -> PlaceOrSpread {
        if self.flag() {
            PlaceOrSpread::Place(self.any_place())
        } else {
            PlaceOrSpread::Spread(self.spread())
        }
    }
    fn property<'a>(&self) -> PropertyLiteral<'a> {
        if self.flag() {
            PropertyLiteral::String(self.ident())
        } else {
            PropertyLiteral::Number(self.number())
        }
    }
    fn quasi<'a>(&self) -> TemplateQuasi<'a> {
        TemplateQuasi { raw: self.str(), cooked: self.or_none(|| self.str()) }
    }
    fn object_property<'a>(&self) -> ObjectPropertyOrSpread<'a> {
        if self.below(3) == 0 {
            return ObjectPropertyOrSpread::Spread(self.spread());
        }
        let key = match self.below(3) {
            0 => ObjectPropertyKey::String { name: self.ident() },
            1 => ObjectPropertyKey::Identifier { name: self.ident() },
            _ => ObjectPropertyKey::Computed { name: self.any_place() },
        };
        let property_type =
            if self.flag() { ObjectPropertyType::Property } else { ObjectPropertyType::Method };
        ObjectPropertyOrSpread::Property(ObjectProperty {
            key,
            property_type,
            place: self.any_place(),
        })
    }
    fn pattern<'a>(&self, alloc: &'a Allocator) -> LValuePattern<'a> {
        let pattern = if self.flag() {
            Pattern::Array(ArrayPattern {
                items: self.list(alloc, || match self.below(3) {
                    0 => ArrayPatternElement::Place(self.any_place()),
                    1 => ArrayPatternElement::Spread(self.spread()),
                    _ => ArrayPatternElement::Hole,
                }),
            })
        } else {
            Pattern::Object(ObjectPattern {
                properties: self.list(alloc, || self.object_property()),
            })
        };
        LValuePattern { pattern, kind: self.kind() }
    }
    fn primitive<'a>(&self) -> PrimitiveValue<'a> {
        match self.below(5) {
            0 => PrimitiveValue::Null,
            1 => PrimitiveValue::Undefined,
            2 => PrimitiveValue::Boolean(self.flag()),
            3 => PrimitiveValue::Number(self.number()),
            _ => PrimitiveValue::String(self.str()),
        }
    }
    fn binding<'a>(&self) -> NonLocalBinding<'a> {
        let (name, module) = (self.ident(), self.str());
        match self.below(5) {
            0 => NonLocalBinding::ImportDefault { name, module },
            1 => NonLocalBinding::ImportSpecifier { name, module, imported: self.ident() },
            2 => NonLocalBinding::ImportNamespace { name, module },
            3 => NonLocalBinding::ModuleLocal { name },
            _ => NonLocalBinding::Global { name },
        }
    }
    fn dependency<'a>(&self, alloc: &'a Allocator) -> ManualMemoDependency<'a> {
        ManualMemoDependency {
            root: if self.flag() {
                ManualMemoDependencyRoot::NamedLocal {
                    value: self.any_place(),
                    constant: self.flag(),
                }
            } else {
                ManualMemoDependencyRoot::Global { identifier_name: self.ident() }
            },
            path: self.list(alloc, || DependencyPathEntry {
                property: self.property(),
                optional: self.flag(),
                span: self.any_span(),
            }),
            span: self.any_span(),
        }
    }
    /// What an instruction or a terminal may have beside it, and the build leaves out.
    fn aliasing_effects<'a>(
        &self,
        alloc: &'a Allocator,
    ) -> Option<ArenaVec<'a, AliasingEffect<'a>>> {
        self.or_none(|| {
            self.list(alloc, || match self.below(5) {
                0 => AliasingEffect::Freeze {
                    value: self.any_place(),
                    reason: ValueReason::HookReturn,
                },
                1 => AliasingEffect::Capture { from: self.any_place(), into: self.any_place() },
                2 => AliasingEffect::Create {
                    into: self.any_place(),
                    value: ValueKind::Mutable,
                    reason: ValueReason::Other,
                },
                3 => AliasingEffect::Render { place: self.any_place() },
                _ => AliasingEffect::Apply {
                    receiver: self.any_place(),
                    function: self.any_place(),
                    mutates_function: self.flag(),
                    args: self.list(alloc, || match self.below(3) {
                        0 => PlaceOrSpreadOrHole::Place(self.any_place()),
                        1 => PlaceOrSpreadOrHole::Spread(self.spread()),
                        _ => PlaceOrSpreadOrHole::Hole,
                    }),
                    into: self.any_place(),
                    signature: None,
                    span: self.any_span(),
                },
            })
        })
    }
}

/// So many kinds there are.
pub const KINDS: u32 = 40;

/// One of the kinds, in the order of the Rust's `InstructionValue`.
pub fn value<'a>(
    draw: &impl Draw,
    kind: u32,
    span: Option<Span>,
    alloc: &'a Allocator,
) -> InstructionValue<'a> {
    use InstructionValue::*;
    let place = || draw.any_place();
    let func = || LoweredFunction { func: draw.function_id() };
    match kind {
        0 => LoadContext { place: place(), span },
        1 => DeclareLocal { lvalue: draw.lvalue_of(), span },
        2 => DeclareContext { lvalue: draw.lvalue_of(), span },
        3 => StoreContext { lvalue: draw.lvalue_of(), value: place(), span },
        4 => Destructure { lvalue: draw.pattern(alloc), value: place(), span },
        5 => Primitive { value: draw.primitive(), span },
        6 => JSXText { value: draw.str(), span },
        7 => BinaryExpression {
            operator: if draw.flag() {
                BinaryOperator::Addition
            } else {
                BinaryOperator::Exponential
            },
            left: place(),
            right: place(),
            span,
        },
        8 => NewExpression { callee: place(), args: draw.list(alloc, || draw.argument()), span },
        9 => CallExpression { callee: place(), args: draw.list(alloc, || draw.argument()), span },
        10 => MethodCall {
            receiver: place(),
            property: place(),
            args: draw.list(alloc, || draw.argument()),
            span,
        },
        11 => UnaryExpression { operator: UnaryOperator::TypeOf, value: place(), span },
        12 => TypeCastExpression {
            value: place(),
            cast: if draw.flag() {
                TypeCast::As(&TSType::Named("T"))
            } else {
                TypeCast::Satisfies(&TSType::Named("U"))
            },
            span,
        },
        13 => JsxExpression {
            tag: if draw.flag() {
                JsxTag::Place(place())
            } else {
                JsxTag::Builtin(BuiltinTag { name: draw.ident() })
            },
            props: draw.list(alloc, || {
                if draw.flag() {
                    JsxAttribute::SpreadAttribute { argument: place() }
                } else {
                    JsxAttribute::Attribute { name: draw.ident(), place: place() }
                }
            }),
            children: draw.or_none(|| draw.list(alloc, place)),
            span,
            opening_span: draw.any_span(),
            closing_span: draw.any_span(),
        },
        14 => ObjectExpression { properties: draw.list(alloc, || draw.object_property()), span },
        15 => ObjectMethod { span, lowered_func: func() },
        16 => ArrayExpression {
            elements: draw.list(alloc, || match draw.below(3) {
                0 => ArrayElement::Place(place()),
                1 => ArrayElement::Spread(draw.spread()),
                _ => ArrayElement::Hole,
            }),
            span,
        },
        17 => JsxFragment { children: draw.list(alloc, place), span },
        18 => RegExpLiteral { pattern: draw.str(), flags: draw.str(), span },
        19 => MetaProperty { meta: draw.ident(), property: draw.ident(), span },
        20 => PropertyStore { object: place(), property: draw.property(), value: place(), span },
        21 => PropertyLoad { object: place(), property: draw.property(), span },
        22 => PropertyDelete { object: place(), property: draw.property(), span },
        23 => ComputedStore { object: place(), property: place(), value: place(), span },
        24 => ComputedLoad { object: place(), property: place(), span },
        25 => ComputedDelete { object: place(), property: place(), span },
        26 => LoadGlobal { binding: draw.binding(), span },
        27 => StoreGlobal { name: draw.ident(), value: place(), span },
        28 => FunctionExpression {
            name: draw.or_none(|| draw.ident()),
            name_hint: draw.or_none(|| draw.ident()),
            lowered_func: func(),
            expr_type: FunctionExpressionType::ArrowFunctionExpression,
            span,
        },
        29 => TaggedTemplateExpression {
            tag: place(),
            quasis: draw.list(alloc, || draw.quasi()),
            subexprs: draw.list(alloc, place),
            span,
        },
        30 => TemplateLiteral {
            subexprs: draw.list(alloc, place),
            quasis: draw.list(alloc, || draw.quasi()),
            span,
        },
        31 => Await { value: place(), span },
        32 => GetIterator { collection: place(), span },
        33 => IteratorNext { iterator: place(), collection: place(), span },
        34 => NextPropertyOf { value: place(), span },
        35 => PrefixUpdate {
            lvalue: place(),
            operation: UpdateOperator::Increment,
            value: place(),
            span,
        },
        36 => PostfixUpdate {
            lvalue: place(),
            operation: UpdateOperator::Decrement,
            value: place(),
            span,
        },
        37 => Debugger { span },
        38 => StartMemoize {
            manual_memo_id: draw.below(9),
            deps: draw.or_none(|| draw.list(alloc, || draw.dependency(alloc))),
            deps_span: draw.or_none(|| draw.any_span()),
            has_invalid_deps: draw.flag(),
            span,
        },
        _ => FinishMemoize {
            manual_memo_id: draw.below(9),
            decl: place(),
            pruned: draw.flag(),
            span,
        },
    }
}

#[cfg(test)]
mod tests {
    use std::collections::HashSet;
    use std::mem::discriminant;

    use super::*;

    struct Least;

    impl Draw for Least {
        fn below(&self, _: u32) -> u32 {
            0
        }

        fn any_place(&self) -> Place {
            Place {
                identifier: IdentifierId::from_usize(0),
                effect: self.effect(),
                reactive: false,
                span: None,
            }
        }

        fn any_span(&self) -> Option<Span> {
            None
        }
    }

    /// Each kind of the crate's `InstructionValue` but LoadLocal and StoreLocal.
    #[test]
    fn all_kinds() {
        let made: HashSet<_> =
            (0..KINDS).map(|kind| discriminant(&value(&Least, kind, None, &Allocator))).collect();
        let types =
            include_str!("../../../../oxc_react_compiler/src/react_compiler_hir/mod.rs");
        let (_, kinds) = types.split_once("pub enum InstructionValue<'a> {\n").expect("it is there");
        let (kinds, _) = kinds.split_once("\n}\n").expect("it ends");
        let is_kind = |line: &&str| {
            line.strip_prefix("    ").is_some_and(|name| name.starts_with(char::is_uppercase))
        };
        assert_eq!(made.len() + 2, kinds.lines().filter(is_kind).count());
    }
}
