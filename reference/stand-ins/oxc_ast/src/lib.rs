//! Stands in for `oxc_ast`: the types of the syntax tree that the HIR carries. The walk copies them, `LogicalOperator` too, and looks
//! into none.

pub mod ast {
    pub use oxc_span::Span;

    #[derive(Debug, Clone, Copy, PartialEq, Eq)]
    pub enum LogicalOperator {
        Or,
        And,
        Coalesce,
    }

    #[derive(Debug, Clone, Copy, PartialEq, Eq)]
    pub enum BinaryOperator {
        Addition,
        Exponential,
    }

    #[derive(Debug, Clone, Copy, PartialEq, Eq)]
    pub enum UpdateOperator {
        Increment,
        Decrement,
    }

    #[derive(Debug)]
    pub enum TSType<'a> {
        Named(&'a str),
    }
}
