//! Stands in for `oxc_span`. The walk copies spans and never looks into one.

#[derive(Debug, Clone, Copy, PartialEq, Eq)]
pub struct Span {
    pub start: u32,
    pub end: u32,
}

impl Span {
    /// A part of a diagnostic that points at this span.
    pub fn label(self, text: &'static str) -> LabeledSpan {
        LabeledSpan { span: self, text }
    }
}

/// What a diagnostic is labelled with.
#[derive(Debug, Clone, Copy)]
pub struct LabeledSpan {
    pub span: Span,
    pub text: &'static str,
}
