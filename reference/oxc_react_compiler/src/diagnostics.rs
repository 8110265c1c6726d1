//! Stands in for the crate's `diagnostics`: a diagnostic keeps its message and its category.

use std::borrow::Cow;

use oxc_diagnostics::OxcDiagnostic;

#[derive(Debug, Clone, Copy)]
pub enum ErrorCategory {
    Invariant,
    Todo,
}

impl ErrorCategory {
    const fn name(self) -> &'static str {
        match self {
            Self::Invariant => "Invariant",
            Self::Todo => "Todo",
        }
    }

    pub fn diagnostic(self, message: impl Into<Cow<'static, str>>) -> OxcDiagnostic {
        walk_observer::gives_up();
        OxcDiagnostic::error(message).with_category(self.name())
    }
}
