//! Stands in for `oxc_diagnostics`: a message, its category, its help and its labels.

use std::borrow::Cow;

use oxc_span::LabeledSpan;

#[derive(Debug)]
pub struct OxcDiagnostic {
    pub message: Cow<'static, str>,
    pub category: &'static str,
    pub help: Option<String>,
    pub labels: Vec<LabeledSpan>,
}

impl OxcDiagnostic {
    pub fn error(message: impl Into<Cow<'static, str>>) -> Self {
        Self { message: message.into(), category: "", help: None, labels: Vec::new() }
    }

    pub fn with_category(mut self, category: &'static str) -> Self {
        self.category = category;
        self
    }

    pub fn with_help(mut self, help: String) -> Self {
        self.help = Some(help);
        self
    }

    pub fn with_labels<T: IntoIterator<Item = LabeledSpan>>(mut self, labels: T) -> Self {
        self.labels = labels.into_iter().collect();
        self
    }
}
