//! A source text. A span's ends count its characters (Unicode scalar values) from 0, the second one not included.

use reactive_build::Span;

pub struct Source {
    characters: Vec<char>,
}

impl Source {
    pub fn new(text: &str) -> Self {
        Self { characters: text.chars().collect() }
    }

    /// The text of a span; none where it is not within the source.
    pub fn text(&self, span: Span) -> Option<String> {
        Some(self.characters.get(span.from as usize..span.to as usize)?.iter().collect())
    }
}

#[cfg(test)]
mod tests {
    use super::*;

    #[test]
    fn a_span_counts_characters() {
        let source = Source::new("é = '…';\nx");
        assert_eq!(source.text(Span { from: 5, to: 6 }).as_deref(), Some("…"));
        assert_eq!(source.text(Span { from: 9, to: 10 }).as_deref(), Some("x"));
        assert_eq!(source.text(Span { from: 9, to: 11 }), None);
    }
}
