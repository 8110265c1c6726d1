//! Searches behind the word "smallest" in docs/DIFFERENCES.md, by hand: `cargo test --release --test searches -- --ignored`.

use comparison::generate::small_wide::{Family, each};
use comparison::model::table::Table;
use comparison::model::{Rule, walk_by};

/// Each table that the first entry accepts, the language entry accepts too, up to three blocks. More than two cases of a Switch with three
/// blocks are refused, or are its fallthrough and skipped.
#[test]
#[ignore = "a minute"]
fn a_search_for_unnamed_labels() {
    let codes: Vec<u32> = (1..=21).collect();
    for blocks in 1..=3 {
        let family = Family { blocks, codes: &codes, cases: 3, shapes: 0, rule: Rule::Rust };
        let counted = each(family, |_| true, |draft| {
            let words = draft.words();
            assert!(walk_by(Rule::Language, &Table::of(&words)).result.is_ok(), "{words:?}");
        });
        assert!(counted.accepted > 0);
    }
}
