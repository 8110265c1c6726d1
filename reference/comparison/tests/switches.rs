//! M-113: the small tables that are plain with switches are all of them.

use comparison::generate::draft::Draft;
use comparison::generate::small_plain::{Bound, each};
use comparison::runs::Width;

fn tables(blocks: u32, reused: bool) -> Vec<Vec<u32>> {
    let mut tables = Vec::new();
    each(Bound { width: Width::WithSwitch, blocks, cases: 2, reused }, |draft: &Draft| tables.push(draft.words()));
    tables
}

/// A search that names blocks again and again finds no more of them.
#[test]
fn a_statement_names_new_blocks() {
    for blocks in 1..=4 {
        let (mut few, mut many) = (tables(blocks, false), tables(blocks, true));
        few.sort();
        many.sort();
        assert_eq!(few, many, "of {blocks} blocks");
    }
    assert_eq!(tables(4, true).len(), 172);
}
