//! Checks the rows of W of paper 01, a while loop; then without the last row, and with a zero row after it.

mod while_tree;

use reactive_build::tree_check::{Checked, check};
use while_tree::TREE;

fn main() {
    for rows in [6, 5, 7] {
        let Checked { code, at } = check(&TREE[..6 * rows]);
        println!("{rows} rows: code {code} at {at}");
    }
}
