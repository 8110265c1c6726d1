//! Finds the while loop of W of paper 01 by its label; then a label that no line has, and the loop in a tree that lacks its closing row.

mod while_tree;

use reactive_build::lookup::{Found, find, lookup};
use while_tree::TREE;

// label, first row, closing row; then zeros
const LABELS: [u32; 6] = [3, 0, 3, 0, 0, 0];

fn main() {
    for (label, rows) in [(3, 6), (0, 6), (3, 3)] {
        let tree = &TREE[..6 * rows];
        let Found { code, at, begin, end } = find(&LABELS, 1, label, tree);
        println!("label {label} in {rows} rows: code {code} at {at}, words {begin} to {end}");
        assert_eq!(lookup(&LABELS, 1, label, tree).unwrap_or_default(), &tree[begin..end]);
    }
}
