//! Runs the kerning search of examples/search.txt on paper: a pair that does not match, one that does, and one more that would. Then the same with the
//! break tied to the inner statement, the IF: it leaves the IF alone, and the search goes on past its match.

use reactive_build::tree_run::{Ran, run};

/// The row of the break.
const BREAK: usize = 9;

#[rustfmt::skip]
const SEARCH: [[u32; 6]; 19] = [
    [1, 0, 0, 0, 0, 0], [4, 1, 0, 0, 10, 0],   // let found
    [1, 1, 0, 0, 0, 0],                        // another(pairs)
    [1, 2, 0, 0, 0, 0], [4, 5, 2, 38, 63, 0],  // const pair = next(pairs)
    [1, 3, 0, 0, 0, 0], [4, 6, 3, 70, 90, 0],  // matches(pair, glyph)
    [1, 4, 0, 0, 0, 0], [4, 8, 0, 98, 110, 0], // found = pair
    [24, 5, 9, 2, 0, 0],                       // BREAK Unlabeled: out of the WHILE
    [9, 2, 0, 0, 0, 0], [10, 3, 0, 7, 4, 0],   // IF, label 4
    [25, 5, 10, 0, 0, 0], [9, 4, 0, 0, 0, 0],
    [14, 2, 5, 0, 0, 0],                       // WHILE, label 5
    [1, 5, 0, 0, 0, 0], [4, 11, 4, 136, 141, 0], [22, 4, 12, 0, 0, 0], // return found
    [9, 4, 0, 0, 0, 0],
];

fn show(name: &str, tree: &[[u32; 6]]) {
    // another: yes, matches: no; another: yes, matches: yes; another: yes, matches: yes; another: no
    let answers = [1, 0, 1, 1, 1, 1, 0];
    let mut performed = [0; 32];
    let Ran { code, at, number, reason } = run(tree.as_flattened(), &answers, &mut performed);
    println!("{name}: code {code} at {at} number {number} reason {reason}");
    println!("{}", performed[..number].iter().map(u32::to_string).collect::<Vec<_>>().join(" "));
}

fn main() {
    show("search", &SEARCH);
    let mut inner = SEARCH;
    inner[BREAK] = [24, 4, 9, 1, 0, 0]; // Labeled 4: out of the IF
    show("break tied to the IF", &inner);
}
