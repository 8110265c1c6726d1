//! Asks what the build of W of paper 01 needs, takes just that much memory and builds; then asks of W with a loop that is refused.

mod while_table;

use reactive_build::preview::{Tree, preview, tree};
use reactive_build::{LINE_WORDS, Outcome, ROW_WORDS, Refusal, build};
use while_table::TABLE;

fn main() {
    let told = preview(&TABLE);
    print("preview", told);
    let mut rows = vec![[0; ROW_WORDS]; told.rows as usize];
    let mut index = vec![0; told.lines as usize * LINE_WORDS];
    print("build", build(&TABLE, rows.as_flattened_mut(), &mut index));
    // The same in one call.
    assert_eq!(tree(&TABLE), Ok(Tree { rows, index, lines: told.lines, visits: told.visits }));

    let mut refused = TABLE;
    refused[6 + 5] = 1; // the While's fallthrough is its test
    print("preview", preview(&refused));
    assert_eq!(tree(&refused), Err(Refusal { code: 15, at: 1 }));
}

fn print(call: &str, Outcome { code, at, rows, visits, lines }: Outcome) {
    println!("{call}: code {code} at {at} rows {rows} visits {visits} lines {lines}");
}
