//! A break out of a loop, in a switch (examples/switch.txt): the build that equals the Rust prints it without a label, and so it would leave
//! the switch; the build by the language's rule (M-102) labels it.

use reactive_build::{Outcome, ROW_WORDS, build, build_language};

#[rustfmt::skip]
const TABLE: [u32; 76] = [
    0, 6, 0, 1, 1, 1,                // entry 0; 6 blocks, no instruction, 1 case, 1 place, 1 identifier
    0, 0, 9, 1, 2, 3, 0, 0, 1, 0, 0, // 0 While: test 1, loop 2, fallthrough 3
    0, 0, 6, 0, 2, 3, 0, 0, 2, 0, 0, // 1 Branch on place 0: to 2 or 3
    0, 0, 7, 0, 0, 1, 5, 0, 3, 0, 0, // 2 Switch on place 0: case 0, fallthrough 5
    0, 0, 3, 0, 0, 0, 0, 0, 4, 0, 0, // 3 Return of place 0
    0, 0, 4, 3, 0, 0, 0, 0, 5, 0, 0, // 4 Goto 3, Break: out of the loop
    0, 0, 4, 1, 1, 0, 0, 0, 6, 0, 0, // 5 Goto 1, Continue
    0, 4,                            // case 0: test place 0, block 4
    0,                               // place 0 is identifier 0
    1,                               // identifier 0 has a name
];

const BREAK: u32 = 24;
const KINDS: [&str; 3] = ["Implicit", "Labeled", "Unlabeled"];

fn main() {
    let (mut tree, mut index) = ([0; 96], [0; 12]);
    let built = build(&TABLE, &mut tree, &mut index);
    print("first entry", built, &tree);
    let built = build_language(&TABLE, &mut tree, &mut index);
    print("language entry", built, &tree);
}

fn print(entry: &str, Outcome { code, rows, lines, .. }: Outcome, tree: &[u32]) {
    println!("{entry}: code {code} rows {rows} lines {lines}");
    for (row, [op, target, _, kind, ..]) in tree.as_chunks::<ROW_WORDS>().0.iter().enumerate() {
        if *op == BREAK {
            println!("  row {row}: break to {target}, {}", KINDS[*kind as usize]);
        }
    }
}
