//! Puts the blocks of a while loop in walking order, prints the table and the list, restores the first table, and tries a list that is
//! no permutation.

use reactive_build::BLOCK_WORDS;
use reactive_build::order::{Moved, rearranged, restore, restored};

const BLOCKS: [[u32; 9]; 4] = [
    [0, 0, 3, 0, 0, 0, 0, 0, 4], // 0 Return of place 0
    [0, 0, 4, 2, 1, 0, 0, 0, 3], // 1 Goto 2, Continue
    [0, 0, 6, 0, 1, 0, 0, 0, 2], // 2 Branch on place 0: to 1 or 0
    [0, 0, 9, 2, 1, 0, 0, 0, 1], // 3 While: test 2, loop 1, fallthrough 0
];

fn main() {
    // Entry 3; 4 blocks, no instruction, no case, 1 place, 1 identifier.
    let mut words = vec![3, 4, 0, 0, 1, 1];
    for block in BLOCKS {
        words.extend(block);
        words.extend([0; BLOCK_WORDS - 9]);
    }
    // Place 0 is identifier 0, which has a name.
    words.extend([0, 1]);

    let mut walked = rearranged(&words).expect("W is accepted");
    println!("code 0 at 0 entry {}", walked.words[0]);
    for (block, old) in walked.old_numbers.iter().enumerate() {
        let row = &walked.words[6 + block * BLOCK_WORDS..];
        println!("{block} was {old}: {} {} {} {}", row[2], row[3], row[4], row[5]);
    }
    let same = restored(&walked).expect("the list is a permutation") == words;
    println!("code 0 at 0 {}", if same { "restored" } else { "not restored" });
    walked.old_numbers[0] = walked.old_numbers[1];
    let mut first = vec![7; words.len()];
    let Moved { code, at } = restore(&walked.words, &walked.old_numbers, &mut first);
    println!("code {code} at {at}");
    assert!(first.iter().all(|word| *word == 0));
}
