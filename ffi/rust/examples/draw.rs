//! Draws W of paper 01, a while loop, and prints the text; then with a buffer that is too short by a byte.

use reactive_build::BLOCK_WORDS;
use reactive_build::dot::{Drawn, draw, text};

const BLOCKS: [[u32; 9]; 4] = [
    [0, 0, 9, 1, 2, 3, 0, 0, 1], // 0 While: test 1, loop 2, fallthrough 3
    [0, 0, 6, 0, 2, 3, 0, 0, 2], // 1 Branch on place 0: to 2 or 3
    [0, 0, 4, 1, 1, 0, 0, 0, 3], // 2 Goto 1, Continue
    [0, 0, 3, 0, 0, 0, 0, 0, 4], // 3 Return of place 0
];

fn main() {
    // Entry 0; 4 blocks, no instruction, no case, 1 place, 1 identifier.
    let mut words = vec![0, 4, 0, 0, 1, 1];
    for block in BLOCKS {
        words.extend(block);
        words.extend([0; BLOCK_WORDS - 9]);
    }
    // Place 0 is identifier 0, which has a name.
    words.extend([0, 1]);

    let mut buffer = [7; 256];
    let drawn = draw(&words, &mut buffer);
    print(drawn);
    print!("{}", text(&words).expect("W is accepted"));
    let short = drawn.length - 1;
    print(draw(&words, &mut buffer[..short]));
    assert!(buffer[..short].iter().all(|byte| *byte == 0));
}

fn print(Drawn { code, at, length }: Drawn) {
    println!("code {code} at {at} length {length}");
}
