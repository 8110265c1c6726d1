//! The rows of W of paper 01, a while loop, and a row of zeros after them.

#[rustfmt::skip]
pub const TREE: [u32; 42] = [
    2, 0, 0, 0, 0, 0,  // LOAD place 0
    25, 3, 3, 0, 0, 0, // CONTINUE 3 Implicit
    9, 1, 0, 0, 0, 0,  // BLOCK of one statement
    14, 1, 3, 0, 0, 0, // WHILE, label 3
    22, 0, 4, 0, 0, 0, // RETURN of place 0
    9, 2, 0, 0, 0, 0,  // BLOCK of two statements: the root
    0, 0, 0, 0, 0, 0,
];
