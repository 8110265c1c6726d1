//! Small tables by hand.

use comparison::model::table::BLOCK_WORDS;

pub type Block<'b> = (u32, &'b [u32]);

pub const RETURN: Block = (3, &[0]);
pub const ABSENT: Block = (0, &[]);

/// Blocks by code and columns, with no instruction, over one place and one identifier.
pub fn table(entry: u32, blocks: &[Block], cases: &[[u32; 2]]) -> Vec<u32> {
    let mut words = vec![entry, blocks.len() as u32, 0, cases.len() as u32, 1, 1];
    for (code, operands) in blocks {
        let mut row = [0; BLOCK_WORDS];
        row[2] = *code;
        row[3..3 + operands.len()].copy_from_slice(operands);
        words.extend(row);
    }
    words.extend(cases.as_flattened());
    words.extend([0, 1]);
    words
}
