//! The blocks of a table as a graph in DOT, the Graphviz language.

use crate::table::{Block, Ending, HEAD_WORDS, LIMITS};
use crate::text::{place, writers};
use crate::{BLOCK_WORDS, Refusal};

pub use crate::text::Placed as Drawn;

/// So many bytes hold the text of any table.
pub const LARGEST: usize = ENDS + LINE * 1_024 * (1 + 1_024);

/// The bytes of the first and the last line.
const ENDS: usize = "digraph g {\n}\n".len();

/// The bytes of the longest line between them.
const LINE: usize = "n1023 -> n1023;\n".len();

writers! { reactive_blocks_to_dot: u32 }

/// Draws a table into a lent buffer, both of any content and length. The buffer then holds the text
/// and after it zeros; zeros alone if refused.
pub fn draw(words: &[u32], text: &mut [u8]) -> Drawn {
    // SAFETY: the export reads and writes nothing but what it is handed.
    unsafe { place(reactive_blocks_to_dot, words, text) }
}

/// So many bytes hold the text of this table, of words of any content and number: a line for each time that a row names a block.
///
/// ```
/// use reactive_build::dot::{largest_of, text};
/// use reactive_build::table::{BlockRow, Ending, Table, Variant};
///
/// let mut table = Table::default();
/// table.block(&[], Ending::Goto { block: BlockRow(0), variant: Variant::Break }, 1, None);
/// assert_eq!(largest_of(&table.words()), 30);
/// assert_eq!(text(&table.words())?, "digraph g {\nn0 -> n0;\n}\n");
/// # Ok::<(), reactive_build::Refusal>(())
/// ```
pub fn largest_of(words: &[u32]) -> usize {
    let [blocks, cases] = [LIMITS[0], LIMITS[2]];
    let count = words.get(1).map_or(0, |count| *count.min(&blocks)) as usize;
    let rows = words.get(HEAD_WORDS..).unwrap_or_default().as_chunks::<BLOCK_WORDS>().0;
    let named = |row: &[u32; BLOCK_WORDS]| match Block::of_row(row).map(|block| block.ending) {
        Some(Ending::Switch { cases: count, .. }) => 1 + count.min(cases) as usize,
        Some(ending) => ending.blocks().count(),
        None => 0, // it is refused
    };
    ENDS + LINE * rows.iter().take(count).map(named).sum::<usize>()
}

/// The text, in a buffer that the table needs.
pub fn text(words: &[u32]) -> Result<String, Refusal> {
    let mut text = vec![0; largest_of(words)];
    let drawn = draw(words, &mut text);
    if drawn.code != 0 {
        return Err(Refusal { code: drawn.code, at: drawn.at });
    }
    text.truncate(drawn.length);
    Ok(String::from_utf8(text).expect("the text is ASCII"))
}

#[cfg(test)]
mod tests {
    use super::*;
    use crate::table::{BlockRow, Case, Ending, IdentifierRow, PlaceRow, Table};

    #[test]
    fn what_is_lent_holds_the_largest_drawing() {
        let mut table = Table { places: vec![IdentifierRow(0)], identifiers: vec![false], ..Table::default() };
        table.cases = vec![Case { test: None, block: BlockRow(1_023) }; 1_024];
        for block in 0..1_024 {
            let switch = Ending::Switch { test: PlaceRow(0), first_case: 0, cases: 1_024, fallthrough: BlockRow(block) };
            table.block(&[], switch, 0, None);
        }
        assert_eq!(largest_of(&table.words()), LARGEST);
        assert_eq!(text(&table.words()).map(|text| text.lines().count()), Ok(1_049_602));
        let small = Table { places: vec![IdentifierRow(0)], identifiers: vec![false], ..Table::default() };
        assert_eq!(largest_of(&small.words()), 14);
    }
}
