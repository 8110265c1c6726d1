//! A table's blocks in walking order, and the inverse.

use crate::Refusal;
use std::ffi::c_uint;

/// What a rearrangement gives beside the buffers.
#[derive(Clone, Copy, Debug, PartialEq, Eq)]
pub struct Moved {
    /// 0, or one of [`code`](crate::code): 1 to 4, 45 or 46.
    pub code: u32,
    /// The refusal's place ([`Refusal::at_counts`]); 0 where there is none.
    pub at: u32,
}

/// A table in walking order.
#[derive(Clone, Debug, PartialEq, Eq)]
pub struct Rearranged {
    /// Its words.
    pub words: Vec<u32>,
    /// Of each of its blocks: the block's number in the first table.
    pub old_numbers: Vec<u32>,
}

unsafe extern "C" {
    fn reactive_blocks_rearrange(
        words: *const u32,
        word_count: usize,
        new_words: *mut u32,
        new_word_count: usize,
        old_numbers: *mut u32,
        old_number_count: usize,
        at: *mut u32,
    ) -> c_uint;

    fn reactive_blocks_restore(
        words: *const u32,
        word_count: usize,
        old_numbers: *const u32,
        old_number_count: usize,
        first_words: *mut u32,
        first_word_count: usize,
        at: *mut u32,
    ) -> c_uint;
}

/// Rearranges a table into two lent buffers, all of any content and length: as many words as the table
/// has, and as many as it has blocks. If refused, both hold zeros.
pub fn rearrange(words: &[u32], new_words: &mut [u32], old_numbers: &mut [u32]) -> Moved {
    let mut at = 0;
    // SAFETY: slices give pointers that are not null, aligned and valid for their lengths; the outputs
    // and the result are borrowed for this call alone. The function reads and writes nothing else.
    let code = unsafe {
        reactive_blocks_rearrange(
            words.as_ptr(),
            words.len(),
            new_words.as_mut_ptr(),
            new_words.len(),
            old_numbers.as_mut_ptr(),
            old_numbers.len(),
            &mut at,
        )
    };
    Moved { code, at }
}

/// Gives every block of a table its old number in the list. The lent buffer has as many words as the
/// table; if refused, it holds zeros.
pub fn restore(words: &[u32], old_numbers: &[u32], first_words: &mut [u32]) -> Moved {
    let mut at = 0;
    // SAFETY: as above.
    let code = unsafe {
        reactive_blocks_restore(
            words.as_ptr(),
            words.len(),
            old_numbers.as_ptr(),
            old_numbers.len(),
            first_words.as_mut_ptr(),
            first_words.len(),
            &mut at,
        )
    };
    Moved { code, at }
}

/// The table rearranged, in buffers of the lengths needed.
///
/// ```
/// use reactive_build::order::{rearranged, restored};
/// use reactive_build::table::{BlockRow, Ending, Table, Variant};
///
/// let mut table = Table { entry: BlockRow(1), ..Table::default() };
/// table.block(&[], Ending::Unreachable, 2, None);
/// table.block(&[], Ending::Goto { block: BlockRow(0), variant: Variant::Break }, 1, None);
/// let walked = rearranged(&table.words())?;
/// assert_eq!(walked.old_numbers, [1, 0]);
/// assert_eq!(restored(&walked)?, table.words());
/// # Ok::<(), reactive_build::Refusal>(())
/// ```
pub fn rearranged(words: &[u32]) -> Result<Rearranged, Refusal> {
    // No table that is accepted has more blocks, and a refused one needs none.
    let blocks = words.get(1).map_or(0, |blocks| (*blocks).min(1_024) as usize);
    let mut result = Rearranged { words: vec![0; words.len()], old_numbers: vec![0; blocks] };
    match rearrange(words, &mut result.words, &mut result.old_numbers) {
        Moved { code: 0, .. } => Ok(result),
        Moved { code, at } => Err(Refusal { code, at }),
    }
}

/// The first table, from one rearranged.
pub fn restored(rearranged: &Rearranged) -> Result<Vec<u32>, Refusal> {
    let mut words = vec![0; rearranged.words.len()];
    match restore(&rearranged.words, &rearranged.old_numbers, &mut words) {
        Moved { code: 0, .. } => Ok(words),
        Moved { code, at } => Err(Refusal { code, at }),
    }
}
