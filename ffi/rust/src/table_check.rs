//! Whether words are a table: the check that each call makes first.

use crate::Refusal;
use std::ffi::c_uint;

pub use crate::refusal::Checked;

unsafe extern "C" {
    fn reactive_table_check(words: *const u32, word_count: usize, at: *mut u32) -> c_uint;
}

/// Checks a table's words, of any content and number: 0, or 1 to 4 and the word.
///
/// ```
/// use reactive_build::table_check::{Checked, check};
///
/// assert_eq!(check(&[0; 6]), Checked { code: 3, at: 0 }); // no blocks, so that the entry is none
/// ```
pub fn check(words: &[u32]) -> Checked {
    let mut at = 0;
    // SAFETY: a slice gives a pointer that is not null, aligned and valid for its length; `at` is borrowed for this
    // call alone. The function reads and writes nothing else.
    let code = unsafe { reactive_table_check(words.as_ptr(), words.len(), &mut at) };
    Checked { code, at }
}

/// The same as a result.
pub fn is_table(words: &[u32]) -> Result<(), Refusal> {
    check(words).result()
}
