//! The text of a table (docs/FORMAT.md), written and read, and texts of the old form, with one span column, into the new one and back.

use crate::Refusal;
use crate::text::{place, writers};
use std::ffi::c_uint;

pub use crate::text::Placed;

/// So many bytes hold the new text of any old file.
pub const NEW_LARGEST: usize = 65_542;

/// So many bytes hold the old text of any new file.
pub const OLD_LARGEST: usize = 32_768;

writers! { reactive_table_write: u32, reactive_table_old_to_new: u8, reactive_table_new_to_old: u8 }

// SAFETY of the three calls: the exports read and write nothing but what they are handed.

/// Writes a table's words into a lent buffer, both of any content and length. The buffer then holds the
/// text and after it zeros; zeros alone if refused, 53 if the text does not fit.
pub fn write(words: &[u32], text: &mut [u8]) -> Placed {
    unsafe { place(reactive_table_write, words, text) }
}

/// A file of the old form in the new one: a span s becomes from s and to s.
pub fn old_to_new(file: &[u8], text: &mut [u8]) -> Placed {
    unsafe { place(reactive_table_old_to_new, file, text) }
}

/// A file of the new form in the old one; 52 where the ends of a span differ.
pub fn new_to_old(file: &[u8], text: &mut [u8]) -> Placed {
    unsafe { place(reactive_table_new_to_old, file, text) }
}

/// So many words hold those of any file.
pub const MOST_WORDS: usize = 16_384;

/// What a reading gives beside the words.
#[derive(Clone, Copy, Debug, PartialEq, Eq)]
pub struct WordsRead {
    /// 0, or 50, 51 or 54 of [`code`](crate::code).
    pub code: u32,
    /// Refused 50 the byte of the file, else 0.
    pub at: u32,
    /// How many words the file has; refused 0.
    pub count: usize,
}

unsafe extern "C" {
    fn reactive_table_read(
        file: *const u8,
        file_length: usize,
        words: *mut u32,
        word_count: usize,
        at: *mut u32,
        count: *mut usize,
    ) -> c_uint;
}

/// Reads a table's file into lent words, both of any content and length. They then hold the file's words and
/// after them zeros; zeros alone if refused, 54 if there are more words than were lent. That the words are a
/// table is not checked: what takes them does.
pub fn read(file: &[u8], words: &mut [u32]) -> WordsRead {
    let (mut at, mut count) = (0, 0);
    // SAFETY: slices give pointers that are not null, aligned and valid for their lengths; `words` and the two
    // results are borrowed for this call alone. The function reads and writes nothing else.
    let code = unsafe { reactive_table_read(file.as_ptr(), file.len(), words.as_mut_ptr(), words.len(), &mut at, &mut count) };
    WordsRead { code, at, count }
}

/// The words of a table's file in memory of their own; 51 or 50 if it is not in the form.
///
/// ```
/// use reactive_build::convert::read_table;
/// use reactive_build::{Refusal, code, rows};
///
/// let file = b"entry blocks instructions cases places identifiers\n0 1 0 0 1 1\n\
///     first count code a b c d e id from to\n0 0 3 0 0 0 0 0 7 0 0\n\
///     id lvalue code p q from to\ntest block\nidentifier\n0\nnamed\n1\n";
/// let words = read_table(file)?;
/// assert_eq!(words, [0, 1, 0, 0, 1, 1, 0, 0, 3, 0, 0, 0, 0, 0, 7, 0, 0, 0, 1]);
/// assert_eq!(rows(&words)?, [[22, 0, 7, 0, 0, 0], [9, 1, 0, 0, 0, 0]]);
///
/// assert_eq!(read_table(b"entry x"), Err(Refusal { code: code::FORM, at: 6 }));
/// # Ok::<(), Refusal>(())
/// ```
pub fn read_table(file: &[u8]) -> Result<Vec<u32>, Refusal> {
    // Each word takes two bytes at least.
    let mut words = vec![0; (file.len() / 2).min(MOST_WORDS)];
    let WordsRead { code, at, count } = read(file, &mut words);
    if code != 0 {
        return Err(Refusal { code, at });
    }
    words.truncate(count);
    Ok(words)
}
