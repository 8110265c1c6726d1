//! Whether a list of rows reads as one tree.

use crate::Refusal;
pub use crate::refusal::Checked;
use std::ffi::c_uint;

unsafe extern "C" {
    fn reactive_tree_check(tree: *const u32, tree_length: usize, at: *mut u32) -> c_uint;
}

/// Checks a list of rows, words of any content and number. Of a buffer that was lent to the build hand
/// over the rows alone, `&tree[..6 * rows]`: the zeros after them are no rows.
pub fn check(tree: &[u32]) -> Checked {
    let mut at = 0;
    // SAFETY: a slice gives a pointer that is not null, aligned and valid for its length; `at` is borrowed for this
    // call alone. The function reads and writes nothing else.
    let code = unsafe { reactive_tree_check(tree.as_ptr(), tree.len(), &mut at) };
    Checked { code, at }
}

/// The same as a result.
///
/// ```
/// use reactive_build::tree_check::is_tree;
/// use reactive_build::{Refusal, code};
///
/// let rows = [[22, 0, 7, 0, 0, 0], [9, 1, 0, 0, 0, 0]]; // RETURN, and the BLOCK of it
/// assert_eq!(is_tree(rows.as_flattened()), Ok(()));
/// assert_eq!(is_tree(&rows[0]), Err(Refusal { code: code::NOT_ONE_TREE, at: 0 }));
/// ```
pub fn is_tree(tree: &[u32]) -> Result<(), Refusal> {
    check(tree).result()
}
