//! A statement of a tree by its label.

use crate::Refusal;
use std::ffi::c_uint;

pub use crate::LINE_WORDS;

/// Where a statement stands in the tree: from the word `begin` to before the word `end`.
#[derive(Clone, Copy, Debug, PartialEq, Eq)]
pub struct Found {
    /// 0, or 42 or 43 of [`code`](crate::code).
    pub code: u32,
    /// 0.
    pub at: u32,
    /// The first word of its first row; refused 0.
    pub begin: usize,
    /// The word after its closing row; refused 0.
    pub end: usize,
}

unsafe extern "C" {
    fn reactive_tree_lookup(
        index: *const u32,
        index_length: usize,
        lines: u32,
        label: u32,
        tree: *const u32,
        tree_length: usize,
        at: *mut u32,
        begin: *mut usize,
        end: *mut usize,
    ) -> c_uint;
}

/// Where the rows of the statement are that has the label. Index and tree are of any content and length;
/// `lines` is the number of lines that the build gave.
pub fn find(index: &[u32], lines: u32, label: u32, tree: &[u32]) -> Found {
    let (mut at, mut begin, mut end) = (0, 0, 0);
    // SAFETY: slices give pointers that are not null, aligned and valid for their lengths; the three
    // results are borrowed for this call alone. The function reads and writes nothing else.
    let code = unsafe {
        reactive_tree_lookup(index.as_ptr(), index.len(), lines, label, tree.as_ptr(), tree.len(), &mut at, &mut begin, &mut end)
    };
    Found { code, at, begin, end }
}

/// The statement's own rows, a part of the caller's tree: 42 where no line has the label, 43 where the
/// first line that has it does not tell rows of this tree.
///
/// ```
/// use reactive_build::lookup::lookup;
///
/// let rows = [[9, 0, 0, 0, 0, 0], [18, 1, 3, 0, 0, 0], [9, 1, 0, 0, 0, 0]]; // BLOCK, LABEL with label 3, BLOCK
/// let index = [3, 0, 1]; // label 3: from row 0 to its closing row 1
/// assert_eq!(lookup(&index, 1, 3, rows.as_flattened())?, rows[..2].as_flattened());
/// assert_eq!(lookup(&index, 1, 4, rows.as_flattened()).unwrap_err().to_string(), "42: No line of the index has the label.");
/// # Ok::<(), reactive_build::Refusal>(())
/// ```
pub fn lookup<'a>(index: &[u32], lines: u32, label: u32, tree: &'a [u32]) -> Result<&'a [u32], Refusal> {
    match find(index, lines, label, tree) {
        Found { code: 0, begin, end, .. } => Ok(&tree[begin..end]),
        Found { code, at, .. } => Err(Refusal { code, at }),
    }
}
