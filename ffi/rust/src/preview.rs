//! What a build will need, told beforehand.

use crate::tree::Row;
use crate::{LINE_WORDS, Outcome, ROW_WORDS, Refusal, build, build_language};
use std::ffi::c_uint;

entries! { Entry = reactive_preview, reactive_preview_language: (
    words: *const u32,
    word_count: usize,
    at: *mut u32,
    rows: *mut u32,
    visits: *mut u32,
    lines: *mut u32,
) }

/// What `build` gives of these words where both buffers are large enough: never 40 or 41.
pub fn preview(words: &[u32]) -> Outcome {
    preview_by(reactive_preview, words)
}

/// The same of `build_language`.
pub fn preview_language(words: &[u32]) -> Outcome {
    preview_by(reactive_preview_language, words)
}

fn preview_by(entry: Entry, words: &[u32]) -> Outcome {
    let (mut at, mut rows, mut visits, mut lines) = (0, 0, 0, 0);
    // SAFETY: a slice gives a pointer that is not null, aligned and valid for its length; the four results
    // are borrowed for this call alone. The function reads and writes nothing else.
    let code = unsafe { entry(words.as_ptr(), words.len(), &mut at, &mut rows, &mut visits, &mut lines) };
    Outcome { code, at, rows, visits, lines }
}

/// A tree with its index, in memory of just their size.
#[derive(Clone, Debug, PartialEq, Eq)]
pub struct Tree {
    /// The rows, as [`rows`](crate::rows) gives them and [`Nodes::of`](crate::tree::Nodes::of) takes them.
    pub rows: Vec<Row>,
    /// The words of the index.
    pub index: Vec<u32>,
    /// How many lines the index has.
    pub lines: u32,
    /// How many visits the walk had.
    pub visits: u32,
}

/// Previews, takes just enough memory and builds.
///
/// ```
/// use reactive_build::table::{Ending, Table};
/// use reactive_build::tree::Nodes;
///
/// let mut table = Table::default();
/// let named = table.identifier(true);
/// let value = table.place(named);
/// table.block(&[], Ending::Return { value }, 7, None);
/// let tree = reactive_build::preview::tree(&table.words())?;
/// assert_eq!(Nodes::of(&tree.rows)?.to_string(), "1  BLOCK of 1\n0    RETURN place 0, id 7\n");
/// # Ok::<(), reactive_build::Refusal>(())
/// ```
pub fn tree(words: &[u32]) -> Result<Tree, Refusal> {
    tree_by(preview, build, words)
}

/// The same by the language's rule.
pub fn tree_language(words: &[u32]) -> Result<Tree, Refusal> {
    tree_by(preview_language, build_language, words)
}

type Preview = fn(&[u32]) -> Outcome;
type Build = fn(&[u32], &mut [u32], &mut [u32]) -> Outcome;

fn tree_by(preview: Preview, build: Build, words: &[u32]) -> Result<Tree, Refusal> {
    let Outcome { code, at, rows, lines, visits } = preview(words);
    if code != 0 {
        return Err(Refusal { code, at });
    }
    let mut tree = vec![[0; ROW_WORDS]; rows as usize];
    let mut index = vec![0; lines as usize * LINE_WORDS];
    // The preview's numbers are the build's.
    let built = build(words, tree.as_flattened_mut(), &mut index);
    debug_assert_eq!(built.code, 0);
    Ok(Tree { rows: tree, index, lines, visits })
}
