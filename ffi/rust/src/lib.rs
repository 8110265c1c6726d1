//! `build_reactive_function`, proved, from Rust.
//!
//! A table of blocks goes in as words, a tree comes out as rows (docs/FORMAT.md). Any words and any buffers may be passed: a call demands
//! nothing of their content and never panics, but where its page says so.
//!
//! ```
//! use reactive_build::table::{BlockRow, Ending, Table, Variant};
//! use reactive_build::tree::{Node, Nodes};
//!
//! // while (place 0) {} return place 0
//! let mut table = Table::default();
//! let named = table.identifier(true);
//! let value = table.place(named);
//! let [test, body, after] = [1, 2, 3].map(BlockRow); // the rows that the blocks will have
//! table.entry = table.block(&[], Ending::While { test, loop_block: body, fallthrough: after }, 1, None);
//! table.block(&[], Ending::Branch { test: value, consequent: body, alternate: after }, 2, None);
//! table.block(&[], Ending::Goto { block: test, variant: Variant::Continue }, 3, None);
//! table.block(&[], Ending::Return { value }, 4, None);
//!
//! let rows = reactive_build::rows(&table.words())?;
//! let nodes = Nodes::of(&rows)?;
//! let loops = nodes.iter().filter(|node| matches!(node, Node::While { .. })).count();
//! assert_eq!(loops, 1);
//! print!("{nodes}"); // the tree in words
//! # Ok::<(), reactive_build::Refusal>(())
//! ```
//!
//! | | |
//! |---|---|
//! | [`build`], [`build_language`] | a tree and its index into lent buffers, by the Rust's rule or the language's |
//! | [`rows`], [`rows_language`] | the rows in memory of their own |
//! | [`table`], [`tree`] | tables and trees as typed values |
//! | [`outline`], [`columns`] | a tree in words; what each column of a row holds |
//! | [`Refusal`], [`code`] | why there is no answer |
//!
//! The other modules are features, all on by default. They need nothing but the one archive: to leave one out makes nothing smaller that is
//! linked.

#![deny(missing_docs)]

/// The page beside this crate: its example is run.
#[cfg(doctest)]
#[doc = include_str!("../README.md")]
pub struct ReadMe;

/// Declares the exports of the two entries (the Rust's rule and the language's), which have one signature, and its type.
macro_rules! entries {
    ($entry:ident = $($name:ident),+: $arguments:tt) => {
        type $entry = unsafe extern "C" fn $arguments -> c_uint;

        unsafe extern "C" {
            $(fn $name $arguments -> c_uint;)+
        }
    };
}

pub mod columns;
#[cfg(feature = "convert")]
pub mod convert;
#[cfg(feature = "dot")]
pub mod dot;
#[cfg(feature = "lookup")]
pub mod lookup;
#[cfg(feature = "order")]
pub mod order;
pub mod outline;
#[cfg(feature = "plain")]
pub mod plain;
#[cfg(feature = "preview")]
pub mod preview;
mod refusal;
mod rows;
pub mod table;
#[cfg(feature = "table-check")]
pub mod table_check;
#[cfg(any(feature = "convert", feature = "dot"))]
mod text;
pub mod tree;
#[cfg(feature = "tree-check")]
pub mod tree_check;
#[cfg(feature = "tree-run")]
pub mod tree_run;

pub use refusal::{CODES, Checked, Refusal, code};
use std::ffi::c_uint;

/// Words in a row of the tree: op, a, b, c, d, e. In a BREAK (24) and a CONTINUE (25) d is the number of
/// loops that the jump leaves before its target, at most 128.
pub const ROW_WORDS: usize = 6;

/// Words in a line of the index: label, first row of the statement, closing row.
pub const LINE_WORDS: usize = 3;

/// The most lines that a tree has: no two have the same label, and no label is the entry.
pub const MOST_LINES: usize = 1_023;

/// Words in a row of a table: first, count, code, a, b, c, d, e, id, from, to of a block.
pub const BLOCK_WORDS: usize = 11;

/// The same of an instruction: id, lvalue, code, p, q, from, to.
pub const INSTRUCTION_WORDS: usize = 7;

/// Where something begins and ends in the source.
#[derive(Clone, Copy, Debug, PartialEq, Eq, Hash)]
pub struct Span {
    /// Where it begins.
    pub from: u32,
    /// Where it ends; not below `from` in a table that is accepted.
    pub to: u32,
}

impl Span {
    /// The span of a row of the tree: of UNDEF, INSTR, FOROF and FORIN. 0 and 0 is none.
    pub fn of_row(row: &[u32; ROW_WORDS]) -> Option<Self> {
        match *row {
            [3, from, to, ..] | [4 | 16 | 17, _, _, from, to, _] => Self::of_words(from, to),
            _ => None,
        }
    }

    /// The span of two words. 0 and 0 is none.
    pub fn of_words(from: u32, to: u32) -> Option<Self> {
        ((from, to) != (0, 0)).then_some(Self { from, to })
    }

    /// The two words. None is 0 and 0, and so is a span from 0 to 0.
    pub fn words(span: Option<Self>) -> [u32; 2] {
        span.map_or([0; 2], |Self { from, to }| [from, to])
    }
}

/// What a build gives beside the buffers.
#[derive(Clone, Copy, Debug, PartialEq, Eq)]
pub struct Outcome {
    /// 0, or one of [`code`].
    pub code: u32,
    /// The refusal's place ([`Refusal::at_counts`]); 0 where there is none.
    pub at: u32,
    /// How many rows the tree has; refused 40 how many are needed, refused otherwise 0.
    pub rows: u32,
    /// How many visits the walk had.
    pub visits: u32,
    /// How many lines the index has; refused 0.
    pub lines: u32,
}

impl Outcome {
    /// The refusal, if it is one.
    pub fn refusal(&self) -> Option<Refusal> {
        (self.code != 0).then_some(Refusal { code: self.code, at: self.at })
    }
}

entries! { Entry = reactive_build, reactive_build_language: (
    words: *const u32,
    word_count: usize,
    tree: *mut u32,
    tree_length: usize,
    index: *mut u32,
    index_length: usize,
    at: *mut u32,
    rows: *mut u32,
    visits: *mut u32,
    lines: *mut u32,
) }

/// Builds the tree of a table into a lent buffer, and the index of its labels into another, all of any
/// content and length. The buffers then hold the rows and the lines, each with zeros after them; zeros
/// alone if refused.
pub fn build(words: &[u32], tree: &mut [u32], index: &mut [u32]) -> Outcome {
    build_by(reactive_build, words, tree, index)
}

/// The same by the language's rule: a break to a loop is Labeled also where a switch is being built
/// in between, and the label that a Labeled jump names is there; else the refusal is 29.
pub fn build_language(words: &[u32], tree: &mut [u32], index: &mut [u32]) -> Outcome {
    build_by(reactive_build_language, words, tree, index)
}

fn build_by(entry: Entry, words: &[u32], tree: &mut [u32], index: &mut [u32]) -> Outcome {
    let (mut at, mut rows, mut visits, mut lines) = (0, 0, 0, 0);
    // SAFETY: slices give pointers that are not null, aligned and valid for their lengths; `tree`, `index`
    // and the four results are borrowed for this call alone. The function reads and writes nothing else.
    let code = unsafe {
        entry(
            words.as_ptr(),
            words.len(),
            tree.as_mut_ptr(),
            tree.len(),
            index.as_mut_ptr(),
            index.len(),
            &mut at,
            &mut rows,
            &mut visits,
            &mut lines,
        )
    };
    Outcome { code, at, rows, visits, lines }
}

/// The rows of the tree.
///
/// ```
/// use reactive_build::{Refusal, code, rows};
///
/// assert_eq!(rows(&[]), Err(Refusal { code: code::WORD_COUNT, at: 0 }));
/// ```
pub fn rows(words: &[u32]) -> Result<Vec<[u32; ROW_WORDS]>, Refusal> {
    rows_by(build, words)
}

/// The same by the language's rule.
pub fn rows_language(words: &[u32]) -> Result<Vec<[u32; ROW_WORDS]>, Refusal> {
    rows_by(build_language, words)
}

/// Lends as many rows as a usual tree of so many blocks and instructions has at most; builds once more where that was short.
fn rows_by(build: fn(&[u32], &mut [u32], &mut [u32]) -> Outcome, words: &[u32]) -> Result<Vec<[u32; ROW_WORDS]>, Refusal> {
    let count = |word: usize, limit: u32| words.get(word).map_or(0, |count| (*count).min(limit)) as usize;
    let (blocks, instructions) = (count(1, table::LIMITS[0]), count(2, table::LIMITS[1]));
    // An instruction is mostly two rows (its value, INSTR), the end of a block mostly no more than three.
    let mut tree = vec![[0; ROW_WORDS]; 16 + 3 * blocks + 2 * instructions];
    // Labels are blocks, no two lines have the same one, and none is the entry's.
    let mut index = vec![0; blocks.min(MOST_LINES) * LINE_WORDS];
    let mut built = build(words, tree.as_flattened_mut(), &mut index);
    if built.code == code::ROWS_LENT {
        tree.resize(built.rows as usize, [0; ROW_WORDS]);
        built = build(words, tree.as_flattened_mut(), &mut index);
    }
    if let Some(refusal) = built.refusal() {
        return Err(refusal);
    }
    tree.truncate(built.rows as usize);
    Ok(tree)
}
