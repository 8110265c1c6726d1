//! The seam for the proved library. With the feature `candidate` the comparisons and the vectors run it on every table, and hold its
//! answers against the reference or the model. It is called through the safe wrappers of ffi/rust, which find the archive (`libreactive.a`)
//! in the folder that REACTIVE_BUILD_DIR names.

use crate::model::Outcome;
use crate::model::convert::Placed;
use crate::model::dot::Drawn;
use crate::model::order::Moved;
use crate::model::text::WordsRead;
use crate::model::tree_run::Ran;

/// Words; the tree buffer and the index lent.
pub type Candidate = fn(&[u32], &mut [u32], &mut [u32]) -> Outcome;

/// M-106: the words alone.
pub type CandidatePreview = fn(&[u32]) -> Outcome;

/// Code and place.
pub type CandidateCheck = fn(&[u32]) -> (u32, u32);

pub type CandidatePlain = fn(&[u32]) -> Result<usize, (u32, u32)>;
pub type CandidateDot = fn(&[u32], &mut [u8]) -> Drawn;

/// The writer, the two converters, and the reader.
#[derive(Clone, Copy)]
pub struct CandidateConvert {
    pub write: fn(&[u32], &mut [u8]) -> Placed,
    pub old_to_new: fn(&[u8], &mut [u8]) -> Placed,
    pub new_to_old: fn(&[u8], &mut [u8]) -> Placed,
    pub read: fn(&[u8], &mut [u32]) -> WordsRead,
}
/// The rearrangement, and the inverse.
pub type CandidateOrder = (fn(&[u32], &mut [u32], &mut [u32]) -> Moved, fn(&[u32], &[u32], &mut [u32]) -> Moved);
/// Tree, answers, the buffer lent.
pub type CandidateRun = fn(&[u32], &[u32], &mut [u32]) -> Ran;

#[cfg(not(feature = "candidate"))]
pub const CANDIDATE: Option<Candidate> = None;

#[cfg(feature = "candidate")]
pub const CANDIDATE: Option<Candidate> = Some(build);

/// The language entry of M-102.
#[cfg(not(feature = "candidate"))]
pub const CANDIDATE_LANGUAGE: Option<Candidate> = None;

#[cfg(feature = "candidate")]
pub const CANDIDATE_LANGUAGE: Option<Candidate> = Some(build_language);

#[cfg(not(feature = "candidate"))]
pub const CANDIDATE_CHECK: Option<CandidateCheck> = None;

#[cfg(feature = "candidate")]
pub const CANDIDATE_CHECK: Option<CandidateCheck> = Some(check);

#[cfg(feature = "candidate")]
fn build(words: &[u32], buffer: &mut [u32], index: &mut [u32]) -> Outcome {
    outcome(reactive_build::build(words, buffer, index))
}

#[cfg(feature = "candidate")]
fn build_language(words: &[u32], buffer: &mut [u32], index: &mut [u32]) -> Outcome {
    outcome(reactive_build::build_language(words, buffer, index))
}

#[cfg(feature = "candidate")]
fn outcome(outcome: reactive_build::Outcome) -> Outcome {
    let reactive_build::Outcome { code, at, rows, visits, lines } = outcome;
    Outcome { code, at, rows, visits, lines }
}

/// The previews of both entries.
#[cfg(not(feature = "candidate"))]
pub const CANDIDATE_PREVIEWS: Option<[CandidatePreview; 2]> = None;

#[cfg(feature = "candidate")]
pub const CANDIDATE_PREVIEWS: Option<[CandidatePreview; 2]> = Some([
    |words| outcome(reactive_build::preview::preview(words)),
    |words| outcome(reactive_build::preview::preview_language(words)),
]);

#[cfg(feature = "candidate")]
fn check(words: &[u32]) -> (u32, u32) {
    let reactive_build::table_check::Checked { code, at } = reactive_build::table_check::check(words);
    (code, at)
}

/// `table_plain`: the number of the first run law that speaks of the table (0 none), or the check's refusal.
#[cfg(not(feature = "candidate"))]
pub const CANDIDATE_PLAIN: Option<CandidatePlain> = None;

#[cfg(feature = "candidate")]
pub const CANDIDATE_PLAIN: Option<CandidatePlain> = Some(plain);

#[cfg(feature = "candidate")]
fn plain(words: &[u32]) -> Result<usize, (u32, u32)> {
    use reactive_build::plain::{Law, law};
    let laws = [Law::None, Law::Plain, Law::Switches, Law::Loops];
    match law(words) {
        Ok(found) => Ok(laws.iter().position(|law| *law == found).unwrap()),
        Err(refusal) => Err((refusal.code, refusal.at)),
    }
}

#[cfg(not(feature = "candidate"))]
pub const CANDIDATE_DOT: Option<CandidateDot> = None;

#[cfg(feature = "candidate")]
pub const CANDIDATE_DOT: Option<CandidateDot> = Some(draw);

#[cfg(feature = "candidate")]
fn draw(words: &[u32], text: &mut [u8]) -> Drawn {
    let reactive_build::dot::Drawn { code, at, length } = reactive_build::dot::draw(words, text);
    Drawn { code, at, length }
}

#[cfg(not(feature = "candidate"))]
pub const CANDIDATE_TREE_CHECK: Option<CandidateCheck> = None;

#[cfg(feature = "candidate")]
pub const CANDIDATE_TREE_CHECK: Option<CandidateCheck> = Some(check_tree);

#[cfg(feature = "candidate")]
fn check_tree(tree: &[u32]) -> (u32, u32) {
    let reactive_build::tree_check::Checked { code, at } = reactive_build::tree_check::check(tree);
    (code, at)
}

/// What a lookup gives: the numbers, and the part of the caller's tree.
#[derive(Debug, PartialEq, Eq)]
pub struct Looked<'a> {
    pub code: u32,
    pub at: u32,
    pub begin: usize,
    pub end: usize,
    pub part: &'a [u32],
}

pub type CandidateLookup = for<'a> fn(&[u32], u32, u32, &'a [u32]) -> Looked<'a>;

#[cfg(not(feature = "candidate"))]
pub const CANDIDATE_LOOKUP: Option<CandidateLookup> = None;

#[cfg(feature = "candidate")]
pub const CANDIDATE_LOOKUP: Option<CandidateLookup> = Some(look_up);

#[cfg(feature = "candidate")]
fn look_up<'a>(index: &[u32], lines: u32, label: u32, tree: &'a [u32]) -> Looked<'a> {
    use reactive_build::lookup::{Found, find, lookup};
    let Found { code, at, begin, end } = find(index, lines, label, tree);
    let part = lookup(index, lines, label, tree).unwrap_or_default();
    Looked { code, at, begin, end, part }
}

#[cfg(not(feature = "candidate"))]
pub const CANDIDATE_CONVERT: Option<CandidateConvert> = None;

#[cfg(feature = "candidate")]
pub const CANDIDATE_CONVERT: Option<CandidateConvert> = Some(CandidateConvert {
    write: |words, text| placed(reactive_build::convert::write(words, text)),
    old_to_new: |file, text| placed(reactive_build::convert::old_to_new(file, text)),
    new_to_old: |file, text| placed(reactive_build::convert::new_to_old(file, text)),
    read: |file, words| {
        let reactive_build::convert::WordsRead { code, at, count } = reactive_build::convert::read(file, words);
        WordsRead { code, at, count }
    },
});

#[cfg(feature = "candidate")]
fn placed(placed: reactive_build::convert::Placed) -> Placed {
    let reactive_build::convert::Placed { code, at, length } = placed;
    Placed { code, at, length }
}

#[cfg(not(feature = "candidate"))]
pub const CANDIDATE_ORDER: Option<CandidateOrder> = None;

#[cfg(feature = "candidate")]
pub const CANDIDATE_ORDER: Option<CandidateOrder> = Some((rearrange, restore));

#[cfg(feature = "candidate")]
fn rearrange(words: &[u32], new_words: &mut [u32], old_numbers: &mut [u32]) -> Moved {
    let reactive_build::order::Moved { code, at } = reactive_build::order::rearrange(words, new_words, old_numbers);
    Moved { code, at }
}

#[cfg(feature = "candidate")]
fn restore(words: &[u32], old_numbers: &[u32], first_words: &mut [u32]) -> Moved {
    let reactive_build::order::Moved { code, at } = reactive_build::order::restore(words, old_numbers, first_words);
    Moved { code, at }
}

#[cfg(not(feature = "candidate"))]
pub const CANDIDATE_TREE_RUN: Option<CandidateRun> = None;

#[cfg(feature = "candidate")]
pub const CANDIDATE_TREE_RUN: Option<CandidateRun> = Some(run_tree);

#[cfg(feature = "candidate")]
fn run_tree(tree: &[u32], answers: &[u32], performed: &mut [u32]) -> Ran {
    let reactive_build::tree_run::Ran { code, at, number, reason } = reactive_build::tree_run::run(tree, answers, performed);
    Ran { code, at, number, reason }
}
