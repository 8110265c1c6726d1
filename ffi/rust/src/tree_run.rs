//! A tree run on paper: which instruction rows it performs for given answers, and why it stops.

use crate::Refusal;
use std::ffi::c_uint;

/// What a run gives beside the instruction rows.
#[derive(Clone, Copy, Debug, PartialEq, Eq)]
pub struct Ran {
    /// 0, or one of [`code`](crate::code): 60 to 65.
    pub code: u32,
    /// The row refused; 0 where there is none.
    pub at: u32,
    /// How many instruction rows were performed; refused 0.
    pub number: usize,
    /// Why it stopped: 1 [`Reason::Return`], 2 [`Reason::Throw`], 3 [`Reason::EndOfTree`], 4 [`Reason::NoAnswerLeft`]; refused 0.
    pub reason: u32,
}

/// Why a run stopped.
#[derive(Clone, Copy, Debug, PartialEq, Eq)]
pub enum Reason {
    /// It came to a RETURN.
    Return,
    /// It came to a THROW.
    Throw,
    /// It came to the end of the tree.
    EndOfTree,
    /// It came to a question, and no answer was left.
    NoAnswerLeft,
}

unsafe extern "C" {
    fn reactive_tree_run(
        tree: *const u32,
        tree_length: usize,
        answers: *const u32,
        answers_length: usize,
        performed: *mut u32,
        performed_length: usize,
        at: *mut u32,
        number: *mut usize,
        reason: *mut u32,
    ) -> c_uint;
}

/// Runs a list of rows, words of any content and number: `performed` has the rows performed, then zeros, and all zeros where the run is
/// refused. One answer for each IF, WHILE, FOR and DOWHILE that asks, 0 being no; for a SWITCH the place of the case in source order.
pub fn run(tree: &[u32], answers: &[u32], performed: &mut [u32]) -> Ran {
    let (mut at, mut number, mut reason) = (0, 0, 0);
    // SAFETY: slices give pointers that are not null, aligned and valid for their lengths; `performed` and the three numbers are borrowed
    // for this call alone. The function reads and writes nothing else.
    let code = unsafe {
        reactive_tree_run(
            tree.as_ptr(),
            tree.len(),
            answers.as_ptr(),
            answers.len(),
            performed.as_mut_ptr(),
            performed.len(),
            &mut at,
            &mut number,
            &mut reason,
        )
    };
    Ran { code, at, number, reason }
}

/// The same as a result: the rows performed, and why the run stopped.
///
/// ```
/// use reactive_build::tree_run::{Reason, performs};
///
/// // PLAIN of instruction 5, its INSTR, RETURN, and the BLOCK of the two
/// let rows = [[1, 5, 0, 0, 0, 0], [4, 1, 0, 0, 0, 0], [22, 0, 2, 0, 0, 0], [9, 2, 0, 0, 0, 0]];
/// let mut performed = [0; 8];
/// assert_eq!(performs(rows.as_flattened(), &[], &mut performed)?, (&[5][..], Reason::Return));
/// # Ok::<(), reactive_build::Refusal>(())
/// ```
pub fn performs<'p>(tree: &[u32], answers: &[u32], performed: &'p mut [u32]) -> Result<(&'p [u32], Reason), Refusal> {
    let Ran { code, at, number, reason } = run(tree, answers, performed);
    let reason = match (code, reason) {
        (0, 1) => Reason::Return,
        (0, 2) => Reason::Throw,
        (0, 3) => Reason::EndOfTree,
        (0, _) => Reason::NoAnswerLeft,
        _ => return Err(Refusal { code, at }),
    };
    Ok((&performed[..number], reason))
}
