//! The library alone: the function's HIR to words (`lower`), the build, its rows to the tree (`raise`), a refusal to the
//! Rust's diagnostic (`refuse`). The package's docs/FROM-YOUR-HIR.md tells what is numbered, and the limits.

pub mod lower;
pub mod raise;
mod refuse;

use std::error::Error;
use std::fmt::{self, Display, Formatter};

use lower::Lowered;
use oxc_diagnostics::OxcDiagnostic;
use reactive_build::Refusal;

use crate::react_compiler_hir::environment::Environment;
use crate::react_compiler_hir::{HirFunction, ReactiveFunction};

/// Why there is no tree.
#[derive(Debug)]
pub enum Failed {
    /// What the Rust says of this function, but for the label of one message (`refuse`).
    Refused(OxcDiagnostic),
    /// The library does not serve this function. The Rust may: call it instead.
    Outside(Outside),
}

/// Why the library does not serve a function.
#[derive(Clone, Copy, Debug, PartialEq, Eq)]
pub enum Outside {
    /// A refusal that no diagnostic of the Rust goes with: a limit of the library (2, 4, 30, 31), a block that is not
    /// there (10) or a value without an instruction (28), where the Rust panics; and, by the language's rule alone, a
    /// jump without its label (29).
    Code(Refusal),
    /// A block's or an identifier's id is 2^20 or above.
    LargeId,
    /// A block stands in the map under another's id. Where the Rust names it, it has its own.
    OtherId,
    /// A block has an instruction that the function has not. The Rust panics, if it comes there.
    NoInstruction,
    /// An identifier is stored to that the environment has not. The Rust panics, if it asks for its name.
    NoIdentifier,
}

impl Display for Outside {
    fn fmt(&self, out: &mut Formatter) -> fmt::Result {
        out.write_str("outside the library: ")?;
        match self {
            Self::Code(refusal) => write!(out, "{refusal}"),
            Self::LargeId => {
                out.write_str("the id of a block or of an identifier is 1,048,576 or above")
            }
            Self::OtherId => out.write_str("a block stands in the map under another's id"),
            Self::NoInstruction => {
                out.write_str("a block has an instruction that the function has not")
            }
            Self::NoIdentifier => {
                out.write_str("an identifier is stored to that the environment has not")
            }
        }
    }
}

impl Error for Outside {}

impl From<Outside> for Failed {
    fn from(outside: Outside) -> Self {
        Self::Outside(outside)
    }
}

/// The tree that the Rust's `build_reactive_function` gives, or its diagnostic; or that the library does not serve this function.
pub fn build_reactive_function<'a>(
    hir: &HirFunction<'a>,
    env: &Environment<'a>,
) -> Result<ReactiveFunction<'a>, Failed> {
    built(reactive_build::rows, hir, env)
}

/// The same by the language's rule: a break to a loop is Labeled also where a switch stands between, and every Labeled
/// jump names a label that is there.
pub fn build_reactive_function_language<'a>(
    hir: &HirFunction<'a>,
    env: &Environment<'a>,
) -> Result<ReactiveFunction<'a>, Failed> {
    built(reactive_build::rows_language, hir, env)
}

type Build = fn(&[u32]) -> Result<Vec<[u32; 6]>, Refusal>;

fn built<'a>(
    build: Build,
    hir: &HirFunction<'a>,
    env: &Environment<'a>,
) -> Result<ReactiveFunction<'a>, Failed> {
    let lowered = Lowered::of(hir, env)?;
    let rows = build(&lowered.words).map_err(|refusal| refuse::failed(refusal, &lowered, hir))?;
    Ok(ReactiveFunction {
        span: hir.span,
        id: hir.id,
        name_hint: hir.name_hint,
        params: hir.params.iter().copied().collect(),
        generator: hir.generator,
        is_async: hir.is_async,
        body: raise::raise(&rows, &lowered, hir, env),
        directives: hir.directives.iter().copied().collect(),
    })
}
