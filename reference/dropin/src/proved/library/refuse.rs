//! A refusal as the Rust's diagnostic, from its code, its place and the function. The Rust labels the message of code 24
//! with the span of the terminal that asked for the value, which the place does not tell: this one has no label.

use std::mem::discriminant;

use reactive_build::{Refusal, code};

use super::lower::Lowered;
use super::{Failed, Outside};
use crate::diagnostics::ErrorCategory;
use crate::react_compiler_hir::{BlockId, HirFunction, Terminal};

/// In the order of the codes.
pub fn failed(refusal: Refusal, lowered: &Lowered, hir: &HirFunction) -> Failed {
    let Refusal { code, at } = refusal;
    let block = || lowered.blocks[at as usize];
    let bb = || block().index();
    let message = match code {
        code::EMITTED => format!("Block bb{} was already emitted", bb()),
        code::CONSEQUENT_SCHEDULED => {
            format!("Unexpected 'if' where consequent is already scheduled (bb{})", bb())
        }
        code::ALTERNATE_SCHEDULED => {
            format!("Unexpected 'if' where the alternate is already scheduled (bb{})", bb())
        }
        code::CASE_SCHEDULED => {
            "Unexpected 'switch' where a case is already scheduled and block is not the fallthrough"
                .into()
        }
        code::CONTINUE_SCHEDULED => format!("Continue block is already scheduled: bb{}", bb()),
        code::LOOP_SCHEDULED => format!(
            "Unexpected '{}' where the loop is already scheduled",
            name(terminal(hir, block()))
        ),
        code::LABEL_SCHEDULED => "Unexpected 'label' where the block is already scheduled".into(),
        code::SCOPE_SCHEDULED => "Unexpected 'scope' where the block is already scheduled".into(),
        code::BRANCH_SCHEDULED => {
            "Unexpected 'branch' where the alternate is already scheduled".into()
        }
        code::NO_BREAK_TARGET => format!("Expected a break target for bb{}", bb()),
        code::NO_CONTINUE_TARGET => {
            format!("Expected continue target to be scheduled for bb{}", bb())
        }
        code::SCOPE_BREAK => "Expected reactive scope to implicitly break to fallthrough".into(),
        code::FALLTHROUGH_REACHED => {
            format!("Did not expect to reach the fallthrough of a value block (bb{})", bb())
        }
        code::EMPTY_GOTO => "Unexpected empty block with `goto` terminal".into(),
        code::TEST_WITHOUT_BRANCH => test_without_branch(hir, block()),
        code::LABEL_IN_VALUE => {
            "Support labeled statements combined with value blocks is not yet implemented".into()
        }
        code::NOT_A_VALUE => "Unsupported terminal kind in value block".into(),
        _ => return Outside::Code(refusal).into(),
    };
    let category =
        if code == code::LABEL_IN_VALUE { ErrorCategory::Todo } else { ErrorCategory::Invariant };
    let diagnostic = category.diagnostic(message);
    Failed::Refused(match code {
        code::EMPTY_GOTO => diagnostic.with_help(format!("Block bb{} is empty", bb())),
        _ => diagnostic,
    })
}

/// The Rust says which terminal it met by the terminal's number in its own enum.
fn test_without_branch(hir: &HirFunction, block: BlockId) -> String {
    let value = terminal(hir, block);
    let test = match value {
        Terminal::Logical { test, .. }
        | Terminal::Ternary { test, .. }
        | Terminal::Optional { test, .. } => *test,
        _ => unreachable!("only these have a test"),
    };
    let met = discriminant(terminal(hir, last_of_value(hir, test)));
    format!("Expected a branch terminal for {} test block, got {met:?}", name(value))
}

/// The block in which a value ends.
fn last_of_value(hir: &HirFunction, mut block: BlockId) -> BlockId {
    loop {
        block = match terminal(hir, block) {
            Terminal::Logical { fallthrough, .. }
            | Terminal::Ternary { fallthrough, .. }
            | Terminal::Optional { fallthrough, .. }
            | Terminal::Sequence { fallthrough, .. } => *fallthrough,
            Terminal::MaybeThrow { continuation, .. } => *continuation,
            _ => return block,
        }
    }
}

fn terminal<'h, 'a>(hir: &'h HirFunction<'a>, block: BlockId) -> &'h Terminal<'a> {
    &hir.body.blocks.get(&block).expect("the build went through it").terminal
}

/// What the Rust's messages call it.
fn name(terminal: &Terminal) -> &'static str {
    match terminal {
        Terminal::DoWhile { .. } => "do-while",
        Terminal::While { .. } => "while",
        Terminal::For { .. } => "for",
        Terminal::ForOf { .. } => "for-of",
        Terminal::ForIn { .. } => "for-in",
        Terminal::Logical { .. } => "logical",
        Terminal::Ternary { .. } => "ternary",
        Terminal::Optional { .. } => "optional",
        _ => unreachable!("no message names another"),
    }
}
