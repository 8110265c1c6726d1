//! Blocks in words, with the names of docs/FORMAT.md. Rows in words are the crate's (`reactive_build::outline`).

use reactive_build::table::{Block, BlockRow, Case, Ending};

/// What a block ends in, without the blocks that it names.
pub fn ending(ending: &Ending) -> String {
    let name = ending.name();
    match *ending {
        Ending::Throw { value } | Ending::Return { value } => format!("{name} place {value}"),
        Ending::Goto { variant, .. } => format!("{name}, {}", variant.name()),
        Ending::If { test, .. } | Ending::Branch { test, .. } | Ending::Switch { test, .. } => format!("{name} on place {test}"),
        Ending::Logical { operator, .. } => format!("{name} {}", operator.name()),
        Ending::Optional { optional, .. } => format!("{name}, flag {}", u32::from(optional)),
        Ending::Try { binding: Some(place), .. } => format!("{name}, binding place {place}"),
        Ending::Try { binding: None, .. } => format!("{name}, no binding"),
        Ending::Scope { scope, .. } | Ending::PrunedScope { scope, .. } => format!("{name} {scope}"),
        _ => name.to_string(),
    }
}

/// The blocks that a row names, each with what it is there, in the order of the drawing's lines.
pub fn targets(ending: &Ending, cases: &[Case]) -> Vec<(String, BlockRow)> {
    let named: Vec<(&str, BlockRow)> = match *ending {
        Ending::Goto { block, .. } => vec![("block", block)],
        Ending::If { consequent, alternate, fallthrough, .. } => {
            vec![("consequent", consequent), ("alternate", alternate), ("fallthrough", fallthrough)]
        }
        Ending::Branch { consequent, alternate, .. } => vec![("consequent", consequent), ("alternate", alternate)],
        Ending::Switch { first_case, cases: count, fallthrough, .. } => {
            return switched(cases, first_case, count).chain([("fallthrough".into(), fallthrough)]).collect();
        }
        Ending::DoWhile { loop_block, test, fallthrough } => vec![("loop", loop_block), ("test", test), ("fallthrough", fallthrough)],
        Ending::While { test, loop_block, fallthrough } => vec![("test", test), ("loop", loop_block), ("fallthrough", fallthrough)],
        Ending::For { init, test, update, loop_block, fallthrough } => {
            let update = update.map(|block| ("update", block));
            let before = [("init", init), ("test", test)].into_iter().chain(update);
            before.chain([("loop", loop_block), ("fallthrough", fallthrough)]).collect()
        }
        Ending::ForOf { init, test, loop_block, fallthrough } => {
            vec![("init", init), ("test", test), ("loop", loop_block), ("fallthrough", fallthrough)]
        }
        Ending::ForIn { init, loop_block, fallthrough } => vec![("init", init), ("loop", loop_block), ("fallthrough", fallthrough)],
        Ending::Logical { test, fallthrough, .. } | Ending::Ternary { test, fallthrough } | Ending::Optional { test, fallthrough, .. } => {
            vec![("test", test), ("fallthrough", fallthrough)]
        }
        Ending::Label { block, fallthrough }
        | Ending::Sequence { block, fallthrough }
        | Ending::Scope { block, fallthrough, .. }
        | Ending::PrunedScope { block, fallthrough, .. } => vec![("block", block), ("fallthrough", fallthrough)],
        Ending::MaybeThrow { continuation } => vec![("continuation", continuation)],
        Ending::Try { block, handler, fallthrough, .. } => {
            vec![("block", block), ("handler", handler), ("fallthrough", fallthrough)]
        }
        Ending::Missing | Ending::Unreachable | Ending::Throw { .. } | Ending::Return { .. } => Vec::new(),
    };
    named.into_iter().map(|(name, block)| (name.to_string(), block)).collect()
}

fn switched(cases: &[Case], first: u32, count: u32) -> impl Iterator<Item = (String, BlockRow)> + '_ {
    cases.iter().skip(first as usize).take(count as usize).map(|case| match case.test {
        Some(place) => (format!("case place {place}"), case.block),
        None => ("default".to_string(), case.block),
    })
}

/// Which rows of the instructions a block has.
pub fn instructions(block: &Block) -> String {
    match block.count {
        0 => "no instruction".to_string(),
        1 => format!("instruction {}", block.first),
        count => format!("instructions {} to {}", block.first, block.first.0 + count - 1),
    }
}

/// "1 loop", "2 loops".
pub fn count(number: impl Into<u64>, noun: &str) -> String {
    let number = number.into();
    let plural = if number == 1 { "" } else { "s" };
    format!("{number} {noun}{plural}")
}
