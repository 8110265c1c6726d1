//! What the run law of all terminals reads off a table: the blocks that each end names, where a value ends, which rows are seen, and in
//! which Try a block stands.

use crate::model::columns::NONE;
use crate::model::table::{BlockRow, Table};

/// What a block is to the block that names it.
#[derive(Clone, Copy, Debug, PartialEq, Eq)]
pub enum Role {
    Goto,
    Fallthrough,
    /// An arm of an If or the body of a Label or a scope.
    Arm,
    BranchArm,
    Case,
    Test,
    Init,
    Update,
    LoopBlock,
    SequenceBody,
    Continuation,
    TryBody,
    Handler,
}

/// Every block that the row names, with its role; a Switch's cases as they are listed.
pub fn names(table: &Table, row: &BlockRow) -> Vec<(Role, u32)> {
    use Role::*;
    let [_, _, code, a, b, c, d, e, ..] = *row;
    match code {
        4 => vec![(Goto, a)],
        5 => vec![(Arm, b), (Arm, c), (Fallthrough, d)],
        6 => vec![(BranchArm, b), (BranchArm, c)],
        7 => {
            let cases = (b..b + c).map(|case| (Case, table.case(case)[1]));
            cases.chain([(Fallthrough, d)]).collect()
        }
        8 => vec![(LoopBlock, a), (Test, b), (Fallthrough, c)],
        9 => vec![(Test, a), (LoopBlock, b), (Fallthrough, c)],
        10 => {
            let update = (c != NONE).then_some((Update, c));
            [(Init, a), (Test, b)].into_iter().chain(update).chain([(LoopBlock, d), (Fallthrough, e)]).collect()
        }
        11 => vec![(Init, a), (Test, b), (LoopBlock, c), (Fallthrough, d)],
        12 => vec![(Init, a), (LoopBlock, b), (Fallthrough, c)],
        13 | 15 => vec![(Test, b), (Fallthrough, c)],
        14 => vec![(Test, a), (Fallthrough, b)],
        16 | 20 | 21 => vec![(Arm, a), (Fallthrough, b)],
        17 => vec![(SequenceBody, a), (Fallthrough, b)],
        18 => vec![(Continuation, a)],
        19 => vec![(TryBody, a), (Handler, b), (Fallthrough, c)],
        _ => Vec::new(),
    }
}

pub fn named_as(table: &Table, row: &BlockRow, role: Role) -> Option<u32> {
    names(table, row).into_iter().find(|(found, _)| *found == role).map(|(_, block)| block)
}

pub fn fallthrough(table: &Table, row: &BlockRow) -> Option<u32> {
    named_as(table, row, Role::Fallthrough)
}

/// The case blocks of a Switch but for those at the end that are its own fallthrough.
pub fn proper_cases(table: &Table, row: &BlockRow) -> Vec<u32> {
    let mut cases: Vec<u32> = (row[4]..row[4] + row[5]).map(|case| table.case(case)[1]).collect();
    while cases.last() == Some(&row[6]) {
        cases.pop();
    }
    cases
}

/// A loop's parts. The test of a ForIn is its init; `again` is the block that continues the loop.
pub struct Loop {
    pub init: Option<u32>,
    pub test: u32,
    pub update: Option<u32>,
    pub body: u32,
    pub fallthrough: u32,
    pub again: u32,
}

pub fn loop_of(row: &BlockRow) -> Option<Loop> {
    let [_, _, code, a, b, c, d, e, ..] = *row;
    let plain = |test, body, again| Loop { init: None, test, update: None, body, fallthrough: c, again };
    match code {
        8 => Some(plain(b, a, b)),
        9 => Some(plain(a, b, a)),
        10 => {
            let update = (c != NONE).then_some(c);
            Some(Loop { init: Some(a), test: b, update, body: d, fallthrough: e, again: update.unwrap_or(b) })
        }
        11 => Some(Loop { init: Some(a), test: b, update: None, body: c, fallthrough: d, again: a }),
        12 => Some(plain(a, b, a)),
        _ => None,
    }
}

pub fn is_value_terminal(code: u32) -> bool {
    (13..=15).contains(&code) || code == 17
}

/// Where a value ends.
#[derive(Clone, Copy, Debug, PartialEq, Eq)]
pub struct End {
    /// Its Goto or Branch block.
    pub block: u32,
    /// The block whose last row is the value's last.
    pub last: u32,
}

/// The blocks on the way of a value walk without its nested values, and its end: nothing where the walk finds none.
pub fn way(table: &Table, start: u32) -> Option<(Vec<u32>, End)> {
    let mut blocks = Vec::new();
    let mut at = start;
    while blocks.len() <= table.words[1] as usize {
        blocks.push(at);
        let row = table.block(at);
        at = match row[2] {
            4 | 6 => return Some((blocks, End { block: at, last: at })),
            18 => {
                let next = row[3];
                let [_, count, code, ..] = *table.block(next);
                if code == 4 && count == 0 {
                    return Some((blocks, End { block: next, last: at }));
                }
                next
            }
            code if is_value_terminal(code) => fallthrough(table, row)?,
            _ => return None,
        };
    }
    None
}

/// Whether the way of a value comes to a missing block.
pub fn leads_to_missing(table: &Table, start: u32) -> bool {
    let mut at = start;
    for _ in 0..=table.words[1] {
        let row = table.block(at);
        at = match row[2] {
            0 => return true,
            18 => row[3],
            code if is_value_terminal(code) => fallthrough(table, row).expect("a value terminal has one"),
            _ => return false,
        };
    }
    false
}

pub fn value_end(table: &Table, start: u32) -> Option<End> {
    way(table, start).map(|(_, end)| end)
}

/// The number of a block's last row.
fn last_row(table: &Table, block: u32) -> Option<u32> {
    let [first, count, ..] = *table.block(block);
    (count > 0).then(|| first + count - 1)
}

/// The number of a value's last row. An empty Branch gives none: the walk makes a load of its own there.
pub fn last_of_value(table: &Table, start: u32) -> Option<u32> {
    last_row(table, value_end(table, start)?.last)
}

/// What a StoreLocal to an unnamed identifier stores, and where: two identifiers.
pub fn unnamed_store(table: &Table, instruction: u32) -> Option<(u32, u32)> {
    let [_, _, code, p, q, ..] = *table.instruction(instruction);
    let to = (code == 2).then(|| table.identifier_of(p))?;
    (!table.is_named(to)).then(|| (to, table.identifier_of(q)))
}

pub fn ends_in_unnamed_store(table: &Table, start: u32) -> bool {
    last_of_value(table, start).is_some_and(|row| unnamed_store(table, row).is_some())
}

pub fn ends_in_own_load(table: &Table, start: u32) -> bool {
    last_of_value(table, start).is_some_and(|row| {
        let [_, lvalue, code, p, ..] = *table.instruction(row);
        code == 1 && table.identifier_of(p) == table.identifier_of(lvalue)
    })
}

/// MaybeThrows, then a Goto: the blocks.
pub fn straight(table: &Table, start: u32) -> Option<Vec<u32>> {
    let mut blocks = Vec::new();
    let mut at = start;
    while blocks.len() <= table.words[1] as usize {
        blocks.push(at);
        at = match table.block(at)[2] {
            4 => return Some(blocks),
            18 => table.block(at)[3],
            _ => return None,
        };
    }
    None
}

/// The Branch that ends the test of a Logical, a Ternary or an Optional: consequent and alternate.
pub fn test_branch(table: &Table, row: &BlockRow) -> Option<[u32; 2]> {
    let test = named_as(table, row, Role::Test)?;
    let end = table.block(value_end(table, test)?.block);
    (end[2] == 6).then_some([end[4], end[5]])
}

/// The arms of a value terminal.
pub fn arms(table: &Table, row: &BlockRow) -> Vec<u32> {
    match (row[2], test_branch(table, row)) {
        (13 | 14, Some(arms)) => arms.to_vec(),
        (15, Some([consequent, _])) => vec![consequent],
        (17, _) => vec![row[3]],
        _ => Vec::new(),
    }
}

/// The rows present, with their numbers.
pub fn present<'t>(table: &Table<'t>) -> Vec<(u32, &'t BlockRow)> {
    let rows = (0..table.words[1]).map(|number| (number, table.block(number)));
    rows.filter(|(_, row)| row[2] != 0).collect()
}

/// What both runs leave out, by the numbers of rows.
pub struct Rows {
    /// Those that are performed.
    pub seen: Vec<bool>,
    /// For each block whether its last row is a value's store: the identifiers to and from.
    pub stores: Vec<Option<(u32, u32)>>,
}

pub fn rows_of(table: &Table) -> Rows {
    let mut rows = Rows { seen: vec![true; table.words[2] as usize], stores: vec![None; table.words[1] as usize] };
    for (_, row) in present(table) {
        let mut values = arms(table, row);
        match row[2] {
            10 | 12 => values.push(row[3]),
            11 => values.extend(&row[3..5]),
            _ => {}
        }
        for value in values {
            if let Some(end) = value_end(table, value)
                && let Some(last) = last_row(table, end.last)
                && let Some(store) = unnamed_store(table, last)
            {
                rows.seen[last as usize] = false;
                rows.stores[end.last as usize] = Some(store);
            }
        }
    }
    for row in alternates(table).into_iter().filter_map(|block| straight(table, block)).flatten().map(|block| table.block(block)) {
        rows.seen[row[0] as usize..(row[0] + row[1]) as usize].fill(false);
    }
    rows
}

/// The alternates of all Optionals.
pub fn alternates(table: &Table) -> Vec<u32> {
    let optionals = present(table).into_iter().filter(|(_, row)| row[2] == 15);
    optionals.filter_map(|(_, row)| test_branch(table, row).map(|[_, alternate]| alternate)).collect()
}

/// The Optional, if any, that links to this one: the last value terminal on the way through its test, if only empty MaybeThrows follow its
/// fallthrough and the way ends in an empty Branch.
pub fn link(table: &Table, optional: &BlockRow) -> Option<u32> {
    let (blocks, end) = way(table, optional[4])?;
    let is_bare = |block: &u32| table.block(*block)[1] == 0;
    let place = blocks.iter().rposition(|block| is_value_terminal(table.block(*block)[2]))?;
    let linked = table.block(blocks[place])[2] == 15 && table.block(end.block)[2] == 6;
    (linked && blocks[place + 1..].iter().all(is_bare)).then_some(blocks[place])
}

/// The fallthrough of the last Optional that the links from this one lead to: nothing if they lead round, or to several.
pub fn exit(table: &Table, optional: u32) -> Option<u32> {
    let optionals: Vec<(u32, &BlockRow)> = present(table).into_iter().filter(|(_, row)| row[2] == 15).collect();
    let mut at = optional;
    for _ in 0..=optionals.len() {
        let mut next = optionals.iter().filter(|(_, row)| link(table, row) == Some(at));
        match (next.next(), next.next()) {
            (None, _) => return fallthrough(table, table.block(at)),
            (Some((one, _)), None) => at = *one,
            _ => return None,
        }
    }
    None
}

/// For each block the innermost Try whose body's region has it, along all names but those of Gotos from the entry; and whether each block
/// is in one region only.
pub fn regions(table: &Table) -> (Vec<Option<u32>>, bool) {
    let mut found: Vec<Option<Option<u32>>> = vec![None; table.words[1] as usize];
    let mut one_each = true;
    let mut open = vec![(table.entry(), None)];
    while let Some((block, within)) = open.pop() {
        match found[block as usize] {
            Some(before) => one_each &= before == within,
            None => {
                found[block as usize] = Some(within);
                for (role, named) in names(table, table.block(block)) {
                    match role {
                        Role::Goto => {}
                        Role::TryBody => open.push((named, Some(block))),
                        _ => open.push((named, within)),
                    }
                }
            }
        }
    }
    (found.into_iter().map(Option::flatten).collect(), one_each)
}
