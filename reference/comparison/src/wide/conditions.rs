//! The conditions of the run law of all terminals, each by its number.

use super::ends::*;
use crate::model::table::{BlockRow, Table};

pub const COUNT: usize = 18;

/// Those that the runs with throws, and with moves, need beside the others.
pub const OF_THROWS: usize = 16;
pub const OF_MOVES: usize = 17;
/// That of the Gotos of a Try.
pub const OF_TRY: usize = 13;

/// What each says, in the order of the numbers.
pub const SAID: [&str; COUNT] = [
    "a loop's test ends in a Branch to its loop block and fallthrough",
    "the init of a For or ForOf ends in a Goto to the test",
    "a For's update ends in a Goto to the test",
    "an arm ends in a Goto to the fallthrough",
    "a Logical's consequent is straight and has no seen row",
    "an Optional's alternate is straight and goes to the exit",
    "no test and no update ends in a store to an unnamed identifier",
    "no init and no test of a ForOf ends in a load of its own lvalue's identifier",
    "no block is the fallthrough of two",
    "no fallthrough is a loop block",
    "no fallthrough continues a loop",
    "no case is a fallthrough but a Switch's last ones its own",
    "Unreachable is named only as a fallthrough",
    "a Goto Try is on the list of its Try's body",
    "no fallthrough is a handler",
    "a continuation is no fallthrough, case, loop block, continue block or handler",
    "each block is named from within one Try's body only",
    "the arms of a Logical or Ternary end in stores to one unnamed identifier",
];

/// Which conditions a table fails.
pub fn failed(table: &Table) -> [bool; COUNT] {
    conditions(&Facts::of(table, false))
}

/// Whether a table fails one of the first 16 whatever its missing blocks will be. It may also say no where it does. A Goto Try is looked
/// at with its Try there already.
pub fn has_failed(table: &Table) -> bool {
    let facts = Facts::of(table, true);
    let failed = conditions(&facts);
    let ends_a_try = |block: u32| facts.with_code(&[19]).any(|(_, row)| row[5] == block);
    let stray = facts.with_code(&[4]).any(|(_, row)| row[4] == 2 && !ends_a_try(row[3]));
    stray || (0..OF_THROWS).any(|number| failed[number] && !matches!(number, 4 | 5 | OF_TRY))
}

fn conditions(facts: &Facts) -> [bool; COUNT] {
    let table = facts.table;
    let holds = [
        facts.tests_branch(),
        facts.inits_go_on(),
        facts.updates_go_on(),
        facts.arms_go_on(),
        facts.consequents_are_silent(),
        facts.alternates_go_out(),
        facts.tests_keep_their_rows(),
        facts.inits_keep_their_rows(),
        facts.fallthroughs.iter().all(|block| facts.times_a_fallthrough(*block) == 1),
        facts.loops.iter().all(|found| !facts.is_fallthrough(found.body)),
        facts.loops.iter().all(|found| !facts.is_fallthrough(found.again)),
        facts.cases().iter().all(|case| !facts.is_fallthrough(*case)),
        facts.unreachable_is_not_entered(),
        facts.try_gotos_are_on_lists(),
        facts.handlers().iter().all(|handler| !facts.is_fallthrough(*handler)),
        facts.continuations_are_their_own(),
        regions(table).1,
        facts.arms_agree(),
    ];
    holds.map(|holds| !holds)
}

struct Facts<'f, 't> {
    table: &'f Table<'t>,
    /// Missing blocks are still to come.
    grows: bool,
    present: Vec<(u32, &'t BlockRow)>,
    loops: Vec<Loop>,
    fallthroughs: Vec<u32>,
    rows: Rows,
}

impl<'f, 't> Facts<'f, 't> {
    fn of(table: &'f Table<'t>, grows: bool) -> Self {
        let present = present(table);
        let loops = present.iter().filter_map(|(_, row)| loop_of(row)).collect();
        let fallthroughs = present.iter().filter_map(|(_, row)| fallthrough(table, row)).collect();
        Self { table, grows, present, loops, fallthroughs, rows: rows_of(table) }
    }

    fn with_code(&self, codes: &[u32]) -> impl Iterator<Item = (u32, &'t BlockRow)> {
        self.present.iter().filter(|(_, row)| codes.contains(&row[2])).copied()
    }

    fn code(&self, block: u32) -> u32 {
        self.table.block(block)[2]
    }

    fn times_a_fallthrough(&self, block: u32) -> usize {
        self.fallthroughs.iter().filter(|other| **other == block).count()
    }

    fn is_fallthrough(&self, block: u32) -> bool {
        self.fallthroughs.contains(&block)
    }

    fn cases(&self) -> Vec<u32> {
        self.with_code(&[7]).flat_map(|(_, row)| proper_cases(self.table, row)).collect()
    }

    fn handlers(&self) -> Vec<u32> {
        self.with_code(&[19]).map(|(_, row)| row[4]).collect()
    }

    /// The way of a value comes to a block that is still to come.
    fn is_open(&self, value: u32) -> bool {
        self.grows && leads_to_missing(self.table, value)
    }

    fn ends_in(&self, value: u32, well: impl Fn(&BlockRow) -> bool) -> bool {
        self.is_open(value) || value_end(self.table, value).is_some_and(|end| well(self.table.block(end.block)))
    }

    /// The value ends in a Goto to this block.
    fn goes_to(&self, value: u32, to: u32) -> bool {
        self.ends_in(value, |row| row[2] == 4 && row[3] == to)
    }

    fn tests_branch(&self) -> bool {
        self.loops.iter().all(|found| self.ends_in(found.test, |row| row[2] == 6 && row[4..6] == [found.body, found.fallthrough]))
    }

    fn inits_go_on(&self) -> bool {
        self.loops.iter().all(|found| found.init.is_none_or(|init| self.goes_to(init, found.test)))
    }

    fn updates_go_on(&self) -> bool {
        self.loops.iter().all(|found| found.update.is_none_or(|update| self.goes_to(update, found.test)))
    }

    fn arms_go_on(&self) -> bool {
        self.present.iter().all(|(_, row)| {
            !is_value_terminal(row[2]) || {
                let end = fallthrough(self.table, row).expect("a value terminal has one");
                let arms = arms(self.table, row);
                let is_open = named_as(self.table, row, Role::Test).is_some_and(|test| self.is_open(test));
                (is_open || !arms.is_empty()) && arms.into_iter().all(|arm| self.goes_to(arm, end))
            }
        })
    }

    fn consequents_are_silent(&self) -> bool {
        self.with_code(&[13]).all(|(_, row)| {
            let Some([consequent, _]) = test_branch(self.table, row) else { return false };
            straight(self.table, consequent).is_some_and(|blocks| {
                let mut rows = blocks.into_iter().flat_map(|block| {
                    let [first, count, ..] = *self.table.block(block);
                    first..first + count
                });
                rows.all(|row| !self.rows.seen[row as usize])
            })
        })
    }

    fn alternates_go_out(&self) -> bool {
        self.with_code(&[15]).all(|(number, row)| {
            let Some([_, alternate]) = test_branch(self.table, row) else { return false };
            let goes_to = straight(self.table, alternate).and_then(|blocks| blocks.last().map(|last| self.table.block(*last)[3]));
            goes_to.is_some() && goes_to == exit(self.table, number)
        })
    }

    fn tests_keep_their_rows(&self) -> bool {
        let of_values = self.with_code(&[13, 14, 15]).filter_map(|(_, row)| named_as(self.table, row, Role::Test));
        let of_loops = self.with_code(&[8, 9, 10]).filter_map(|(_, row)| loop_of(row)).flat_map(|found| [Some(found.test), found.update]);
        !of_values.chain(of_loops.flatten()).any(|value| ends_in_unnamed_store(self.table, value))
    }

    fn inits_keep_their_rows(&self) -> bool {
        let flattened = self.with_code(&[10, 11, 12]).flat_map(|(_, row)| if row[2] == 11 { row[3..5].to_vec() } else { vec![row[3]] });
        !{ flattened }.any(|value| ends_in_own_load(self.table, value))
    }

    fn unreachable_is_not_entered(&self) -> bool {
        let is_open = |block: u32| self.code(block) == 1;
        let may_be_open = |row: &BlockRow| match row[2] {
            7 => proper_cases(self.table, row).len() as u32 == row[5],
            code => [5, 16, 19, 20, 21].contains(&code),
        };
        let named_well = |row: &BlockRow| {
            let mut open = names(self.table, row).into_iter().filter(|(_, block)| is_open(*block));
            open.all(|(role, _)| role == Role::Fallthrough && may_be_open(row))
        };
        !is_open(self.table.entry()) && self.present.iter().all(|(_, row)| named_well(row))
    }

    /// The list that begins at a block: each block with the one that goes on to it.
    fn list_from(&self, begin: u32, owner: u32) -> Vec<(u32, u32)> {
        let mut list: Vec<(u32, u32)> = Vec::new();
        let mut open = vec![(begin, owner)];
        while let Some((block, from)) = open.pop() {
            if list.iter().any(|(known, _)| *known == block) {
                continue;
            }
            list.push((block, from));
            let row = self.table.block(block);
            let end = fallthrough(self.table, row);
            let ends_here = end.is_some_and(|end| {
                let [_, count, code, ..] = *self.table.block(end);
                code == 1 && ([5, 16].contains(&row[2]) || [20, 21].contains(&row[2]) && count == 0)
            });
            match row[2] {
                18 => open.push((row[3], block)),
                5 if ends_here => open.extend([(row[4], block), (row[5], block)]),
                16 | 20 | 21 if ends_here => open.push((row[3], block)),
                _ => open.extend(end.map(|end| (end, block))),
            }
        }
        list
    }

    /// Only Gotos, the block before it on its list and, if that is a loop, the loop's Branch name the block.
    fn is_named_by_its_list(&self, block: u32, from: u32) -> bool {
        let owner = self.table.block(from);
        let branch = loop_of(owner).and_then(|found| value_end(self.table, found.test)).map(|end| end.block);
        block != self.table.entry()
            && self.present.iter().all(|(number, row)| {
                let mut others = names(self.table, row).into_iter().filter(|(role, named)| *named == block && *role != Role::Goto);
                others.all(|(role, _)| match role {
                    Role::TryBody | Role::Continuation | Role::Fallthrough | Role::Arm => *number == from,
                    Role::Case => *number == from && proper_cases(self.table, row).iter().all(|case| *case != block),
                    Role::BranchArm => Some(*number) == branch,
                    _ => false,
                })
            })
    }

    fn try_gotos_are_on_lists(&self) -> bool {
        let gotos: Vec<(u32, &BlockRow)> = self.with_code(&[4]).filter(|(_, row)| row[4] == 2).collect();
        let lists = || self.with_code(&[19]).map(|(number, row)| (row[5], self.list_from(row[3], number)));
        gotos.iter().all(|(number, goto)| {
            lists().any(|(end, list)| {
                end == goto[3]
                    && list.iter().any(|(block, _)| block == number)
                    && list.iter().all(|(block, from)| self.is_named_by_its_list(*block, *from))
            })
        })
    }

    fn continuations_are_their_own(&self) -> bool {
        let of_loops = self.loops.iter().flat_map(|found| [found.body, found.again]);
        let taken: Vec<u32> = of_loops.chain(self.cases()).chain(self.handlers()).collect();
        self.with_code(&[18]).all(|(_, row)| !self.is_fallthrough(row[3]) && !taken.contains(&row[3]))
    }

    fn arms_agree(&self) -> bool {
        let store = |arm: u32| last_of_value(self.table, arm).and_then(|row| unnamed_store(self.table, row)).map(|(to, _)| to);
        let agree = self.with_code(&[13, 14]).all(|(_, row)| match arms(self.table, row)[..] {
            [consequent, alternate] => store(consequent).is_some() && store(consequent) == store(alternate),
            _ => false,
        });
        let alternates = alternates(self.table);
        agree && !self.present.iter().flat_map(|(_, row)| arms(self.table, row)).any(|arm| alternates.contains(&arm))
    }
}
