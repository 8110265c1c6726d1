//! Paper 01, "Plain tables", and paper 02, M-113: the block run and the tree run. On an accepted plain
//! table both do the same with the same answers (demand 3), in the language entry also on one with
//! switches (M-113). Beyond the papers: the same with DoWhile and For, with switches as compilers make
//! them, and with ends that are not reached (`Width::Loops`).

use crate::model::Row;
use crate::model::columns::NONE;
use crate::model::table::{BlockRow, Table};
use crate::parts::Parts;

/// Why a run stopped.
#[derive(Clone, Copy, Debug, PartialEq, Eq)]
pub enum Stop {
    /// With value and id, as `Threw`.
    Returned(u32, u32),
    Threw(u32, u32),
    /// An answer was asked for and none was left.
    OutOfAnswers,
    /// An answer at a Switch is the place of no case: the block run of a list that M-113 does not speak of.
    NoSuchCase,
    /// The rest, to which no run comes of which the laws speak: a block that has no business in a
    /// plain table, a tree that ends, a jump that leaves it.
    NotPlain,
    EndOfTree,
    NoTarget,
}

impl Stop {
    /// M-103's number of the reason, 0 where it has none.
    pub fn reason(self) -> u32 {
        match self {
            Stop::Returned(..) => 1,
            Stop::Threw(..) => 2,
            Stop::EndOfTree => 3,
            Stop::OutOfAnswers => 4,
            Stop::NoSuchCase | Stop::NotPlain | Stop::NoTarget => 0,
        }
    }
}

/// The instruction rows performed, in order, how many answers were taken, and why the run stopped.
#[derive(Debug, PartialEq, Eq)]
pub struct Run {
    pub performed: Vec<u32>,
    pub taken: usize,
    pub stop: Stop,
}

/// Plain tables as paper 01 has them, or widened by Switch (M-113), or as crates/definition/specs/PlainLoops.antt has them, with Switch.
#[derive(Clone, Copy, Debug, PartialEq, Eq)]
pub enum Width {
    Paper01,
    WithSwitch,
    Loops,
}

/// The case blocks of a Switch, in source order.
fn case_blocks(table: &Table, row: &BlockRow) -> Vec<u32> {
    (row[4]..row[4] + row[5]).map(|case| table.case(case)[1]).collect()
}

/// Whether a checked table is plain.
pub fn is_plain(table: &Table, width: Width) -> bool {
    if width == Width::Loops {
        return is_plain_with_loops(table);
    }
    let [entry, blocks, ..] = *table.words else { unreachable!() };
    let present: Vec<(u32, &BlockRow)> = (0..blocks)
        .map(|number| (number, table.block(number)))
        .filter(|(_, row)| row[2] != 0)
        .collect();
    let whiles = || present.iter().filter(|(_, row)| row[2] == 9).map(|(_, row)| row);
    let fallthrough = |row: &BlockRow| match row[2] {
        5 | 7 => Some(row[6]),
        9 => Some(row[5]),
        16 | 20 | 21 => Some(row[4]),
        _ => None,
    };
    let ends: Vec<u32> = present.iter().filter_map(|(_, row)| fallthrough(row)).collect();
    let code = |block: u32| table.block(block)[2];

    let known_ends = present.iter().all(|(_, row)| match row[2] {
        4 => row[4] < 2,
        7 => width == Width::WithSwitch,
        code => [2, 3, 5, 6, 9, 16, 20, 21].contains(&code),
    });
    let tests_are_branches = whiles().all(|row| code(row[3]) == 6);
    let ends_are_their_own = ends.iter().all(|end| {
        let once = ends.iter().filter(|other| *other == end).count() == 1;
        once && whiles().all(|row| row[3] != *end && row[4] != *end)
    });
    let branches_are_tests = present.iter().filter(|(_, row)| row[2] == 6).all(|(number, row)| {
        let owners: Vec<_> = whiles().filter(|owner| owner[3] == *number).collect();
        let parts_of_others = present.iter().any(|(_, other)| match other[2] {
            5 => other[4..7].contains(number),
            7 => other[6] == *number || case_blocks(table, other).contains(number),
            6 => other[4..6].contains(number),
            9 => other[4..6].contains(number),
            16 | 20 | 21 => other[3..5].contains(number),
            _ => false,
        });
        let stores_last = row[1] > 0 && table.instruction(row[0] + row[1] - 1)[2] == 2;
        *number != entry
            && !parts_of_others
            && !stores_last
            && matches!(owners[..], [owner] if owner[4..6] == row[4..6])
    });
    let taken = |block: u32| {
        ends.contains(&block)
            || whiles().any(|row| row[3..5].contains(&block))
            || present.iter().any(|(_, row)| row[2] == 4 && row[3] == block)
    };
    let cases_are_their_own = present.iter().filter(|(_, row)| row[2] == 7).all(|(_, row)| {
        let cases = case_blocks(table, row);
        let once = |case: &u32| cases.iter().filter(|other| *other == case).count() == 1;
        cases.iter().all(|case| once(case) && !taken(*case))
    });
    known_ends
        && tests_are_branches
        && ends_are_their_own
        && branches_are_tests
        && cases_are_their_own
}

/// A While, a DoWhile or a For: the block that continues it is its update, if any, else its test.
struct Loop {
    test: u32,
    body: u32,
    fallthrough: u32,
    again: u32,
}

fn loop_of(row: &BlockRow) -> Option<Loop> {
    let [_, _, code, a, b, c, d, e, ..] = *row;
    match code {
        8 => Some(Loop { test: b, body: a, fallthrough: c, again: b }),
        9 => Some(Loop { test: a, body: b, fallthrough: c, again: a }),
        10 => Some(Loop { test: b, body: d, fallthrough: e, again: if c == NONE { b } else { c } }),
        _ => None,
    }
}

/// The fallthrough of an end that such a table may have.
fn fallthrough_of(row: &BlockRow) -> Option<u32> {
    match row[2] {
        5 | 7 => Some(row[6]),
        16 | 20 | 21 => Some(row[4]),
        _ => loop_of(row).map(|found| found.fallthrough),
    }
}

/// The case blocks of a Switch but for those at the end that are its own fallthrough.
fn proper_cases(table: &Table, row: &BlockRow) -> Vec<u32> {
    let mut cases = case_blocks(table, row);
    while cases.last() == Some(&row[6]) {
        cases.pop();
    }
    cases
}

/// The last instruction of a block is a StoreLocal to an unnamed identifier.
fn stores_to_unnamed(table: &Table, row: &BlockRow) -> bool {
    row[1] > 0 && {
        let [_, _, code, p, ..] = *table.instruction(row[0] + row[1] - 1);
        code == 2 && !table.is_named(table.identifier_of(p))
    }
}

/// The last instruction of a block is a LoadLocal of its own lvalue's identifier.
fn loads_its_own(table: &Table, row: &BlockRow) -> bool {
    row[1] > 0 && {
        let [_, lvalue, code, p, ..] = *table.instruction(row[0] + row[1] - 1);
        code == 1 && table.identifier_of(p) == table.identifier_of(lvalue)
    }
}

/// The sentences of PlainLoops.antt, in their order.
fn is_plain_with_loops(table: &Table) -> bool {
    let [entry, blocks, ..] = *table.words else { unreachable!() };
    let present: Vec<&BlockRow> = (0..blocks).map(|number| table.block(number)).filter(|row| row[2] != 0).collect();
    let loops: Vec<Loop> = present.iter().filter_map(|row| loop_of(row)).collect();
    let ends: Vec<u32> = present.iter().filter_map(|row| fallthrough_of(row)).collect();
    let cases: Vec<u32> = present.iter().filter(|row| row[2] == 7).flat_map(|row| proper_cases(table, row)).collect();
    let code = |block: u32| table.block(block)[2];
    let (is_branch, is_open) = (|block: u32| code(block) == 6, |block: u32| code(block) == 1);
    let goes_to = |block: u32, test: u32| code(block) == 4 && table.block(block)[3] == test && !stores_to_unnamed(table, table.block(block));

    let known_ends = present.iter().all(|row| match row[2] {
        4 => row[4] < 2,
        code => (1..=10).contains(&code) || [16, 20, 21].contains(&code),
    });
    let tests = loops.iter().all(|found| is_branch(found.test) && table.block(found.test)[4..6] == [found.body, found.fallthrough]);
    let inits_and_updates = present.iter().filter(|row| row[2] == 10).all(|row| {
        let [_, _, _, init, test, update, ..] = **row;
        goes_to(init, test) && !loads_its_own(table, table.block(init)) && (update == NONE || goes_to(update, test))
    });
    let named_otherwise = present.iter().flat_map(|row| match row[2] {
        5 => row[4..7].to_vec(),
        6 => row[4..6].to_vec(),
        7 => vec![row[6]],
        16 | 20 | 21 => row[3..5].to_vec(),
        _ => loop_of(row).map_or(Vec::new(), |found| vec![found.body, found.fallthrough]),
    });
    let branches = !is_branch(entry) && !named_otherwise.chain(cases.iter().copied()).any(is_branch);
    let branch_stores = present.iter().any(|row| row[2] == 6 && stores_to_unnamed(table, row));
    let ends_are_their_own = ends.iter().all(|end| {
        let once = ends.iter().filter(|other| *other == end).count() == 1;
        once && loops.iter().all(|found| found.body != *end && found.again != *end)
    });
    let cases_are_no_ends = cases.iter().all(|case| !ends.contains(case));
    let entered = present.iter().flat_map(|row| match row[2] {
        4 => vec![row[3]],
        5 | 6 => row[4..6].to_vec(),
        16 | 20 | 21 => vec![row[3]],
        _ => loop_of(row).map_or(Vec::new(), |found| vec![found.body]),
    });
    let open_ends = present.iter().all(|row| match fallthrough_of(row) {
        Some(end) if is_open(end) => [5, 16, 20, 21].contains(&row[2]) || row[2] == 7 && proper_cases(table, row).len() as u32 == row[5],
        _ => true,
    });
    let reached = !is_open(entry) && !entered.chain(cases.iter().copied()).any(is_open) && open_ends;
    known_ends && tests && inits_and_updates && branches && !branch_stores && ends_are_their_own && cases_are_no_ends && reached
}

/// The block run of a plain table. An answer is no (0) or yes, at a Switch a place in its case list.
pub fn block_run(table: &Table, answers: &[u32]) -> Run {
    let mut performed = Vec::new();
    let mut taken = 0;
    let mut block = table.entry();
    let stop = loop {
        let row = table.block(block);
        let [first, count, code, a, b, c, _, _, id, ..] = *row;
        performed.extend(first..first + count);
        block = match code {
            2 => break Stop::Threw(a, id),
            3 => break Stop::Returned(a, id),
            4 | 8..=10 | 16 | 20 | 21 => a,
            5..=7 => {
                let Some(answer) = answers.get(taken) else { break Stop::OutOfAnswers };
                let next = match code {
                    7 => case_blocks(table, row).get(*answer as usize).copied(),
                    _ => Some(if *answer == 0 { c } else { b }),
                };
                let Some(next) = next else { break Stop::NoSuchCase };
                taken += 1;
                next
            }
            _ => break Stop::NotPlain,
        };
    };
    Run { performed, taken, stop }
}

/// The tree run of a plain table's rows.
pub fn tree_run(rows: &[Row], answers: &[u32]) -> Run {
    for [op, ..] in rows {
        let is_plain = matches!(op, 1..=5 | 9..=15 | 18 | 20..=25);
        assert!(is_plain, "op {op} in the tree of a plain table");
    }
    let parts = Parts::of(rows);
    let mut run = TreeRun { rows, parts, performed: Vec::new(), answers, taken: 0 };
    let stop = match run.node(rows.len() - 1) {
        Flow::Stop(stop) => stop,
        Flow::Normal => Stop::EndOfTree,
        Flow::Break { .. } | Flow::Continue { .. } => Stop::NoTarget,
    };
    Run { performed: run.performed, taken: run.taken, stop }
}

/// How a part of the tree ends.
#[derive(Debug)]
enum Flow {
    Normal,
    Break { label: Option<u32> },
    Continue { label: Option<u32> },
    Stop(Stop),
}

struct TreeRun<'r> {
    rows: &'r [Row],
    parts: Parts,
    performed: Vec<u32>,
    answers: &'r [u32],
    taken: usize,
}

impl TreeRun<'_> {
    fn answer(&mut self) -> Option<u32> {
        let answer = self.answers.get(self.taken).copied()?;
        self.taken += 1;
        Some(answer)
    }

    fn in_order(&mut self, parts: &[usize]) -> Flow {
        for part in parts {
            match self.node(*part) {
                Flow::Normal => {}
                flow => return flow,
            }
        }
        Flow::Normal
    }

    fn node(&mut self, at: usize) -> Flow {
        let [op, a, b, c, d, _] = self.rows[at];
        let parts = self.parts.at(at);
        let jump_label = match c {
            1 => Some(a),
            _ => None,
        };
        match op {
            1 => {
                self.performed.push(a);
                Flow::Normal
            }
            10 => match self.answer() {
                None => Flow::Stop(Stop::OutOfAnswers),
                Some(0) if b == 1 => ends(d, self.node(parts[1])),
                Some(0) => Flow::Normal,
                Some(_) => ends(d, self.node(parts[0])),
            },
            12 => match self.answer() {
                None => Flow::Stop(Stop::OutOfAnswers),
                Some(place) => match self.cases_from(place, parts) {
                    Flow::Break { label: None } => Flow::Normal,
                    flow => ends(d, flow),
                },
            },
            13 => {
                let body = self.node(parts[0]);
                self.rounds(b, body, &[parts[1]], parts[0])
            }
            14 => self.rounds(b, Flow::Normal, &[parts[0]], parts[1]),
            15 => self.for_run(b, c == 1, &parts),
            18 => ends(b, self.node(parts[0])),
            22 => Flow::Stop(Stop::Returned(a, b)),
            23 => Flow::Stop(Stop::Threw(a, b)),
            24 | 25 if c == 0 => Flow::Normal,
            24 => Flow::Break { label: jump_label },
            25 => Flow::Continue { label: jump_label },
            _ => self.in_order(&parts),
        }
    }

    /// The cases from this place on: the rows have the last one first.
    fn cases_from(&mut self, place: u32, mut cases: Vec<usize>) -> Flow {
        cases.reverse();
        self.in_order(cases.get(place as usize..).unwrap_or_default())
    }

    /// FOR: init, test and, by one answer, the body; from then on a loop whose test is the update and the test.
    fn for_run(&mut self, label: u32, has_update: bool, parts: &[usize]) -> Flow {
        let (init, test, body) = (parts[0], parts[1], parts[parts.len() - 1]);
        self.node(init);
        self.node(test);
        match self.answer() {
            None => return Flow::Stop(Stop::OutOfAnswers),
            Some(0) => return Flow::Normal,
            Some(_) => {}
        }
        let first = self.node(body);
        if has_update { self.rounds(label, first, &[parts[2], test], body) } else { self.rounds(label, first, &[test], body) }
    }

    /// A loop whose body ended so: what stands before the answer, and by one answer the body again.
    fn rounds(&mut self, label: u32, mut flow: Flow, before: &[usize], body: usize) -> Flow {
        loop {
            match flow {
                Flow::Normal => {}
                Flow::Continue { label: to } if to.is_none_or(|to| to == label) => {}
                Flow::Break { label: to } if to.is_none_or(|to| to == label) => {
                    return Flow::Normal;
                }
                flow => return flow,
            }
            self.in_order(before);
            match self.answer() {
                None => return Flow::Stop(Stop::OutOfAnswers),
                Some(0) => return Flow::Normal,
                Some(_) => flow = self.node(body),
            }
        }
    }
}

/// A labelled statement takes the labelled breaks that mean it.
fn ends(label: u32, flow: Flow) -> Flow {
    match flow {
        Flow::Break { label: Some(to) } if to == label => Flow::Normal,
        flow => flow,
    }
}
