//! Programs lowered as React Compiler lowers them, from general knowledge of it: nested statements and values become blocks, and passes
//! then take away what is not reached, do-whiles whose test is not reached and trys in which nothing throws, drop what is not used, and
//! merge blocks. It was not compared with the real compiler.
//!
//! A value's block ends in a store to an unnamed identifier; a load of one gives no row. In a try each row ends its block by a MaybeThrow.

use std::collections::{HashMap, HashSet};

use super::draft::Draft;
use super::program::{BREAK, CONTINUE, TRY};
use crate::model::columns::NONE;
use crate::model::table::{BLOCK_WORDS, InstructionRow, LIMITS};
use crate::rng::Rng;

#[derive(Clone, Copy, PartialEq, Eq)]
enum Kind {
    /// Of statements: the only one that is merged.
    Block,
    Value,
    Handler,
}

#[derive(Clone, Debug, PartialEq, Eq)]
struct End {
    code: u32,
    columns: Vec<u32>,
    cases: Vec<[u32; 2]>,
    /// Where a MaybeThrow's throw goes, if its row can throw.
    handler: Option<u32>,
}

impl End {
    fn new(code: u32, columns: &[u32]) -> Self {
        Self { code, columns: columns.to_vec(), cases: Vec::new(), handler: None }
    }

    /// The columns that name blocks, the fallthrough last where there is one.
    fn block_columns(&self) -> &'static [usize] {
        match self.code {
            4 | 18 => &[0],
            5 => &[1, 2, 3],
            6 => &[1, 2],
            7 => &[3],
            8 | 9 | 12 | 19 => &[0, 1, 2],
            10 => &[0, 1, 2, 3, 4],
            11 => &[0, 1, 2, 3],
            13 | 15 => &[1, 2],
            14 | 16 | 17 | 20 | 21 => &[0, 1],
            _ => &[],
        }
    }

    fn fallthrough(&self) -> Option<u32> {
        let has_one = !matches!(self.code, 4 | 6 | 18);
        let column = self.block_columns().last().filter(|_| has_one)?;
        Some(self.columns[*column])
    }

    /// Where control goes from here: a loop's other parts are reached from its first.
    fn successors(&self) -> Vec<u32> {
        match self.code {
            4 | 8..=12 | 14 | 16 | 17 | 19..=21 => vec![self.columns[0]],
            13 | 15 => vec![self.columns[1]],
            5 | 6 => self.columns[1..3].to_vec(),
            7 => self.cases.iter().map(|case| case[1]).collect(),
            18 => self.handler.into_iter().chain([self.columns[0]]).collect(),
            _ => Vec::new(),
        }
    }
}

struct Block {
    kind: Kind,
    /// With whether the row can throw.
    rows: Vec<(InstructionRow, bool)>,
    end: End,
}

/// A statement that a jump may mean.
#[derive(Clone, Copy)]
struct Target {
    out: u32,
    again: Option<u32>,
}

/// How many variables with names there are: the first identifiers.
const VARIABLES: u32 = 3;

struct Lowering<'r> {
    rng: &'r mut Rng,
    blocks: Vec<Option<Block>>,
    at: u32,
    places: Vec<u32>,
    identifiers: u32,
    handlers: Vec<u32>,
    targets: Vec<Target>,
    budget: i32,
}

/// A program of about so many statements and values.
pub fn lowered(rng: &mut Rng, size: u32) -> Draft {
    let mut lowering = Lowering {
        rng,
        blocks: Vec::new(),
        at: 0,
        places: Vec::new(),
        identifiers: VARIABLES,
        handlers: Vec::new(),
        targets: Vec::new(),
        budget: size as i32,
    };
    lowering.at = lowering.reserve(Kind::Block);
    lowering.statements(true);
    let value = lowering.value(1);
    lowering.end(End::new(3, &[value]));
    lowering.passes();
    lowering.draft()
}

impl Lowering<'_> {
    fn reserve(&mut self, kind: Kind) -> u32 {
        self.blocks.push(Some(Block { kind, rows: Vec::new(), end: End::new(1, &[]) }));
        self.blocks.len() as u32 - 1
    }

    fn block(&mut self, number: u32) -> &mut Block {
        self.blocks[number as usize].as_mut().expect("a block that is there")
    }

    fn kind(&mut self) -> Kind {
        let at = self.at;
        self.block(at).kind
    }

    fn end(&mut self, end: End) {
        let at = self.at;
        self.block(at).end = end;
    }

    /// Ends the block; what comes next stands in another.
    fn end_and_go_on(&mut self, end: End, next: u32) {
        self.end(end);
        self.at = next;
    }

    /// A new block, filled by this, which tells how it ends.
    fn enter(&mut self, kind: Kind, fill: impl FnOnce(&mut Self) -> End) -> u32 {
        let block = self.reserve(kind);
        self.fill(block, fill);
        block
    }

    fn fill(&mut self, block: u32, fill: impl FnOnce(&mut Self) -> End) {
        let before = std::mem::replace(&mut self.at, block);
        let end = fill(self);
        self.end(end);
        self.at = before;
    }

    fn place_of(&mut self, identifier: u32) -> u32 {
        self.places.push(identifier);
        self.places.len() as u32 - 1
    }

    /// A place of a new identifier without a name.
    fn temporary(&mut self) -> u32 {
        self.identifiers += 1;
        self.place_of(self.identifiers - 1)
    }

    /// Another place of the same identifier.
    fn again(&mut self, place: u32) -> u32 {
        let identifier = self.places[place as usize];
        self.place_of(identifier)
    }

    fn variable(&mut self) -> u32 {
        let variable = self.rng.below(VARIABLES);
        self.place_of(variable)
    }

    /// A row; in a try its block ends behind it.
    fn push(&mut self, lvalue: u32, code: u32, p: u32, q: u32, throws: bool) {
        let id = self.places.len() as u32;
        let at = self.at;
        self.block(at).rows.push(([id, lvalue, code, p, q, 0, 0], throws));
        if let Some(handler) = self.handlers.last().copied() {
            let kind = self.kind();
            let next = self.reserve(kind);
            let mut end = End::new(18, &[next]);
            end.handler = Some(handler);
            self.end_and_go_on(end, next);
        }
    }

    fn row(&mut self, throws: bool) -> u32 {
        let lvalue = self.temporary();
        self.push(lvalue, 0, 0, 0, throws);
        lvalue
    }

    fn store(&mut self, to: u32, from: u32) {
        let (lvalue, to, from) = (self.temporary(), self.again(to), self.again(from));
        self.push(lvalue, 2, to, from, false);
    }

    // Values: each gives the place that holds it.

    fn value(&mut self, depth: u32) -> u32 {
        self.budget -= 1;
        if depth == 0 || self.budget <= 0 {
            return self.leaf();
        }
        match self.rng.below(12) {
            0 | 1 => self.logical(depth),
            2 => self.ternary(depth),
            3 => self.sequence(depth),
            4 | 5 => self.chain(depth),
            6 => {
                let (to, from) = (self.variable(), self.value(depth - 1));
                self.store(to, from);
                from
            }
            7 | 8 => {
                self.value(depth - 1);
                self.row(true)
            }
            _ => self.leaf(),
        }
    }

    fn leaf(&mut self) -> u32 {
        match self.rng.below(4) {
            0 => self.row(false),
            1 => {
                let (lvalue, variable) = (self.temporary(), self.variable());
                self.push(lvalue, 1, variable, 0, true);
                lvalue
            }
            _ => self.row(true),
        }
    }

    fn goto(block: u32, variant: u32) -> End {
        End::new(4, &[block, variant])
    }

    fn branch(&mut self, test: u32, consequent: u32, alternate: u32) -> End {
        let test = self.again(test);
        End::new(6, &[test, consequent, alternate])
    }

    /// A value block that stores what this gives.
    fn arm(&mut self, to: u32, out: u32, value: impl FnOnce(&mut Self) -> u32) -> u32 {
        self.enter(Kind::Value, |inner| {
            let value = value(inner);
            inner.store(to, value);
            Self::goto(out, BREAK)
        })
    }

    fn logical(&mut self, depth: u32) -> u32 {
        let kind = self.kind();
        let (out, test) = (self.reserve(kind), self.reserve(Kind::Value));
        let (place, left) = (self.temporary(), self.temporary());
        let consequent = self.arm(place, out, |_| left);
        let alternate = self.arm(place, out, |inner| inner.value(depth - 1));
        let operator = self.rng.below(3);
        self.end_and_go_on(End::new(13, &[operator, test, out]), test);
        let value = self.value(depth - 1);
        let value = self.again(value);
        let lvalue = self.again(left);
        self.push(lvalue, 1, value, 0, false);
        let end = self.branch(left, consequent, alternate);
        self.end_and_go_on(end, out);
        place
    }

    fn ternary(&mut self, depth: u32) -> u32 {
        let kind = self.kind();
        let (out, test) = (self.reserve(kind), self.reserve(Kind::Value));
        let place = self.temporary();
        let consequent = self.arm(place, out, |inner| inner.value(depth - 1));
        let alternate = self.arm(place, out, |inner| inner.value(depth - 1));
        self.end_and_go_on(End::new(14, &[test, out]), test);
        let value = self.value(depth - 1);
        let end = self.branch(value, consequent, alternate);
        self.end_and_go_on(end, out);
        place
    }

    fn sequence(&mut self, depth: u32) -> u32 {
        let kind = self.kind();
        let out = self.reserve(kind);
        let place = self.temporary();
        let more = self.rng.from_to(1, 2);
        let body = self.arm(place, out, |inner| {
            for _ in 0..more {
                inner.value(depth - 1);
            }
            inner.value(depth - 1)
        });
        self.end_and_go_on(End::new(17, &[body, out]), out);
        place
    }

    fn chain(&mut self, depth: u32) -> u32 {
        let links = self.rng.from_to(1, 3);
        self.optional(depth, links, None)
    }

    /// What a chain begins with: any value but a chain, which would be one chain with it.
    fn object(&mut self, depth: u32) -> u32 {
        match self.rng.below(4) {
            0 if depth > 0 => self.logical(depth),
            1 if depth > 0 => self.ternary(depth),
            _ => self.leaf(),
        }
    }

    /// One link of a chain around those before it, with the alternate of the outermost.
    fn optional(&mut self, depth: u32, links: u32, outer: Option<u32>) -> u32 {
        let kind = self.kind();
        let (out, consequent) = (self.reserve(kind), self.reserve(Kind::Value));
        let place = self.temporary();
        let alternate = outer.unwrap_or_else(|| self.arm(place, out, |inner| inner.row(false)));
        let test = self.enter(Kind::Value, |inner| {
            let object = if links > 1 { inner.optional(depth, links - 1, Some(alternate)) } else { inner.object(depth - 1) };
            inner.branch(object, consequent, alternate)
        });
        let arguments = self.rng.percent(30);
        self.fill(consequent, |inner| {
            if arguments {
                inner.value(depth - 1);
            }
            let value = inner.row(true);
            inner.store(place, value);
            Self::goto(out, BREAK)
        });
        let flag = self.rng.below(2);
        self.end_and_go_on(End::new(15, &[flag, test, out]), out);
        place
    }

    // Statements.

    /// A list. Whether it may be left by a jump or a return.
    fn statements(&mut self, leaves: bool) {
        let count = self.rng.from_to(1, 3);
        for place in 1..=count {
            if self.budget <= 0 {
                break;
            }
            let is_left = leaves && place == count && self.rng.percent(45);
            if is_left { self.leave() } else { self.statement() }
        }
    }

    fn list(&mut self) {
        self.statements(true);
    }

    fn leave(&mut self) {
        self.budget -= 1;
        let end = match self.rng.below(10) {
            0 if self.handlers.is_empty() => {
                let value = self.value(1);
                End::new(2, &[value])
            }
            0..=2 => {
                let value = self.value(1);
                End::new(3, &[value])
            }
            _ => match self.targets.len() as u32 {
                0 => return,
                open => {
                    let near = self.rng.percent(70);
                    let target = self.targets[if near { open - 1 } else { self.rng.below(open) } as usize];
                    match target.again {
                        Some(again) if self.rng.percent(50) => Self::goto(again, CONTINUE),
                        _ => Self::goto(target.out, BREAK),
                    }
                }
            },
        };
        let next = self.reserve(Kind::Block);
        self.end_and_go_on(end, next);
    }

    fn statement(&mut self) {
        self.budget -= 1;
        match self.rng.below(22) {
            0..=2 => {
                let depth = self.rng.from_to(1, 4);
                self.value(depth);
            }
            3..=5 => self.if_statement(),
            6 | 7 => self.switch_statement(),
            8 => self.while_statement(),
            9 | 10 => self.do_while_statement(),
            11 | 12 => self.for_statement(),
            13 => self.for_of_statement(),
            14 => self.for_in_statement(),
            15 => self.label_statement(),
            16..=19 => self.try_statement(),
            _ => self.scope_statement(),
        }
    }

    fn test(&mut self) -> u32 {
        let depth = self.rng.from_to(0, 2);
        self.value(depth)
    }

    /// A list of statements in a block of its own, with a target.
    fn body(&mut self, target: Option<Target>, end: End) -> u32 {
        self.enter(Kind::Block, |inner| {
            inner.targets.extend(target);
            inner.list();
            if target.is_some() {
                inner.targets.pop();
            }
            end
        })
    }

    fn if_statement(&mut self) {
        let test = self.test();
        let out = self.reserve(Kind::Block);
        let consequent = self.body(None, Self::goto(out, BREAK));
        let alternate = if self.rng.percent(50) { out } else { self.body(None, Self::goto(out, BREAK)) };
        self.end_and_go_on(End::new(5, &[test, consequent, alternate, out]), out);
    }

    /// The last case first; without a default the fallthrough is one.
    fn switch_statement(&mut self) {
        let test = self.test();
        let out = self.reserve(Kind::Block);
        let count = self.rng.below(4);
        let default = self.rng.percent(50).then(|| self.rng.below(count.max(1)));
        let (mut next, mut cases) = (out, Vec::new());
        for place in (0..count).rev() {
            let target = Target { out, again: None };
            let block = self.body(Some(target), Self::goto(next, BREAK));
            let value = if default == Some(place) { NONE } else { self.temporary() };
            cases.push([value, block]);
            next = block;
        }
        cases.reverse();
        if default.is_none() || count == 0 {
            cases.push([NONE, out]);
        }
        let mut end = End::new(7, &[test, 0, cases.len() as u32, out]);
        end.cases = cases;
        self.end_and_go_on(end, out);
    }

    fn while_statement(&mut self) {
        let (test, out) = (self.reserve(Kind::Value), self.reserve(Kind::Block));
        let body = self.body(Some(Target { out, again: Some(test) }), Self::goto(test, CONTINUE));
        self.end_and_go_on(End::new(9, &[test, body, out]), test);
        let value = self.test();
        let end = self.branch(value, body, out);
        self.end_and_go_on(end, out);
    }

    fn do_while_statement(&mut self) {
        let (test, out) = (self.reserve(Kind::Value), self.reserve(Kind::Block));
        let body = self.body(Some(Target { out, again: Some(test) }), Self::goto(test, CONTINUE));
        self.end_and_go_on(End::new(8, &[body, test, out]), test);
        let value = self.test();
        let end = self.branch(value, body, out);
        self.end_and_go_on(end, out);
    }

    fn for_statement(&mut self) {
        let (test, out) = (self.reserve(Kind::Value), self.reserve(Kind::Block));
        let init = self.enter(Kind::Value, |inner| {
            let (variable, value) = (inner.variable(), inner.test());
            inner.store(variable, value);
            Self::goto(test, BREAK)
        });
        let update = self.rng.percent(70).then(|| {
            self.enter(Kind::Value, |inner| {
                inner.test();
                Self::goto(test, BREAK)
            })
        });
        let again = update.unwrap_or(test);
        let body = self.body(Some(Target { out, again: Some(again) }), Self::goto(again, CONTINUE));
        self.end_and_go_on(End::new(10, &[init, test, update.unwrap_or(NONE), body, out]), test);
        let value = self.test();
        let end = self.branch(value, body, out);
        self.end_and_go_on(end, out);
    }

    fn for_of_statement(&mut self) {
        let (init, test, out) = (self.reserve(Kind::Value), self.reserve(Kind::Value), self.reserve(Kind::Block));
        let body = self.body(Some(Target { out, again: Some(init) }), Self::goto(init, CONTINUE));
        self.test();
        self.end_and_go_on(End::new(11, &[init, test, body, out]), init);
        self.row(true);
        self.end_and_go_on(Self::goto(test, BREAK), test);
        self.next_item(body, out);
    }

    fn for_in_statement(&mut self) {
        let (init, out) = (self.reserve(Kind::Value), self.reserve(Kind::Block));
        let body = self.body(Some(Target { out, again: Some(init) }), Self::goto(init, CONTINUE));
        self.test();
        self.end_and_go_on(End::new(12, &[init, body, out]), init);
        self.next_item(body, out);
    }

    /// The next item or key goes to a variable, or is taken apart, and is the test.
    fn next_item(&mut self, body: u32, out: u32) {
        let item = self.row(true);
        let test = if self.rng.percent(70) {
            let variable = self.variable();
            self.store(variable, item);
            variable
        } else {
            self.row(true)
        };
        let end = self.branch(test, body, out);
        self.end_and_go_on(end, out);
    }

    fn label_statement(&mut self) {
        let out = self.reserve(Kind::Block);
        let body = self.body(Some(Target { out, again: None }), Self::goto(out, BREAK));
        self.end_and_go_on(End::new(16, &[body, out]), out);
    }

    fn try_statement(&mut self) {
        let out = self.reserve(Kind::Block);
        let handler = self.enter(Kind::Handler, |inner| {
            inner.list();
            Self::goto(out, BREAK)
        });
        self.handlers.push(handler);
        let body = self.body(None, Self::goto(out, TRY));
        self.handlers.pop();
        let binding = if self.rng.percent(50) { NONE } else { self.temporary() };
        self.end_and_go_on(End::new(19, &[body, handler, out, binding]), out);
    }

    /// A scope: no jump leaves it, but a return may.
    fn scope_statement(&mut self) {
        let out = self.reserve(Kind::Block);
        let open = std::mem::take(&mut self.targets);
        let leaves = self.rng.percent(20);
        let body = self.enter(Kind::Block, |inner| {
            inner.statements(leaves);
            Self::goto(out, BREAK)
        });
        self.targets = open;
        let (code, number) = (self.rng.from_to(20, 21), self.rng.below(9));
        self.end_and_go_on(End::new(code, &[body, out, number]), out);
    }

    // Passes.

    fn passes(&mut self) {
        self.clean();
        self.prune_maybe_throws();
        self.clean();
        self.merge();
        self.drop_unused();
        self.clean();
        self.merge();
        self.clean();
    }

    fn present(&self) -> impl Iterator<Item = (u32, &Block)> {
        (0..).zip(&self.blocks).filter_map(|(number, block)| Some((number, block.as_ref()?)))
    }

    /// Takes away what is not reached. A fallthrough that nothing reaches becomes Unreachable.
    fn clean(&mut self) {
        let (mut used, mut ends, mut open) = (HashSet::new(), HashSet::new(), vec![0]);
        while let Some(number) = open.pop() {
            if used.insert(number) {
                let end = &self.blocks[number as usize].as_ref().expect("a block that is there").end;
                ends.extend(end.fallthrough());
                open.extend(end.successors());
            }
        }
        for (number, slot) in (0..).zip(&mut self.blocks) {
            if !used.contains(&number) {
                let kind = slot.as_ref().map(|block| block.kind).filter(|_| ends.contains(&number));
                *slot = kind.map(|kind| Block { kind, rows: Vec::new(), end: End::new(1, &[]) });
            }
        }
        let there: HashSet<u32> = self.present().map(|(number, _)| number).collect();
        for block in self.blocks.iter_mut().flatten() {
            let end = &mut block.end;
            match end.code {
                10 if !there.contains(&end.columns[2]) => end.columns[2] = NONE,
                8 if !there.contains(&end.columns[1]) => *end = Self::goto(end.columns[0], BREAK),
                19 if !there.contains(&end.columns[1]) => *end = Self::goto(end.columns[0], BREAK),
                _ => {}
            }
        }
    }

    fn prune_maybe_throws(&mut self) {
        for block in self.blocks.iter_mut().flatten() {
            if !block.rows.iter().any(|(_, throws)| *throws) {
                block.end.handler = None;
            }
        }
    }

    /// Drops rows that nothing uses: some that can't throw, but never the last of a value block and no store.
    fn drop_unused(&mut self) {
        let rng = &mut *self.rng;
        for block in self.blocks.iter_mut().flatten() {
            let last = block.rows.len().saturating_sub(1);
            let is_value = block.kind == Kind::Value;
            let mut place = 0;
            block.rows.retain(|(row, throws)| {
                let kept = *throws || row[2] == 2 || is_value && place == last || !rng.percent(40);
                place += 1;
                kept
            });
        }
    }

    /// Merges a block of statements that one Goto alone names, and that is no fallthrough, into the block of that Goto.
    fn merge(&mut self) {
        let mut named: HashMap<u32, Vec<u32>> = HashMap::new();
        let mut ends = HashSet::new();
        for (number, block) in self.present() {
            ends.extend(block.end.fallthrough());
            for next in block.end.successors() {
                named.entry(next).or_default().push(number);
            }
        }
        let mut into: HashMap<u32, u32> = HashMap::new();
        for number in 1..self.blocks.len() as u32 {
            let Some([from]) = named.get(&number).map(Vec::as_slice) else { continue };
            let mut from = *from;
            while let Some(further) = into.get(&from) {
                from = *further;
            }
            let merges = |block: &Block| block.kind == Kind::Block;
            let (Some(block), Some(before)) = (&self.blocks[number as usize], &self.blocks[from as usize]) else { continue };
            if !merges(block) || !merges(before) || before.end.code != 4 || ends.contains(&number) || from == number {
                continue;
            }
            let block = self.blocks[number as usize].take().expect("it is there");
            let before = self.block(from);
            before.rows.extend(block.rows);
            before.end = block.end;
            into.insert(number, from);
        }
    }

    /// The words, with the blocks numbered in the order in which they were made.
    fn draft(self) -> Draft {
        let numbers: HashMap<u32, u32> = self.present().map(|(number, _)| number).zip(0..).collect();
        let mut draft = Draft { places: self.places, ..Draft::default() };
        draft.identifiers = (0..self.identifiers).map(|identifier| u32::from(identifier < VARIABLES)).collect();
        for block in self.blocks.into_iter().flatten() {
            let mut row = [0; BLOCK_WORDS];
            row[..2].copy_from_slice(&[draft.instructions.len() as u32, block.rows.len() as u32]);
            draft.instructions.extend(block.rows.into_iter().map(|(row, _)| row));
            let columns = block.end.block_columns();
            row[2] = block.end.code;
            for (column, word) in block.end.columns.iter().enumerate() {
                let names_one = columns.contains(&column) && *word != NONE;
                row[3 + column] = if names_one { numbers[word] } else { *word };
            }
            if block.end.code == 7 {
                row[4] = draft.cases.len() as u32;
                draft.cases.extend(block.end.cases.iter().map(|[value, block]| [*value, numbers[block]]));
            }
            row[8] = draft.blocks.len() as u32 % 60_000;
            draft.blocks.push(row);
        }
        draft
    }
}

/// Whether it is within the limits of a table.
pub fn fits(draft: &Draft) -> bool {
    let counts = [draft.blocks.len(), draft.instructions.len(), draft.cases.len(), draft.places.len(), draft.identifiers.len()];
    counts.into_iter().zip(LIMITS).all(|(count, limit)| count <= limit as usize)
}
