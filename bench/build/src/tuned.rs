//! (a+): the same program written for speed: the check a row at a time, rows and lines written straight into the lent buffers, the four
//! sets in one byte a block, and nothing kept that the first entry does not need. Vectors and recursion, no `unsafe`.

use comparison::model::table::{Span, Table};
use comparison::model::{Outcome, Refusal};

use crate::plain;

const NONE: u32 = 65_535;
const MOST_DEPTH: u32 = 128;
const MOST_VISITS: u32 = 8_192;

const EMITTED: u8 = 1;
const SCHEDULED: u8 = 2;
const HANDLER: u8 = 4;
const SCOPE: u8 = 8;

pub fn build(words: &[u32], buffer: &mut [u32], index: &mut [u32]) -> Outcome {
    let table = match plain::checked(words) {
        Ok(table) => table,
        Err(refusal) => return refuse(refusal, 0, buffer, index),
    };
    let sets = vec![0; words[1] as usize];
    let mut walk = Walk { table, sets, stack: Vec::with_capacity(64), buffer: &mut *buffer, rows: 0, index: &mut *index, lines: 0, visits: 0 };
    let walked = walk.list(table.entry(), 1);
    let (rows, lines, visits) = (walk.rows, walk.lines, walk.visits);
    if let Err(refusal) = walked {
        return refuse(refusal, visits, buffer, index);
    }
    if rows > buffer.len() / 6 {
        return plain::build(words, buffer, index); // 40: the flattening of a value looked at rows that were written nowhere
    }
    if lines > index.len() / 3 {
        return refuse(Refusal { code: 41, at: 0 }, visits, buffer, index);
    }
    buffer[6 * rows..].fill(0);
    index[3 * lines..].fill(0);
    Outcome { code: 0, at: 0, rows: rows as u32, visits, lines: lines as u32 }
}

fn refuse(refusal: Refusal, visits: u32, buffer: &mut [u32], index: &mut [u32]) -> Outcome {
    buffer.fill(0);
    index.fill(0);
    Outcome::refused(refusal, visits)
}

#[derive(Clone, Copy)]
struct Entry {
    block: u32,
    /// NONE where the entry is no loop.
    continue_block: u32,
    loop_block: u32,
    owns_loop: bool,
}

struct Walk<'w> {
    table: Table<'w>,
    sets: Vec<u8>,
    stack: Vec<Entry>,
    buffer: &'w mut [u32],
    rows: usize,
    index: &'w mut [u32],
    lines: usize,
    visits: u32,
}

type Walked<T> = Result<T, Refusal>;

#[derive(Clone, Copy)]
struct Block<'w> {
    number: u32,
    words: &'w [u32; 11],
}

impl Block<'_> {
    fn code(self) -> u32 {
        self.words[2]
    }

    fn operands(self) -> [u32; 5] {
        [self.words[3], self.words[4], self.words[5], self.words[6], self.words[7]]
    }

    fn id(self) -> u32 {
        self.words[8]
    }

    fn span(self) -> Span {
        Span { from: self.words[9], to: self.words[10] }
    }
}

/// What a value visit gives besides its rows: the block that ended it, its place and its id.
struct Value {
    block: u32,
    place: u32,
    id: u32,
}

fn err<T>(code: u32, at: u32) -> Walked<T> {
    Err(Refusal { code, at })
}

impl<'w> Walk<'w> {
    fn row(&mut self, row: [u32; 6]) {
        if let Some(place) = self.buffer.get_mut(6 * self.rows..6 * self.rows + 6) {
            place.copy_from_slice(&row);
        }
        self.rows += 1;
    }

    fn line(&mut self, label: u32, first: usize) {
        if label != NONE {
            let line = [label, first as u32, self.rows as u32 - 1];
            if let Some(place) = self.index.get_mut(3 * self.lines..3 * self.lines + 3) {
                place.copy_from_slice(&line);
            }
            self.lines += 1;
        }
    }

    fn look_up(&self, number: u32) -> Walked<Block<'w>> {
        let words = self.table.block(number);
        if words[2] == 0 { err(10, number) } else { Ok(Block { number, words }) }
    }

    fn visit(&mut self, number: u32, depth: u32) -> Walked<Block<'w>> {
        if depth > MOST_DEPTH {
            return err(30, number);
        }
        if self.visits == MOST_VISITS {
            return err(31, number);
        }
        self.visits += 1;
        self.look_up(number)
    }

    fn is_scheduled(&self, block: u32) -> bool {
        self.sets[block as usize] & (SCHEDULED | HANDLER) != 0
    }

    fn insert(&mut self, block: u32, set: u8) {
        self.sets[block as usize] |= set;
    }

    fn remove(&mut self, block: u32) {
        self.sets[block as usize] &= !SCHEDULED;
    }

    fn schedule(&mut self, block: u32) {
        self.insert(block, SCHEDULED);
        self.stack.push(Entry { block, continue_block: NONE, loop_block: NONE, owns_loop: false });
    }

    fn schedule_loop(&mut self, block: u32, continue_block: u32, loop_block: u32) -> Walked<()> {
        self.insert(block, SCHEDULED);
        if self.sets[continue_block as usize] & SCHEDULED != 0 {
            return err(15, continue_block);
        }
        self.insert(continue_block, SCHEDULED);
        let owns_loop = self.sets[loop_block as usize] & SCHEDULED == 0;
        self.insert(loop_block, SCHEDULED);
        self.stack.push(Entry { block, continue_block, loop_block, owns_loop });
        Ok(())
    }

    fn unschedule(&mut self) {
        let Some(entry) = self.stack.pop() else { return };
        self.remove(entry.block);
        if entry.continue_block != NONE {
            self.remove(entry.continue_block);
            if entry.owns_loop {
                self.remove(entry.loop_block);
            }
        }
    }

    /// The fallthrough if it is free, else NONE.
    fn free(&self, fallthrough: u32, asks_reachable: bool) -> Walked<u32> {
        let reachable = !asks_reachable || self.look_up(fallthrough)?.code() != 1;
        Ok(if reachable && !self.is_scheduled(fallthrough) { fallthrough } else { NONE })
    }

    fn take(&mut self, fallthrough: u32, asks_reachable: bool) -> Walked<u32> {
        let taken = self.free(fallthrough, asks_reachable)?;
        if taken != NONE {
            self.schedule(taken);
        }
        Ok(taken)
    }

    fn leave(&mut self, taken: u32) {
        if taken != NONE {
            self.unschedule();
        }
    }

    fn list(&mut self, number: u32, depth: u32) -> Walked<()> {
        let (mut statements, mut next) = (0, number);
        while next != NONE {
            let block = self.visit(next, depth)?;
            let set = &mut self.sets[next as usize];
            if *set & EMITTED != 0 {
                return err(11, next);
            }
            *set |= EMITTED;
            self.instructions(block.words[0], block.words[1]);
            let (more, after) = self.terminal(block, depth)?;
            statements += block.words[1] + more;
            next = after;
        }
        self.row([9, statements, 0, 0, 0, 0]);
        Ok(())
    }

    fn instruction(&mut self, id: u32, lvalue: u32, span: Span) {
        self.row([4, id, lvalue, span.from, span.to, 0]);
    }

    fn instructions(&mut self, first: u32, count: u32) {
        for row in first..first + count {
            let [id, lvalue, _, _, _, from, to] = *self.table.instruction(row);
            self.row([1, row, 0, 0, 0, 0]);
            self.instruction(id, lvalue, Span { from, to });
        }
    }

    /// How many statements the block's end gives, and the block that comes next, or NONE.
    fn terminal(&mut self, block: Block, depth: u32) -> Walked<(u32, u32)> {
        let [a, b, c, d, e] = block.operands();
        let (id, inner, first) = (block.id(), depth + 1, self.rows);
        let (row, label, next) = match block.code() {
            1 => return Ok((0, NONE)),
            2 => ([23, a, id, 0, 0, 0], NONE, NONE),
            3 => ([22, a, id, 0, 0, 0], NONE, NONE),
            4 if b == 0 => return Ok((self.break_to(block, a)?, NONE)),
            4 if b == 1 => return Ok((self.continue_to(block, a)?, NONE)),
            4 => return Ok((0, NONE)),
            5 => {
                let taken = self.take(d, true)?;
                if self.is_scheduled(b) {
                    return err(12, b);
                }
                self.list(b, inner)?;
                if c != d {
                    if self.is_scheduled(c) {
                        return err(13, c);
                    }
                    self.list(c, inner)?;
                }
                self.leave(taken);
                ([10, a, u32::from(c != d), id, taken, 0], taken, taken)
            }
            6 => {
                if self.is_scheduled(b) {
                    let statements = self.break_to(block, b)?;
                    self.row([9, statements, 0, 0, 0, 0]);
                } else {
                    self.list(b, inner)?;
                }
                if self.is_scheduled(c) {
                    return err(19, block.number);
                }
                self.list(c, inner)?;
                ([10, a, 1, id, NONE, 0], NONE, NONE)
            }
            7 => {
                let taken = self.take(d, true)?;
                let built = self.cases(block, inner)?;
                self.leave(taken);
                ([12, a, built, id, taken, 0], taken, taken)
            }
            8 => {
                let taken = self.free(c, false)?;
                let free = !self.is_scheduled(a) && a != c;
                self.schedule_loop(c, b, a)?;
                self.body(block, a, free, inner)?;
                self.value(b, block.span(), NONE, inner)?;
                self.unschedule();
                ([13, id, taken, 0, 0, 0], taken, taken)
            }
            9 => {
                let taken = self.free(c, true)?;
                let free = !self.is_scheduled(b) && b != c;
                self.schedule_loop(c, a, b)?;
                self.value(a, block.span(), NONE, inner)?;
                self.body(block, b, free, inner)?;
                self.unschedule();
                ([14, id, taken, 0, 0, 0], taken, taken)
            }
            10 => {
                let taken = self.free(e, false)?;
                let free = !self.is_scheduled(d) && d != e;
                self.schedule_loop(e, if c == NONE { b } else { c }, d)?;
                self.flattened(a, block.span(), inner)?;
                self.value(b, block.span(), NONE, inner)?;
                if c != NONE {
                    self.value(c, block.span(), NONE, inner)?;
                }
                self.body(block, d, free, inner)?;
                self.unschedule();
                ([15, id, taken, u32::from(c != NONE), 0, 0], taken, taken)
            }
            11 => {
                let taken = self.free(d, false)?;
                let free = !self.is_scheduled(c) && c != d;
                self.schedule_loop(d, a, c)?;
                self.flattened(a, block.span(), inner)?;
                self.flattened(b, block.span(), inner)?;
                self.body(block, c, free, inner)?;
                self.unschedule();
                ([16, id, taken, block.span().from, block.span().to, 0], taken, taken)
            }
            12 => {
                let taken = self.free(c, false)?;
                let free = !self.is_scheduled(b) && b != c;
                self.schedule_loop(c, a, b)?;
                self.flattened(a, block.span(), inner)?;
                self.body(block, b, free, inner)?;
                self.unschedule();
                ([17, id, taken, block.span().from, block.span().to, 0], taken, taken)
            }
            13 | 14 | 15 | 17 => {
                let fallthrough = if matches!(block.code(), 13 | 15) { c } else { b };
                let taken = self.take(fallthrough, false)?;
                let (place, _) = self.value_terminal(block, depth)?;
                self.leave(taken);
                ([4, id, place, block.span().from, block.span().to, 0], NONE, taken)
            }
            16 => {
                let taken = self.take(b, true)?;
                if self.is_scheduled(a) {
                    return err(17, block.number);
                }
                self.list(a, inner)?;
                self.leave(taken);
                ([18, id, taken, 0, 0, 0], taken, taken)
            }
            18 => return Ok((0, if self.is_scheduled(a) { NONE } else { a })),
            19 => {
                let taken = self.take(c, true)?;
                self.insert(b, HANDLER);
                self.list(a, inner)?;
                self.list(b, inner)?;
                self.leave(taken);
                ([19, id, taken, d, 0, 0], taken, taken)
            }
            code => {
                let taken = self.take(b, false)?;
                if taken != NONE {
                    self.insert(b, SCOPE);
                }
                if self.is_scheduled(a) {
                    return err(18, block.number);
                }
                self.list(a, inner)?;
                self.leave(taken);
                ([code, c, 0, 0, 0, 0], NONE, taken)
            }
        };
        self.row(row);
        self.line(label, first);
        Ok((1, next))
    }

    fn cases(&mut self, block: Block, depth: u32) -> Walked<u32> {
        let [_, first, count, fallthrough, _] = block.operands();
        let mut built = 0;
        for row in (first..first + count).rev() {
            let [test, case] = *self.table.case(row);
            if self.is_scheduled(case) {
                if case != fallthrough {
                    return err(14, block.number);
                }
                continue;
            }
            self.list(case, depth)?;
            self.row([11, test, 0, 0, 0, 0]);
            self.schedule(case);
            built += 1;
        }
        for _ in 0..built {
            self.unschedule();
        }
        Ok(built)
    }

    fn body(&mut self, block: Block, number: u32, free: bool, depth: u32) -> Walked<()> {
        if free { self.list(number, depth) } else { err(16, block.number) }
    }

    fn break_to(&mut self, block: Block, target: u32) -> Walked<u32> {
        let mut loops = 0;
        for at in (0..self.stack.len()).rev() {
            let entry = self.stack[at];
            let is_loop = entry.continue_block != NONE;
            if entry.block == target {
                let top = at + 1 == self.stack.len();
                let kind = match (is_loop, loops, top) {
                    (true, 0, _) => 2,
                    (false, _, true) => 0,
                    _ => 1,
                };
                if self.sets[target as usize] & SCOPE != 0 {
                    return if kind == 0 { Ok(0) } else { err(22, block.number) };
                }
                self.row([24, target, block.id(), kind, loops, 0]);
                return Ok(1);
            }
            loops += u32::from(is_loop);
        }
        err(20, target)
    }

    fn continue_to(&mut self, block: Block, target: u32) -> Walked<u32> {
        let mut loops = 0;
        for at in (0..self.stack.len()).rev() {
            let entry = self.stack[at];
            if entry.continue_block == target {
                let top = at + 1 == self.stack.len();
                let kind = if loops > 0 { 1 } else if top { 0 } else { 2 };
                self.row([25, entry.block, block.id(), kind, loops, 0]);
                return Ok(1);
            }
            loops += u32::from(entry.continue_block != NONE);
        }
        err(21, target)
    }

    fn value(&mut self, number: u32, span: Span, forbidden: u32, depth: u32) -> Walked<Value> {
        let block = self.visit(number, depth)?;
        if number == forbidden {
            return err(23, number);
        }
        let [first, count, ..] = *block.words;
        match block.code() {
            4 if count == 0 => err(24, number),
            6 if count == 0 => {
                let place = block.operands()[0];
                self.row([2, place, 0, 0, 0, 0]);
                Ok(Value { block: number, place, id: block.id() })
            }
            4 | 6 => Ok(self.last_instruction(block, number)),
            18 => {
                let continuation = self.look_up(block.operands()[0])?;
                if continuation.code() == 4 && continuation.words[1] == 0 {
                    return if count == 0 { err(28, number) } else { Ok(self.last_instruction(block, continuation.number)) };
                }
                self.instructions(first, count);
                let value = self.value(continuation.number, span, forbidden, depth + 1)?;
                if count > 0 {
                    self.row([5, count, value.id, 0, 0, 0]);
                }
                Ok(value)
            }
            _ => {
                self.instructions(first, count);
                let (place, fallthrough) = self.value_terminal(block, depth)?;
                self.instruction(block.id(), place, span);
                let last = self.value(fallthrough, span, NONE, depth + 1)?;
                self.row([5, count + 1, last.id, 0, 0, 0]);
                Ok(last)
            }
        }
    }

    fn last_instruction(&mut self, block: Block, ended_by: u32) -> Value {
        let [first, count, ..] = *block.words;
        let (others, last) = (count - 1, first + count - 1);
        self.instructions(first, others);
        let [id, lvalue, code, p, q, ..] = *self.table.instruction(last);
        let stores_unnamed = code == 2 && !self.table.is_named(self.table.identifier_of(p));
        let (row, place) = if stores_unnamed { ([2, q, 0, 0, 0, 0], p) } else { ([1, last, 0, 0, 0, 0], lvalue) };
        self.row(row);
        if others > 0 {
            self.row([5, others, id, 0, 0, 0]);
        }
        Value { block: ended_by, place, id }
    }

    /// The place of a value terminal's value, and its fallthrough.
    fn value_terminal(&mut self, block: Block, depth: u32) -> Walked<(u32, u32)> {
        let ([a, b, c, _, _], span, inner) = (block.operands(), block.span(), depth + 1);
        match block.code() {
            13 => {
                let (test, end) = self.test(block, b, inner)?;
                self.instruction(test.id, test.place, span);
                let left = self.value(end.operands()[1], span, c, inner)?;
                self.row([5, 1, left.id, 0, 0, 0]);
                self.value(end.operands()[2], span, c, inner)?;
                self.row([6, a, 0, 0, 0, 0]);
                Ok((left.place, c))
            }
            14 => {
                let (_, end) = self.test(block, a, inner)?;
                let consequent = self.value(end.operands()[1], span, b, inner)?;
                self.value(end.operands()[2], span, b, inner)?;
                self.row([7, 0, 0, 0, 0, 0]);
                Ok((consequent.place, b))
            }
            15 => {
                let (test, end) = self.test(block, b, inner)?;
                self.instruction(test.id, test.place, end.span());
                let call = self.value(end.operands()[1], span, c, inner)?;
                self.row([5, 1, call.id, 0, 0, 0]);
                self.row([8, a, 0, 0, 0, 0]);
                Ok((call.place, c))
            }
            16 => err(26, block.number),
            17 => Ok((self.value(a, span, b, inner)?.place, b)),
            _ => err(27, block.number),
        }
    }

    fn test(&mut self, owner: Block, number: u32, depth: u32) -> Walked<(Value, Block<'w>)> {
        let value = self.value(number, owner.span(), NONE, depth)?;
        let end = self.look_up(value.block)?;
        if end.code() == 6 { Ok((value, end)) } else { err(25, owner.number) }
    }

    /// A row that is out; zeros where the buffer had no place for it.
    fn out(&self, row: usize) -> [u32; 6] {
        self.buffer.get(6 * row..6 * row + 6).map_or([0; 6], |words| words.try_into().expect("six words"))
    }

    fn flattened(&mut self, number: u32, span: Span, depth: u32) -> Walked<()> {
        let result = self.value(number, span, NONE, depth)?;
        let mut instructions = 0;
        let mut last = self.out(self.rows - 1);
        while last[0] == 5 {
            instructions += last[1];
            self.rows -= 1;
            last = self.out(self.rows - 1);
        }
        let loaded = match last[0] {
            1 if self.table.instruction(last[1])[2] == 1 => Some(self.table.instruction(last[1])[3]),
            2 => Some(last[1]),
            _ => None,
        };
        if loaded.map(|place| self.table.identifier_of(place)) == Some(self.table.identifier_of(result.place)) {
            self.rows -= 1;
        } else {
            self.instruction(result.id, result.place, span);
            instructions += 1;
        }
        self.row([3, span.from, span.to, 0, 0, 0]);
        self.row([5, instructions, result.id, 0, 0, 0]);
        Ok(())
    }
}
