//! M-103 in plain Rust: a tree run on paper. It is written from the papers, recursively over the rows of a list that the check
//! accepts: a part is found from its closing row back. Paper 01, "Plain tables", has the jumps; paper 02 the rest.

use super::tree_check::{NONE, check};
use super::{Refusal, Row};

/// Code (0 a run), at, the number of rows performed and the reason: 1 return, 2 throw, 3 end of the tree, 4 no answer left.
#[derive(Clone, Copy, Debug, PartialEq, Eq)]
pub struct Ran {
    pub code: u32,
    pub at: u32,
    pub number: usize,
    pub reason: u32,
}

/// How a part ends: ECMA-262's completions. A jump has its row, and its label if it has one.
#[derive(Clone, Copy)]
enum Flow {
    Normal,
    Break(usize, Option<u32>),
    Continue(usize, Option<u32>),
    Stop(u32),
    /// The buffer can't take the row.
    Full(usize),
}

struct Runner<'r> {
    rows: &'r [Row],
    /// The first row of the part that closes at each row.
    firsts: Vec<usize>,
    answers: &'r [u32],
    asked: usize,
    performed: &'r mut [u32],
    number: usize,
}

/// Runs a list of rows: the rows performed are written, zeros follow; a refused run leaves zeros.
pub fn run(words: &[u32], answers: &[u32], performed: &mut [u32]) -> Ran {
    let ran = run_rows(words, answers, performed).unwrap_or_else(|Refusal { code, at }| Ran { code, at, number: 0, reason: 0 });
    performed[ran.number..].fill(0);
    ran
}

fn run_rows(words: &[u32], answers: &[u32], performed: &mut [u32]) -> Result<Ran, Refusal> {
    check(words)?;
    let (rows, _) = words.as_chunks::<6>();
    if let Some(at) = rows.iter().position(|row| matches!(row[0], 6 | 7 | 8 | 16 | 17 | 19)) {
        return Err(Refusal { code: 64, at: at as u32 });
    }
    let mut runner = Runner { rows, firsts: Vec::new(), answers, asked: 0, performed, number: 0 };
    for row in 0..rows.len() {
        let first = runner.parts(row).first().map_or(row, |part| runner.firsts[*part]);
        runner.firsts.push(first);
    }
    let reason = match runner.block(rows.len() - 1) {
        Flow::Normal => 3,
        Flow::Stop(reason) => reason,
        Flow::Break(at, _) | Flow::Continue(at, _) => return Err(Refusal { code: 63, at: at as u32 }),
        Flow::Full(at) => return Err(Refusal { code: 65, at: at as u32 }),
    };
    Ok(Ran { code: 0, at: 0, number: runner.number, reason })
}

fn label(word: u32) -> Option<u32> {
    (word != NONE).then_some(word)
}

/// "A Labeled one on the statement with that label": a break out of this very statement ends it.
fn labelled(flow: Flow, label: Option<u32>) -> Flow {
    match flow {
        Flow::Break(_, Some(target)) if Some(target) == label => Flow::Normal,
        other => other,
    }
}

/// "for a break, the nearest loop or SWITCH"
fn breakable(flow: Flow, label: Option<u32>) -> Flow {
    match labelled(flow, label) {
        Flow::Break(_, None) => Flow::Normal,
        other => other,
    }
}

/// Whether a round that ended so is followed by the next one.
fn goes_on(flow: Flow, label: Option<u32>) -> bool {
    match flow {
        Flow::Normal | Flow::Continue(_, None) => true,
        Flow::Continue(_, target) => target == label,
        _ => false,
    }
}

impl Runner<'_> {
    /// The parts of the row, by their closing rows, in the order of the rows.
    fn parts(&self, row: usize) -> Vec<usize> {
        let [op, a, b, c, ..] = self.rows[row];
        let count = match op {
            4 | 8 | 11 | 18 | 20 | 21 => 1,
            5 => a as usize + 1,
            9 => a as usize,
            10 => 1 + b as usize,
            12 => b as usize,
            13 | 14 => 2,
            15 => 3 + c as usize,
            _ => 0,
        };
        let mut parts = Vec::new();
        let mut end = row;
        for _ in 0..count {
            parts.push(end - 1);
            end = self.firsts[end - 1];
        }
        parts.reverse();
        parts
    }

    fn answer(&mut self) -> Result<u32, Flow> {
        let answer = *self.answers.get(self.asked).ok_or(Flow::Stop(4))?;
        self.asked += 1;
        Ok(answer)
    }

    /// "PLAIN performs its row, LOAD none"; parts run in order.
    fn value(&mut self, row: usize) -> Result<(), Flow> {
        for part in self.parts(row) {
            self.value(part)?;
        }
        if self.rows[row][0] == 1 {
            *self.performed.get_mut(self.number).ok_or(Flow::Full(row))? = self.rows[row][1];
            self.number += 1;
        }
        Ok(())
    }

    fn block(&mut self, row: usize) -> Flow {
        for part in self.parts(row) {
            match self.statement(part) {
                Flow::Normal => {}
                flow => return flow,
            }
        }
        Flow::Normal
    }

    fn statement(&mut self, row: usize) -> Flow {
        self.try_statement(row).unwrap_or_else(|flow| flow)
    }

    fn try_statement(&mut self, row: usize) -> Result<Flow, Flow> {
        let [op, a, b, c, d, _] = self.rows[row];
        let parts = self.parts(row);
        Ok(match op {
            4 => {
                self.value(parts[0])?;
                Flow::Normal
            }
            10 => {
                let taken = if self.answer()? != 0 { parts.first() } else { parts.get(1) };
                labelled(taken.map_or(Flow::Normal, |part| self.block(*part)), label(d))
            }
            12 => {
                let place = self.answer()? as usize;
                breakable(self.cases(parts.iter().rev().skip(place)), label(d))
            }
            13 => self.rounds(label(b), None, parts[0], &[], parts[1])?,
            14 => self.rounds(label(b), Some(&[]), parts[1], &[], parts[0])?,
            15 => self.rounds(label(b), Some(&parts[..1]), parts[parts.len() - 1], &parts[2..parts.len() - 1], parts[1])?,
            18 => labelled(self.block(parts[0]), label(b)),
            20 | 21 => self.block(parts[0]),
            22 => Flow::Stop(1),
            23 => Flow::Stop(2),
            24 if c != 0 => Flow::Break(row, (c == 1).then_some(a)),
            25 if c != 0 => Flow::Continue(row, (c == 1).then_some(a)),
            _ => Flow::Normal,
        })
    }

    /// "A case that ends normally goes on into the next one in source order."
    fn cases<'c>(&mut self, cases: impl Iterator<Item = &'c usize>) -> Flow {
        for case in cases {
            let body = self.parts(*case)[0];
            match self.block(body) {
                Flow::Normal => {}
                flow => return flow,
            }
        }
        Flow::Normal
    }

    /// A loop: `first` are the values before the first test, or none where the body comes first; `again` those before each later one.
    fn rounds(&mut self, label: Option<u32>, first: Option<&[usize]>, body: usize, again: &[usize], test: usize) -> Result<Flow, Flow> {
        let mut asks = first.is_some();
        for value in first.unwrap_or_default() {
            self.value(*value)?;
        }
        loop {
            if asks {
                self.value(test)?;
                if self.answer()? == 0 {
                    return Ok(Flow::Normal);
                }
            }
            let flow = self.block(body);
            if !goes_on(flow, label) {
                return Ok(breakable(flow, label));
            }
            for value in again {
                self.value(*value)?;
            }
            asks = true;
        }
    }
}
