//! The run of a tree of any rows.

use super::ends::Rows;
use super::{Given, Kind, Log, Run, Stop};
use crate::model::Row;
use crate::model::table::Table;
use crate::parts::Parts;

/// The run of a table's tree.
pub fn tree_run(table: &Table, facts: &Rows, rows: &[Row], kind: Kind, given: Given) -> Run {
    let mut run = TreeRun { table, facts, rows, parts: Parts::of(rows), log: Log::new(kind, given) };
    let stop = match run.statement(rows.len() - 1) {
        Flow::Stop(stop) | Flow::Throw(stop) => stop,
        Flow::Normal => Stop::EndOfTree,
        Flow::Break(_) | Flow::Continue(_) => Stop::NoTarget,
    };
    run.log.run(stop)
}

/// How a statement ends.
enum Flow {
    Normal,
    Break(Option<u32>),
    Continue(Option<u32>),
    /// With what stops the run if nothing catches it.
    Throw(Stop),
    Stop(Stop),
}

/// How a value ends, if it does: with the identifier that its last part loads, or short.
enum Value {
    Whole(Option<u32>),
    Short,
}

type Valued = Result<Value, Flow>;

struct TreeRun<'r> {
    table: &'r Table<'r>,
    facts: &'r Rows,
    rows: &'r [Row],
    parts: Parts,
    log: Log<'r>,
}

impl TreeRun<'_> {
    fn answer(&mut self) -> Result<u32, Flow> {
        self.log.answer().ok_or(Flow::Stop(Stop::OutOfAnswers))
    }

    /// `tested`: an OPTIONAL whose test it is takes over a short end.
    fn value(&mut self, at: usize, tested: bool) -> Valued {
        let [op, a, ..] = self.rows[at];
        let parts = self.parts.at(at);
        match op {
            1 => {
                if self.facts.seen[a as usize] && self.log.row(a) {
                    return Err(Flow::Throw(Stop::RowThrew(a)));
                }
                Ok(Value::Whole(None))
            }
            2 => Ok(Value::Whole(Some(self.table.identifier_of(a)))),
            3 => Ok(Value::Whole(None)),
            5 => {
                let (value, instructions) = parts.split_last().expect("a SEQ has a value");
                for (place, instruction) in instructions.iter().enumerate() {
                    let is_last = place + 1 == instructions.len();
                    let ended = self.instruction(*instruction, false)?;
                    if let (Value::Short, true, 2) = (ended, tested && is_last, self.rows[*value][0]) {
                        return Ok(Value::Short);
                    }
                }
                self.value(*value, tested)
            }
            6 => {
                let left = self.value(parts[0], false)?;
                if self.answer()? != 0 { Ok(left) } else { self.value(parts[1], false) }
            }
            7 => {
                self.value(parts[0], false)?;
                let arm = if self.answer()? != 0 { parts[1] } else { parts[2] };
                self.value(arm, false)
            }
            8 => {
                let [test, value] = self.parts.at(parts[0])[..] else { panic!("an OPTIONAL has a SEQ of one INSTR") };
                if let Value::Short = self.instruction(test, true)? {
                    return Ok(Value::Short);
                }
                if self.answer()? == 0 { Ok(Value::Short) } else { self.value(value, false) }
            }
            op => panic!("op {op} as a value"),
        }
    }

    /// An INSTR: what its value loads last goes to its place.
    fn instruction(&mut self, at: usize, tested: bool) -> Valued {
        let place = self.table.identifier_of(self.rows[at][2]);
        let value = self.parts.at(at)[0];
        let ended = self.value(value, tested)?;
        if let Value::Whole(Some(loaded)) = ended {
            self.log.moves(place, loaded);
        }
        Ok(ended)
    }

    fn statement(&mut self, at: usize) -> Flow {
        self.ended(at).unwrap_or_else(|flow| flow)
    }

    fn ended(&mut self, at: usize) -> Result<Flow, Flow> {
        let [op, a, b, c, d, _] = self.rows[at];
        let parts = self.parts.at(at);
        let jump = (c == 1).then_some(a);
        Ok(match op {
            4 => {
                self.instruction(at, false)?;
                Flow::Normal
            }
            10 => {
                let taken = if self.answer()? != 0 { parts.first() } else { parts.get(1) };
                taken.map_or(Flow::Normal, |part| ends(d, self.statement(*part)))
            }
            12 => {
                let place = self.answer()? as usize;
                let cases: Vec<usize> = parts.iter().rev().skip(place).copied().collect();
                match self.in_order(&cases) {
                    Flow::Break(None) => Flow::Normal,
                    flow => ends(d, flow),
                }
            }
            13 => {
                let first = self.statement(parts[0]);
                self.rounds(b, first, &[parts[1]], parts[0])?
            }
            14 => self.rounds(b, Flow::Normal, &[parts[0]], parts[1])?,
            15 => {
                let (test, body) = (parts[1], parts[parts.len() - 1]);
                self.value(parts[0], false)?;
                self.value(test, false)?;
                if self.answer()? == 0 {
                    return Ok(Flow::Normal);
                }
                let first = self.statement(body);
                let update = (c == 1).then(|| parts[2]);
                let again: Vec<usize> = update.into_iter().chain([test]).collect();
                self.rounds(b, first, &again, body)?
            }
            16 if self.log.kind.once => {
                self.value(parts[0], false)?;
                self.rounds(b, Flow::Normal, &[parts[1]], parts[2])?
            }
            16 => self.rounds(b, Flow::Normal, &[parts[0], parts[1]], parts[2])?,
            17 => self.rounds(b, Flow::Normal, &[parts[0]], parts[1])?,
            18 => ends(b, self.statement(parts[0])),
            19 => {
                let flow = match self.statement(parts[0]) {
                    Flow::Throw(_) if self.log.kind.throws => self.statement(parts[1]),
                    flow => flow,
                };
                ends(b, flow)
            }
            22 => Flow::Stop(Stop::Returned(a, b)),
            23 => Flow::Throw(Stop::Threw(a, b)),
            24 | 25 if c == 0 => Flow::Normal,
            24 => Flow::Break(jump),
            25 => Flow::Continue(jump),
            _ => self.in_order(&parts),
        })
    }

    fn in_order(&mut self, parts: &[usize]) -> Flow {
        for part in parts {
            match self.statement(*part) {
                Flow::Normal => {}
                flow => return flow,
            }
        }
        Flow::Normal
    }

    /// A loop whose body ended so: the values before the answer, and by one answer the body again.
    fn rounds(&mut self, label: u32, mut flow: Flow, before: &[usize], body: usize) -> Result<Flow, Flow> {
        loop {
            match flow {
                Flow::Normal => {}
                Flow::Continue(to) if to.is_none_or(|to| to == label) => {}
                Flow::Break(to) if to.is_none_or(|to| to == label) => return Ok(Flow::Normal),
                flow => return Ok(flow),
            }
            for value in before {
                self.value(*value, false)?;
            }
            if self.answer()? == 0 {
                return Ok(Flow::Normal);
            }
            flow = self.statement(body);
        }
    }
}

/// A labelled statement takes the labelled breaks that mean it.
fn ends(label: u32, flow: Flow) -> Flow {
    match flow {
        Flow::Break(Some(to)) if to == label => Flow::Normal,
        flow => flow,
    }
}
