//! The block run of a table of any terminals.

use super::ends::{Rows, present, regions, rows_of};
use super::{Given, Kind, Log, Run, Stop};
use crate::model::table::{BlockRow, Table};

/// A table, and what its run needs to know of it.
pub struct Blocks<'t> {
    pub table: Table<'t>,
    pub rows: Rows,
    regions: Vec<Option<u32>>,
}

impl<'t> Blocks<'t> {
    pub fn of(table: Table<'t>) -> Self {
        Self { table, rows: rows_of(&table), regions: regions(&table).0 }
    }

    /// Where a throw in a block goes.
    fn handler(&self, block: u32) -> Option<u32> {
        self.regions[block as usize].map(|owner| self.table.block(owner)[4])
    }

    pub fn run(&self, kind: Kind, given: Given) -> Run {
        let mut log = Log::new(kind, given);
        let mut block = self.table.entry();
        // A block that comes again with nothing taken in between comes again for ever.
        let (mut quiet, mut before) = (0, (0, 0));
        loop {
            let now = (log.taken, log.outcomes.min(given.outcomes.len()));
            quiet = if now == before { quiet + 1 } else { 0 };
            before = now;
            if quiet > self.table.words[1] {
                return log.run(Stop::Endless);
            }
            let thrown = self.perform(block, &mut log);
            let next = match thrown {
                Some(row) => self.handler(block).ok_or(Stop::RowThrew(row)),
                None => self.next(block, &mut log),
            };
            match next {
                Ok(next) => block = next,
                Err(stop) => return log.run(stop),
            }
        }
    }

    /// Performs a block's rows, up to one that throws.
    fn perform(&self, block: u32, log: &mut Log) -> Option<u32> {
        let [first, count, ..] = *self.table.block(block);
        let thrown = (first..first + count).find(|row| self.rows.seen[*row as usize] && log.row(*row));
        if let (None, Some((to, from))) = (thrown, self.rows.stores[block as usize]) {
            log.moves(to, from);
        }
        thrown
    }

    fn next(&self, block: u32, log: &mut Log) -> Result<u32, Stop> {
        let row: &BlockRow = self.table.block(block);
        let [_, _, code, a, b, c, _, _, id, ..] = *row;
        let stop = if code == 2 { Stop::Threw(a, id) } else { Stop::Returned(a, id) };
        match code {
            2 if log.kind.throws => self.handler(block).ok_or(stop),
            2 | 3 => Err(stop),
            4 if log.kind.once && b == 1 => Ok(self.of_init(a).unwrap_or(a)),
            4 | 8..=12 | 14 | 16..=21 => Ok(a),
            13 | 15 => Ok(b),
            5 | 6 => {
                let answer = log.answer().ok_or(Stop::OutOfAnswers)?;
                Ok(if answer == 0 { c } else { b })
            }
            7 => {
                let cases: Vec<u32> = (b..b + c).map(|case| self.table.case(case)[1]).collect();
                let place = *log.given.answers.get(log.taken).ok_or(Stop::OutOfAnswers)?;
                let next = cases.get(place as usize).ok_or(Stop::NoSuchCase)?;
                log.taken += 1;
                Ok(*next)
            }
            _ => Err(Stop::Lost),
        }
    }

    /// The test of a ForOf whose init this is.
    fn of_init(&self, block: u32) -> Option<u32> {
        let rows = present(&self.table);
        rows.into_iter().find(|(_, row)| row[2] == 11 && row[3] == block).map(|(_, row)| row[4])
    }
}
