//! Both runs of one accepted table held to each other, and what was met on the way.

use std::collections::BTreeMap;

use super::blocks::Blocks;
use super::conditions::{COUNT, OF_MOVES, OF_THROWS, failed};
use super::ends::present;
use super::tree::tree_run;
use super::{Given, Kind, Run, Stop};
use crate::candidate::{CANDIDATE, CANDIDATE_LANGUAGE, Candidate};
use crate::harness::count_and_tell;
use crate::language::read_off;
use crate::model::index::{LINE_WORDS, MOST_LINES};
use crate::model::table::Table;
use crate::model::{self, Refusal, Row, Rule, Walked, walk_by};
use crate::reference;
use crate::rng::Rng;

/// The longest lists of which all are tried.
const ANSWERS: usize = 4;
/// How many random lists there are, and how long they are.
const LISTS: u32 = 4;
const LONG: u32 = 40;
/// With throws, all lists with one throw at one of so many rows.
const THROWS: usize = 6;

/// An accepted table: its tree by the entry of which the law speaks, and the conditions that it fails.
pub struct Accepted<'t> {
    blocks: Blocks<'t>,
    rows: Vec<Row>,
    failed: [bool; COUNT],
    codes: [bool; 22],
    /// How many answers a test tells apart.
    answers: u32,
}

/// The tree of a table: by the first entry, with a Switch by the language entry. It is the Rust's, or read off the Rust's.
pub fn tree_of(table: &Table) -> Result<Vec<Row>, Refusal> {
    let rows = reference::walk_counted(table).0.result?;
    if has(table, 7) { read_off(&rows).ok_or(Refusal { code: 29, at: 0 }) } else { Ok(rows) }
}

fn has(table: &Table, code: u32) -> bool {
    present(table).iter().any(|(_, row)| row[2] == code)
}

impl<'t> Accepted<'t> {
    pub fn of(table: Table<'t>) -> Result<Self, Refusal> {
        let rows = tree_of(&table)?;
        let failed = failed(&table);
        let mut codes = [false; 22];
        let mut answers = 2;
        for (_, row) in present(&table) {
            codes[row[2] as usize] = true;
            if row[2] == 7 {
                answers = answers.max(row[5]);
            }
        }
        Ok(Self { blocks: Blocks::of(table), rows, failed, codes, answers })
    }

    /// Which conditions the table fails.
    pub fn failed(&self) -> Vec<usize> {
        (0..COUNT).filter(|number| self.failed[*number]).collect()
    }

    /// The law speaks of the table, if these conditions are left out.
    pub fn is_covered(&self, left_out: &[usize]) -> bool {
        (0..OF_THROWS).all(|number| !self.failed[number] || left_out.contains(&number))
    }

    /// The kinds of runs that the conditions allow: of throws and moves both, or one, or none.
    fn kinds(&self, left_out: &[usize]) -> Vec<Kind> {
        let holds = |number: usize| !self.failed[number] || left_out.contains(&number);
        let widest = Kind { throws: holds(OF_THROWS), moves: holds(OF_MOVES), once: false };
        let mut kinds = vec![widest];
        if widest.throws && self.codes[2] && self.codes[19] {
            kinds.push(Kind { throws: false, ..widest });
        }
        if self.codes[11] {
            kinds.push(Kind { once: true, ..widest });
        }
        kinds
    }

    /// Both runs.
    pub fn runs(&self, kind: Kind, given: Given) -> [Run; 2] {
        [self.blocks.run(kind, given), tree_run(&self.blocks.table, &self.blocks.rows, &self.rows, kind, given)]
    }

    /// The first list over which the runs part.
    pub fn parting(&self, left_out: &[usize]) -> Option<(Kind, Vec<u32>, Vec<u32>)> {
        let mut quiet = Met::default();
        self.kinds(left_out).into_iter().find_map(|kind| {
            quiet.every_list(self, kind, &mut Vec::new());
            quiet.parted.take().map(|(answers, outcomes)| (kind, answers, outcomes))
        })
    }
}

/// How a table came out.
#[derive(Clone, Copy, Debug, PartialEq, Eq)]
pub enum Judged {
    Refused(u32),
    /// It fails a condition.
    NotCovered,
    Agrees,
    Differs,
}

/// What was met.
#[derive(Default)]
pub struct Met {
    pub tables: u64,
    pub refused: BTreeMap<u32, u64>,
    pub accepted: u64,
    pub covered: u64,
    /// Covered tables of which the law with throws, and that with moves, speaks too.
    pub with_throws: u64,
    pub with_moves: u64,
    /// Accepted tables that fail each condition, and those that fail it alone.
    pub fails: [u64; COUNT],
    pub fails_alone: [u64; COUNT],
    pub runs: u64,
    /// Returned, threw, a row threw, out of answers.
    pub stops: [u64; 4],
    /// Covered tables with each terminal.
    pub with_code: [u64; 22],
    pub differences: u64,
    /// The last list over which the runs parted.
    parted: Option<(Vec<u32>, Vec<u32>)>,
}

impl Met {
    /// Walks a table, and compares its runs if the law speaks of it with these conditions left out. `random`: longer lists too.
    pub fn table(&mut self, words: &[u32], left_out: &[usize], random: Option<&mut Rng>) -> Judged {
        let table = Table::of(words);
        self.tables += 1;
        let rule = if has(&table, 7) { Rule::Language } else { Rule::Rust };
        let accepted = Accepted::of(table);
        self.models(&table, rule, &accepted);
        let accepted = match accepted {
            Ok(accepted) => accepted,
            Err(refusal) => {
                *self.refused.entry(refusal.code).or_default() += 1;
                return Judged::Refused(refusal.code);
            }
        };
        self.accepted += 1;
        let failed = accepted.failed();
        for number in &failed {
            self.fails[*number] += 1;
        }
        let of_all = failed.iter().filter(|number| **number < OF_THROWS);
        if let (Some(number), 1) = (of_all.clone().next(), of_all.count()) {
            self.fails_alone[*number] += 1;
        }
        if !accepted.is_covered(left_out) {
            return Judged::NotCovered;
        }
        self.covered += 1;
        for (counted, has) in self.with_code.iter_mut().zip(accepted.codes) {
            *counted += u64::from(has);
        }
        self.with_throws += u64::from(!failed.contains(&OF_THROWS));
        self.with_moves += u64::from(!failed.contains(&OF_MOVES));
        self.parted = None;
        let mut random = random;
        for kind in accepted.kinds(left_out) {
            self.every_list(&accepted, kind, &mut Vec::new());
            if let Some(rng) = random.as_deref_mut() {
                for _ in 0..LISTS {
                    let answers = accepted.any_answers(kind, rng);
                    let outcomes: Vec<u32> = if kind.throws { (0..60).map(|_| u32::from(rng.percent(8))).collect() } else { Vec::new() };
                    self.run(&accepted, kind, &answers, &outcomes);
                }
            }
        }
        let Some((answers, outcomes)) = self.parted.take() else { return Judged::Agrees };
        if count_and_tell(&mut self.differences) {
            println!("differs over the answers {answers:?} and outcomes {outcomes:?}: {words:?}, which fails {failed:?}");
        }
        Judged::Differs
    }

    /// The model and, where it is linked, the proved library walk as the Rust does.
    fn models(&mut self, table: &Table, rule: Rule, accepted: &Result<Accepted, Refusal>) {
        let walked = walk_by(rule, table);
        let same = match (&walked.result, accepted) {
            (Ok(rows), Ok(accepted)) => *rows == accepted.rows,
            // Where the Rust refuses, the language entry may refuse earlier.
            (Err(model), Err(rust)) => model.code == rust.code || rule == Rule::Language && model.code == 29,
            _ => false,
        };
        let library = if rule == Rule::Rust { CANDIDATE } else { CANDIDATE_LANGUAGE };
        let same = same && library.is_none_or(|library| library_walks(library, table, &walked));
        if !same && count_and_tell(&mut self.differences) {
            println!("differs in the tree: {:?}", table.words);
        }
    }

    /// This list, and where the runs ask for more each that goes on; with throws, with one throw at each of the first rows.
    fn every_list(&mut self, accepted: &Accepted, kind: Kind, answers: &mut Vec<u32>) {
        let stop = self.run(accepted, kind, answers, &[]);
        if kind.throws {
            for row in 0..THROWS {
                let mut outcomes = vec![0; row + 1];
                outcomes[row] = 1;
                self.run(accepted, kind, answers, &outcomes);
            }
        }
        if stop == Stop::OutOfAnswers && answers.len() < ANSWERS {
            for answer in 0..accepted.answers {
                answers.push(answer);
                self.every_list(accepted, kind, answers);
                answers.pop();
            }
        }
    }

    fn run(&mut self, accepted: &Accepted, kind: Kind, answers: &[u32], outcomes: &[u32]) -> Stop {
        let [blocks, tree] = accepted.runs(kind, Given { answers, outcomes });
        let place = match blocks.stop {
            Stop::NoSuchCase => return blocks.stop,
            Stop::Returned(..) => Some(0),
            Stop::Threw(..) => Some(1),
            Stop::RowThrew(_) => Some(2),
            Stop::OutOfAnswers => Some(3),
            _ => None,
        };
        self.runs += 1;
        if let Some(place) = place {
            self.stops[place] += 1;
        }
        if self.parted.is_none() && (place.is_none() || blocks != tree) {
            self.parted = Some((answers.to_vec(), outcomes.to_vec()));
        }
        blocks.stop
    }

    pub fn summary(&self) -> String {
        let [returned, threw, row_threw, no_answer] = self.stops;
        let refused: Vec<String> = self.refused.iter().map(|(code, times)| format!("{times} of {code}")).collect();
        format!(
            "{} tables; {} refused ({}); {} accepted, {} of them under the conditions ({} with throws, {} with moves); {} runs: \
             {returned} returned, {threw} threw, in {row_threw} a row threw, {no_answer} out of answers; {} differences",
            self.tables,
            self.tables - self.accepted,
            refused.join(", "),
            self.accepted,
            self.covered,
            self.with_throws,
            self.with_moves,
            self.runs,
            self.differences,
        )
    }

    pub fn add(&mut self, other: &Met) {
        self.runs += other.runs;
        self.differences += other.differences;
        let pairs = [(&mut self.with_code[..], &other.with_code[..]), (&mut self.stops[..], &other.stops[..])];
        for (mine, theirs) in pairs.into_iter().flat_map(|(mine, theirs)| mine.iter_mut().zip(theirs)) {
            *mine += theirs;
        }
    }
}

fn library_walks(library: Candidate, table: &Table, walked: &Walked) -> bool {
    let rows = walked.result.as_ref().map_or(0, Vec::len);
    let (mut lent, mut index) = (vec![7; 6 * rows], vec![7; LINE_WORDS * MOST_LINES]);
    let (mut tree, mut lines) = (vec![0; 6 * rows], vec![0; LINE_WORDS * MOST_LINES]);
    let outcome = library(table.words, &mut lent, &mut index);
    outcome == model::finish(walked, &mut tree, &mut lines) && (lent, index) == (tree, lines)
}

impl Accepted<'_> {
    /// Answers as far as the block run asks for them.
    fn any_answers(&self, kind: Kind, rng: &mut Rng) -> Vec<u32> {
        let mut answers = Vec::new();
        while answers.len() < LONG as usize {
            match self.blocks.run(kind, Given::answers(&answers)).stop {
                Stop::OutOfAnswers => answers.push(rng.below(self.answers)),
                Stop::NoSuchCase => {
                    let place = answers.pop().expect("a place");
                    if place == 0 {
                        break;
                    }
                    answers.push(rng.below(place));
                }
                _ => break,
            }
        }
        answers
    }
}
