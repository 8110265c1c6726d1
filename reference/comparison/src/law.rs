//! The block run and the tree's run of one accepted table held to each other, and the runner of M-103 to both: for the comparisons of the run laws.

use crate::candidate::{CANDIDATE, CANDIDATE_LANGUAGE, CANDIDATE_TREE_RUN, Candidate};
use crate::generate::draft::Draft;
use crate::harness::count_and_tell;
use crate::model::index::{LINE_WORDS, MOST_LINES};
use crate::model::table::Table;
use crate::model::tree_check::MAX_ROWS;
use crate::model::tree_run::{Ran, run as run_tree};
use crate::model::{Outcome, Row, Rule, walk_by};
use crate::rng::Rng;
use crate::runs::{Run, Stop, block_run, tree_run};

/// The most cases of a Switch in small tables.
pub const CASES: u32 = 3;
/// The longest list of answers there.
const ANSWERS: usize = 5;

#[derive(Default)]
pub struct Met {
    pub runs: u64,
    /// By M-103's reasons; the third, the end of the tree, never comes.
    pub reasons: [u64; 5],
    pub unspoken: u64,
    /// Runs of the first entry's tree that differ from the blocks'.
    pub first_entry: u64,
    pub differences: u64,
}

/// An accepted table with its trees by the language's rule and, where it differs, by the first entry's. `same`: the law is claimed of the first entry too.
pub struct Built<'t> {
    table: Table<'t>,
    rows: Vec<Row>,
    first: Option<Vec<Row>>,
    same: bool,
}

/// The same with no instruction in a Branch block.
pub fn with_bare_tests(draft: &Draft) -> Draft {
    let mut draft = draft.clone();
    for row in draft.blocks.iter_mut().filter(|row| row[2] == 6) {
        row[1] = 0;
    }
    draft
}

/// Mostly a list that names existing cases wherever the block run asks for one.
pub fn any_answers(table: &Table, rng: &mut Rng) -> Vec<u32> {
    let most = rng.pick(&[3, 10, 40]);
    if rng.percent(15) {
        return (0..rng.below(most)).map(|_| rng.below(4)).collect();
    }
    let mut answers = Vec::new();
    while answers.len() < most as usize {
        match (block_run(table, &answers).stop, answers.last()) {
            (Stop::OutOfAnswers, _) => answers.push(rng.below(5)),
            (Stop::NoSuchCase, Some(1..)) => {
                let place = answers.pop().expect("a place");
                answers.push(rng.below(place));
            }
            _ => break,
        }
    }
    answers
}

impl Met {
    pub fn summary(&self) -> String {
        let [_, returned, threw, _, no_answer] = self.reasons;
        format!(
            "{} runs: {returned} returned, {threw} threw, {no_answer} out of answers; {} lists not spoken of; by the first entry {} runs differ",
            self.runs, self.unspoken, self.first_entry,
        )
    }

    /// Nothing where the language entry refuses. `same`: the law is claimed of the first entry too.
    pub fn built<'t>(&mut self, table: Table<'t>, same: bool) -> Option<Built<'t>> {
        let rows = walk_by(Rule::Language, &table).result.ok()?;
        self.library(CANDIDATE_LANGUAGE, &table, &rows, "the library's tree");
        let first = walk_by(Rule::Rust, &table).result.ok();
        if same && let Some(first) = &first {
            self.library(CANDIDATE, &table, first, "the library's tree in the first entry");
        }
        let first = first.filter(|first| *first != rows);
        Some(Built { table, rows, first, same })
    }

    fn library(&mut self, candidate: Option<Candidate>, table: &Table, rows: &[Row], what: &str) {
        if let Some(candidate) = candidate {
            let (mut buffer, mut index) = (vec![7; 6 * rows.len()], [7; LINE_WORDS * MOST_LINES]);
            let Outcome { code, rows: count, .. } = candidate(table.words, &mut buffer, &mut index);
            self.hold((code, count as usize, buffer) == (0, rows.len(), rows.concat()), table, what);
        }
    }

    pub fn every_list(&mut self, draft: &Draft, same: bool) {
        let words = draft.words();
        let built = self.built(Table::of(&words), same).expect("it was accepted");
        self.lists_from(&built, &mut Vec::new());
    }

    /// This list, and where the runs ask for more each that goes on: yes comes twice, and a place beyond the last once.
    fn lists_from(&mut self, built: &Built, answers: &mut Vec<u32>) {
        let stop = self.compare(built, answers);
        if stop == Stop::OutOfAnswers && answers.len() < ANSWERS {
            for answer in 0..=CASES {
                answers.push(answer);
                self.lists_from(built, answers);
                answers.pop();
            }
        }
    }

    pub fn compare(&mut self, Built { table, rows, first, same }: &Built, answers: &[u32]) -> Stop {
        let blocks = block_run(table, answers);
        if blocks.stop == Stop::NoSuchCase {
            self.unspoken += 1;
            return blocks.stop;
        }
        self.runs += 1;
        let good = matches!(blocks.stop, Stop::Returned(..) | Stop::Threw(..) | Stop::OutOfAnswers);
        self.reasons[blocks.stop.reason() as usize] += 1;
        self.hold(good && tree_run(rows, answers) == blocks, table, format_args!("the tree's run over {answers:?}"));
        if let Some(first) = first {
            let differs = tree_run(first, answers) != blocks;
            self.first_entry += u64::from(differs);
            self.hold(!(*same && differs), table, format_args!("the first entry's run over {answers:?}"));
        }
        if rows.len() <= MAX_ROWS {
            self.runner(run_tree, table, rows, answers, &blocks);
            if let Some(candidate) = CANDIDATE_TREE_RUN {
                self.runner(candidate, table, rows, answers, &blocks);
            }
        }
        blocks.stop
    }

    /// With just enough words for the rows performed, and with one less.
    fn runner(&mut self, run: fn(&[u32], &[u32], &mut [u32]) -> Ran, table: &Table, rows: &[Row], answers: &[u32], blocks: &Run) {
        let number = blocks.performed.len();
        let mut performed = vec![7; number];
        let ran = run(rows.as_flattened(), answers, &mut performed);
        let expected = Ran { code: 0, at: 0, number, reason: blocks.stop.reason() };
        self.hold((ran, &performed) == (expected, &blocks.performed), table, format_args!("the runner over {answers:?}"));
        if let Some(short) = number.checked_sub(1) {
            let ran = run(rows.as_flattened(), answers, &mut performed[..short]);
            self.hold((ran.code, ran.number) == (65, 0), table, format_args!("the runner over {answers:?} with {short} words"));
        }
    }

    fn hold(&mut self, same: bool, table: &Table, what: impl std::fmt::Display) {
        if !same && count_and_tell(&mut self.differences) {
            println!("differs in {what}: {:?}", table.words);
        }
    }
}
