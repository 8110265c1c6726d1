//! `compare_tree_run [RUNS [SEED]]`: trees run by the model and by the proved runner of M-103, every lent word compared: so many runs on random trees, on
//! deep ones, on the trees that the model's build makes and on spoilt ones; on a plain table's tree the block run is compared as well. The status is not 0
//! if anything differs, if an answer was not met in a long enough run, or if the library is not linked.

use std::process::ExitCode;

use comparison::candidate::{CANDIDATE_TREE_RUN, CandidateRun};
use comparison::generate::generate;
use comparison::generate::rows::spoil;
use comparison::generate::trees::{deep, tree};
use comparison::harness::{LONG_ENOUGH, Verdict, count_and_tell, with_library};
use comparison::model::check::check as check_table;
use comparison::model::tree_check::MAX_ROWS;
use comparison::model::tree_run::{Ran, run};
use comparison::model::walk;
use comparison::rng::Rng;
use comparison::runs::{Width, block_run, is_plain};

#[derive(Default)]
struct Met {
    runs: u64,
    built: u64,
    plain: u64,
    /// By reason, and by code from 60 on.
    reasons: [u64; 5],
    codes: [u64; 6],
    differences: u64,
}

fn main() -> ExitCode {
    with_library("tree-run", CANDIDATE_TREE_RUN, compare_runs)
}

fn compare_runs(candidate: CandidateRun, runs: u64, seed: u64) -> Verdict {
    let mut met = Met::default();
    let mut number = 0;
    while met.runs < runs {
        let mut rng = Rng::new(seed.rotate_left(40) ^ number);
        let mut words = tree(&mut rng);
        if words.len() <= MAX_ROWS * 6 {
            met.compare(candidate, &words, &answers(&mut rng), &mut rng);
            met.compare(candidate, &words, &answers(&mut rng), &mut rng);
            if number % 4 == 0 {
                spoil(&mut words, &mut rng);
                met.compare(candidate, &words, &answers(&mut rng), &mut rng);
            }
        }
        if number % 4 == 1 {
            met.table(candidate, seed, number, &mut rng);
        }
        if number % 1_000 == 2 {
            let labels = rng.from_to(900, 1_020);
            met.compare(candidate, &deep(labels, &mut rng), &answers(&mut rng), &mut rng);
        }
        number += 1;
    }

    let verdict = met.verdict(runs);
    println!(
        "seed {seed}: {} runs of trees, {} of built ones and {} of plain tables among them, by reason {:?}, refused 60 to 65 {:?}, model and proved runner with {verdict}",
        met.runs, met.built, met.plain, &met.reasons[1..], met.codes,
    );
    verdict
}

/// A few answers, mostly 0 to 3, as places of cases are; now and then large.
fn answers(rng: &mut Rng) -> Vec<u32> {
    let most = rng.pick(&[2, 6, 20]);
    (0..rng.below(most)).map(|_| if rng.percent(3) { u32::MAX - rng.below(2) } else { rng.below(4) }).collect()
}

impl Met {
    fn compare(&mut self, candidate: CandidateRun, words: &[u32], answers: &[u32], rng: &mut Rng) -> (Ran, Vec<u32>) {
        let lent = rng.pick(&[0, 1, 3, 8, 30, 300]);
        let (mut expected_words, mut found_words) = (vec![u32::MAX; lent], vec![7; lent]);
        let expected = run(words, answers, &mut expected_words);
        let found = candidate(words, answers, &mut found_words);
        self.runs += 1;
        if expected.code == 0 {
            self.reasons[expected.reason as usize] += 1;
        } else {
            self.codes[expected.code as usize - 60] += 1;
        }
        if (expected, &expected_words) != (found, &found_words) && count_and_tell(&mut self.differences) {
            println!("run differs: {words:?}");
            println!("  answers {answers:?}, lent {lent}");
            println!("  expected {expected:?} {expected_words:?}, candidate {found:?} {found_words:?}");
        }
        (expected, expected_words)
    }

    /// The tree of a generated table, if the model's build makes one.
    fn table(&mut self, candidate: CandidateRun, seed: u64, number: u64, rng: &mut Rng) {
        let words = generate(seed, number).words;
        let Ok(table) = check_table(&words) else { return };
        let Ok(rows) = walk(&table).result else { return };
        if rows.len() > MAX_ROWS {
            return;
        }
        self.built += 1;
        let answers = answers(rng);
        let (ran, performed) = self.compare(candidate, rows.as_flattened(), &answers, rng);
        if is_plain(&table, Width::Paper01) && ran.code == 0 {
            self.plain += 1;
            let blocks = block_run(&table, &answers);
            if blocks.performed != performed[..ran.number] || blocks.stop.reason() != ran.reason {
                self.differences += 1;
                println!("block run differs: table {number}, answers {answers:?}");
            }
        }
    }

    fn verdict(&self, runs: u64) -> Verdict {
        let mut verdict = Verdict::of(self.differences, runs >= LONG_ENOUGH);
        for (reason, times) in self.reasons.iter().enumerate().skip(1) {
            verdict.need(format_args!("reason {reason}"), *times);
        }
        for (code, times) in self.codes.iter().enumerate() {
            verdict.need(format_args!("code {}", code + 60), *times);
        }
        verdict.need("plain table", self.plain);
        verdict
    }
}
