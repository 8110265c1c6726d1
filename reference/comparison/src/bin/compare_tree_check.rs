//! `compare_tree_check [TREES [SEED]]`: lists of rows through the check of M-100, by the model and by
//! the proved library: every list of up to four rows over a small alphabet (six, where a million trees or
//! more are asked for), lists at the limits, the trees that the model's build makes, and so many of them
//! spoilt. The status is not 0 if anything differs, if a built tree is refused, if an answer was not met in a
//! long enough run, or if the library is not linked.

use std::process::ExitCode;

use comparison::candidate::{CANDIDATE_TREE_CHECK, CandidateCheck};
use comparison::generate::rows::{ALPHABET, limits, short_list, spoil};
use comparison::generate::trees::built;
use comparison::harness::{LONG_ENOUGH, Verdict, count_and_tell, with_library};
use comparison::model::tree_check::{MAX_ROWS, check};
use comparison::rng::Rng;

/// A run this long goes through the lists of six rows as well.
const LONG: u64 = 1_000_000;

#[derive(Default)]
struct Met {
    lists: u64,
    built: u64,
    spoilt: u64,
    accepted: u64,
    /// By op: accepted, refused 60, refused 61.
    ops: [[u64; 3]; 27],
    /// 62 first, and last.
    lengths: u64,
    remainders: u64,
    differences: u64,
}

fn main() -> ExitCode {
    with_library("tree-check", CANDIDATE_TREE_CHECK, compare_lists)
}

fn compare_lists(candidate: CandidateCheck, trees: u64, seed: u64) -> Verdict {
    let mut met = Met::default();
    for words in limits() {
        met.compare(candidate, &words);
    }
    for rows in 0..=if trees >= LONG { 6 } else { 4 } {
        for number in 0..(ALPHABET.len() as u64).pow(rows) {
            met.compare(candidate, &short_list(number, rows));
        }
    }
    let mut number = 0;
    while met.spoilt < trees {
        let (rows, mut rng) = (built(seed, number), Rng::of_table(seed, number));
        number += 1;
        let Some(rows) = rows.filter(|rows| rows.len() <= MAX_ROWS) else { continue };
        met.built += 1;
        let tree = rows.as_flattened().to_vec();
        if met.compare(candidate, &tree) != (0, 0) {
            met.differences += 1;
            println!("built tree {number} is refused");
        }
        for _ in 0..8 {
            let mut tree = tree.clone();
            for _ in 0..rng.from_to(1, 3) {
                spoil(&mut tree, &mut rng);
            }
            met.compare(candidate, &tree);
            met.spoilt += 1;
        }
    }

    let verdict = met.verdict(trees);
    println!(
        "seed {seed}: {} lists of rows, {} built trees and {} spoilt ones among them, {} accepted, model and proved check of trees with {verdict}",
        met.lists, met.built, met.spoilt, met.accepted,
    );
    verdict
}

impl Met {
    /// Code and at by the model, which the library must give too.
    fn compare(&mut self, candidate: CandidateCheck, words: &[u32]) -> (u32, u32) {
        let expected = check(words).map_or_else(|refusal| (refusal.code, refusal.at), |()| (0, 0));
        self.lists += 1;
        self.note(words, expected);
        let found = candidate(words);
        if found != expected && count_and_tell(&mut self.differences) {
            println!("list differs: {words:?}");
            println!("  expected {expected:?}, candidate {found:?}");
        }
        expected
    }

    fn note(&mut self, words: &[u32], (code, at): (u32, u32)) {
        let op = |row: usize| words[row * 6].min(26) as usize;
        match code {
            0 => {
                self.accepted += 1;
                (0..words.len() / 6).for_each(|row| self.ops[op(row)][0] += 1);
            }
            60 => self.ops[op(at as usize)][1] += 1,
            61 => self.ops[op(at as usize)][2] += 1,
            _ if words.is_empty() || words.len() % 6 != 0 || words.len() > MAX_ROWS * 6 => self.lengths += 1,
            _ => self.remainders += 1,
        }
    }

    fn verdict(&self, trees: u64) -> Verdict {
        let mut verdict = Verdict::of(self.differences, trees >= LONG_ENOUGH);
        let takes = |op: usize| !matches!(op, 1..=3 | 22..=25);
        for (op, [accepted, out, alone]) in self.ops.iter().enumerate() {
            let known = (1..=25).contains(&op);
            if known {
                verdict.need(format_args!("op {op}, accepted"), *accepted);
            }
            verdict.need(format_args!("op {op}, refused 60"), *out);
            if known && takes(op) {
                verdict.need(format_args!("op {op}, refused 61"), *alone);
            }
        }
        verdict.need("62, length", self.lengths);
        verdict.need("62, remainder", self.remainders);
        verdict
    }
}
