//! `compare_order [TABLES [SEED]]`: rearranges seeded tables, every other one a graph of its own, by the
//! model and by the proved library, and restores them, into buffers of the lengths needed and of others,
//! with lists that are permutations and lists that are not; then renumbers each table at random, and
//! builds it before and after, in both entries. Says how often anything differs and what was met. The status is not 0 if
//! anything differs, if a kind was not met in a long enough run, or if the library is not linked.

use std::process::ExitCode;

use comparison::candidate::{CANDIDATE_ORDER, CandidateOrder};
use comparison::generate::graphs::graph_or_table;
use comparison::harness::{LONG_ENOUGH, Verdict, stale, with_library};
use comparison::model;
use comparison::model::check::check;
use comparison::model::dot::named;
use comparison::model::index::LINE_WORDS;
use comparison::model::order::{Moved, places, rearrange, renamed, renamed_row, restore, walking_order};
use comparison::model::table::Table;
use comparison::model::{Outcome, ROW_WORDS};
use comparison::rng::Rng;

/// Accepted, and every refusal.
const ANSWERS: [u32; 7] = [0, 1, 2, 3, 4, 45, 46];

type Entry = fn(&[u32], &mut [u32], &mut [u32]) -> Outcome;

/// The entry that equals the Rust, and the language entry.
const ENTRIES: [Entry; 2] = [model::build, model::build_language];

/// Lent to each build.
const TREE: usize = 4_096 * ROW_WORDS;
const INDEX: usize = 1_023 * LINE_WORDS;

#[derive(Default)]
struct Met {
    /// How often each of `ANSWERS` was given, by the rearrangement and by the inverse.
    answers: [[u64; ANSWERS.len()]; 2],
    calls: u64,
    built: u64,
    refused_at_a_block: u64,
    no_such_label: u64,
    lines_lacking: u64,
    all_named: u64,
    some_unnamed: u64,
    moved: u64,
    differences: u64,
}

fn main() -> ExitCode {
    with_library("order", CANDIDATE_ORDER, compare_tables)
}

fn compare_tables(candidate: CandidateOrder, tables: u64, seed: u64) -> Verdict {
    let mut met = Met::default();
    for number in 0..tables {
        let mut rng = Rng::of_table(seed, number);
        let words = graph_or_table(seed, number, &mut rng);
        let before = met.differences;
        lent(candidate, &words, &mut rng, &mut met);
        if let Ok(table) = check(&words) {
            lists(candidate, &table, &mut rng, &mut met);
            renumbered(candidate, &table, &mut rng, &mut met);
        }
        if met.differences > before && met.differences <= 10 {
            println!("table {number} differs: {words:?}");
        }
    }

    let verdict = met.verdict(tables);
    println!(
        "seed {seed}: {tables} tables rearranged, {} calls, model and proved library with {verdict}; {} builds of tables renumbered at random",
        met.calls, met.built,
    );
    verdict
}

/// A random order of the numbers below n.
fn shuffled(rng: &mut Rng, n: u32) -> Vec<u32> {
    let mut list: Vec<u32> = (0..n).collect();
    for last in (1..list.len()).rev() {
        list.swap(last, rng.below(last as u32 + 1) as usize);
    }
    list
}

impl Met {
    fn hold(&mut self, same: bool) {
        self.differences += u64::from(!same);
    }

    fn answered(&mut self, which: usize, moved: Moved) {
        let answer = ANSWERS.iter().position(|code| *code == moved.code).expect("a known code");
        self.answers[which][answer] += 1;
        self.calls += 1;
    }

    /// Both buffers of the lengths given; every word is compared.
    fn rearranged(&mut self, candidate: CandidateOrder, words: &[u32], table: usize, list: usize) -> (Vec<u32>, Vec<u32>) {
        let (mut new_words, mut old_numbers) = (stale(table), stale(list));
        let expected = rearrange(words, &mut new_words, &mut old_numbers);
        let (mut table, mut list) = (stale(table), stale(list));
        let moved = candidate.0(words, &mut table, &mut list);
        self.answered(0, expected);
        self.hold(moved == expected && table == new_words && list == old_numbers);
        (table, list)
    }

    fn restored(&mut self, candidate: CandidateOrder, words: &[u32], list: &[u32], table: usize) -> Vec<u32> {
        let mut first_words = stale(table);
        let expected = restore(words, list, &mut first_words);
        let mut table = stale(table);
        let moved = candidate.1(words, list, &mut table);
        self.answered(1, expected);
        self.hold(moved == expected && table == first_words);
        table
    }

    fn verdict(&self, tables: u64) -> Verdict {
        let mut verdict = Verdict::of(self.differences, tables >= LONG_ENOUGH);
        for (which, entry) in ["rearrangement", "inverse"].iter().enumerate() {
            for (code, times) in ANSWERS.iter().zip(self.answers[which]) {
                if (which, *code) != (0, 46) {
                    verdict.need(format_args!("{entry}: answer {code}"), times);
                }
            }
        }
        verdict.need("a build refused at a block", self.refused_at_a_block);
        verdict.need("a jump that finds no label (29)", self.no_such_label);
        verdict.need("a build that lacks places for lines (41)", self.lines_lacking);
        verdict.need("a table whose blocks are all named", self.all_named);
        verdict.need("a table with a block that is not named", self.some_unnamed);
        verdict.need("a table that is not in walking order", self.moved);
        verdict
    }
}

/// Buffers of the lengths needed, and of others.
fn lent(candidate: CandidateOrder, words: &[u32], rng: &mut Rng, met: &mut Met) {
    let blocks = words.get(1).map_or(0, |blocks| (*blocks).min(2_000) as usize);
    let other = |exact: usize, by: u32| if by % 2 == 0 { exact + 1 } else { exact.saturating_sub(1) };
    let (table, list) = (other(words.len(), rng.below(2)), other(blocks, rng.below(2)));
    met.rearranged(candidate, words, words.len(), blocks);
    met.rearranged(candidate, words, table, blocks);
    met.rearranged(candidate, words, words.len(), list);
    let numbers: Vec<u32> = (0..blocks as u32).collect();
    met.restored(candidate, words, &numbers, table);
    // 45 comes before 46.
    met.restored(candidate, words, &[], table);
}

/// The inverse with lists that are permutations, and with others.
fn lists(candidate: CandidateOrder, table: &Table, rng: &mut Rng, met: &mut Met) {
    let words = table.words;
    let blocks = words[1];
    let (rearranged, list) = met.rearranged(candidate, words, words.len(), blocks as usize);
    met.moved += u64::from(list.iter().copied().ne(0..blocks));
    // The first table exactly.
    let first = met.restored(candidate, &rearranged, &list, words.len());
    met.hold(first == words);
    let random = shuffled(rng, blocks);
    met.restored(candidate, words, &random, words.len());
    let mut spoiled = random;
    match rng.below(4) {
        0 => spoiled.push(rng.below(blocks + 1)),
        1 => _ = spoiled.pop(),
        2 => spoiled[rng.below(blocks) as usize] = rng.below(blocks),
        _ => spoiled[rng.below(blocks) as usize] = [blocks, 65_535, u32::MAX][rng.below(3) as usize],
    }
    met.restored(candidate, words, &spoiled, words.len());
}

/// Renumbered at random: one rearrangement where every block is named, and the same tree renamed.
fn renumbered(candidate: CandidateOrder, table: &Table, rng: &mut Rng, met: &mut Met) {
    let words = table.words;
    let new = shuffled(rng, words[1]);
    let other = renamed(table, &new);
    let (first, order) = met.rearranged(candidate, words, words.len(), words[1] as usize);
    let (second, _) = met.rearranged(candidate, &other, words.len(), words[1] as usize);
    let walked = walking_order(table);
    let mut is_named = vec![false; walked.len()];
    is_named[table.entry() as usize] = true;
    // What the walk reaches: a block named by one that it reached.
    for row in &walked {
        if is_named[*row as usize] {
            named(table, *row).iter().for_each(|block| is_named[*block as usize] = true);
        }
    }
    if is_named.iter().all(|named| *named) {
        met.all_named += 1;
        met.hold(first == second);
    } else {
        met.some_unnamed += 1;
    }
    let short = rng.below(60) as usize;
    let few = rng.below(12) as usize;
    for lent in [(TREE, INDEX), (TREE, few), (short, INDEX)] {
        for entry in ENTRIES {
            built(entry, words, &other, &new, lent, met);
            built(entry, words, &first, &places(&order), lent, met);
        }
    }
}

/// The same rows, code, visits and lines with every block renamed, and `at` where it is a block.
fn built(entry: Entry, words: &[u32], other: &[u32], new: &[u32], lent: (usize, usize), met: &mut Met) {
    let (mut tree, mut there) = (stale(lent.0), stale(lent.0));
    let (mut index, mut index_there) = (stale(lent.1), stale(lent.1));
    let before = entry(words, &mut tree, &mut index);
    let after = entry(other, &mut there, &mut index_there);
    let at_a_block = (10..=31).contains(&before.code);
    let at = if at_a_block { new[before.at as usize] } else { before.at };
    let (rows, rest) = tree.as_chunks_mut::<ROW_WORDS>();
    rows.iter_mut().for_each(|row| *row = renamed_row(*row, new));
    met.hold(rest.iter().all(|word| *word == 0));
    // A line's label is a block; where the lines stay in their places, so do the zeros.
    let lines = before.lines as usize * LINE_WORDS;
    index[..lines].iter_mut().step_by(LINE_WORDS).for_each(|label| *label = new[*label as usize]);
    met.hold(after == Outcome { at, ..before } && tree == there && index == index_there);
    met.lines_lacking += u64::from(before.code == 41);
    met.built += 1;
    met.refused_at_a_block += u64::from(at_a_block);
    met.no_such_label += u64::from(before.code == 29);
}
