//! `compare [TABLES [SEED]]`: runs the reference, the model and the candidate on seeded tables, and
//! says how often they differ, what was met and how fast it went. The status is not 0 if anything
//! differs, or if anything was not met that a long enough run meets.

use std::process::ExitCode;
use std::sync::atomic::{AtomicU64, Ordering};
use std::thread;
use std::time::Instant;

use comparison::candidate::{CANDIDATE, CANDIDATE_CHECK, CANDIDATE_LANGUAGE, CANDIDATE_LOOKUP, CANDIDATE_PREVIEWS, Candidate};
use comparison::coverage::Coverage;
use comparison::generate::{FAMILIES, Generated, generate, long};
use comparison::harness::{Room, arguments, stale};
use comparison::language::read_off;
use comparison::model::index::{LINE_WORDS, lines};
use comparison::model::table::Table;
use comparison::model::{self, Outcome, Rule, Walked};
use comparison::reference;
use comparison::rng::Rng;
use comparison::runs::{Width, block_run, is_plain, tree_run};

/// A run this long meets everything.
const LONG_ENOUGH: u64 = 100_000;
const CHUNK: u64 = 500;
/// The first tables of a run have long indexes, up to 1,023 lines.
const MANY_LINES: u64 = 24;

fn main() -> ExitCode {
    let (tables, seed, _) = arguments();
    let workers = thread::available_parallelism().map_or(1, |number| number.get());
    reference::install_panic_hook();

    let start = Instant::now();
    let next = AtomicU64::new(0);
    let mut total = Coverage::default();
    thread::scope(|scope| {
        let work = || {
            let mut coverage = Coverage::default();
            loop {
                let first = next.fetch_add(CHUNK, Ordering::Relaxed);
                if first >= tables {
                    return coverage;
                }
                for number in first..(first + CHUNK).min(tables) {
                    let generated = match number {
                        0..MANY_LINES => many_lines(number),
                        _ => generate(seed, number),
                    };
                    compare(seed, number, generated, &mut coverage);
                }
            }
        };
        let thread = || {
            let builder = thread::Builder::new().stack_size(reference::STACK_BYTES);
            builder.spawn_scoped(scope, work).expect("a thread")
        };
        let threads: Vec<_> = (0..workers).map(|_| thread()).collect();
        for thread in threads {
            total.add(&thread.join().expect("a worker ends"));
        }
    });
    let seconds = start.elapsed().as_secs_f64();

    print!("{}", total.report());
    let verdict = total.verdict(tables >= LONG_ENOUGH);
    let compared = match (CANDIDATE, CANDIDATE_CHECK) {
        (None, None) => "model",
        (None, Some(_)) => "model and proved check",
        (Some(_), None) => "model and proved build",
        (Some(_), Some(_)) => "model, proved check and proved build",
    };
    println!(
        "seed {seed}: {} tables, {} walked by the reference, {} runs of plain tables, {} lookups, {} previews, {compared} with {verdict}, {seconds:.1} s, {:.0} tables/s",
        total.tables,
        total.compared,
        total.runs,
        total.lookups,
        total.previews,
        total.tables as f64 / seconds,
    );
    verdict.status()
}

fn many_lines(number: u64) -> Generated {
    let family = FAMILIES.iter().position(|name| *name == "limits").expect("a family");
    Generated { family, words: long::run_of_switches(1_024 - number as u32 / 4) }
}

/// What a build gives: the numbers, and every word of the two buffers.
struct Built {
    outcome: Outcome,
    tree: Vec<u32>,
    index: Vec<u32>,
}

impl Built {
    /// By the model, in buffers of these lengths.
    fn by(build: Candidate, words: &[u32], [tree, index]: [usize; 2]) -> Self {
        let (mut tree, mut index) = (stale(tree), stale(index));
        let outcome = build(words, &mut tree, &mut index);
        Self { outcome, tree, index }
    }

    fn lent(&self) -> [usize; 2] {
        [self.tree.len(), self.index.len()]
    }
}

/// Runs all on one table: code, at, rows, visits, lines and every word of the buffers are compared.
fn compare(seed: u64, number: u64, Generated { family, words }: Generated, coverage: &mut Coverage) {
    let mut lent = Rng::of_table(seed, number);
    let checked = model::check::check(&words);
    if let Some(check) = CANDIDATE_CHECK {
        let expected =
            checked.as_ref().map_or_else(|refusal| (refusal.code, refusal.at), |_| (0, 0));
        let answer = check(&words);
        if answer != expected {
            coverage.differences += 1;
            println!("table {number} differs in its check: {words:?}");
            println!("  expected {expected:?}, candidate {answer:?}");
        }
    }
    let expected = match checked {
        Ok(table) => {
            let (walked, seen) = reference::walk_counted(&table);
            coverage.walk(&words, &seen);
            compare_language(number, &table, &walked, coverage);
            if let Ok(rows) = &walked.result
                && is_plain(&table, Width::Paper01)
            {
                compare_runs(number, &table, rows, &mut lent, coverage);
            }
            let (rows, line_count) = walked.result.as_ref().map_or((0, 0), |rows| (rows.len(), lines(rows).len()));
            let mut tree = vec![0; buffer_length(rows, &mut lent)];
            let mut index = vec![0; index_length(line_count, &mut lent, coverage)];
            let outcome = model::finish(&walked, &mut tree, &mut index);
            let expected = Built { outcome, tree, index };
            compare_with("model", model::build, number, &words, &expected, coverage);
            expected
        }
        // The reference takes no words that fail the check: there the model alone decides.
        Err(_) => Built::by(model::build, &words, [lent.below(40) as usize, lent.below(12) as usize]),
    };
    coverage.answer(family, expected.outcome, &expected.tree);
    let language = Built::by(model::build_language, &words, expected.lent());
    if let Some(candidate) = CANDIDATE {
        compare_with("candidate", candidate, number, &words, &expected, coverage);
    }
    if let Some(candidate) = CANDIDATE_LANGUAGE {
        compare_with("language candidate", candidate, number, &words, &language, coverage);
    }
    compare_lookups(number, &expected, &mut lent, coverage);
    compare_previews(number, &words, [&expected, &language], coverage);
}

/// Some labels of an accepted table, in the index and the tree that were built: each finds its line's rows.
fn compare_lookups(number: u64, built: &Built, rng: &mut Rng, coverage: &mut Coverage) {
    let Some(lookup) = CANDIDATE_LOOKUP else { return };
    let count = built.outcome.lines;
    for _ in 0..count.min(4) {
        let line = rng.below(count) as usize * LINE_WORDS;
        let [label, first, closing] = built.index[line..line + LINE_WORDS] else { unreachable!() };
        let own = &built.tree[6 * first as usize..6 * (closing as usize + 1)];
        let looked = lookup(&built.index, count, label, &built.tree);
        coverage.lookups += 1;
        if looked.code != 0 || looked.part != own {
            coverage.differences += 1;
            println!("table {number} differs in the lookup of {label}: {:?}", built.index);
            println!("  expected {own:?}, candidate {looked:?}");
        }
    }
}

/// M-106: the preview is the model's, and what the build gives where it does not lack places; else it
/// tells what is lacking.
fn compare_previews(number: u64, words: &[u32], built: [&Built; 2], coverage: &mut Coverage) {
    let Some(previews) = CANDIDATE_PREVIEWS else { return };
    let models = [model::preview, model::preview_language];
    for ((preview, model), built) in previews.into_iter().zip(models).zip(built) {
        let (told, expected) = (preview(words), model(words));
        coverage.previews += 1;
        let build = match (built.tree.len() / 6, built.index.len() / LINE_WORDS) {
            (rows, _) if rows < told.rows as usize => Outcome { code: 40, lines: 0, ..told },
            (_, lines) if lines < told.lines as usize => Outcome { code: 41, rows: 0, lines: 0, ..told },
            _ => told,
        };
        if told != expected || build != built.outcome {
            coverage.differences += 1;
            println!("table {number} differs in its preview: {words:?}");
            println!("  expected {expected:?}, candidate {told:?}, build {:?}", built.outcome);
        }
    }
}

/// The language entry of the model "differs only as follows" from the reference: it refuses alike, or
/// with 29 after no more visits; it accepts what can be read off the reference's tree.
fn compare_language(number: u64, table: &Table, first: &Walked, coverage: &mut Coverage) {
    let language = model::walk_by(Rule::Language, table);
    let is_29 = language.result.as_ref().is_err_and(|refusal| refusal.code == 29);
    let expected = match &first.result {
        Err(refusal) => Some(Err(*refusal)),
        Ok(rows) => read_off(rows).map(Ok),
    };
    let good = match &expected {
        None => is_29 && language.visits <= first.visits,
        Some(Err(_)) if is_29 => language.visits <= first.visits,
        Some(result) => *result == language.result && language.visits == first.visits,
    };
    coverage.unnamed += u64::from(is_29);
    coverage.relabeled += u64::from(language.result.is_ok() && language.result != first.result);
    if !good {
        coverage.differences += 1;
        println!("table {number} differs in the language entry: {:?}", table.words);
        println!("  expected {expected:?}, model {:?} {}", language.result, language.visits);
    }
}

/// The block run and the tree run of an accepted plain table, with the same random answers.
fn compare_runs(
    number: u64,
    table: &Table,
    rows: &[model::Row],
    rng: &mut Rng,
    coverage: &mut Coverage,
) {
    for _ in 0..4 {
        let yes = rng.pick(&[20, 50, 80]);
        let answers: Vec<u32> = (0..rng.below(60)).map(|_| u32::from(rng.percent(yes))).collect();
        let (blocks, tree) = (block_run(table, &answers), tree_run(rows, &answers));
        coverage.runs += 1;
        if blocks != tree {
            coverage.differences += 1;
            println!("table {number} differs in its runs: {:?} {answers:?}", table.words);
            println!("  blocks {blocks:?}");
            println!("  tree {tree:?}");
        }
    }
}

fn compare_with(
    name: &str,
    build: Candidate,
    number: u64,
    words: &[u32],
    expected: &Built,
    coverage: &mut Coverage,
) {
    let mut tree = Room::new(expected.tree.len());
    let mut index = Room::new(expected.index.len());
    let outcome = build(words, tree.lent(), index.lent());
    let kept = tree.is_kept() && index.is_kept();
    if outcome == expected.outcome && *tree.lent() == expected.tree && *index.lent() == expected.index && kept {
        return;
    }
    coverage.differences += 1;
    println!("table {number} differs: {words:?}");
    println!("  expected {:?} {:?} {:?}", expected.outcome, expected.tree, expected.index);
    println!("  {name} {outcome:?} {:?} {:?}, words around them kept: {kept}", tree.lent(), index.lent());
}

/// Exactly enough, just too little, or more.
fn buffer_length(rows: usize, rng: &mut Rng) -> usize {
    let exact = 6 * rows;
    match rng.below(20) {
        0 => exact.saturating_sub(1 + rng.below(13) as usize),
        1 => rng.below(exact as u32 + 1) as usize,
        2 => 11,
        3 => 0,
        4..=9 => exact,
        _ => exact + rng.below(20) as usize,
    }
}

/// In words: each way of `LENT_INDEXES`; most often the lines fit.
fn index_length(lines: usize, rng: &mut Rng, coverage: &mut Coverage) -> usize {
    let exact = LINE_WORDS * lines;
    let (way, length) = match rng.below(24) {
        way @ 0..=2 => (way as usize, way as usize),
        3 => (3, exact.saturating_sub(LINE_WORDS)),
        4 => (4, exact.saturating_sub(1)),
        5..=12 => (5, exact),
        13..=17 => (6, exact + 1 + rng.below(2) as usize),
        _ => (7, exact + LINE_WORDS + rng.below(20) as usize),
    };
    coverage.lent_indexes[way] += u64::from(lines > 0);
    length
}
