//! `bench`: time of a build by the model, by the reference and, if it is linked, by the proved
//! library, on the same words with the same buffer. The model is the ordinary Rust program, with
//! vectors and recursion. The reference's time includes making its HIR from the words and the rows
//! from its tree.

use std::hint::black_box;
use std::time::Instant;

use comparison::candidate::{CANDIDATE, Candidate};
use comparison::generate::{generate, long};
use comparison::model::index::{LINE_WORDS, MOST_LINES};
use comparison::model::{self, check::check};
use comparison::reference;

const ROUNDS: usize = 15;

fn main() {
    reference::install_panic_hook();
    reference::on_large_stack(measure);
}

fn measure() {
    println!(
        "| table | blocks | rows | model, µs | reference, µs | proved, µs | proved to model |"
    );
    println!("|---|---|---|---|---|---|---|");
    for blocks in [125, 250, 500, 1_000] {
        line("run of fallthroughs", &[long::run_of_fallthroughs(blocks)]);
    }
    line("nests 100 deep", &[long::nests(1_020, 100)]);
    line("wide switch", &[long::wide_switch(1_000)]);
    for (name, blocks) in [("programs of 10", 5..15), ("of 100", 90..110), ("of 900", 800..1_000)] {
        let words = (0..).map(|number| generate(21, number)).filter(|table| {
            let accepted = || model::walk(&check(&table.words).unwrap()).result.is_ok();
            matches!(table.family, 2 | 4) && blocks.contains(&table.words[1]) && accepted()
        });
        line(name, &words.take(20).map(|table| table.words).collect::<Vec<_>>());
    }
}

/// The mean over the tables, in the best of the rounds.
fn line(name: &str, tables: &[Vec<u32>]) {
    let blocks = tables.iter().map(|words| words[1] as usize).sum::<usize>() / tables.len();
    let rows = |words: &Vec<u32>| model::walk(&check(words).unwrap()).result.unwrap().len();
    let row_counts: Vec<usize> = tables.iter().map(rows).collect();
    let mean = row_counts.iter().sum::<usize>() / tables.len();
    let mut buffer = vec![0; 6 * row_counts.iter().max().unwrap()];
    let mut index = vec![0; LINE_WORDS * MOST_LINES];
    let mut by_build = |build: Candidate, buffer: &mut [u32]| {
        time(tables, |words| {
            black_box(build(black_box(words), buffer, &mut index));
        })
    };
    let model = by_build(model::build, &mut buffer);
    let proved = CANDIDATE.map(|candidate| by_build(candidate, &mut buffer));
    let reference = time(tables, |words| {
        black_box(reference::walk(&check(black_box(words)).unwrap()));
    });
    let shown = |value: Option<f64>| value.map_or(String::from("-"), |value| format!("{value:.2}"));
    let ratio = proved.map(|proved| proved / model);
    println!(
        "| {name} | {blocks} | {mean} | {model:.2} | {reference:.2} | {} | {} |",
        shown(proved),
        shown(ratio)
    );
}

/// Microseconds for one table.
fn time(tables: &[Vec<u32>], mut build: impl FnMut(&[u32])) -> f64 {
    let mut best = f64::MAX;
    for _ in 0..ROUNDS {
        let start = Instant::now();
        let mut built = 0;
        while start.elapsed().as_millis() < 20 {
            tables.iter().for_each(|words| build(words));
            built += tables.len();
        }
        best = best.min(start.elapsed().as_secs_f64() * 1e6 / built as f64);
    }
    best
}
