//! `vectors make FILE` writes the fixed list of tables and answers; `vectors check FILE` makes it
//! again and compares byte for byte, and replays it on the model and the candidate; `vectors replay
//! FILE` only replays it.

use std::collections::BTreeSet;
use std::fs;
use std::process::ExitCode;
use std::slice;

use comparison::candidate::{CANDIDATE, Candidate};
use comparison::generate::{corners, limits, samples, words};
use comparison::model;
use comparison::model::index::{LINE_WORDS, MOST_LINES, lines};
use comparison::reference;
use comparison::select::choose;
use comparison::vector::{Vector, from_bytes, to_bytes};

const USAGE: &str = "make FILE, check FILE or replay FILE";

/// Vectors that take more are left to the comparison.
const MOST_BYTES: usize = 18_000;

fn main() -> ExitCode {
    reference::install_panic_hook();
    let mut arguments = std::env::args().skip(1);
    let (verb, file) = (arguments.next(), arguments.next());
    let file = file.expect(USAGE);
    let made = || reference::on_large_stack(|| to_bytes(&make()));
    let good = match verb.as_deref() {
        Some("make") => {
            let bytes = made();
            fs::write(&file, &bytes).expect("written");
            println!("{file}: {} vectors, {} bytes", from_bytes(&bytes).len(), bytes.len());
            true
        }
        Some("check") => {
            let same = fs::read(&file).expect("the stored vectors") == made();
            println!("vectors: made again {}", if same { "the same" } else { "NOT THE SAME" });
            replay(&file) && same
        }
        Some("replay") => replay(&file),
        _ => panic!("{USAGE}"),
    };
    if good { ExitCode::SUCCESS } else { ExitCode::FAILURE }
}

/// The samples, the corners by hand, those at the limits, the word lists, and tables chosen for what they show.
fn make() -> Vec<Vector> {
    let samples = samples::samples().into_iter().map(|(words, lent)| Vector::answer(words, |_| lent));
    let chosen = choose();
    let corners = corners::corners().into_iter().map(|(_, words)| words);
    let limits = (0..limits::COUNT).map(limits::limit);
    let tables = corners.chain(limits).chain(words::word_lists());
    let tables = tables.chain(chosen.singles).chain(chosen.pairs);
    let mut known = BTreeSet::new();
    let tables = tables.filter(|words| known.insert(words.clone()));
    let vectors = tables.enumerate().map(|(turn, words)| {
        Vector::answer(words, |needed| match turn % 12 {
            3 => needed + 5,
            5 => needed.saturating_sub(1),
            7 => needed + 13,
            9 => needed + 6,
            11 => needed.saturating_sub(6),
            _ => needed,
        })
    });
    samples.chain(vectors).filter(|vector| to_bytes(slice::from_ref(vector)).len() < MOST_BYTES).collect()
}

fn replay(file: &str) -> bool {
    let stored = fs::read(file).expect("the stored vectors");
    let vectors = from_bytes(&stored);
    let builds = [Some(model::build as Candidate), CANDIDATE];
    let differences: usize = builds
        .into_iter()
        .flatten()
        .map(|build| vectors.iter().filter(|vector| !replays_on(build, vector)).count())
        .sum();
    println!("vectors: {}, {} bytes, {differences} differences", vectors.len(), stored.len());
    differences == 0
}

fn replays_on(build: Candidate, vector: &Vector) -> bool {
    let lines = lines(vector.rows.as_chunks().0);
    let needed = lines.len() * LINE_WORDS;
    // Room for the lines; the vectors that are not accepted may have any.
    let lent = if vector.outcome.code == 0 { needed } else { MOST_LINES * LINE_WORDS } + vector.length % 5;
    let (mut buffer, mut index) = (vec![7; vector.length], vec![7; lent]);
    let outcome = build(&vector.words, &mut buffer, &mut index);
    let (rows, after) = buffer.split_at(vector.rows.len());
    let (held, after_lines) = index.split_at(needed);
    outcome == vector.outcome
        && rows == vector.rows
        && held == lines.as_flattened()
        && after.iter().chain(after_lines).all(|word| *word == 0)
}
