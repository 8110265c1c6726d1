//! Time of the proved build against (a) an ordinary Rust program with vectors and recursion over the
//! same words and rows, (a+) the same tuned for speed, and (b) the Rust that it was translated from; of the language entry (M-102)
//! against the first; of the preview (M-106) against the build; and the stack that it takes. Every build has its index lent (M-101).
//!
//! (a) is `plain`: its own check, and the walk of the model of paper 01 (reference/comparison/src/model). (a+) is `tuned`. (b) runs on its own graph, made
//! before the clock starts (the one on the wall), and its tree is not made into rows; it is watched by the observer that
//! counts its visits, which takes a part of its time.

mod clock;
mod plain;
mod stack;
mod tables;
mod tuned;

use std::hint::black_box;
use std::time::Duration;

use clock::time;
use comparison::model::check::check;
use comparison::reference;
use reactive_build::preview::preview;
use tables::Case;

const ROUNDS: usize = 15;
const INDEX_WORDS: usize = reactive_build::MOST_LINES * reactive_build::LINE_WORDS;

fn main() {
    let arguments: Vec<String> = std::env::args().collect();
    if let [_, verb, shape, bytes] = arguments.as_slice()
        && verb == "probe"
    {
        return stack::probe(shape, bytes.parse().expect("a number of bytes"));
    }
    if arguments.get(1).is_some_and(|verb| verb == "stack") {
        return stack::print();
    }
    if let [_, verb, entry, case] = arguments.as_slice()
        && verb == "once"
    {
        return once(entry, case.parse().expect("the case's number"));
    }
    reference::install_panic_hook();
    println!("| Table | proved, µs | times (a) | times (a+) | times (b) | language entry, times the first | preview, times the build |\n|---|---|---|---|---|---|---|");
    for case in &cases() {
        measure(case);
    }
}

fn cases() -> Vec<Case> {
    let mut cases = Vec::new();
    for instructions in [0, 2] {
        cases.push(tables::fallthroughs(1_000, instructions));
        cases.push(tables::nests(instructions));
        cases.push(tables::loops(instructions));
        cases.push(tables::wide_switch(instructions));
    }
    cases.extend([10, 100, 900].map(tables::lowered));
    cases.extend([125, 500].map(|blocks| tables::fallthroughs(blocks, 0)));
    cases
}

/// One call, for a count of its instructions: `valgrind --tool=callgrind --toggle-collect=reactive_build`
/// (or `reactive_build_language`, `reactive_preview`).
fn once(entry: &str, number: usize) {
    let case = &cases()[number];
    let told = preview(&case.words);
    let (mut lent, mut index) = (vec![7; 6 * told.rows as usize], vec![7; 3 * told.lines as usize]);
    let built = match entry {
        "first" => reactive_build::build(&case.words, &mut lent, &mut index),
        "language" => reactive_build::build_language(&case.words, &mut lent, &mut index),
        "preview" => told,
        _ => panic!("first, language or preview"),
    };
    println!("{}: code {}, {} rows", case.name, built.code, built.rows);
}

fn measure(case: &Case) {
    let words = &case.words;
    let (mut lent, mut index) = (vec![7; 60_000], vec![7; INDEX_WORDS]);
    let ours = reactive_build::build(words, &mut lent, &mut index);
    assert!(plain::checked_by_rows(words).is_some(), "{}: (a) takes its slow check", case.name);
    let (mut theirs_lent, mut theirs_index) = (vec![7; 60_000], vec![7; INDEX_WORDS]);
    let theirs = plain::build(words, &mut theirs_lent, &mut theirs_index);
    assert_eq!((ours.code, ours.rows, ours.visits, ours.lines), (0, theirs.rows, theirs.visits, theirs.lines), "{}", case.name);
    assert!(lent == theirs_lent && index == theirs_index && ours == preview(words), "{}", case.name);
    let (mut tuned_lent, mut tuned_index) = (vec![7; 60_000], vec![7; INDEX_WORDS]);
    assert_eq!(tuned::build(words, &mut tuned_lent, &mut tuned_index), theirs, "{}", case.name);
    assert!(lent == tuned_lent && index == tuned_index, "{}: (a+) gives other rows or lines", case.name);
    // Buffers of just the rows and the lines, so that the zeros after them cost nothing.
    lent.truncate(6 * ours.rows as usize);
    index.truncate(3 * ours.lines as usize);
    let calls = (200_000 / words.len()).clamp(20, 2_000) as u32;
    let mut least = [Duration::MAX; 6];
    for _ in 0..ROUNDS {
        let times = [
            time(calls, || black_box(reactive_build::build(black_box(words), &mut lent, &mut index)).code),
            time(calls, || black_box(plain::build(black_box(words), &mut lent, &mut index)).code),
            time(calls, || black_box(tuned::build(black_box(words), &mut lent, &mut index)).code),
            of_reference(words, calls),
            time(calls, || black_box(reactive_build::build_language(black_box(words), &mut lent, &mut index)).code),
            time(calls, || black_box(preview(black_box(words))).code),
        ];
        least = std::array::from_fn(|which| least[which].min(times[which]));
    }
    let [proved, vectors, tuned, original, language, preview] = least.map(|time| time.as_secs_f64() * 1e6);
    let (to_a, to_tuned, to_b) = (proved / vectors, proved / tuned, proved / original);
    let (to_first, to_build) = (language / proved, preview / proved);
    println!("| {} | {proved:.1} | {to_a:.2} | {to_tuned:.2} | {to_b:.2} | {to_first:.2} | {to_build:.2} |", case.name);
}

fn of_reference(words: &[u32], calls: u32) -> Duration {
    let table = check(words).unwrap_or_else(|_| panic!("the table is good"));
    reference::on_large_stack(|| reference::time(&table, calls)) / calls
}
