//! What each form of the code costs: the build's crates as plain Rust (bench/forms/make), as they are and with one form after another removed,
//! against (a+) of bench/build. Every one must give the answers, the rows and the lines of (a+) before it is timed; then they take turns.

#[path = "../build/src/clock.rs"]
mod clock;
#[path = "../build/src/plain.rs"]
#[allow(dead_code)]
mod plain;
#[path = "../build/src/tables.rs"]
#[allow(dead_code)]
mod tables;
#[path = "../build/src/tuned.rs"]
mod tuned;

use std::hint::black_box;
use std::time::Duration;

use comparison::model::Outcome;
use tables::Case;

include!(env!("FORMS"));

const ROUNDS: usize = 31;

type Build = fn(&[u32], &mut [u32], &mut [u32]) -> Outcome;
type Preview = fn(&[u32]) -> Outcome;

struct Form {
    name: &'static str,
    /// Whether it checks its words.
    checks: bool,
    build: Build,
    language: Option<Build>,
    preview: Option<Preview>,
}

/// A form from the functions of its crate.
macro_rules! form {
    ($name:literal, $form:ident, $checks:literal) => {
        Form {
            name: $name,
            checks: $checks,
            build: |words, tree, index| answer(|at, rows, visits, lines| $form::build::reactive_build(words, tree, index, at, rows, visits, lines)),
            language: Some(|words, tree, index| {
                answer(|at, rows, visits, lines| $form::build::reactive_build_language(words, tree, index, at, rows, visits, lines))
            }),
            preview: Some(|words| answer(|at, rows, visits, lines| $form::preview::reactive_preview(words, at, rows, visits, lines))),
        }
    };
}
use form;

fn answer(call: impl FnOnce(&mut u32, &mut u32, &mut u32, &mut u32) -> u32) -> Outcome {
    let (mut at, mut rows, mut visits, mut lines) = (0, 0, 0, 0);
    let code = call(&mut at, &mut rows, &mut visits, &mut lines);
    Outcome { code, at, rows, visits, lines }
}

#[cfg(feature = "proved")]
fn outcome(of: reactive_build::Outcome) -> Outcome {
    Outcome { code: of.code, at: of.at, rows: of.rows, visits: of.visits, lines: of.lines }
}

#[cfg(feature = "proved")]
fn proved() -> Option<Form> {
    Some(Form {
        name: ARCHIVE,
        checks: true,
        build: |words, tree, index| outcome(reactive_build::build(words, tree, index)),
        language: Some(|words, tree, index| outcome(reactive_build::build_language(words, tree, index))),
        preview: Some(|words| outcome(reactive_build::preview::preview(words))),
    })
}

#[cfg(not(feature = "proved"))]
fn proved() -> Option<Form> {
    None
}

/// (a+), then the proved archive, then the plain Rust.
fn programs() -> Vec<Form> {
    let tuned = Form { name: "(a+)", checks: true, build: tuned::build, language: None, preview: None };
    [Some(tuned), proved()].into_iter().flatten().chain(forms()).collect()
}

fn cases() -> Vec<(&'static str, Case)> {
    vec![
        ("long run", tables::fallthroughs(1_000, 0)),
        ("nests", tables::nests(0)),
        ("while loops", tables::loops(0)),
        ("wide switch", tables::wide_switch(0)),
        ("lowered, 12", tables::lowered(10)),
        ("lowered, 102", tables::lowered(100)),
        ("lowered, 900", tables::lowered(900)),
    ]
}

fn main() {
    let arguments: Vec<String> = std::env::args().collect();
    let (cases, programs) = (cases(), programs());
    if let [_, verb, name, case] = arguments.as_slice()
        && verb == "once"
    {
        return once(&programs, name, &cases[case.parse::<usize>().expect("the case's number")].1);
    }
    for (_, case) in &cases {
        compare(&programs, case);
    }
    let times: Vec<Vec<Times>> = cases.iter().map(|(_, case)| measure(&programs, case)).collect();
    let titles = cases.iter().map(|(title, _)| *title).collect::<Vec<_>>().join(" | ");
    let head = |what: &str| println!("| {what} | {titles} |\n|---|{}", "---|".repeat(cases.len()));
    let row = |name: &str, cell: &dyn Fn(usize) -> String| {
        let cells = (0..cases.len()).map(cell).collect::<Vec<_>>().join(" | ");
        println!("| {name} | {cells} |");
    };
    head("build, times (a+)");
    row("(a+), µs", &|case| format!("{:.1}", times[case][0].build.as_secs_f64() * 1e6));
    row("our goal, at most", &|case| BUILD_GOALS[case].to_string());
    for (form, program) in programs.iter().enumerate().skip(1) {
        row(program.name, &|case| format!("{:.2}", ratio(times[case][form].build, times[case][0].build)));
    }
    println!();
    head("preview, times the build; our goal: at most 0.95");
    for (form, program) in programs.iter().enumerate().filter(|(_, program)| PREVIEWS.contains(&program.name)) {
        row(program.name, &|case| format!("{:.2}", ratio(times[case][form].preview, times[case][form].build)));
    }
}

/// Ours, by table.
const BUILD_GOALS: [f64; 7] = [4.0, 4.0, 3.0, 1.2, 3.0, 2.0, 2.0];

const ARCHIVE: &str = "the proved archive";

/// Those whose preview is shown.
const PREVIEWS: [&str; 2] = [ARCHIVE, "plain Rust, as it is"];

fn ratio(time: Duration, to: Duration) -> f64 {
    time.as_secs_f64() / to.as_secs_f64()
}

/// One call, for a count of its instructions by callgrind.
fn once(programs: &[Form], name: &str, case: &Case) {
    let program = programs.iter().find(|program| program.name == name).expect("the program's name");
    let (mut tree, mut index) = lent();
    let told = tuned::build(&case.words, &mut tree, &mut index);
    tree.truncate(6 * told.rows as usize);
    index.truncate(3 * told.lines as usize);
    let built = profiled(program.build, &case.words, &mut tree, &mut index);
    println!("{}: code {}, {} rows", case.name, built.code, built.rows);
}

#[inline(never)]
fn profiled(build: Build, words: &[u32], tree: &mut [u32], index: &mut [u32]) -> Outcome {
    build(words, tree, index)
}

fn lent() -> (Vec<u32>, Vec<u32>) {
    (vec![7; 60_000], vec![7; 3_072])
}

/// Each gives what (a+) gives; the preview tells it too. The language entry gives what today's code gives.
fn compare(programs: &[Form], case: &Case) {
    let words = &case.words;
    let (mut tree, mut index) = lent();
    let expected = tuned::build(words, &mut tree, &mut index);
    assert_eq!(expected.code, 0, "{}", case.name);
    let mut by_language: Option<(Outcome, Vec<u32>, Vec<u32>)> = None;
    for program in programs {
        let place = || format!("{} on {}", program.name, case.name);
        let (mut own_tree, mut own_index) = lent();
        assert_eq!((program.build)(words, &mut own_tree, &mut own_index), expected, "{}", place());
        assert!(own_tree == tree && own_index == index, "{}: other rows or lines", place());
        // Refusals too: words that are no table, and too little lent.
        let refusals = [(1, 60_000), (0, 6 * (expected.rows as usize - 1))];
        for (cut, rows) in refusals.into_iter().filter(|(cut, _)| program.checks || *cut == 0) {
            let cut = &words[..words.len() - cut];
            let (mut own_tree, mut own_index) = lent();
            let refused = (program.build)(cut, &mut own_tree[..rows], &mut own_index);
            let (mut tuned_tree, mut tuned_index) = lent();
            assert_eq!(refused, tuned::build(cut, &mut tuned_tree[..rows], &mut tuned_index), "{}, refused", place());
            assert!(own_tree == tuned_tree && own_index == tuned_index, "{}: other words where it refuses", place());
        }
        if let Some(preview) = program.preview {
            assert_eq!(preview(words), expected, "{}", place());
        }
        if let Some(language) = program.language {
            let (mut own_tree, mut own_index) = lent();
            let own = (language(words, &mut own_tree, &mut own_index), own_tree, own_index);
            let first = by_language.get_or_insert_with(|| own.clone());
            assert!(*first == own, "{}: the language entry gives another answer", place());
        }
    }
}

#[derive(Clone, Copy)]
struct Times {
    build: Duration,
    preview: Duration,
}

/// The least of the rounds; in a round the programs take turns.
fn measure(programs: &[Form], case: &Case) -> Vec<Times> {
    let words = &case.words;
    let (mut tree, mut index) = lent();
    let told = tuned::build(words, &mut tree, &mut index);
    tree.truncate(6 * told.rows as usize);
    index.truncate(3 * told.lines as usize);
    let calls = (200_000 / words.len()).clamp(20, 2_000) as u32;
    let longest = Times { build: Duration::MAX, preview: Duration::MAX };
    let mut least = vec![longest; programs.len()];
    for _ in 0..ROUNDS {
        for (least, program) in least.iter_mut().zip(programs) {
            least.build = least.build.min(clock::time(calls, || black_box((program.build)(black_box(words), &mut tree, &mut index)).code));
            if let Some(preview) = program.preview {
                least.preview = least.preview.min(clock::time(calls, || black_box(preview(black_box(words))).code));
            }
        }
    }
    least
}
