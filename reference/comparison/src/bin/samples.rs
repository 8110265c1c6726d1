//! `samples FOLDER`: writes small tables, word lists and files with their answers, as text.

use std::fmt::Write;
use std::fs;
use std::path::Path;

use comparison::generate::corners::corners;
use comparison::generate::files::files;
use comparison::generate::words::word_lists;
use comparison::model::{Outcome, Refusal, check::check, index, text};
use comparison::reference;
use comparison::select::choose;
use comparison::vector::Vector;

const HEAD: &str = "\
# Tables and their answers, by the model of paper 01; the Rust gave the same for each.
# A line: words | lengths of the tree buffer and the index in words | code at rows visits lines | words of the rows | words of the lines
# The last two fields are empty unless the code is 0; then the buffers are these words, then zeros.
# A line that begins with '#' names the corner that the next line shows.
";

const CHECK_HEAD: &str = "\
# Word lists and what the check says of them, by the model of paper 01.
# A line: words | code at. Accepted is 0 0. V*N is the word V, N times.
";

const TEXT_HEAD: &str = "\
# Files for treebuild, by the model of paper 01.
# A line: the file | code at | the words read | what is printed. The words are there if the code is 0.
# In files and output \\n is LF, \\r is CR, \\\\ is a backslash, \\xHH another byte, \\{T*N} is T N times.
";

fn main() {
    reference::install_panic_hook();
    let folder = std::env::args().nth(1).expect("a folder");
    reference::on_large_stack(move || write(Path::new(&folder)));
}

fn write(folder: &Path) {
    let mut first = String::from(HEAD);
    for (name, words) in corners() {
        writeln!(first, "# {name}").unwrap();
        first += &line(words, |needed| needed, |needed| needed);
    }
    let (_, file_sample) = corners().swap_remove(0);
    for length in [0, 5, 6, 11, 13, 17, 18, 30] {
        writeln!(first, "# the file sample with {length} words lent").unwrap();
        first += &line(file_sample.clone(), |_| length, |needed| needed);
    }
    let chosen = choose();
    first += &lines(chosen.singles);
    let more = String::from(HEAD) + &lines(chosen.pairs);

    let save = |name: &str, text: String| {
        let samples = text.lines().filter(|line| !line.starts_with('#')).count();
        println!("{name}: {samples} samples");
        fs::write(folder.join(name), text).expect("written");
    };
    save("definition-samples.txt", first);
    save("more-definition-samples.txt", more);
    save("check-samples.txt", check_samples());
    save("text-samples.txt", text_samples());
}

/// Just enough room, more, and now and then too little.
fn lines(tables: Vec<Vec<u32>>) -> String {
    let lines = tables.into_iter().enumerate().map(|(turn, words)| {
        let lent = |needed: usize| match turn % 10 {
            3 => needed + 5,
            5 => needed.saturating_sub(1),
            7 => needed + 13,
            _ => needed,
        };
        let lent_index = |needed: usize| match turn % 9 {
            2 => needed + 4,
            4 => needed.saturating_sub(1),
            6 => needed.saturating_sub(3),
            8 => turn % 3,
            _ => needed,
        };
        line(words, lent, lent_index)
    });
    lines.collect()
}

fn line(words: Vec<u32>, lent: impl Fn(usize) -> usize, lent_index: impl Fn(usize) -> usize) -> String {
    let Vector { words, length, mut outcome, mut rows } = Vector::answer(words, lent);
    let mut index = index::lines(rows.as_chunks().0).as_flattened().to_vec();
    let index_length = lent_index(index.len());
    if outcome.lines as usize > index_length / index::LINE_WORDS {
        outcome = Outcome::refused(Refusal { code: 41, at: 0 }, outcome.visits);
        (rows, index) = (Vec::new(), Vec::new());
    }
    let Outcome { code, at, rows: count, visits, lines } = outcome;
    let (words, rows, index) = (numbers(&words), numbers(&rows), numbers(&index));
    format!("{words} | {length} {index_length} | {code} {at} {count} {visits} {lines} | {rows} | {index}\n")
}

fn check_samples() -> String {
    let mut out = String::from(CHECK_HEAD);
    for words in &word_lists() {
        let (code, at) = check(words).map_or_else(|refusal| (refusal.code, refusal.at), |_| (0, 0));
        writeln!(out, "{} | {code} {at}", run_length(words)).unwrap();
    }
    out
}

fn text_samples() -> String {
    let mut out = String::from(TEXT_HEAD);
    for file in &files() {
        let printed = escape(text::treebuild(file).as_bytes());
        let (code, at, words) = match text::parse(file) {
            Ok(words) => (0, 0, run_length(&words)),
            Err(refusal) => (refusal.code, refusal.at, String::new()),
        };
        writeln!(out, "{} | {code} {at} | {words} | {printed}", escape(file)).unwrap();
    }
    out
}

fn numbers(words: &[u32]) -> String {
    let words: Vec<String> = words.iter().map(u32::to_string).collect();
    words.join(" ")
}

fn run_length(words: &[u32]) -> String {
    let runs = words.chunk_by(|one, next| one == next);
    let runs = runs.flat_map(|run| match run.len() {
        1..=7 => run.iter().map(u32::to_string).collect(),
        length => vec![format!("{}*{length}", run[0])],
    });
    runs.collect::<Vec<_>>().join(" ")
}

/// Lines that are repeated, and single bytes that are, are told once.
fn escape(bytes: &[u8]) -> String {
    let lines: Vec<&[u8]> = bytes.split_inclusive(|byte| *byte == b'\n').collect();
    let runs = lines.chunk_by(|one, next| one == next);
    let runs = runs.map(|run| {
        let line: String = run[0].chunk_by(|one, next| one == next).map(escape_run).collect();
        if run.len() < 8 { line.repeat(run.len()) } else { format!("\\{{{line}*{}}}", run.len()) }
    });
    runs.collect()
}

fn escape_run(run: &[u8]) -> String {
    let byte = match run[0] {
        b'\n' => String::from("\\n"),
        b'\r' => String::from("\\r"),
        b'\\' => String::from("\\\\"),
        b'|' => String::from("\\x7c"),
        byte @ 32..127 => char::from(byte).to_string(),
        byte => format!("\\x{byte:02x}"),
    };
    if run.len() < 16 { byte.repeat(run.len()) } else { format!("\\{{{byte}*{}}}", run.len()) }
}
