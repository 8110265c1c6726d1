// Time of the proved writer and converters on files of 32,768 bytes, beside a plain Rust program that parses into a Vec, copies the rows with
// their last word twice or without it, and writes with `write!`. Build and run: bench/convert/run (see there).
use std::fmt::Write;
use std::hint::black_box;
use std::time::Instant;

unsafe extern "C" {
    // A slice is passed as its pointer and its length.
    fn reactive_table_write(words: *const u32, len: usize, text: *mut u8, lent: usize, at: *mut u32, length: *mut usize) -> u32;
    fn reactive_table_old_to_new(file: *const u8, len: usize, text: *mut u8, lent: usize, at: *mut u32, length: *mut usize) -> u32;
    fn reactive_table_new_to_old(file: *const u8, len: usize, text: *mut u8, lent: usize, at: *mut u32, length: *mut usize) -> u32;
}

type Convert = unsafe extern "C" fn(*const u8, usize, *mut u8, usize, *mut u32, *mut usize) -> u32;

const NAMES: [[&str; 6]; 2] = [
    ["entry blocks instructions cases places identifiers", "first count code a b c d e id span", "id lvalue code p q span", "test block", "identifier", "named"],
    ["entry blocks instructions cases places identifiers", "first count code a b c d e id from to", "id lvalue code p q from to", "test block", "identifier", "named"],
];
const WIDTHS: [[usize; 6]; 2] = [[6, 10, 6, 2, 1, 1], [6, 11, 7, 2, 1, 1]];

fn text(form: usize, words: &[u32]) -> String {
    let (mut text, mut rest) = (String::new(), words);
    for table in 0..6 {
        text += NAMES[form][table];
        text.push('\n');
        for _ in 0..if table == 0 { 1 } else { words[table] } {
            let (row, after) = rest.split_at(WIDTHS[form][table]);
            for (column, number) in row.iter().enumerate() {
                write!(text, "{}{number}", if column == 0 { "" } else { " " }).unwrap();
            }
            text.push('\n');
            rest = after;
        }
    }
    text
}

// Trusts the file: no refusal is looked for.
fn words(file: &str) -> Vec<u32> {
    let lines = file.lines().filter(|line| line.as_bytes()[0].is_ascii_digit());
    lines.flat_map(|line| line.split(' ')).map(|number| number.parse().unwrap()).collect()
}

fn changed(form: usize, words: &[u32]) -> Vec<u32> {
    let (mut other, mut rest) = (words[..6].to_vec(), &words[6..]);
    for table in 1..3 {
        for _ in 0..words[table] {
            let (row, after) = rest.split_at(WIDTHS[form][table]);
            match form {
                0 => (other.extend(row), other.push(row[row.len() - 1])).0,
                _ => other.extend(&row[..row.len() - 1]),
            }
            rest = after;
        }
    }
    other.extend(rest);
    other
}

// A table of one block and many instructions, as a file of this form of at most 32,768 bytes; then identifiers fill it up.
fn file(form: usize, span: u32) -> String {
    let table = |instructions: u32, identifiers: u32| {
        let spans = &[span; 2][..form + 1];
        let mut words = vec![0, 1, instructions, 0, 1, identifiers, 0, instructions, 3, 0, 0, 0, 0, 0, 7];
        words.extend(spans);
        for _ in 0..instructions {
            words.extend([1, 0, 0, 0, 0]);
            words.extend(spans);
        }
        words.push(0);
        words.extend(vec![1; identifiers as usize]);
        text(form, &words)
    };
    let mut instructions = 4096;
    while table(instructions, 1).len() > 32_768 {
        instructions -= 1;
    }
    let mut identifiers = 1;
    while table(instructions, identifiers + 1).len() <= 32_768 {
        identifiers += 1;
    }
    table(instructions, identifiers)
}

fn least<T>(mut run: impl FnMut() -> T) -> f64 {
    let times = (0..200).map(|_| {
        let start = Instant::now();
        black_box(run());
        start.elapsed().as_secs_f64()
    });
    times.fold(f64::INFINITY, f64::min) * 1e6
}

fn main() {
    println!("| Text | proved, µs | plain Rust, µs | times |\n|---|---|---|---|");
    let mut room = vec![0u8; 65_542];
    let converters = [("old to new", 0, reactive_table_old_to_new as Convert), ("new to old", 1, reactive_table_new_to_old as Convert)];
    for (name, form, convert) in converters {
        for span in [0, 65_535] {
            let file = file(form, span);
            let (mut at, mut length) = (0, 0);
            let mut run = || unsafe { convert(file.as_ptr(), file.len(), room.as_mut_ptr(), room.len(), &mut at, &mut length) };
            assert_eq!(run(), 0);
            let proved = least(&mut run);
            let expected = text(1 - form, &changed(form, &words(&file)));
            assert!(room[..length] == *expected.as_bytes());
            let plain = least(|| text(1 - form, &changed(form, &words(&file))));
            println!("| {name}, spans {span} | {proved:.0} | {plain:.0} | {:.2} |", proved / plain);
        }
    }
    let table = words(&file(1, 65_535));
    let (mut at, mut length) = (0, 0);
    let mut run = || unsafe { reactive_table_write(table.as_ptr(), table.len(), room.as_mut_ptr(), room.len(), &mut at, &mut length) };
    assert_eq!(run(), 0);
    let proved = least(&mut run);
    let plain = least(|| text(1, &table));
    println!("| the writer, {} words | {proved:.0} | {plain:.0} | {:.2} |", table.len(), proved / plain);
}
