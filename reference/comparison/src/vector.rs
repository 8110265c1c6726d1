//! A table with its answer, and lists of them as bytes.

use crate::model::check::check;
use crate::model::index::{LINE_WORDS, MOST_LINES, lines};
use crate::model::text::{LENT_ROWS, parse, print, print_size};
use crate::model::{self, Outcome, ROW_WORDS};
use crate::reference;

pub struct Vector {
    pub words: Vec<u32>,
    /// The length of the buffer in words.
    pub length: usize,
    pub outcome: Outcome,
    /// The words of the rows; the buffer holds zeros after them. None unless accepted.
    pub rows: Vec<u32>,
}

impl Vector {
    /// The answer of the reference where the words pass the check, else that of the model. `lent`
    /// gives the length of the buffer from the number of words that the rows need. The index has room.
    pub fn answer(words: Vec<u32>, lent: impl Fn(usize) -> usize) -> Self {
        let index = &mut [0; MOST_LINES * LINE_WORDS];
        let (outcome, mut rows) = match check(&words) {
            Ok(table) => {
                let (walked, _) = reference::walk_counted(&table);
                let needed = ROW_WORDS * walked.result.as_ref().map_or(0, Vec::len);
                let mut rows = vec![0; lent(needed)];
                (model::finish(&walked, &mut rows, index), rows)
            }
            Err(_) => {
                let mut rows = vec![0; lent(0)];
                (model::build(&words, &mut rows, index), rows)
            }
        };
        let length = rows.len();
        rows.truncate(if outcome.code == 0 { ROW_WORDS * outcome.rows as usize } else { 0 });
        Self { words, length, outcome, rows }
    }
}

/// What treebuild prints of a file.
pub fn printed(file: &[u8]) -> String {
    match parse(file) {
        Ok(words) => {
            let Vector { outcome, rows, .. } = Vector::answer(words, |_| LENT_ROWS * ROW_WORDS);
            print(outcome, &rows)
        }
        Err(refusal) => print(Outcome::refused(refusal, 0), &[]),
    }
}

/// What treesize prints of a file (M-106).
pub fn sized(file: &[u8]) -> String {
    let told = parse(file).map(|words| match check(&words) {
        Ok(table) => model::previewed(&reference::walk_counted(&table).0),
        Err(refusal) => Outcome::refused(refusal, 0),
    });
    print_size(told.unwrap_or_else(|refusal| Outcome::refused(refusal, 0)))
}

/// Each number in groups of seven bits, the lowest first; a byte of 128 or more has a group after
/// it. First how many vectors there are, then each: how many words, the words, the length of the
/// buffer, code, at, rows, visits, and the words of the rows. The lines are read off the rows.
pub fn to_bytes(vectors: &[Vector]) -> Vec<u8> {
    let mut bytes = Vec::new();
    number(vectors.len() as u32, &mut bytes);
    for Vector { words, length, outcome, rows } in vectors {
        let Outcome { code, at, rows: row_count, visits, .. } = *outcome;
        number(words.len() as u32, &mut bytes);
        words.iter().for_each(|word| number(*word, &mut bytes));
        for word in [*length as u32, code, at, row_count, visits] {
            number(word, &mut bytes);
        }
        rows.iter().for_each(|word| number(*word, &mut bytes));
    }
    bytes
}

fn number(mut number: u32, bytes: &mut Vec<u8>) {
    while number >= 128 {
        bytes.push((number % 128 + 128) as u8);
        number /= 128;
    }
    bytes.push(number as u8);
}

/// The vectors that `to_bytes` wrote.
pub fn from_bytes(bytes: &[u8]) -> Vec<Vector> {
    let mut rest = bytes.iter();
    let mut next = || {
        let mut number = 0;
        for shift in (0..).step_by(7) {
            let byte = u32::from(*rest.next().expect("a whole file"));
            number += (byte % 128) << shift;
            if byte < 128 {
                break;
            }
        }
        number
    };
    let count = next();
    let vectors = (0..count).map(|_| {
        let words = (0..next()).map(|_| next()).collect();
        let [length, code, at, rows, visits] = [(); 5].map(|()| next());
        let shown = if code == 0 { rows as usize * ROW_WORDS } else { 0 };
        let row_words: Vec<u32> = (0..shown).map(|_| next()).collect();
        let lines = lines(row_words.as_chunks().0).len() as u32;
        let outcome = Outcome { code, at, rows, visits, lines };
        Vector { words, length: length as usize, outcome, rows: row_words }
    });
    let vectors = vectors.collect();
    assert!(rest.next().is_none(), "nothing after the last vector");
    vectors
}
