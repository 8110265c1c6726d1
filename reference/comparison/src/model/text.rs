//! The program `treebuild` (paper 01, "Samples"): the file form, refusals 50 and 51, the output.

use super::convert::{Form, NEW};
use super::index::LINE_WORDS;
use super::{Outcome, ROW_WORDS, Refusal, build};

pub const MAX_BYTES: usize = 32_768;
pub const LENT_ROWS: usize = 2_048;

/// What the program prints for this input.
pub fn treebuild(input: &[u8]) -> String {
    let mut buffer = vec![0; LENT_ROWS * ROW_WORDS];
    // As many lines as rows: 41 is not given.
    let mut index = vec![0; LENT_ROWS * LINE_WORDS];
    let outcome = match parse(input) {
        Ok(words) => build(&words, &mut buffer, &mut index),
        Err(refusal) => Outcome::refused(refusal, 0),
    };
    print(outcome, &buffer)
}

/// The words of a file, or 51 or 50.
pub fn parse(input: &[u8]) -> Result<Vec<u32>, Refusal> {
    parse_as(NEW, input)
}

/// The same of a file of this form.
pub fn parse_as(form: Form, input: &[u8]) -> Result<Vec<u32>, Refusal> {
    if input.len() > MAX_BYTES {
        return Err(Refusal { code: 51, at: 0 });
    }
    let mut reader = Reader { input, at: 0 };
    let mut words = Vec::new();
    for (table, (names, width)) in form.names.into_iter().zip(form.widths).enumerate() {
        let lines = if table == 0 { 1 } else { words[table] };
        reader.names(names)?;
        for _ in 0..lines {
            reader.values(width, &mut words)?;
        }
    }
    if reader.at < input.len() {
        return Err(reader.refusal());
    }
    Ok(words)
}

/// What `table_read` gives: code (0 accepted), at, and the number of words.
#[derive(Clone, Copy, Debug, PartialEq, Eq)]
pub struct WordsRead {
    pub code: u32,
    pub at: u32,
    pub count: usize,
}

/// A file's words into lent ones, then zeros; zeros alone if refused, 54 if there are more than were lent.
pub fn read_table(file: &[u8], lent: &mut [u32]) -> WordsRead {
    lent.fill(0);
    let words = match parse(file) {
        Ok(words) => words,
        Err(Refusal { code, at }) => return WordsRead { code, at, count: 0 },
    };
    match lent.get_mut(..words.len()) {
        Some(place) => place.copy_from_slice(&words),
        None => return WordsRead { code: 54, at: 0, count: 0 },
    }
    WordsRead { code: 0, at: 0, count: words.len() }
}

/// Reads on as long as what was read could begin a good file.
struct Reader<'i> {
    input: &'i [u8],
    at: usize,
}

impl Reader<'_> {
    fn refusal(&self) -> Refusal {
        Refusal { code: 50, at: self.at as u32 }
    }

    fn byte(&mut self, byte: u8) -> Result<(), Refusal> {
        if self.input.get(self.at) != Some(&byte) {
            return Err(self.refusal());
        }
        self.at += 1;
        Ok(())
    }

    fn names(&mut self, names: &str) -> Result<(), Refusal> {
        names.bytes().try_for_each(|byte| self.byte(byte))?;
        self.byte(b'\n')
    }

    fn values(&mut self, width: usize, words: &mut Vec<u32>) -> Result<(), Refusal> {
        for column in 0..width {
            words.push(self.number()?);
            self.byte(if column + 1 < width { b' ' } else { b'\n' })?;
        }
        Ok(())
    }

    /// A number of 32 bits with no leading zero. The digit that makes it too large is refused.
    fn number(&mut self) -> Result<u32, Refusal> {
        let mut number = self.digit().ok_or(self.refusal())?;
        self.at += 1;
        while number > 0
            && let Some(digit) = self.digit()
        {
            let longer = number.checked_mul(10).and_then(|tens| tens.checked_add(digit));
            number = longer.ok_or(self.refusal())?;
            self.at += 1;
        }
        Ok(number)
    }

    fn digit(&self) -> Option<u32> {
        let byte = *self.input.get(self.at)?;
        byte.is_ascii_digit().then(|| u32::from(byte - b'0'))
    }
}

/// The words in the file form. They need not pass the check, but each table has its lines.
pub fn write_file(words: &[u32]) -> String {
    write_as(NEW, words)
}

/// The same of words of this form.
pub fn write_as(form: Form, words: &[u32]) -> String {
    let mut file = String::new();
    let mut rest = words;
    for (table, (names, width)) in form.names.into_iter().zip(form.widths).enumerate() {
        let lines = if table == 0 { 1 } else { words[table] };
        file += names;
        file.push('\n');
        for _ in 0..lines {
            let (line, after) = rest.split_at(width);
            push_line(&mut file, line);
            rest = after;
        }
    }
    file
}

/// The lines that the program prints: two for a refusal, the rows as well if accepted.
pub fn print(outcome: Outcome, buffer: &[u32]) -> String {
    let Outcome { code, at, rows, visits, .. } = outcome;
    let mut out = String::from("code at rows visits\n");
    push_line(&mut out, &[code, at, rows, visits]);
    if code == 0 {
        out += "op a b c d e\n";
        for row in buffer.chunks_exact(ROW_WORDS).take(rows as usize) {
            push_line(&mut out, row);
        }
    }
    out
}

/// The same of treesize (M-106).
pub fn print_size(told: Outcome) -> String {
    let Outcome { code, at, rows, visits, lines } = told;
    let mut out = String::from("code at rows visits lines\n");
    push_line(&mut out, &[code, at, rows, visits, lines]);
    out
}

fn push_line(text: &mut String, numbers: &[u32]) {
    let numbers: Vec<String> = numbers.iter().map(u32::to_string).collect();
    *text += &numbers.join(" ");
    text.push('\n');
}
