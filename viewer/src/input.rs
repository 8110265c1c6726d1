//! The files that people hand over: a table, rows of a tree (with answers or without), a source, answers.

use crate::source::Source;
use reactive_build::Refusal;
use reactive_build::code;
use reactive_build::tree::Row;
use std::fs::File;
use std::io::Read;
use std::path::Path;

/// The longest file that is read, in bytes.
pub const MOST_BYTES: u64 = 32 << 20;

/// What a file is, by its first line.
#[derive(Clone, Copy, Debug, PartialEq, Eq)]
pub enum Sort {
    Table,
    Rows,
}

/// `op a b c d e`, or what `treebuild` prints, whose first line is `code at rows visits`; anything else is read as a table.
pub fn sort(file: &[u8]) -> Sort {
    if file.starts_with(b"op ") || file.starts_with(b"code at rows visits\n") { Sort::Rows } else { Sort::Table }
}

/// Rows, and the answers where the line `answer` stands behind them.
#[derive(Debug, PartialEq, Eq)]
pub struct Rows {
    pub rows: Vec<Row>,
    pub answers: Option<Vec<u32>>,
}

/// The form that docs/FORMAT.md has for `treecheck` and `treerun`; the first two lines of `treebuild` are passed over. 50 at the line that is
/// not in it.
pub fn rows(file: &[u8]) -> Result<Rows, Refusal> {
    let mut reader = Reader { file, at: 0 };
    if file.starts_with(b"code ") {
        reader.line();
        let begin = reader.at;
        if reader.line().is_some_and(|line| !line.starts_with(b"0 ")) {
            let numbers = numbers(&file[begin..reader.at]).ok_or(refused(begin))?;
            return Err(Refusal { code: numbers[0], at: numbers.get(1).copied().unwrap_or(0) });
        }
    }
    reader.expect(b"op a b c d e")?;
    let mut read = Rows { rows: Vec::new(), answers: None };
    loop {
        let begin = reader.at;
        let Some(line) = reader.line() else { return whole(read, file) };
        if line == b"answer" {
            read.answers = Some(answers_from(&mut reader)?);
            return whole(read, file);
        }
        read.rows.push(numbers(line).and_then(|numbers| numbers.try_into().ok()).ok_or(refused(begin))?);
    }
}

/// Every line, the last one too, has its LF.
fn whole<T>(read: T, file: &[u8]) -> Result<T, Refusal> {
    if file.ends_with(b"\n") { Ok(read) } else { Err(refused(file.len())) }
}

fn answers_from(reader: &mut Reader) -> Result<Vec<u32>, Refusal> {
    let mut answers = Vec::new();
    loop {
        let begin = reader.at;
        let Some(line) = reader.line() else { return Ok(answers) };
        let [answer] = numbers(line).and_then(|numbers| numbers.try_into().ok()).ok_or(refused(begin))?;
        answers.push(answer);
    }
}

fn refused(at: usize) -> Refusal {
    Refusal { code: code::FORM, at: at as u32 }
}

struct Reader<'a> {
    file: &'a [u8],
    at: usize,
}

impl<'a> Reader<'a> {
    /// The next line without its LF; none at the end. A last line without LF is given as it is.
    fn line(&mut self) -> Option<&'a [u8]> {
        let rest = &self.file[self.at..];
        if rest.is_empty() {
            return None;
        }
        let length = rest.iter().position(|byte| *byte == b'\n').unwrap_or(rest.len());
        self.at += (length + 1).min(rest.len());
        Some(&rest[..length])
    }

    fn expect(&mut self, expected: &[u8]) -> Result<(), Refusal> {
        let begin = self.at;
        if self.line() == Some(expected) { Ok(()) } else { Err(refused(begin)) }
    }
}

/// Decimal numbers of 32 bits, one space between.
fn numbers(line: &[u8]) -> Option<Vec<u32>> {
    let number = |digits: &[u8]| -> Option<u32> {
        let leading = digits.len() > 1 && digits[0] == b'0';
        let plain = !digits.is_empty() && !leading && digits.iter().all(u8::is_ascii_digit);
        if plain { str::from_utf8(digits).ok()?.parse().ok() } else { None }
    };
    line.strip_suffix(b"\n").unwrap_or(line).split(|byte| *byte == b' ').map(number).collect()
}

/// A file's bytes, or why they can't be had. Of a file without end, as a device may be, it reads one byte more than `MOST_BYTES`.
pub fn bytes(path: &Path) -> Result<Vec<u8>, String> {
    let name = path.display();
    let mut read = Vec::new();
    let done = File::open(path).and_then(|file| file.take(MOST_BYTES + 1).read_to_end(&mut read));
    done.map_err(|error| format!("{name}: {error}"))?;
    if read.len() as u64 > MOST_BYTES { Err(format!("{name}: longer than {} MB", MOST_BYTES >> 20)) } else { Ok(read) }
}

/// A source: UTF-8.
pub fn source(path: &Path) -> Result<Source, String> {
    let text = String::from_utf8(bytes(path)?).map_err(|_| format!("{}: this is no UTF-8 text", path.display()))?;
    Ok(Source::new(&text))
}

#[cfg(test)]
mod tests {
    use super::*;

    #[test]
    fn rows_with_answers() {
        let read = rows(b"op a b c d e\n9 0 0 0 0 0\nanswer\n1\n0\n").unwrap();
        assert_eq!(read, Rows { rows: vec![[9, 0, 0, 0, 0, 0]], answers: Some(vec![1, 0]) });
        assert_eq!(rows(b"code at rows visits\n0 0 1 1\nop a b c d e\n9 0 0 0 0 0\n").unwrap().answers, None);
        assert_eq!(rows(b"code at rows visits\n15 1 0 1\n"), Err(Refusal { code: 15, at: 1 }));
    }

    #[test]
    fn other_lines_are_refused_where_they_stand() {
        assert_eq!(rows(b"op a b c d e\n9 0 0 0 0\n"), Err(refused(13)));
        assert_eq!(rows(b"op a b c d e\n9 0 0 0 0 00\n"), Err(refused(13)));
        assert_eq!(rows(b"op a b c d e\nanswer\n1\n1 0\n"), Err(refused(22)));
        assert_eq!(rows(b"op a b c d e\nanswer\n1"), Err(refused(21)));
    }
}
