//! Text of any content, made harmless on a terminal.

/// On a line of its own: white space, line ends too, becomes one space; no more than `most` characters.
pub fn line(text: &str, most: usize) -> String {
    let words: Vec<&str> = text.split_whitespace().collect();
    let line: Vec<char> = words.join(" ").chars().map(plain).collect();
    if line.len() <= most {
        return line.into_iter().collect();
    }
    line[..most - 1].iter().chain(&['…']).collect()
}

/// A message for a terminal, which may have the name of a file: nothing in it moves the cursor or ends the line.
pub fn message(text: &str) -> String {
    text.chars().map(plain).collect()
}

/// A character as it stands; a middle dot for one that moves the cursor, is not printed, or turns the direction of the text.
fn plain(c: char) -> char {
    let turns = matches!(c, '\u{200e}' | '\u{200f}' | '\u{202a}'..='\u{202e}' | '\u{2066}'..='\u{2069}');
    if c.is_control() || turns { '·' } else { c }
}

#[cfg(test)]
mod tests {
    use super::*;

    #[test]
    fn a_line_is_one_line() {
        assert_eq!(line(" let x;\r\n\tx = 1;\u{1b} ", 40), "let x; x = 1;·");
        assert_eq!(line("abcdef", 6), "abcdef");
        assert_eq!(line("abcdefg", 6), "abcde…");
        assert_eq!(message("a\u{1b}]0;b\u{7}\n\u{202e}: no such file"), "a·]0;b···: no such file");
    }
}
