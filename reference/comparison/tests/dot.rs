//! The corners of M-110, on the model.

mod table;

use comparison::model::dot::{Drawn, draw};
use table::{ABSENT, RETURN, table};

/// The table has these lines, and its text is the first `n` bytes that it needs.
fn draws(words: &[u32], lines: &[(u32, u32)]) {
    let body: String = lines.iter().map(|(from, to)| format!("n{from} -> n{to};\n")).collect();
    let expected = format!("digraph g {{\n{body}}}\n");
    let length = expected.len();
    for longer in [0, 1, 9] {
        let mut buffer = vec![7; length + longer];
        assert_eq!(draw(words, &mut buffer), Drawn { code: 0, at: 0, length });
        assert_eq!(buffer[..length], *expected.as_bytes());
        assert!(buffer[length..].iter().all(|byte| *byte == 0));
    }
    for lent in [0, length - 1] {
        let mut buffer = vec![7; lent];
        assert_eq!(draw(words, &mut buffer), Drawn { code: 44, at: 0, length: 0 });
        assert!(buffer.iter().all(|byte| *byte == 0));
    }
}

#[test]
fn while_loop() {
    let w = table(0, &[(9, &[1, 2, 3]), (6, &[0, 2, 3]), (4, &[1, 1]), RETURN], &[]);
    draws(&w, &[(0, 1), (0, 2), (0, 3), (1, 2), (1, 3), (2, 1)]);
    assert_eq!(draw(&w, &mut [7; 100]).length, 74);
}

#[test]
fn no_line() {
    draws(&table(0, &[RETURN], &[]), &[]);
}

#[test]
fn switch() {
    let words = table(0, &[(7, &[0, 1, 1, 1]), RETURN, ABSENT], &[[0, 0], [0, 2], [0, 1]]);
    draws(&words, &[(0, 2), (0, 1)]);
}

#[test]
fn no_update() {
    let blocks = [(10, &[4, 5, 65_535, 2, 1][..]), RETURN, RETURN, RETURN, RETURN, RETURN];
    draws(&table(0, &blocks, &[]), &[(0, 4), (0, 5), (0, 2), (0, 1)]);
}

#[test]
fn refused_words() {
    let mut buffer = [7; 30];
    assert_eq!(draw(&[0; 5], &mut buffer), Drawn { code: 1, at: 0, length: 0 });
    assert_eq!(buffer, [0; 30]);
}
