//! Corners of M-101, on the model.

use comparison::model::index::{LINE_WORDS, MOST_LINES, lines, lookup};
use comparison::model::{Outcome, Refusal, build, build_language, preview, preview_language};

/// Rows with the zeros at their end left out.
fn rows<const N: usize>(rows: [&[u32]; N]) -> [[u32; 6]; N] {
    rows.map(|columns| {
        let mut row = [0; 6];
        row[..columns.len()].copy_from_slice(columns);
        row
    })
}

#[test]
fn lines_of_trees() {
    // W with one instruction in block 0: the line begins after it.
    let w = rows([&[1], &[4], &[2], &[25, 3, 3], &[9, 1], &[14, 1, 3], &[22, 0, 4], &[9, 3]]);
    assert_eq!(lines(&w), [[3, 2, 5]]);
    // 0 Label(1,2); 1 If(0,3,4,4): inner before outer, both from row 0.
    let nested = rows([&[24, 4], &[9, 1], &[10, 0, 0, 0, 4], &[24, 2], &[9, 2], &[18, 0, 2], &[22], &[9, 2]]);
    assert_eq!(lines(&nested), [[4, 0, 2], [2, 0, 5]]);
    // A SWITCH without cases: first is closing. A SCOPE has no line, and neither has a label of none.
    assert_eq!(lines(&rows([&[12, 0, 0, 1, 1], &[22, 0, 2], &[9, 2]])), [[1, 0, 0]]);
    assert_eq!(lines(&rows([&[9], &[20, 5], &[9], &[18, 0, 65_535], &[9, 2]])), [[0; 3]; 0]);
}

#[test]
fn lookups() {
    let refused = |code| Err(Refusal { code, at: 0 });
    let w = [3, 2, 5];
    assert_eq!(lookup(&w, 1, 3, 48), Ok(12..36));
    assert_eq!(lookup(&w, 99, 3, 48), Ok(12..36));
    assert_eq!(lookup(&w, 1, 3, 35), refused(43));
    assert_eq!(lookup(&w[..2], 1, 3, 48), refused(42));
    assert_eq!(lookup(&[3, 2, 5, 0, 0, 0], 1, 0, 48), refused(42));
    assert_eq!(lookup(&[3, 2, 5, 0, 0, 0], 2, 0, 48), Ok(0..6));
    assert_eq!(lookup(&[3, 6, 5, 3, 2, 5], 2, 3, 48), refused(43));
}

/// W of paper 01, with one instruction in block 0; its While falls through to this block.
fn w(fallthrough: u32) -> Vec<u32> {
    let mut words = vec![0, 4, 1, 0, 1, 1];
    words.extend([0, 1, 9, 1, 2, fallthrough, 0, 0, 1, 0, 0]);
    words.extend([0, 0, 6, 0, 2, 3, 0, 0, 2, 0, 0]);
    words.extend([0, 0, 4, 1, 1, 0, 0, 0, 3, 0, 0]);
    words.extend([0, 0, 3, 0, 0, 0, 0, 0, 4, 0, 0]);
    words.extend([5, 0, 0, 0, 0, 0, 0, 0, 1]);
    words
}

/// Lent so many words, each of them stale.
fn built(words: &[u32], tree: usize, index: usize) -> (Outcome, Vec<u32>, Vec<u32>) {
    let (mut tree, mut index) = (vec![7; tree], vec![7; index]);
    (build(words, &mut tree, &mut index), tree, index)
}

fn numbers(code: u32, at: u32, rows: u32, visits: u32, lines: u32) -> Outcome {
    Outcome { code, at, rows, visits, lines }
}

#[test]
fn forty_and_forty_one() {
    let w = w(3);
    let (outcome, tree, index) = built(&w, 48, 5);
    assert_eq!((outcome, index), (numbers(0, 0, 8, 4, 1), vec![3, 2, 5, 0, 0]));
    assert_eq!(tree[5 * 6], 14);
    assert_eq!(built(&w, 48, 2), (numbers(41, 0, 0, 4, 0), vec![0; 48], vec![0; 2]));
    assert_eq!(built(&w, 47, 2), (numbers(40, 0, 8, 4, 0), vec![0; 47], vec![0; 2]));
    assert_eq!(built(&w, 47, 3), (numbers(40, 0, 8, 4, 0), vec![0; 47], vec![0; 3]));
}

/// A run of Switches without cases: the next is the label of each.
#[test]
fn the_most_lines() {
    let mut words = vec![0, 1_024, 0, 0, 1, 1];
    for block in 1..1_024 {
        words.extend([0, 0, 7, 0, 0, 0, block, 0, block, 0, 0]);
    }
    words.extend([0, 0, 3, 0, 0, 0, 0, 0, 0, 0, 0, 0, 1]);
    let told = numbers(0, 0, 1_025, 1_024, MOST_LINES as u32);
    assert_eq!((preview(&words), preview_language(&words)), (told, told));
    let (outcome, _, index) = built(&words, 6 * 1_025, LINE_WORDS * MOST_LINES);
    assert_eq!((outcome, &index[3 * 1_022..]), (told, &[1_023, 1_022, 1_022][..]));
    assert_eq!(built(&words, 6 * 1_025, LINE_WORDS * MOST_LINES - 1).0, numbers(41, 0, 0, 1_024, 0));
}

#[test]
fn previews() {
    assert_eq!(preview(&w(3)), numbers(0, 0, 8, 4, 1));
    assert_eq!(preview(&w(1)), numbers(15, 1, 0, 1, 0));
    assert_eq!(preview(&[]), numbers(1, 0, 0, 0, 0));
    // More rows than treebuild lends.
    let mut words = vec![0, 1, 4_096, 0, 1, 1, 0, 4_096, 3, 0, 0, 0, 0, 0, 1, 0, 0];
    words.extend([0; 7 * 4_096]);
    words.extend([0, 1]);
    assert_eq!(preview(&words), numbers(0, 0, 8_194, 1, 0));
    // examples/switch.txt, with a case more that jumps into the next: the language entry refuses it.
    let mut words = vec![0, 5, 0, 3, 1, 1];
    words.extend([0, 0, 7, 0, 0, 3, 1, 0, 0, 0, 0]);
    words.extend([0, 0, 3, 0, 0, 0, 0, 0, 0, 0, 0]);
    for target in [4, 4, 1] {
        words.extend([0, 0, 4, target, 0, 0, 0, 0, 0, 0, 0]);
    }
    words.extend([0, 2, 0, 3, 0, 4, 0, 1]);
    assert_eq!(preview(&words).code, 0);
    let told = preview_language(&words);
    assert_eq!((told.code, told.rows, told.lines), (29, 0, 0));
    assert_eq!(build_language(&words, &mut [7; 200], &mut [7; 20]), told);
}
