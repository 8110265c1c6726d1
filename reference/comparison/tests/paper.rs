//! Paper 01's own samples, and corners of spans with two ends (paper 02, M-108), on the reference and
//! on the model.

use comparison::model::check::check;
use comparison::model::{self, Outcome, Refusal, text};
use comparison::reference;

/// Blocks without instructions or spans, over one place and one identifier.
fn table(blocks: &[(u32, &[u32], u32)]) -> Vec<u32> {
    let mut words = vec![0, blocks.len() as u32, 0, 0, 1, 1];
    for (code, operands, id) in blocks {
        let mut row = [0, 0, *code, 0, 0, 0, 0, 0, *id, 0, 0];
        row[3..3 + operands.len()].copy_from_slice(operands);
        words.extend(row);
    }
    words.extend([0, 1]);
    words
}

/// Both answer this, with the rows and then zeros in a buffer of 2,048 places.
fn both(words: &[u32], outcome: Outcome, rows: &[[u32; 6]]) {
    let mut expected = rows.as_flattened().to_vec();
    expected.resize(12_288, 0);
    let mut buffer = vec![7; 12_288];
    let mut index = vec![7; 6_144];
    assert_eq!(model::build(words, &mut buffer, &mut index), outcome);
    assert_eq!(buffer, expected);
    let walked = reference::on_large_stack(|| reference::walk(&check(words).unwrap()).0);
    let mut buffer = vec![0; 12_288];
    let mut index_too = vec![0; 6_144];
    assert_eq!(model::finish(&walked, &mut buffer, &mut index_too), outcome);
    assert_eq!(index, index_too);
    assert_eq!(buffer, expected);
}

fn accepted(rows: u32, visits: u32, lines: u32) -> Outcome {
    Outcome { code: 0, at: 0, rows, visits, lines }
}

fn refused(code: u32, at: u32, visits: u32) -> Outcome {
    Outcome::refused(Refusal { code, at }, visits)
}

const RETURN: (u32, &[u32], u32) = (3, &[0], 4);
const BRANCH: (u32, &[u32], u32) = (6, &[0, 2, 3], 2);
const CONTINUE: (u32, &[u32], u32) = (4, &[1, 1], 3);

#[test]
fn w() {
    let w = [(9, &[1, 2, 3][..], 1), BRANCH, CONTINUE, RETURN];
    let mut rows = [
        [2, 0, 0, 0, 0, 0],
        [25, 3, 3, 0, 0, 0],
        [9, 1, 0, 0, 0, 0],
        [14, 1, 3, 0, 0, 0],
        [22, 0, 4, 0, 0, 0],
        [9, 2, 0, 0, 0, 0],
    ];
    both(&table(&w), accepted(6, 4, 1), &rows);
    let mut breaks = w;
    breaks[2] = (4, &[3, 0], 3);
    rows[1] = [24, 3, 3, 2, 0, 0];
    both(&table(&breaks), accepted(6, 4, 1), &rows);
}

#[test]
fn refusals() {
    both(&table(&[(9, &[1, 2, 1], 1), BRANCH, CONTINUE, RETURN]), refused(15, 1, 1), &[]);
    let w = [(9, &[1, 2, 3][..], 1), (18, &[1], 2), CONTINUE, RETURN];
    both(&table(&w), refused(30, 1, 128), &[]);
    both(&table(&[(5, &[0, 1, 1, 2], 1), (3, &[0], 2), RETURN]), refused(11, 1, 3), &[]);
}

#[test]
fn scope() {
    let rows = [[9, 0, 0, 0, 0, 0], [20, 5, 0, 0, 0, 0], [22, 0, 4, 0, 0, 0], [9, 2, 0, 0, 0, 0]];
    both(&table(&[(20, &[1, 2, 5], 1), (4, &[2, 0], 2), RETURN]), accepted(4, 3, 0), &rows);
}

const FILE: &str = "entry blocks instructions cases places identifiers\n0 1 0 0 1 1\n\
    first count code a b c d e id from to\n0 0 3 0 0 0 0 0 7 0 0\nid lvalue code p q from to\n\
    test block\nidentifier\n0\nnamed\n1\n";

#[test]
fn the_file() {
    let printed = "code at rows visits\n0 0 2 1\nop a b c d e\n22 0 7 0 0 0\n9 1 0 0 0 0\n";
    assert_eq!(text::treebuild(FILE.as_bytes()), printed);
    let words = text::parse(FILE.as_bytes()).unwrap();
    assert_eq!(text::write_file(&words), FILE);
    let mut buffer = [7; 11];
    let outcome = model::build(&words, &mut buffer, &mut []);
    assert_eq!(outcome, Outcome { code: 40, at: 0, rows: 2, visits: 1, lines: 0 });
    assert_eq!(buffer, [0; 11]);
}

/// Paper 02, M-108: a block with a span, and its instruction with another.
fn spans(code: u32, [from, to]: [u32; 2], instruction: [u32; 2]) -> Vec<u32> {
    let present = u32::from(code > 0);
    let mut words = vec![0, 1, 1, 0, 1, 1];
    words.extend([0, present, code, 0, 0, 0, 0, 0, 7 * present, from, to]);
    words.extend([5, 0, 0, 0, 0, instruction[0], instruction[1]]);
    words.extend([0, 1]);
    words
}

#[test]
fn two_ends() {
    let rows = |[from, to]: [u32; 2]| {
        [[1, 0, 0, 0, 0, 0], [4, 5, 0, from, to, 0], [22, 0, 7, 0, 0, 0], [9, 2, 0, 0, 0, 0]]
    };
    for span in [[3, 9], [0, 5], [5, 5], [0, 0], [0, 65_535]] {
        both(&spans(3, [0, 5], span), accepted(4, 1, 0), &rows(span));
    }
    let refused_at = |words: &[u32]| check(words).err().map(|refusal| (refusal.code, refusal.at));
    assert_eq!(refused_at(&spans(3, [5, 4], [3, 9])), Some((4, 16)));
    assert_eq!(refused_at(&spans(3, [70_000, 0], [3, 9])), Some((4, 15)));
    assert_eq!(refused_at(&spans(3, [65_535, 65_534], [3, 9])), Some((4, 16)));
    assert_eq!(refused_at(&spans(3, [0, 5], [2, 1])), Some((4, 23)));
    assert_eq!(refused_at(&spans(3, [5, 4], [2, 1])), Some((4, 16)));
    assert_eq!(refused_at(&spans(0, [0, 1], [3, 9])), Some((4, 16)));
}

#[test]
fn an_old_file() {
    let old = FILE.replace("from to", "span");
    assert_eq!(text::treebuild(old.as_bytes()), "code at rows visits\n50 93 0 0\n");
}
