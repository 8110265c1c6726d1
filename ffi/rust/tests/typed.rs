//! Rows and tables as typed values: there and back, and rows that are none.

use reactive_build::table::{Block, Ending, Instruction, Table};
use reactive_build::tree::{Node, Nodes, Op, Row};
use reactive_build::{Refusal, code};

/// Words that are at an edge of some column.
const EDGES: [u32; 7] = [0, 1, 2, 3, 7, 65_535, u32::MAX];

fn rows() -> impl Iterator<Item = Row> {
    let count = EDGES.len();
    (0..28).flat_map(move |op| {
        (0..count.pow(5)).map(move |number| {
            let column = |place: u32| EDGES[number / count.pow(place) % count];
            [op, column(0), column(1), column(2), column(3), column(4)]
        })
    })
}

#[test]
fn a_row_is_told_whole_or_is_none() {
    let mut met = [0; 25];
    for row in rows() {
        if let Some(node) = Node::of_row(&row) {
            assert_eq!(node.row(), row);
            assert_eq!(Op::of(row[0]), Some(node.op()));
            met[row[0] as usize - 1] += 1;
        }
    }
    assert!(met.iter().all(|times| *times > 0));
    assert_eq!(Node::of_row(&[8, 2, 0, 0, 0, 0]), None, "a flag of 2");
    assert_eq!(Node::of_row(&[24, 0, 0, 3, 0, 0]), None, "a kind of 3");
    assert_eq!(Node::of_row(&[7, 0, 0, 0, 0, 1]), None, "a column that is not used");
}

#[test]
fn an_ending_is_told_whole_or_is_none() {
    let mut met = [0; 22];
    for [code, columns @ ..] in rows() {
        if let Some(ending) = Ending::of_columns(code, columns) {
            assert_eq!((ending.code(), ending.columns()), (code, columns));
            met[code as usize] += 1;
        }
    }
    assert!(met.iter().all(|times| *times > 0));
    assert_eq!(Ending::of_columns(4, [0, 3, 0, 0, 0]), None, "a variant of 3");
    assert_eq!(Ending::of_columns(22, [0; 5]), None);
    let row = [1, 2, 10, 3, 4, 65_535, 5, 6, 7, 8, 9];
    assert_eq!(Block::of_row(&row).map(|block| block.row()), Some(row));
    let row = [1, 2, 2, 3, 4, 5, 6];
    assert_eq!(Instruction::of_row(&row).map(|instruction| instruction.row()), Some(row));
    assert_eq!(Instruction::of_row(&[1, 2, 1, 3, 4, 5, 6]), None, "q of a LoadLocal");
}

#[test]
fn words_that_are_no_table() {
    let refused = |words: &[u32]| Table::of_words(words).map_err(|Refusal { code, at }| (code, at));
    let good = [0, 1, 0, 0, 1, 1, 0, 0, 3, 0, 0, 0, 0, 0, 7, 0, 0, 0, 1];
    assert!(refused(&good).is_ok());
    for length in 0..good.len() {
        assert_eq!(refused(&good[..length]), Err((code::WORD_COUNT, 0)));
    }
    assert_eq!(refused(&[&good[..], &[0]].concat()), Err((code::WORD_COUNT, 0)));
    assert_eq!(refused(&[0, u32::MAX, u32::MAX, u32::MAX, u32::MAX, u32::MAX]), Err((code::WORD_COUNT, 0)));
    let with = |at: usize, word| {
        let mut words = good;
        words[at] = word;
        refused(&words)
    };
    assert_eq!(with(8, 22), Err((code::WORD, 6)));
    assert_eq!(with(18, 2), Err((code::WORD, 18)));
}

#[test]
fn the_parts_of_each_row() {
    // while (LOAD 0) { return 1 } return 2, with a sequence as the test
    let rows = [
        [1, 0, 0, 0, 0, 0],
        [4, 1, 0, 0, 0, 0],
        [2, 0, 0, 0, 0, 0],
        [5, 1, 2, 0, 0, 0],
        [22, 1, 3, 0, 0, 0],
        [9, 1, 0, 0, 0, 0],
        [14, 4, 3, 0, 0, 0],
        [22, 2, 5, 0, 0, 0],
        [9, 2, 0, 0, 0, 0],
    ];
    let nodes = Nodes::of(&rows).expect("one tree");
    let parts = |row| nodes.parts(row).collect::<Vec<_>>();
    assert_eq!((parts(8), parts(6), parts(3), parts(0)), (vec![6, 7], vec![3, 5], vec![1, 2], vec![]));
    assert_eq!((nodes.subtree(6), nodes.subtree(7)), (0..7, 7..8));
    let walked: Vec<_> = nodes.walk().map(|visit| (visit.row, visit.depth)).collect();
    assert_eq!(walked, [(8, 0), (6, 1), (3, 2), (1, 3), (0, 4), (2, 3), (5, 2), (4, 3), (7, 1)]);
    for (row, node) in nodes.iter().enumerate() {
        assert_eq!(parts(row).len(), node.part_count());
    }
}

#[test]
fn the_cases_of_a_switch_are_walked_in_the_order_of_the_source() {
    // switch (0) { case 1: return 1; default: return 0 }, and the rows with the last case first
    let rows = [
        [22, 0, 3, 0, 0, 0],
        [9, 1, 0, 0, 0, 0],
        [11, 65_535, 0, 0, 0, 0],
        [22, 1, 2, 0, 0, 0],
        [9, 1, 0, 0, 0, 0],
        [11, 1, 0, 0, 0, 0],
        [12, 0, 2, 1, 65_535, 0],
        [9, 1, 0, 0, 0, 0],
    ];
    let nodes = Nodes::of(&rows).expect("one tree");
    assert_eq!(nodes.parts(6).collect::<Vec<_>>(), [2, 5]);
    assert_eq!(nodes.parts_of_source(6).collect::<Vec<_>>(), [5, 2]);
    assert_eq!(nodes.walk().map(|visit| visit.row).collect::<Vec<_>>(), [7, 6, 5, 4, 3, 2, 1, 0]);
    let outline = "\
7  BLOCK of 1
6    SWITCH place 0, 2 cases, id 1
5      CASE place 1
4        BLOCK of 1
3          RETURN place 1, id 2
2      CASE default
1        BLOCK of 1
0          RETURN place 0, id 3
";
    assert_eq!(nodes.to_string(), outline);
}

#[test]
fn rows_that_are_no_tree() {
    let refused = |rows: &[Row]| Nodes::of(rows).map(|_| ()).map_err(|Refusal { code, at }| (code, at));
    let (load, block, huge) = ([2, 0, 0, 0, 0, 0], [9, 0, 0, 0, 0, 0], [9, u32::MAX, 0, 0, 0, 0]);
    assert_eq!(refused(&[block]), Ok(()));
    assert_eq!(refused(&[]), Err((code::NOT_ONE_TREE, 0)));
    assert_eq!(refused(&[load]), Err((code::NOT_ONE_TREE, 0)));
    assert_eq!(refused(&[block, block]), Err((code::NOT_ONE_TREE, 0)));
    assert_eq!(refused(&[block, [0; 6]]), Err((code::ROW_OUT_OF_RANGE, 1)));
    assert_eq!(refused(&[block, huge, [0; 6]]), Err((code::PARTS_MISSING, 1)));
    assert_eq!(refused(&[load, [9, 1, 0, 0, 0, 0]]), Err((code::PARTS_MISSING, 1)), "a value is no statement");
    assert_eq!(refused(&[load, [4, 0, 0, 0, 0, 0], [9, 1, 0, 0, 0, 0]]), Ok(()), "an INSTR is one");
}
