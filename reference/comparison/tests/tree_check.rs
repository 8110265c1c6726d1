//! Corners of M-100, on the model.

use comparison::generate::rows::limits;
use comparison::model::Refusal;
use comparison::model::tree_check::{NONE, check};

/// Rows with the zeros at their end left out.
fn rows(rows: &[&[u32]]) -> Vec<u32> {
    let row = |columns: &&[u32]| {
        let mut row = [0; 6];
        row[..columns.len()].copy_from_slice(columns);
        row
    };
    rows.iter().flat_map(row).collect()
}

fn answer(words: &[u32]) -> (u32, u32) {
    check(words).map_or_else(|Refusal { code, at }| (code, at), |()| (0, 0))
}

#[test]
fn corners() {
    let corners: [(&[&[u32]], (u32, u32)); 14] = [
        (&[&[22], &[9, 1], &[]], (60, 2)),
        (&[&[22], &[9, 2], &[26]], (61, 1)),
        (&[&[9, 1, 7]], (60, 0)),
        (&[&[9, 2_048]], (60, 0)),
        (&[&[9, 2_047]], (61, 0)),
        (&[&[3], &[5], &[4], &[9, 1]], (0, 0)),
        (&[&[1], &[4], &[9]], (62, 0)),
        (&[&[9], &[9], &[10, 0, 0, 0, NONE], &[9, 1]], (62, 0)),
        (&[&[9], &[11], &[12, 0, 0, 0, NONE], &[9, 1]], (62, 0)),
        (&[&[9], &[1], &[14, 0, NONE], &[9, 1]], (61, 2)),
        (&[&[24, NONE], &[9, 1]], (60, 0)),
        (&[&[24, 3, 0, 1, 128], &[9, 1]], (0, 0)),
        (&[&[24, 3, 0, 1, 129], &[9, 1]], (60, 0)),
        (&[&[22, 0, 7], &[9, 1]], (0, 0)),
    ];
    for (list, expected) in corners {
        assert_eq!(answer(&rows(list)), expected, "{list:?}");
    }
}

#[test]
fn lengths() {
    let answers: Vec<_> = limits().iter().map(|words| answer(words)).collect();
    let refused = (62, 0);
    let accepted = (0, 0);
    assert_eq!(
        answers,
        [refused, refused, refused, accepted, refused, refused, refused, accepted, accepted]
    );
}
