//! The corners of M-111, on the model.

mod table;

use comparison::model::order::{Moved, rearrange, restore};
use table::{ABSENT, RETURN, table};

/// The list, the new table; and back.
fn orders(words: &[u32], list: &[u32], expected: &[u32]) {
    let (mut new_words, mut old_numbers) = (vec![7; words.len()], vec![7; list.len()]);
    assert_eq!(rearrange(words, &mut new_words, &mut old_numbers), Moved { code: 0, at: 0 });
    assert_eq!(old_numbers, list);
    assert_eq!(new_words, expected);
    let mut first = vec![7; words.len()];
    assert_eq!(restore(&new_words, &old_numbers, &mut first), Moved { code: 0, at: 0 });
    assert_eq!(first, words);
}

#[test]
fn a_missing_block_has_a_number() {
    let words = table(0, &[(5, &[0, 2, 3, 1]), RETURN, ABSENT, RETURN], &[]);
    orders(&words, &[0, 2, 3, 1], &table(0, &[(5, &[0, 1, 2, 3]), ABSENT, RETURN, RETURN], &[]));
}

#[test]
fn never_named() {
    let words = table(0, &[(10, &[4, 5, 6, 2, 1]), RETURN, RETURN, ABSENT, RETURN, RETURN, RETURN], &[]);
    let expected = table(0, &[(10, &[1, 2, 3, 4, 5]), RETURN, RETURN, RETURN, RETURN, RETURN, ABSENT], &[]);
    orders(&words, &[0, 4, 5, 6, 2, 1, 3], &expected);
}

#[test]
fn no_update_stays() {
    let words = table(0, &[(10, &[2, 3, 65_535, 4, 1]), RETURN, RETURN, RETURN, RETURN], &[]);
    orders(&words, &[0, 2, 3, 4, 1], &table(0, &[(10, &[1, 2, 65_535, 3, 4]), RETURN, RETURN, RETURN, RETURN], &[]));
}

#[test]
fn every_case_row() {
    let words = table(0, &[(7, &[0, 1, 1, 1]), RETURN, RETURN], &[[0, 0], [0, 2], [0, 1]]);
    orders(&words, &[0, 2, 1], &table(0, &[(7, &[0, 1, 1, 2]), RETURN, RETURN], &[[0, 0], [0, 1], [0, 2]]));
}

#[test]
fn another_entry() {
    let words = table(3, &[RETURN, (4, &[0, 0]), RETURN, (4, &[1, 0])], &[]);
    orders(&words, &[3, 1, 0, 2], &table(0, &[(4, &[1, 0]), (4, &[2, 0]), RETURN, RETURN], &[]));
}

#[test]
fn lists() {
    let one = table(0, &[RETURN], &[]);
    let restored = |list: &[u32], lent: usize| {
        let mut first = vec![7; lent];
        let moved = restore(&one, list, &mut first);
        assert!(moved.code == 0 || first.iter().all(|word| *word == 0));
        moved.code
    };
    assert_eq!(restored(&[0], one.len()), 0);
    for list in [&[1][..], &[], &[0, 0]] {
        assert_eq!(restored(list, one.len()), 46);
        assert_eq!(restored(list, one.len() + 1), 45);
    }
    let two = table(0, &[(4, &[1, 0]), RETURN], &[]);
    let mut first = vec![7; two.len()];
    assert_eq!(restore(&two, &[1, 0], &mut first), Moved { code: 0, at: 0 });
    assert_eq!(first, table(1, &[RETURN, (4, &[0, 0])], &[]));
}

#[test]
fn refused_words() {
    let (mut new_words, mut old_numbers) = ([7; 9], [7; 2]);
    assert_eq!(rearrange(&[0; 5], &mut new_words, &mut old_numbers), Moved { code: 1, at: 0 });
    assert_eq!((new_words, old_numbers), ([0; 9], [0; 2]));
}
