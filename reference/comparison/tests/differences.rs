//! The tables of docs/DIFFERENCES.md: what the Rust does, and what is here instead.

use comparison::candidate::{CANDIDATE, CANDIDATE_LANGUAGE};
use comparison::generate::draft::Draft;
use comparison::model::check::check;
use comparison::model::{self, Outcome, Refusal, Row};
use comparison::parts::Parts;
use comparison::reference;
use walk_observer::Bounds;

/// No such block: the Rust's map of blocks panics.
const MISSING: [u32; 17] = [0, 1, 0, 0, 0, 0, 0, 0, 0, 0, 0, 0, 0, 0, 0, 0, 0];

/// Sequence(1, 2); empty MaybeThrow(2); empty Goto(0): the Rust panics.
const NO_INSTRUCTION: [u32; 39] = [
    0, 3, 0, 0, 0, 0, //
    0, 0, 17, 1, 2, 0, 0, 0, 0, 0, 0, //
    0, 0, 18, 2, 0, 0, 0, 0, 0, 0, 0, //
    0, 0, 4, 0, 0, 0, 0, 0, 0, 0, 0,
];

/// Sequence(0, 1), and no block 1: the Rust recurses for ever.
const ENDLESS: [u32; 28] = [
    0, 2, 0, 0, 0, 0, //
    0, 0, 17, 0, 1, 0, 0, 0, 0, 0, 0, //
    0, 0, 0, 0, 0, 0, 0, 0, 0, 0, 0,
];

fn model(words: &[u32]) -> Outcome {
    model::build(words, &mut [], &mut [])
}

fn within(words: &[u32], depth: usize, visits: u32) -> (Refusal, u32) {
    let walked = reference::on_large_stack(|| {
        reference::install_panic_hook();
        reference::walk_within(&check(words).unwrap(), Bounds { depth, visits }).0
    });
    (walked.result.unwrap_err(), walked.visits)
}

#[test]
fn missing() {
    assert_eq!(model(&MISSING), Outcome::refused(Refusal { code: 10, at: 0 }, 1));
    assert_eq!(within(&MISSING, 128, 8_192), (Refusal { code: 10, at: 0 }, 1));
}

#[test]
fn no_instruction() {
    assert_eq!(model(&NO_INSTRUCTION), Outcome::refused(Refusal { code: 28, at: 1 }, 2));
    assert_eq!(within(&NO_INSTRUCTION, 128, 8_192), (Refusal { code: 28, at: 1 }, 2));
}

#[test]
fn endless() {
    assert_eq!(model(&ENDLESS), Outcome::refused(Refusal { code: 30, at: 0 }, 128));
    // Stopped at 20,000 levels, since the Rust does not stop by itself.
    assert_eq!(within(&ENDLESS, 20_000, 1 << 30), (Refusal { code: 30, at: 0 }, 20_000));
}

/// A value whose parts are visited twice on each of `levels` levels, under one statement.
fn doubling(levels: u32) -> Vec<u32> {
    let mut blocks = vec![[0, 0, 3, 0, 0, 0, 0, 0, 0, 0, 0], [0, 1, 4, 0, 0, 0, 0, 0, 0, 0, 0]];
    for _ in 0..levels {
        let inner = blocks.len() as u32 - 1;
        blocks.push([0, 0, 18, inner, 0, 0, 0, 0, 0, 0, 0]);
        blocks.push([0, 0, 17, inner, inner + 1, 0, 0, 0, 0, 0, 0]);
    }
    let entry = blocks.len() as u32;
    blocks.push([0, 0, 17, entry - 1, 0, 0, 0, 0, 0, 0, 0]);
    let mut words = vec![entry, entry + 1, 1, 0, 1, 1];
    words.extend(blocks.as_flattened());
    words.extend([0, 0, 0, 0, 0, 0, 0, 0, 1]);
    words
}

#[test]
fn visits() {
    // Each level makes 2 n + 2 visits of n: 12,286 on the twelfth, and two more for statements.
    let accepted = model(&doubling(11));
    assert_eq!((accepted.code, accepted.visits), (40, 6_144));
    let refused = model(&doubling(12));
    assert_eq!((refused.code, refused.visits), (31, 8_192));
    let walked = reference::on_large_stack(|| {
        let bounds = Bounds { depth: 128, visits: 1 << 30 };
        reference::walk_within(&check(&doubling(12)).unwrap(), bounds).0
    });
    assert!(walked.result.is_ok());
    assert_eq!(walked.visits, 12_288);
}

/// So many Labels, each in the one before, around a Return; their fallthrough is Unreachable.
fn nested_labels(labels: u32) -> Vec<u32> {
    let mut words = vec![0, labels + 2, 0, 0, 1, 1];
    for label in 0..labels {
        words.extend([0, 0, 16, label + 1, labels + 1, 0, 0, 0, 0, 0, 0]);
    }
    words.extend([0, 0, 3, 0, 0, 0, 0, 0, 0, 0, 0]);
    words.extend([0, 0, 1, 0, 0, 0, 0, 0, 0, 0, 0]);
    words.extend([0, 1]);
    words
}

#[test]
fn depth_of_statements() {
    let accepted = model(&nested_labels(127));
    assert_eq!((accepted.code, accepted.visits), (40, 128));
    assert_eq!(model(&nested_labels(128)), Outcome::refused(Refusal { code: 30, at: 128 }, 128));
    let walked = reference::on_large_stack(|| {
        let bounds = Bounds { depth: 1_024, visits: 1 << 30 };
        reference::walk_within(&check(&nested_labels(128)).unwrap(), bounds).0
    });
    assert!(walked.result.is_ok());
    assert_eq!(walked.visits, 129);
}

/// A table over one place: each block performs the row of its own number, and its id is 10 more.
fn each_with_its_row(blocks: &[(u32, &[u32])], cases: &[u32]) -> Vec<u32> {
    let rows = (0..).zip(blocks).map(|(number, (code, columns))| {
        let mut row = [number, 1, *code, 0, 0, 0, 0, 0, 10 + number, 0, 0];
        row[3..3 + columns.len()].copy_from_slice(columns);
        row
    });
    Draft {
        blocks: rows.collect(),
        instructions: (0..blocks.len() as u32).map(|number| [50 + number, 0, 0, 0, 0, 0, 0]).collect(),
        cases: cases.iter().map(|block| [0, *block]).collect(),
        places: vec![0],
        identifiers: vec![1],
        ..Draft::default()
    }
    .words()
}

/// The answer of the Rust, which that of the model and, where it is linked, that of the proved library equal.
fn built(words: &[u32]) -> Result<Vec<Row>, Refusal> {
    let walked = reference::on_large_stack(|| {
        reference::install_panic_hook();
        reference::walk_counted(&check(words).unwrap()).0
    });
    let mut buffers = vec![(vec![7; 600], vec![7; 60]); 2];
    let [(tree, index), (again, index_again)] = &mut buffers[..] else { unreachable!() };
    let outcome = model::finish(&walked, tree, index);
    assert_eq!(model::build(words, again, index_again), outcome);
    if outcome.code == 0 {
        assert_eq!(again[..6 * outcome.rows as usize], tree[..6 * outcome.rows as usize]);
    }
    if let Some(library) = CANDIDATE {
        let (mut lent, mut lines) = (vec![7; 600], vec![7; 60]);
        assert_eq!(library(words, &mut lent, &mut lines), outcome);
        assert_eq!(lent, *again);
    }
    walked.result
}

/// The answer of the language entry, by the model and the library.
fn built_by_language(words: &[u32]) -> Outcome {
    let (mut tree, mut index) = (vec![7; 600], vec![7; 60]);
    let outcome = model::build_language(words, &mut tree, &mut index);
    if let Some(library) = CANDIDATE_LANGUAGE {
        let (mut lent, mut lines) = (vec![7; 600], vec![7; 60]);
        assert_eq!(library(words, &mut lent, &mut lines), outcome);
        assert_eq!((lent, lines), (tree, index));
    }
    outcome
}

/// The statements of a tree on one line: rows performed by their numbers, labels behind the words, lists in brackets.
fn told(rows: &[Row]) -> String {
    fn of(rows: &[Row], parts: &Parts, at: usize) -> String {
        let inner: Vec<String> = parts.at(at).into_iter().map(|part| of(rows, parts, part)).collect();
        let [op, a, b, c, d, _] = rows[at];
        let bodies = inner.iter().map(|list| format!(" [{list}]")).collect::<String>();
        match op {
            1 => a.to_string(),
            4 => inner[0].clone(),
            9 => inner.join(" "),
            10 => format!("if {d}{bodies}"),
            11 => inner[0].clone(),
            12 => format!("switch {d}{bodies}"),
            19 => format!("try {b}{bodies}"),
            22 => "return".to_string(),
            24 => format!("break {a} {}", ["implicit", "labeled", "unlabeled"][c as usize]),
            op => panic!("op {op}"),
        }
    }
    of(rows, &Parts::of(rows), rows.len() - 1)
}

/// `try { do { if (a()) break; return 1; } while (b()); } catch {} return 2;` without the call's MaybeThrow: the do-while is gone, and what
/// followed it stands where its break was. On yes the blocks perform 0, 1, 2 and 4, and the tree 0, 1, 2 and 3.
#[test]
fn goto_try_inside_a_statement() {
    let words = each_with_its_row(&[(19, &[1, 5, 4, 65_535]), (5, &[0, 2, 3, 3]), (4, &[4, 2]), (3, &[]), (3, &[]), (4, &[4, 0])], &[]);
    assert_eq!(told(&built(&words).unwrap()), "0 try 4 [1 if 3 [2] 3 return] [5 break 4 implicit] 4 return");
    assert_eq!(built_by_language(&words).code, 0);
}

/// With the MaybeThrow of the call.
#[test]
fn goto_try_behind_a_call() {
    let words = each_with_its_row(
        &[(19, &[1, 6, 5, 65_535]), (18, &[2]), (5, &[0, 3, 4, 4]), (4, &[5, 2]), (3, &[]), (3, &[]), (4, &[5, 0])],
        &[],
    );
    assert_eq!(told(&built(&words).unwrap()), "0 try 5 [1 2 if 4 [3] 4 return] [6 break 5 implicit] 5 return");
}

/// The same with a Goto Break in its place: the break is there, and has the label of the TRY.
#[test]
fn goto_break_inside_a_statement() {
    let words = each_with_its_row(&[(19, &[1, 5, 4, 65_535]), (5, &[0, 2, 3, 3]), (4, &[4, 0]), (3, &[]), (3, &[]), (4, &[4, 0])], &[]);
    assert_eq!(told(&built(&words).unwrap()), "0 try 4 [1 if 3 [2 break 4 labeled] 3 return] [5 break 4 implicit] 4 return");
}

/// `switch (x) { case 1: do { if (a) break; return 1; } while (b); default: c(); } return 2;`: the break goes to block 2, which is no
/// statement's label.
#[test]
fn break_to_a_case() {
    let words = each_with_its_row(&[(7, &[0, 0, 2, 3]), (5, &[0, 4, 5, 5]), (4, &[3, 0]), (3, &[]), (4, &[2, 0]), (3, &[])], &[1, 2]);
    assert_eq!(told(&built(&words).unwrap()), "0 switch 3 [2 break 3 implicit] [1 if 5 [4 break 2 labeled] 5 return] 3 return");
    assert_eq!((built_by_language(&words).code, built_by_language(&words).at), (29, 4));
}

/// No table of fewer blocks is refused 29 (`a_search_for_unnamed_labels`).
#[test]
fn smallest_label_that_no_statement_has() {
    let words = each_with_its_row(&[(7, &[0, 0, 3, 3]), (4, &[3, 0]), (3, &[]), (1, &[])], &[1, 2, 3]);
    assert_eq!(told(&built(&words).unwrap()), "0 switch 65535 [3] [2 return] [1 break 3 labeled]");
    assert_eq!((built_by_language(&words).code, built_by_language(&words).at), (29, 1));
}

/// `do { if (a) { b(); break; } break; } while (c); return 1;`: two breaks go to a block that is no statement's fallthrough.
#[test]
fn dead_do_while_with_two_breaks() {
    let words = each_with_its_row(&[(5, &[0, 3, 2, 2]), (3, &[]), (4, &[1, 0]), (4, &[1, 0])], &[]);
    assert_eq!(built(&words), Err(Refusal { code: 20, at: 1 }));
}
