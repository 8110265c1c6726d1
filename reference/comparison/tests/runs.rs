//! The run law of all terminals: what each run does on small tables, and for each condition an accepted table that fails it alone and on
//! which the runs part.

use comparison::generate::draft::Draft;
use comparison::model::columns::NONE;
use comparison::model::table::{BLOCK_WORDS, Table};
use comparison::wide::conditions::{COUNT, failed};
use comparison::wide::law::Accepted;
use comparison::wide::{Given, Kind, Run, Step, Stop};
use comparison::reference;

/// What a block performs: the row of its own number, nothing, or rows of a kind.
#[derive(Clone, Copy)]
enum Rows {
    Own,
    None,
    /// Stores identifier q in p, which is unnamed.
    Store(u32, u32),
    /// Its own row, then such a store.
    OwnAndStore(u32, u32),
    /// Loads what its lvalue holds.
    OwnLoad,
}

use Rows::{Own, OwnAndStore, OwnLoad, Store};

type Blocks<'b> = &'b [(u32, &'b [u32], Rows)];

/// Two rows for each block: its own, and a store or a load. Identifiers 0 to 9 are unnamed; a block's lvalue has 10 and its number.
fn table(entry: u32, blocks: Blocks, cases: &[u32]) -> Vec<u32> {
    let count = blocks.len() as u32;
    let mut draft = Draft { entry, places: (0..10 + count).collect(), identifiers: vec![0; 10 + count as usize], ..Draft::default() };
    for (block, (code, columns, rows)) in (0..).zip(blocks) {
        let lvalue = 10 + block;
        let (first, number, [code_of, p, q]) = match *rows {
            Own => (0, 1, [0, 0, 0]),
            Rows::None => (0, 0, [0, 0, 0]),
            Store(p, q) => (1, 1, [2, p, q]),
            OwnAndStore(p, q) => (0, 2, [2, p, q]),
            OwnLoad => (1, 1, [1, lvalue, 0]),
        };
        draft.instructions.push([50 + block, lvalue, 0, 0, 0, 0, 0]);
        draft.instructions.push([70 + block, lvalue, code_of, p, q, 0, 0]);
        let mut row = [0; BLOCK_WORDS];
        row[..3].copy_from_slice(&[2 * block + first, number, *code]);
        row[3..3 + columns.len()].copy_from_slice(columns);
        row[8] = 10 + block;
        draft.blocks.push(row);
    }
    draft.cases.extend(cases.iter().map(|block| [0, *block]));
    draft.words()
}

/// A run on one line: rows by the numbers of their blocks, then why it stopped.
fn told(run: &Run) -> String {
    let mut said: Vec<String> = run.steps.iter().map(|step| match step {
        Step::Row(row) => (row / 2).to_string(),
        Step::Move { to, from } => format!("{to}<-{from}"),
    }).collect();
    said.push(match run.stop {
        Stop::Returned(..) => "returned".to_string(),
        Stop::Threw(..) | Stop::RowThrew(_) => "threw".to_string(),
        Stop::OutOfAnswers => "wanted".to_string(),
        stop => format!("{stop:?}"),
    });
    said.join(" ")
}

fn runs(words: &[u32], kind: Kind, answers: &[u32], outcomes: &[u32]) -> [String; 2] {
    reference::on_large_stack(|| {
        let accepted = Accepted::of(Table::of(words)).expect("an accepted table");
        accepted.runs(kind, Given { answers, outcomes }).map(|run| told(&run))
    })
}

const PLAIN: Kind = Kind { throws: false, moves: false, once: false };
const THROWS: Kind = Kind { throws: true, ..PLAIN };
const MOVES: Kind = Kind { moves: true, ..PLAIN };
const ONCE: Kind = Kind { once: true, ..PLAIN };

fn fails(words: &[u32]) -> Vec<usize> {
    let failed = failed(&Table::of(words));
    (0..COUNT).filter(|number| failed[*number]).collect()
}

/// The table fails this condition and none before 16, and the runs go so.
fn parts(condition: usize, words: &[u32], answers: &[u32], blocks: &str, tree: &str) {
    assert_eq!(fails(words).into_iter().filter(|number| *number < 16).collect::<Vec<_>>(), [condition]);
    assert_eq!(runs(words, PLAIN, answers, &[]), [blocks, tree], "without condition {condition}");
}

const RETURN: (u32, &[u32], Rows) = (3, &[0], Own);

#[test]
fn without_the_conditions_on_loops() {
    parts(0, &table(0, &[(12, &[2, 2, 1], Own), RETURN, (4, &[1, 0], Own)], &[]), &[], "0 2 1 returned", "0 2 wanted");
    let no_goto = [(10, &[2, 2, NONE, 3, 1][..], Own), RETURN, (6, &[0, 3, 1], Own), (4, &[1, 0], Own)];
    parts(1, &table(0, &no_goto, &[]), &[], "0 2 wanted", "0 2 2 wanted");
    let update = [(10, &[4, 2, 5, 3, 1][..], Own), RETURN, (6, &[0, 3, 1], Own), (4, &[5, 1], Own), (4, &[2, 0], Own), (18, &[2], Own)];
    parts(2, &table(0, &update, &[]), &[1], "0 4 2 3 5 2 wanted", "0 4 2 3 5 2 2 wanted");
    let load = [(4, &[2, 1][..], Own), (12, &[2, 0, 3], Own), (6, &[0, 0, 3], OwnLoad), RETURN];
    parts(7, &table(1, &load, &[]), &[], "1 2 wanted", "1 wanted");
}

#[test]
fn without_the_conditions_on_values() {
    parts(3, &table(0, &[(17, &[1, 2], Own), (4, &[0, 0], Own), RETURN], &[]), &[], "0 1 0 Endless", "0 1 2 returned");
    let logical = [(13, &[1, 1, 2][..], Own), (6, &[0, 3, 3], Own), RETURN, (4, &[2, 0], Own)];
    parts(4, &table(0, &logical, &[]), &[], "0 1 wanted", "0 1 3 wanted");
    let optional = [(15, &[0, 1, 2][..], Own), (6, &[0, 3, 0], Own), RETURN, (4, &[2, 0], Own)];
    parts(5, &table(0, &optional, &[]), &[0], "0 1 0 1 wanted", "0 1 2 returned");
    let store = [(14, &[1, 2][..], Own), (6, &[0, 3, 3], Store(1, 2)), RETURN, (4, &[2, 0], Own)];
    parts(6, &table(0, &store, &[]), &[], "0 1 wanted", "0 wanted");
}

#[test]
fn without_the_conditions_on_fallthroughs() {
    let two = |end: u32| table(0, &[(8, &[1, 2, 3], Own), (5, &[0, 4, end, end], Own), (6, &[0, 1, 3], Own), RETURN, RETURN], &[]);
    parts(8, &two(3), &[0], "0 1 3 returned", "0 1 2 wanted");
    parts(9, &two(1), &[0], "0 1 1 wanted", "0 1 2 wanted");
    let update = [
        (10, &[1, 2, 1, 3, 4][..], Own),
        (4, &[2, 0], Own),
        (6, &[0, 3, 4], Own),
        (5, &[0, 5, 6, 6], Own),
        RETURN,
        (5, &[0, 7, 1, 1], Own),
        RETURN,
        RETURN,
    ];
    parts(10, &table(0, &update, &[]), &[1, 1, 0], "0 1 2 3 5 1 2 wanted", "0 1 2 3 5 6 returned");
    parts(11, &table(0, &[(7, &[0, 0, 2, 2], Own), RETURN, RETURN], &[2, 1]), &[0], "0 2 returned", "0 1 returned");
    parts(12, &table(0, &[(1, &[], Own)], &[]), &[], "0 Lost", "0 EndOfTree");
}

#[test]
fn without_the_conditions_on_trys() {
    let inside = [(19, &[1, 5, 4, NONE][..], Own), (5, &[0, 2, 3, 3], Own), (4, &[4, 2], Own), RETURN, RETURN, (4, &[4, 0], Own)];
    parts(13, &table(0, &inside, &[]), &[1], "0 1 2 4 returned", "0 1 2 3 returned");
    let handler = [(19, &[1, 2, 3, NONE][..], Own), (4, &[3, 2], Own), RETURN, (5, &[0, 4, 2, 2], Own), RETURN];
    parts(14, &table(0, &handler, &[]), &[0], "0 1 3 2 returned", "0 1 3 EndOfTree");
    let out = [(9, &[2, 3, 1][..], Own), RETURN, (6, &[0, 3, 1], Own), (18, &[1], Own)];
    parts(15, &table(0, &out, &[]), &[1], "0 2 3 1 returned", "0 2 3 2 wanted");
}

/// Where the arms of a Ternary do not store to one identifier, the runs agree, but not in where values go.
#[test]
fn without_the_condition_of_moves() {
    let words = table(0, &[(14, &[1, 2], Own), (6, &[0, 3, 4], Own), RETURN, (4, &[2, 0], Own), (4, &[2, 0], OwnAndStore(1, 2))], &[]);
    assert_eq!(fails(&words), [17]);
    assert_eq!(runs(&words, PLAIN, &[0], &[]), ["0 1 4 2 returned"; 2]);
    assert_eq!(runs(&words, MOVES, &[0], &[]), ["0 1 4 1<-2 2 returned", "0 1 4 13<-2 2 returned"]);
}

#[test]
fn the_same_with_a_goto_break() {
    let inside = [(19, &[1, 5, 4, NONE][..], Own), (5, &[0, 2, 3, 3], Own), (4, &[4, 0], Own), RETURN, RETURN, (4, &[4, 0], Own)];
    let words = table(0, &inside, &[]);
    assert!(fails(&words).is_empty());
    assert_eq!(runs(&words, PLAIN, &[1], &[]), ["0 1 2 4 returned"; 2]);
}

/// Expected by hand.
fn agree(words: &[u32], kind: Kind, lists: &[(&[u32], &[u32], &str)]) {
    assert!(fails(words).iter().all(|number| *number == 17 && !kind.moves));
    for (answers, outcomes, run) in lists {
        assert_eq!(runs(words, kind, answers, outcomes), [*run; 2], "over {answers:?} and {outcomes:?}");
    }
}

/// `x = a && b`.
#[test]
fn logical() {
    let (left, right) = ((4, &[2, 0][..], Store(1, 2)), (4, &[2, 0][..], OwnAndStore(1, 3)));
    let blocks = [(13, &[1, 1, 2][..], Rows::None), (6, &[0, 3, 4], Own), RETURN, left, right];
    let words = table(0, &blocks, &[]);
    agree(&words, MOVES, &[(&[], &[], "1 wanted"), (&[1], &[], "1 1<-2 2 returned"), (&[0], &[], "1 4 1<-3 2 returned")]);
}

/// `x = a ? b : c`.
#[test]
fn ternary() {
    let (yes, no) = ((4, &[2, 0][..], OwnAndStore(1, 2)), (4, &[2, 0][..], OwnAndStore(1, 3)));
    let blocks = [(14, &[1, 2][..], Rows::None), (6, &[0, 3, 4], Own), RETURN, yes, no];
    let words = table(0, &blocks, &[]);
    agree(&words, MOVES, &[(&[], &[], "1 wanted"), (&[1], &[], "1 3 1<-2 2 returned"), (&[0], &[], "1 4 1<-3 2 returned")]);
}

/// `x = a?.b.c`: a no of the inner leaves the outer too.
#[test]
fn chain() {
    let blocks = [
        (15, &[0, 1, 2][..], Rows::None),
        (15, &[1, 5, 6], Rows::None),
        RETURN,
        (4, &[2, 0], OwnAndStore(1, 2)),
        (4, &[2, 0], OwnAndStore(1, 3)),
        (6, &[0, 7, 4], Own),
        (6, &[0, 3, 4], Rows::None),
        (4, &[6, 0], OwnAndStore(4, 5)),
    ];
    let words = table(0, &blocks, &[]);
    agree(
        &words,
        PLAIN,
        &[(&[0], &[], "5 2 returned"), (&[1], &[], "5 7 wanted"), (&[1, 1], &[], "5 7 3 2 returned"), (&[1, 0], &[], "5 7 2 returned")],
    );
}

/// `(a?.b)?.c` with an alternate of its own for the part in parentheses: the blocks ask once more, so the table fails condition 5.
#[test]
fn parentheses() {
    let blocks = [
        (15, &[0, 1, 2][..], Rows::None),
        (15, &[1, 5, 6], Rows::None),
        RETURN,
        (4, &[2, 0], OwnAndStore(1, 2)),
        (4, &[2, 0], OwnAndStore(1, 3)),
        (6, &[0, 7, 8], Own),
        (6, &[0, 3, 4], Rows::None),
        (4, &[6, 0], OwnAndStore(4, 5)),
        (4, &[6, 0], OwnAndStore(4, 6)),
    ];
    parts(5, &table(0, &blocks, &[]), &[0], "5 wanted", "5 2 returned");
}

/// `try { a(); b() } catch { c() } d()`.
#[test]
fn try_catch() {
    let blocks = [
        (19, &[1, 4, 5, NONE][..], Rows::None),
        (18, &[2], Own),
        (18, &[3], Own),
        (4, &[5, 2], Rows::None),
        (4, &[5, 0], Own),
        RETURN,
    ];
    let words = table(0, &blocks, &[]);
    agree(&words, PLAIN, &[(&[], &[], "1 2 5 returned")]);
    agree(
        &words,
        THROWS,
        &[(&[], &[], "1 2 5 returned"), (&[], &[1], "1 4 5 returned"), (&[], &[0, 1], "1 2 4 5 returned"), (&[], &[1, 1], "1 4 threw")],
    );
}

/// `for (x of xs) b()`, with the iterator made in each round and made once.
#[test]
fn for_of() {
    let blocks = [(11, &[1, 2, 3, 4][..], Rows::None), (4, &[2, 0], Own), (6, &[0, 3, 4], Own), (4, &[1, 1], Own), RETURN];
    let words = table(0, &blocks, &[]);
    agree(&words, PLAIN, &[(&[1, 1, 0], &[], "1 2 3 1 2 3 1 2 4 returned")]);
    agree(&words, ONCE, &[(&[1, 1, 0], &[], "1 2 3 2 3 2 4 returned")]);
}

/// `for (k in o) b()`.
#[test]
fn for_in() {
    let words = table(0, &[(12, &[1, 2, 3], Rows::None), (6, &[0, 2, 3], Own), (4, &[1, 1], Own), RETURN], &[]);
    agree(&words, PLAIN, &[(&[1, 1, 0], &[], "1 2 1 2 1 3 returned")]);
}

/// Moves want more than the 18 conditions: an init with a store that is a loop block too.
#[test]
fn an_init_that_is_a_loop_block() {
    let words = table(0, &[(10, &[1, 2, NONE, 1, 3], Own), (4, &[2, 1], Store(1, 2)), (6, &[0, 1, 3], Own), RETURN], &[]);
    assert_eq!(fails(&words), []);
    assert_eq!(runs(&words, PLAIN, &[1], &[]), ["0 2 2 wanted"; 2]);
    assert_eq!(runs(&words, MOVES, &[1], &[]), ["0 1<-2 2 1<-2 2 wanted", "0 1<-2 2 2 wanted"]);
}
