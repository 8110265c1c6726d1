//! The typed values are those of docs/FORMAT.md: its tables of ops, of codes, of refusals, read from the page.

use reactive_build::columns::{Column, Holds};
use reactive_build::table::{Ending, PlaceRow, Table};
use reactive_build::tree::Op;
use reactive_build::{CODES, Refusal};

const FORMAT: &str = include_str!("../../../docs/FORMAT.md");

/// The cells of the rows of the table that has this line of names.
fn table(names: &str) -> Vec<Vec<&'static str>> {
    let rows = FORMAT.lines().skip_while(|line| !line.starts_with(names)).skip(2).take_while(|line| line.starts_with('|'));
    rows.map(|row| row.trim_matches('|').split('|').map(str::trim).collect()).collect()
}

/// A row may tell of several numbers, each with its name.
fn numbers_and_names(names: &str) -> Vec<(u32, &'static str)> {
    let rows = table(names).into_iter().flat_map(|row| {
        let numbers = row[0].split(", ").map(|number| number.parse().expect("a number"));
        numbers.zip(row[1].split(", ")).collect::<Vec<_>>()
    });
    rows.collect()
}

/// The list of refusals, ffi/refusals.txt: code, name, what the place counts, sentence.
fn refusals() -> Vec<[&'static str; 4]> {
    let lines = include_str!("../../refusals.txt").lines().filter(|line| !line.starts_with('#'));
    lines.map(|line| line.split('\t').collect::<Vec<_>>().try_into().expect("four cells")).collect()
}

#[test]
fn the_page_has_the_refusals_of_the_list() {
    let page = table("| Code | At | Meaning |");
    let of_the_page: Vec<_> = page.iter().map(|line| [line[0], line[1], line[2]]).collect();
    let of_the_list: Vec<_> = refusals().into_iter().map(|[code, _, at, sentence]| [code, at, sentence]).collect();
    assert_eq!(of_the_page, of_the_list);
}

#[test]
fn the_crate_has_the_refusals_of_the_list() {
    let of_the_crate = |(code, name): &(u32, &'static str)| {
        let refusal = Refusal { code: *code, at: 3 };
        (code.to_string(), *name, refusal.at_counts().expect("a code"), refusal.sentence().expect("a code"))
    };
    let of_the_list = |[code, name, at, sentence]: [&'static str; 4]| (code.to_string(), name, at, sentence);
    let (ours, listed): (Vec<_>, Vec<_>) =
        (CODES.iter().map(of_the_crate).collect(), refusals().into_iter().map(of_the_list).collect());
    assert_eq!(ours, listed);
}

#[test]
fn reactive_names_has_the_refusals_of_the_list() {
    let names = include_str!("../../names.txt").lines().filter_map(|line| line.strip_prefix("refusal\t"));
    let listed = refusals().into_iter().map(|[code, _, at, sentence]| format!("{code}\t{at}\t{}", sentence.replace('`', "")));
    assert!(names.eq(listed));
}

#[test]
fn a_refusal_says_its_place_and_its_sentence() {
    let said = |code, at| Refusal { code, at }.to_string();
    assert_eq!(said(3, 0), "3: The entry is no block.");
    assert_eq!(said(12, 8), "12 at block 8: The consequent of an If is scheduled already.");
    assert_eq!(said(61, 5), "61 at row 5: This row does not find its parts before it.");
    assert_eq!(said(99, 5), "99 at 5: no code of this library");
}

#[test]
fn ops_have_the_names_of_the_page() {
    let ops: Vec<_> = Op::ALL.iter().map(|op| (op.number(), op.name())).collect();
    assert_eq!(numbers_and_names("| Op | Node |"), ops);
    assert_eq!((Op::of(0), Op::of(26), Op::of(u32::MAX)), (None, None, None));
}

#[test]
fn endings_have_the_names_of_the_page() {
    let endings: Vec<_> = (0..).zip(Ending::NAMES).collect();
    assert_eq!(numbers_and_names("| Code | Ends in |"), endings);
}

/// The page's words for a column.
fn told(column: &Column) -> String {
    let holds = match column.holds {
        Holds::Block => "a block",
        Holds::BlockOrNone => "a block or none",
        Holds::Place => "a place",
        Holds::PlaceOrNone => "a place or none",
        Holds::Instruction => "an instruction",
        Holds::Case => "a case",
        Holds::Count => "a count",
        Holds::Number => "a number",
        Holds::Flag => "a flag",
        Holds::Variant => "0 Break, 1 Continue, 2 Try",
        Holds::Operator => "0 or, 1 and, 2 coalesce",
        Holds::Kind => "0 Implicit, 1 Labeled, 2 Unlabeled",
    };
    format!("{}: {holds}", column.name)
}

/// The columns of the page's rows, a for each number that a row tells of.
fn columns(names: &str, used: usize) -> Vec<Vec<String>> {
    let rows = table(names).into_iter().flat_map(|row| {
        let cells: Vec<String> = row[2..2 + used].iter().filter(|cell| !cell.is_empty()).map(|cell| cell.to_string()).collect();
        vec![cells; row[0].split(", ").count()]
    });
    rows.collect()
}

#[test]
fn columns_are_those_of_the_page() {
    let ops = Op::ALL.iter().map(|op| op.columns().iter().map(told).collect::<Vec<_>>());
    assert!(columns("| Op | Node |", 4).into_iter().eq(ops));
    let endings = (0..22).map(|code| Ending::columns_of(code).expect("a code").iter().map(told).collect::<Vec<_>>());
    assert!(columns("| Code | Ends in |", 5).into_iter().eq(endings));
    assert_eq!(Ending::columns_of(22), None);
}

#[test]
fn the_page_s_example_is_read_and_written() {
    let text = FORMAT.split("## An example").nth(1).expect("the example").split("```").nth(1).expect("its text");
    let words: Vec<u32> = text.split_whitespace().filter_map(|word| word.parse().ok()).collect();
    let table = Table::of_words(&words).expect("a table");
    assert_eq!(table.blocks[0].ending, Ending::Return { value: PlaceRow(0) });
    assert_eq!(table.words(), words);
}
