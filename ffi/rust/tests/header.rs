//! The C header has the crate's numbers and sentences.

use reactive_build::columns::{Column, Holds};
use reactive_build::table::{Ending, NONE, Variant};
use reactive_build::tree::{Kind, Node, Op, Operator};
use reactive_build::{BLOCK_WORDS, CODES, INSTRUCTION_WORDS, LINE_WORDS, MOST_LINES, ROW_WORDS, Refusal};
use std::collections::BTreeMap;

const HEADER: &str = include_str!("../../reactive.h");

/// The constants of the header that begin so, without that beginning.
fn constants(beginning: &str) -> BTreeMap<String, u32> {
    let enums = HEADER.lines().filter(|line| line.starts_with("    REACTIVE_")).flat_map(|line| {
        let line = line.split("/*").next().unwrap_or_default();
        line.split(',').filter_map(|part| part.trim().split_once(" = "))
    });
    let defines = HEADER.lines().filter_map(|line| line.strip_prefix("#define ")?.split_once(' '));
    let all = enums.chain(defines).filter_map(|(name, number)| Some((name.strip_prefix(beginning)?.to_string(), number.parse().ok()?)));
    all.collect()
}

fn named<'n>(pairs: impl IntoIterator<Item = (&'n str, u32)>) -> BTreeMap<String, u32> {
    pairs.into_iter().map(|(name, number)| (name.to_string(), number)).collect()
}

/// FOR_OF for ForOf.
fn in_capitals(name: &str) -> String {
    let letters = name.chars().enumerate().flat_map(|(at, letter)| {
        let gap = (at > 0 && letter.is_uppercase()).then_some('_');
        gap.into_iter().chain([letter.to_ascii_uppercase()])
    });
    letters.collect()
}

#[test]
fn version() {
    let text = concat!("#define REACTIVE_VERSION \"", env!("CARGO_PKG_VERSION"), "\"\n");
    assert!(HEADER.contains(text));
    let numbers = [env!("CARGO_PKG_VERSION_MAJOR"), env!("CARGO_PKG_VERSION_MINOR"), env!("CARGO_PKG_VERSION_PATCH")];
    let parts = ["MAJOR", "MINOR", "PATCH"].into_iter().zip(numbers.map(|number| number.parse().expect("a number")));
    assert_eq!(constants("REACTIVE_VERSION_"), named(parts));
}

/// The lines of ffi/names.txt, which reactive_names.c prints, that begin so: number and name.
fn names(beginning: &str) -> Vec<(u32, &'static str)> {
    let lines = include_str!("../../names.txt").lines().filter_map(|line| {
        let mut cells = line.strip_prefix(beginning)?.strip_prefix('\t')?.split('\t');
        Some((cells.next()?.parse().ok()?, cells.next()?))
    });
    lines.collect()
}

#[test]
fn names_of_reactive_names() {
    assert_eq!(names("op"), Op::ALL.map(|op| (op.number(), op.name())));
    assert_eq!(names("ending"), (0..).zip(Ending::NAMES).collect::<Vec<_>>());
    assert_eq!(names("kind"), Kind::ALL.map(|kind| (kind.number(), kind.name())));
    assert_eq!(names("operator"), Operator::ALL.map(|operator| (operator.number(), operator.name())));
    assert_eq!(names("variant"), Variant::ALL.map(|variant| (variant.number(), variant.name())));
    assert_eq!(names("value"), [(0, "other"), (1, "LoadLocal"), (2, "StoreLocal")]);
}

/// The columns of names.txt, and of an op the parts of its rows with each column 1, and with each 2.
#[test]
fn columns_and_parts_of_reactive_names() {
    let lines = |beginning: &'static str| include_str!("../../names.txt").lines().filter_map(move |line| line.strip_prefix(beginning));
    let told = |columns: &[Column]| columns.iter().map(|column| format!("\t{}: {}", column.holds.name(), column.name)).collect::<String>();
    let ops = Op::ALL.map(|op| {
        // a flag of 2 is none
        let parts = |word| {
            let row: Vec<u32> = op.columns().iter().map(|column| if column.holds == Holds::Flag { 1 } else { word }).collect();
            let [a, b, c, d, e] = std::array::from_fn(|at| row.get(at).copied().unwrap_or(0));
            Node::of_row(&[op.number(), a, b, c, d, e]).expect("a row").part_count()
        };
        let flagged = usize::from(matches!(op, Op::If | Op::For));
        format!("{}\t{}\t{} {}{}", op.number(), op.name(), parts(1), parts(2) + flagged, told(op.columns()))
    });
    assert!(lines("op\t").eq(ops));
    let endings = (0..22).map(|code| {
        let columns = Ending::columns_of(code).expect("a code");
        format!("{code}\t{}{}", Ending::NAMES[code as usize], told(columns))
    });
    assert!(lines("ending\t").eq(endings));
    let kinds: Vec<String> = (0..13).map(|kind| {
        let constant = constants("REACTIVE_COLUMN_").into_iter().find(|(_, number)| *number == kind).expect("a kind").0;
        constant.to_lowercase().replace('_', " ")
    }).collect();
    let holds = [Holds::Block, Holds::BlockOrNone, Holds::Place, Holds::PlaceOrNone, Holds::Instruction, Holds::Case, Holds::Count];
    let others = [Holds::Number, Holds::Flag, Holds::Variant, Holds::Operator, Holds::Kind];
    assert!(kinds[1..].iter().map(String::as_str).eq(holds.into_iter().chain(others).map(Holds::name)));
}

#[test]
fn ops_endings_and_kinds() {
    assert_eq!(constants("REACTIVE_OP_"), named(Op::ALL.map(|op| (op.name(), op.number()))));
    let endings = Ending::NAMES.iter().map(|name| if *name == "no such block" { "MISSING".into() } else { in_capitals(name) });
    assert_eq!(constants("REACTIVE_ENDING_"), endings.zip(0..).collect());
    let debug = |name: String| name.to_uppercase();
    assert_eq!(constants("REACTIVE_KIND_"), Kind::ALL.iter().map(|kind| (debug(format!("{kind:?}")), kind.number())).collect());
    assert_eq!(constants("REACTIVE_OPERATOR_"), Operator::ALL.iter().map(|one| (debug(format!("{one:?}")), one.number())).collect());
    assert_eq!(constants("REACTIVE_VARIANT_"), Variant::ALL.iter().map(|one| (debug(format!("{one:?}")), one.number())).collect());
    assert_eq!(constants("REACTIVE_VALUE_"), named([("OTHER", 0), ("LOAD_LOCAL", 1), ("STORE_LOCAL", 2)]));
}

#[test]
fn sizes() {
    let sizes = [BLOCK_WORDS, INSTRUCTION_WORDS, LINE_WORDS, MOST_LINES, ROW_WORDS].map(|size| size as u32);
    let names = ["BLOCK_WORDS", "INSTRUCTION_WORDS", "LINE_WORDS", "MOST_LINES", "ROW_WORDS"];
    assert_eq!(constants("REACTIVE_BUILD_"), named(names.into_iter().zip(sizes)));
    assert_eq!(constants("REACTIVE_NONE"), named([("", NONE)]));
}

#[test]
fn refusals_with_their_sentences() {
    assert_eq!(constants("REACTIVE_REFUSAL_"), named(CODES.iter().map(|(code, name)| (*name, *code))));
    for (code, name) in CODES {
        let sentence = Refusal { code: *code, at: 0 }.sentence().expect("a sentence").replace('`', "");
        assert!(HEADER.contains(&format!("    REACTIVE_REFUSAL_{name} = {code}, /* {sentence} */\n")), "{name}");
    }
}
