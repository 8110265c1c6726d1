//! Builds W of paper 01, a while loop, with an instruction before its return, and prints its rows with their spans and the lines of its
//! index, each with the rows that its label finds; then with a tree buffer, and with an index, that is too short.

mod while_table;

use reactive_build::lookup::{Found, find};
use reactive_build::{LINE_WORDS, Outcome, Span, build, rows};
use while_table::TABLE;

fn main() {
    let (mut tree, mut index) = ([7; 96], [7; 12]);
    let built = build(&TABLE, &mut tree, &mut index);
    print(built);
    for row in rows(&TABLE).expect("W is accepted") {
        let words = row.map(|word| word.to_string()).join(" ");
        match Span::of_row(&row) {
            Some(Span { from, to }) => println!("{words} from {from} to {to}"),
            None => println!("{words}"),
        }
    }
    for [label, first, closing] in index.as_chunks::<LINE_WORDS>().0.iter().take(built.lines as usize) {
        let Found { code, begin, end, .. } = find(&index, built.lines, *label, &tree);
        println!("line {label} {first} {closing}: code {code}, words {begin} to {end}");
    }
    print(build(&TABLE, &mut tree[..30], &mut index));
    assert_eq!(tree[..30], [0; 30]);
    print(build(&TABLE, &mut tree, &mut []));
}

fn print(Outcome { code, at, rows, visits, lines }: Outcome) {
    println!("code {code} at {at} rows {rows} visits {visits} lines {lines}");
}
