//! The proved functions, as treeshow needs them. Nothing else here asks them, and nothing that they answer is worked out elsewhere.

use reactive_build::preview;
use reactive_build::tree::{Nodes, Row};
use reactive_build::{Refusal, convert, plain, table_check, tree_check, tree_run};

pub use reactive_build::plain::Law;
pub use reactive_build::tree_run::Reason;

/// The words of a table's file, which are a table.
pub fn words(file: &[u8]) -> Result<Vec<u32>, Refusal> {
    let words = convert::read_table(file)?;
    table_check::is_table(&words)?;
    Ok(words)
}

/// The numbers of a file, each with the byte at which it begins. One over 32 bits is told as the largest.
pub fn numbers(file: &[u8]) -> impl Iterator<Item = (usize, u32)> + '_ {
    let mut at = 0;
    file.split(|byte| !byte.is_ascii_digit()).filter_map(move |digits| {
        let begin = at;
        at += digits.len() + 1;
        let text = str::from_utf8(digits).ok()?;
        (!text.is_empty()).then(|| (begin, text.parse().unwrap_or(u32::MAX)))
    })
}

/// Which run law speaks of a table that `words` gave.
pub fn law(words: &[u32]) -> Law {
    plain::law(words).expect("the words are a table")
}

/// A tree.
pub struct Built {
    pub rows: Vec<Row>,
    pub nodes: Nodes,
}

/// The tree of a table.
pub fn build(words: &[u32]) -> Result<Built, Refusal> {
    let built = preview::tree(words)?;
    let nodes = Nodes::of(&built.rows).expect("the rows of a build are those of one tree");
    Ok(Built { rows: built.rows, nodes })
}

/// The tree of rows that are stored.
pub fn stored(rows: Vec<Row>) -> Result<Built, Refusal> {
    tree_check::is_tree(rows.as_flattened())?;
    let nodes = Nodes::of(&rows)?;
    Ok(Built { rows, nodes })
}

/// What a run performed, in order, and why it stopped.
pub struct Run {
    /// The rows of the tree (PLAIN) that were performed.
    pub rows: Vec<usize>,
    pub reason: Reason,
    /// Of each answer that was asked for, how many instructions had been performed; none where there are too many answers to ask for each.
    pub asked: Vec<usize>,
}

/// As many instructions as `treerun` lends room for.
const MOST_PERFORMED: usize = 65_536;

/// For so many answers it is found when each was asked for.
const MOST_ANSWERS: usize = 1_000;

/// Runs a tree. The runner tells the instructions; which rows they are it tells of the same tree with each PLAIN's instruction replaced by the
/// number of its own row.
pub fn run(rows: &[Row], answers: &[u32]) -> Result<Run, Refusal> {
    let numbered: Vec<Row> =
        rows.iter().enumerate().map(|(number, row)| if row[0] == 1 { [1, number as u32, 0, 0, 0, 0] } else { *row }).collect();
    let mut performed = vec![0; MOST_PERFORMED];
    let mut again = vec![0; MOST_PERFORMED];
    let (instructions, reason) = tree_run::performs(rows.as_flattened(), answers, &mut performed)?;
    let (performed_rows, _) = tree_run::performs(numbered.as_flattened(), answers, &mut again)?;
    let performed_rows: Vec<usize> = performed_rows.iter().map(|row| *row as usize).collect();
    assert!(performed_rows.iter().map(|row| &rows[*row][1]).eq(instructions), "these rows have these instructions");
    let asked = if answers.len() <= MOST_ANSWERS { asked(rows, answers)? } else { Vec::new() };
    Ok(Run { rows: performed_rows, reason, asked })
}

/// With fewer answers the run stops where the next one is asked for.
fn asked(rows: &[Row], answers: &[u32]) -> Result<Vec<usize>, Refusal> {
    let mut performed = vec![0; MOST_PERFORMED];
    let mut asked = Vec::new();
    for count in 0..answers.len() {
        match tree_run::performs(rows.as_flattened(), &answers[..count], &mut performed)? {
            (instructions, Reason::NoAnswerLeft) => asked.push(instructions.len()),
            _ => break,
        }
    }
    Ok(asked)
}
