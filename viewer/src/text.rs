//! What `treeshow` prints: blocks, a tree and a run, a line each.

use crate::escape::line;
use crate::links::{Link, links};
use crate::names;
use crate::outline;
use crate::proved::{Built, Law, Reason, Run};
use crate::source::Source;
use reactive_build::Span;
use reactive_build::table::{BlockRow, Table};
use reactive_build::tree::{Node, Nodes};

/// The text of a span is shown with so many characters at most.
const MOST_TEXT: usize = 72;

/// Columns stand below each other as far as this.
const MOST_ALIGNED: usize = 80;

/// Which run law speaks of a table, in words.
pub fn law(law: Law) -> &'static str {
    match law {
        Law::Plain => "Proved: by either entry this tree performs the same instructions as the blocks, for any answers.",
        Law::Switches => "Proved for the language entry: its tree performs the same instructions as the blocks, for any answers that name cases.",
        Law::Loops => {
            "Proved for the language entry, and for the Rust's where no block ends in Switch: the tree performs the same instructions as the blocks."
        }
        Law::None => "No proof speaks of the runs of this table (docs/DIFFERENCES.md).",
    }
}

/// A line a block: its instructions, what it ends in, where it goes, and the text of its ending.
pub fn blocks(table: &Table, source: Option<&Source>) -> String {
    let width = digits(table.blocks.len());
    let said: Vec<String> = table.blocks.iter().map(names::instructions).collect();
    let first = said.iter().map(String::len).max().unwrap_or(0);
    let lines = table.blocks.iter().zip(said).enumerate().map(|(number, (block, instructions))| {
        let entry = if number == usize::from(table.entry) { ">" } else { " " };
        let goes = goes(&names::targets(&block.ending, &table.cases));
        let words = format!("{entry}{number:>width$}  {instructions:first$}  {}{goes}", names::ending(&block.ending));
        (words, block.span)
    });
    aligned(lines.collect(), source)
}

/// "; consequent 3, alternate 4"
fn goes(targets: &[(String, BlockRow)]) -> String {
    let named: Vec<String> = targets.iter().map(|(role, block)| format!("{role} {block}")).collect();
    if named.is_empty() { String::new() } else { format!(": {}", named.join(", ")) }
}

/// A line a row.
pub fn tree(built: &Built, table: Option<&Table>, source: Option<&Source>) -> String {
    let width = digits(built.rows.len());
    let links = links(&built.nodes, table);
    let lines = outline::lines(&built.nodes).into_iter().map(|line| {
        let role = if line.role.is_empty() { String::new() } else { format!("{}: ", line.role) };
        let words = format!("{:>width$}  {:indent$}{role}{}", line.row, "", built.nodes[line.row], indent = 2 * line.depth);
        (words, shown_span(line.row, &built.nodes, &links))
    });
    aligned(lines.collect(), source)
}

/// The span whose text is shown beside a row: an INSTR shows what its value would show again.
pub fn shown_span(row: usize, nodes: &Nodes, links: &[Link]) -> Option<Span> {
    let around = nodes.as_slice().get(row + 1).filter(|node| matches!(node, Node::Instr { .. }));
    let again = around.is_some() && links[row + 1].span == links[row].span;
    links[row].span.filter(|_| !again)
}

/// A line an instruction performed, the answers between them, and the reason.
pub fn run(run: &Run, answers: &[u32], nodes: &Nodes, links: &[Link], source: Option<&Source>) -> String {
    let mut lines = Vec::new();
    let mut asked = run.asked.iter().zip(answers).enumerate().peekable();
    let width = digits(run.rows.len() + 1);
    for performed in 0..=run.rows.len() {
        while let Some((number, (_, answer))) = asked.next_if(|(_, (at, _))| **at == performed) {
            lines.push((format!("{:>width$}  answer {}: {answer}", "", number + 1), None));
        }
        if let Some(row) = run.rows.get(performed) {
            lines.push((step(performed + 1, *row, nodes, width), span_of(*row, nodes, links)));
        }
    }
    let unused = answers.len() - run.asked.len();
    let left = if run.asked.len() < answers.len() && !run.asked.is_empty() {
        format!(", {} not asked for", names::count(unused as u64, "answer"))
    } else {
        String::new()
    };
    format!("{}{}: {}{left}\n", aligned(lines, source), names::count(run.rows.len() as u64, "instruction"), reason(run.reason))
}

fn step(number: usize, row: usize, nodes: &Nodes, width: usize) -> String {
    match nodes[row] {
        Node::Plain { instruction } => format!("{number:>width$}  instruction {instruction}, row {row}"),
        _ => format!("{number:>width$}  row {row}"),
    }
}

/// Of an instruction's row; else of the INSTR that has it as its value.
pub fn span_of(row: usize, nodes: &Nodes, links: &[Link]) -> Option<Span> {
    links[row].span.or_else(|| match nodes.as_slice().get(row + 1)? {
        Node::Instr { span, .. } => *span,
        _ => None,
    })
}

/// Why a run stopped.
pub fn reason(reason: Reason) -> &'static str {
    match reason {
        Reason::Return => "the run ended in a return",
        Reason::Throw => "the run ended in a throw",
        Reason::EndOfTree => "the run came to the end of the tree",
        Reason::NoAnswerLeft => "the run stopped: no answer was left",
    }
}

/// The lines, each with the text of its span in a column of its own.
fn aligned(lines: Vec<(String, Option<Span>)>, source: Option<&Source>) -> String {
    let lengths = lines.iter().map(|(words, _)| words.chars().count());
    let column = lengths.max().unwrap_or(0).min(MOST_ALIGNED);
    let shown = lines.into_iter().map(|(words, span)| match text(span, source) {
        Some(text) => format!("{words:column$}  {text}\n"),
        None => format!("{words}\n"),
    });
    shown.collect()
}

/// The text of a span; without a source its two ends.
pub fn text(span: Option<Span>, source: Option<&Source>) -> Option<String> {
    let span = span?;
    let ends = format!("[{}, {})", span.from, span.to);
    let Some(source) = source else { return Some(ends) };
    Some(match source.text(span) {
        Some(text) => line(&text, MOST_TEXT),
        None => format!("{ends} is not in the source"),
    })
}

fn digits(number: usize) -> usize {
    number.max(1).to_string().len()
}
