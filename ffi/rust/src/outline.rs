//! A tree in words: a line a node, each above its parts, these in the order of the source.
//!
//! ```
//! use reactive_build::tree::Nodes;
//!
//! // LOAD of place 0, CONTINUE, BLOCK, WHILE, RETURN, BLOCK (docs/FORMAT.md)
//! let rows = [[2, 0, 0, 0, 0, 0], [25, 3, 3, 0, 0, 0], [9, 1, 0, 0, 0, 0], [14, 1, 3, 0, 0, 0], [22, 0, 4, 0, 0, 0], [9, 2, 0, 0, 0, 0]];
//! let nodes = Nodes::of(&rows)?;
//! let text = "\
//! 5  BLOCK of 2
//! 3    WHILE id 1, label 3
//! 0      test: LOAD place 0
//! 2      body: BLOCK of 1
//! 1        CONTINUE to 3, Implicit, id 3
//! 4    RETURN place 0, id 4
//! ";
//! assert_eq!(nodes.to_string(), text);
//! # Ok::<(), reactive_build::Refusal>(())
//! ```

use std::fmt::{self, Display, Formatter};

use crate::tree::{BlockRow, Kind, Node, Nodes};

/// A line of an outline.
#[derive(Clone, Copy, Debug, PartialEq, Eq)]
pub struct Line {
    /// The node's row.
    pub row: usize,
    /// How many nodes are around it.
    pub depth: usize,
    /// What it is to the node around it, where that is not plain from its place; else nothing.
    pub role: &'static str,
}

/// The lines of a tree, the body first.
pub fn lines(nodes: &Nodes) -> Vec<Line> {
    let mut lines = Vec::with_capacity(nodes.as_slice().len());
    let mut open = vec![Line { row: nodes.body(), depth: 0, role: "" }];
    while let Some(line) = open.pop() {
        lines.push(line);
        let roles = roles(&nodes[line.row]);
        let part = |(place, row)| Line { row, depth: line.depth + 1, role: roles.get(place).copied().unwrap_or("") };
        let parts: Vec<Line> = nodes.parts_of_source(line.row).enumerate().map(part).collect();
        open.extend(parts.into_iter().rev());
    }
    lines
}

/// What the parts of a node are, first to last, where they differ in that.
pub fn roles(node: &Node) -> &'static [&'static str] {
    match node {
        Node::Logical { .. } => &["left", "right"],
        Node::Cond => &["test", "consequent", "alternate"],
        Node::If { .. } => &["consequent", "alternate"],
        Node::DoWhile { .. } => &["body", "test"],
        Node::While { .. } => &["test", "body"],
        Node::For { has_update: true, .. } => &["init", "test", "update", "body"],
        Node::For { has_update: false, .. } => &["init", "test", "body"],
        Node::ForOf { .. } => &["init", "test", "body"],
        Node::ForIn { .. } => &["init", "body"],
        Node::Try { .. } => &["body", "handler"],
        _ => &[],
    }
}

/// A part of what is said of a node behind the name of its op.
#[derive(Clone, Debug, PartialEq, Eq)]
pub enum Piece {
    /// Words.
    Text(String),
    /// "label 5": the label that the statement bears.
    Label(BlockRow),
    /// "to 5": the label of the statement that a jump goes to.
    Target(BlockRow),
}

impl Display for Piece {
    fn fmt(&self, out: &mut Formatter) -> fmt::Result {
        match self {
            Self::Text(text) => out.write_str(text),
            Self::Label(label) => write!(out, "label {label}"),
            Self::Target(label) => write!(out, "to {label}"),
        }
    }
}

/// What is said of a node behind the name of its op.
pub fn pieces(node: &Node) -> Vec<Piece> {
    let mut pieces = Vec::new();
    let mut say = |text: String| pieces.push(Piece::Text(text));
    match *node {
        Node::Plain { instruction } => say(format!("instruction {instruction}")),
        Node::Load { place } => say(format!("place {place}")),
        Node::Undef { .. } | Node::Cond => {}
        Node::Instr { id, lvalue, .. } => say(format!("id {id}, place {lvalue}")),
        Node::Seq { instructions, id } => say(format!("of {instructions}, id {id}")),
        Node::Logical { operator } => say(operator.name().to_string()),
        Node::Optional { optional } => say(format!("flag {}", u32::from(optional))),
        Node::Block { statements } => say(format!("of {statements}")),
        Node::If { test, id, .. } => say(format!("place {test}, id {id}")),
        Node::Case { test: Some(place) } => say(format!("place {place}")),
        Node::Case { test: None } => say("default".to_string()),
        Node::Switch { test, cases, id, .. } => say(format!("place {test}, {}, id {id}", counted(cases, "case"))),
        Node::DoWhile { id, .. }
        | Node::While { id, .. }
        | Node::For { id, .. }
        | Node::ForOf { id, .. }
        | Node::ForIn { id, .. }
        | Node::Label { id, .. } => say(format!("id {id}")),
        Node::Try { id, binding: Some(place), .. } => say(format!("id {id}, binding place {place}")),
        Node::Try { id, binding: None, .. } => say(format!("id {id}, no binding")),
        Node::Scope { scope } | Node::Pruned { scope } => say(format!("scope {scope}")),
        Node::Return { value, id } | Node::Throw { value, id } => say(format!("place {value}, id {id}")),
        Node::Break { target, id, kind, loops_left } | Node::Continue { target, id, kind, loops_left } => {
            pieces.push(Piece::Target(target));
            pieces.push(Piece::Text(jump(id, kind, loops_left)));
        }
    }
    pieces.extend(node.label().map(Piece::Label));
    pieces
}

fn jump(id: u32, kind: Kind, loops_left: u32) -> String {
    let over = if loops_left == 0 { String::new() } else { format!(", over {}", counted(loops_left, "loop")) };
    format!("{}{over}, id {id}", kind.name())
}

/// "1 loop", "2 loops".
fn counted(number: u32, noun: &str) -> String {
    let plural = if number == 1 { "" } else { "s" };
    format!("{number} {noun}{plural}")
}

/// The name of the op, and what is said of the node: "IF place 0, id 3, label 4".
impl Display for Node {
    fn fmt(&self, out: &mut Formatter) -> fmt::Result {
        out.write_str(self.op().name())?;
        for (place, piece) in pieces(self).iter().enumerate() {
            write!(out, "{}{piece}", if place == 0 { " " } else { ", " })?;
        }
        Ok(())
    }
}

/// The outline: a line a node, with its row before it.
impl Display for Nodes {
    fn fmt(&self, out: &mut Formatter) -> fmt::Result {
        let width = self.body().to_string().len();
        for Line { row, depth, role } in lines(self) {
            write!(out, "{row:>width$}  {:indent$}", "", indent = 2 * depth)?;
            if !role.is_empty() {
                write!(out, "{role}: ")?;
            }
            writeln!(out, "{}", self[row])?;
        }
        Ok(())
    }
}
