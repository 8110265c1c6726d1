//! Which blocks made a row, and which text of the source it has. A row tells an instruction, or an id and columns; the blocks that have
//! these are taken, so that a table with one id twice may give two. Where there are many, the row tells too little, and none is taken.

use crate::outline::roles;
use reactive_build::Span;
use reactive_build::table::{Block, BlockRow, Ending, InstructionRow, Table, Variant};
use reactive_build::tree::{Node, Nodes};

/// Of one row.
#[derive(Clone, Debug, Default, PartialEq, Eq)]
pub struct Link {
    pub blocks: Vec<usize>,
    pub span: Option<Span>,
}

/// Of each row of a tree; without its table the spans alone that the rows have.
pub fn links(nodes: &Nodes, table: Option<&Table>) -> Vec<Link> {
    let mut links: Vec<Link> = nodes.iter().map(|node| Link { blocks: Vec::new(), span: node.span() }).collect();
    let Some(table) = table else { return links };
    for (row, node) in nodes.iter().enumerate() {
        links[row].blocks = match *node {
            Node::Plain { instruction } => having(table, instruction),
            Node::Instr { id, .. } => match nodes.parts(row).next().map(|part| nodes[part]) {
                Some(Node::Plain { instruction }) => having(table, instruction),
                _ => made_by(table, |block| block.id == id && is_value(&block.ending)),
            },
            _ => made_by(table, |block| makes(block, node)),
        };
        let own = links[row].span;
        links[row].span = own.or_else(|| spanned(node, table, &links[row].blocks));
    }
    for row in 0..links.len() {
        value_blocks(nodes, table, row, &mut links);
    }
    links
}

/// The blocks that have the instruction.
fn having(table: &Table, instruction: InstructionRow) -> Vec<usize> {
    made_by(table, |block| instruction.0.checked_sub(block.first.0).is_some_and(|place| place < block.count))
}

/// No more blocks than these are taken for those of one row.
const MOST: usize = 16;

fn made_by(table: &Table, made: impl Fn(&Block) -> bool) -> Vec<usize> {
    let blocks = table.blocks.iter().enumerate().filter(|(_, block)| made(block)).map(|(number, _)| number);
    let blocks: Vec<usize> = blocks.take(MOST + 1).collect();
    if blocks.len() > MOST { Vec::new() } else { blocks }
}

fn is_value(ending: &Ending) -> bool {
    matches!(ending, Ending::Logical { .. } | Ending::Ternary { .. } | Ending::Optional { .. } | Ending::Sequence { .. })
}

/// Whether the row can be that of the block's ending: its sort, its id and the columns that both have.
fn makes(block: &Block, node: &Node) -> bool {
    let at = |id: u32, label: Option<BlockRow>, fallthrough: BlockRow| id == block.id && label.is_none_or(|label| label == fallthrough);
    match (block.ending, *node) {
        (Ending::If { test, fallthrough, .. }, Node::If { test: place, id, label, .. }) => at(id, label, fallthrough) && test == place,
        (Ending::Branch { test, .. }, Node::If { test: place, id, .. }) => id == block.id && test == place,
        (Ending::Switch { test, fallthrough, .. }, Node::Switch { test: place, id, label, .. }) => {
            at(id, label, fallthrough) && test == place
        }
        (Ending::DoWhile { fallthrough, .. }, Node::DoWhile { id, label })
        | (Ending::While { fallthrough, .. }, Node::While { id, label })
        | (Ending::For { fallthrough, .. }, Node::For { id, label, .. })
        | (Ending::ForOf { fallthrough, .. }, Node::ForOf { id, label, .. })
        | (Ending::ForIn { fallthrough, .. }, Node::ForIn { id, label, .. })
        | (Ending::Label { fallthrough, .. }, Node::Label { id, label })
        | (Ending::Try { fallthrough, .. }, Node::Try { id, label, .. }) => at(id, label, fallthrough),
        (Ending::Scope { scope, .. }, Node::Scope { scope: number })
        | (Ending::PrunedScope { scope, .. }, Node::Pruned { scope: number }) => scope == number,
        (Ending::Return { value }, Node::Return { value: place, id }) | (Ending::Throw { value }, Node::Throw { value: place, id }) => {
            id == block.id && value == place
        }
        (Ending::Goto { block: to, variant: Variant::Break }, Node::Break { id, target, .. }) => id == block.id && to == target,
        (Ending::Goto { variant: Variant::Continue, .. }, Node::Continue { id, .. }) => id == block.id,
        (Ending::Branch { .. }, Node::Break { id, .. } | Node::Continue { id, .. }) => id == block.id,
        _ => false,
    }
}

fn spanned(node: &Node, table: &Table, blocks: &[usize]) -> Option<Span> {
    match *node {
        Node::Plain { instruction } => table.instructions.get(usize::from(instruction))?.span,
        Node::Instr { .. } => None,
        _ => table.blocks[*blocks.first()?].span,
    }
}

/// The values of a loop belong to the blocks that its ending names for them.
fn value_blocks(nodes: &Nodes, table: &Table, row: usize, links: &mut [Link]) {
    let named: Vec<(usize, BlockRow)> =
        links[row].blocks.iter().flat_map(|block| loop_values(&table.blocks[*block].ending, &nodes[row])).collect();
    let parts: Vec<usize> = nodes.parts(row).collect();
    for (part, block) in named {
        let blocks = &mut links[parts[part]].blocks;
        if !blocks.contains(&usize::from(block)) {
            blocks.push(block.into());
        }
    }
}

/// Of a loop: the place of each value among its parts, and the block that the value begins with.
fn loop_values(ending: &Ending, node: &Node) -> Vec<(usize, BlockRow)> {
    let named = match *ending {
        Ending::DoWhile { test, .. } | Ending::While { test, .. } => vec![("test", test)],
        Ending::For { init, test, update, .. } => {
            [("init", init), ("test", test)].into_iter().chain(update.map(|block| ("update", block))).collect()
        }
        Ending::ForOf { init, test, .. } => vec![("init", init), ("test", test)],
        Ending::ForIn { init, .. } => vec![("init", init)],
        _ => Vec::new(),
    };
    let place = |role: &str| roles(node).iter().position(|name| *name == role);
    named.into_iter().filter_map(|(role, block)| Some((place(role)?, block))).collect()
}
