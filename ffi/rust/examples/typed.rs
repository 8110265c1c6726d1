//! A table made of typed values, `while (pairs) { next }  return pairs`; its tree, walked node by node; and a table that is refused.

use reactive_build::table::{BlockRow, Ending, Instruction, Table, Value, Variant};
use reactive_build::tree::{Node, Nodes};
use reactive_build::{Refusal, Span, rows};

fn main() -> Result<(), Refusal> {
    let mut table = Table::default();
    let named = table.identifier(true);
    let pairs = table.place(named);
    let next = Instruction { id: 3, lvalue: pairs, value: Value::Other, span: Some(Span { from: 17, to: 21 }) };
    let [test, body, after] = [1, 2, 3].map(BlockRow);
    table.entry = table.block(&[], Ending::While { test, loop_block: body, fallthrough: after }, 1, None);
    table.block(&[], Ending::Branch { test: pairs, consequent: body, alternate: after }, 2, None);
    table.block(&[next], Ending::Goto { block: test, variant: Variant::Continue }, 4, None);
    table.block(&[], Ending::Return { value: pairs }, 5, None);

    let rows = rows(&table.words())?;
    let nodes = Nodes::of(&rows)?;
    for visit in nodes.walk() {
        let node = &nodes[visit.row];
        let indent = 2 * visit.depth;
        match node {
            Node::While { label: Some(label), .. } => println!("{:indent$}WHILE, labelled {label}", ""),
            Node::Instr { id, span: Some(span), .. } => println!("{:indent$}INSTR {id} from {} to {}", "", span.from, span.to),
            _ => println!("{:indent$}{}", "", node.op().name()),
        }
    }

    // The same in words.
    print!("{nodes}");

    table.blocks[0].ending = Ending::While { test, loop_block: body, fallthrough: test };
    if let Err(refusal) = reactive_build::rows(&table.words()) {
        println!("refused: {refusal}");
    }
    Ok(())
}
