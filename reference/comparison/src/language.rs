//! M-102's language entry, read off an accepted tree of the first entry, so off the Rust's: which
//! breaks become Labeled, and whether a Labeled jump finds no label around it.

use crate::model::Row;
use crate::model::columns::NONE;
use crate::parts::Parts;

const LABELED: u32 = 1;
const UNLABELED: u32 = 2;

/// A statement around a row: its op and its label.
type Around = (u32, u32);

/// The rows of the language entry, or nothing where it gives 29.
pub fn read_off(rows: &[Row]) -> Option<Vec<Row>> {
    let mut reader = Reader { rows: rows.to_vec(), parts: Parts::of(rows), named: true };
    reader.node(rows.len() - 1, &mut Vec::new());
    reader.named.then_some(reader.rows)
}

struct Reader {
    rows: Vec<Row>,
    parts: Parts,
    named: bool,
}

impl Reader {
    fn node(&mut self, at: usize, around: &mut Vec<Around>) {
        let [op, target, _, kind, loops, _] = self.rows[at];
        match op {
            24 => {
                let switch = around.iter().rfind(|(op, _)| is_loop(*op) || *op == 12);
                if kind == UNLABELED && switch.is_some_and(|(op, _)| *op == 12) {
                    self.rows[at][3] = LABELED;
                }
                let named = around.iter().any(|(_, label)| *label == target);
                self.named &= self.rows[at][3] != LABELED || named;
            }
            25 => {
                let mut open = around.iter().rev().filter(|(op, _)| is_loop(*op));
                let found = open.nth(loops as usize).expect("the loop that is continued");
                self.named &= kind != LABELED || found.1 == target;
            }
            _ => {
                let own = label_of(&self.rows[at]).map(|label| (op, label));
                around.extend(own);
                for part in self.parts.at(at) {
                    self.node(part, around);
                }
                if own.is_some() {
                    around.pop();
                }
            }
        }
    }
}

fn is_loop(op: u32) -> bool {
    (13..=17).contains(&op)
}

/// The label of a statement with nested lists, none or not.
fn label_of(row: &Row) -> Option<u32> {
    match row[0] {
        10 | 12 => Some(row[4]),
        13..=19 => Some(row[2]),
        20 | 21 => Some(NONE),
        _ => None,
    }
}
