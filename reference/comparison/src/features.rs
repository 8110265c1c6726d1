//! What a table shows of the walk, as short strings: the grounds on which tables are chosen.

use std::collections::BTreeSet;

use walk_observer::{Seen, Walk};

use crate::model::table::Table;
use crate::model::{Refusal, Row, Walked};

/// What features of two visits or two rows in a row begin with.
pub const PAIR: &str = "pair";

/// The ends that were visited and in which order, the rows that were made and in which order, the
/// refusal and the end of the block at which it was made.
pub fn features(words: &[u32], walked: &Walked, seen: &Seen) -> BTreeSet<String> {
    let mut features = BTreeSet::new();
    let table = Table::of(words);
    let end = |block: u32| table.block(block)[2];
    let mut before = String::from("entry");
    for (block, walk) in &seen.trail {
        let walk = if *walk == Walk::Statement { 's' } else { 'v' };
        let this = format!("{walk}{}", end(*block));
        features.insert(format!("visit {this}"));
        features.insert(format!("{PAIR} {before} {this}"));
        before = this;
    }
    match &walked.result {
        Err(Refusal { code, at }) => {
            features.insert(format!("refused {code} in {before}"));
            features.insert(format!("{PAIR} refused {code} in {before} at {}", end(*at)));
        }
        Ok(rows) => rows_features(rows, &mut features),
    }
    features
}

fn rows_features(rows: &[Row], features: &mut BTreeSet<String>) {
    let mut before = 0;
    for [op, a, b, c, ..] in rows {
        features.insert(format!("{PAIR} row {before} {op}"));
        let detail = match op {
            5 | 9 => format!("{}", a.min(&3)),
            6 | 8 => format!("{a}"),
            10 | 12 => format!("{}", b.min(&3)),
            13..=18 => format!("label {}", *b == 65_535),
            19 => format!("label {} binding {}", *b == 65_535, *c == 65_535),
            24 | 25 => format!("kind {c}"),
            _ => String::new(),
        };
        features.insert(format!("op {op} {detail}"));
        before = *op;
    }
}
