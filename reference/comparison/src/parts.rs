//! The parts of a tree's rows, each by its closing row.

use crate::model::Row;

pub struct Parts {
    /// How many rows each closing row and its parts are.
    sizes: Vec<usize>,
}

impl Parts {
    pub fn of(rows: &[Row]) -> Self {
        let mut sizes = Vec::with_capacity(rows.len());
        for (at, row) in rows.iter().enumerate() {
            let mut size = 1;
            for _ in 0..part_count(row) {
                size += sizes[at - size];
            }
            sizes.push(size);
        }
        Self { sizes }
    }

    /// The closing rows of the parts, first to last.
    pub fn at(&self, closing: usize) -> Vec<usize> {
        let first = closing + 1 - self.sizes[closing];
        let mut parts = Vec::new();
        let mut end = closing;
        while end > first {
            parts.push(end - 1);
            end -= self.sizes[end - 1];
        }
        parts.reverse();
        parts
    }
}

/// How many parts a row closes.
fn part_count(row: &Row) -> usize {
    match row[0] {
        1..=3 | 22..=25 => 0,
        4 | 8 | 11 | 18 | 20 | 21 => 1,
        5 => row[1] as usize + 1,
        9 => row[1] as usize,
        10 => 1 + row[2] as usize,
        12 => row[2] as usize,
        6 | 13 | 14 | 17 | 19 => 2,
        7 | 16 => 3,
        15 => 3 + row[3] as usize,
        op => panic!("op {op}"),
    }
}
