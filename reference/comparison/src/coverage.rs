//! What a run has met.

use walk_observer::{Seen, Walk};

use crate::generate::FAMILIES;
use crate::harness::Verdict;
use crate::model::table::Table;
use crate::model::{Outcome, ROW_WORDS};

/// The refusals of paper 01 for a call, in order, and M-101's.
pub const CODES: [u32; 28] = [
    0, 1, 2, 3, 4, 10, 11, 12, 13, 14, 15, 16, 17, 18, 19, 20, 21, 22, 23, 24, 25, 26, 27, 28, 30,
    31, 40, 41,
];

const ENDS: [&str; 22] = [
    "no such block",
    "Unreachable",
    "Throw",
    "Return",
    "Goto",
    "If",
    "Branch",
    "Switch",
    "DoWhile",
    "While",
    "For",
    "ForOf",
    "ForIn",
    "Logical",
    "Ternary",
    "Optional",
    "Label",
    "Sequence",
    "MaybeThrow",
    "Try",
    "Scope",
    "PrunedScope",
];

const OPS: [&str; 26] = [
    "", "PLAIN", "LOAD", "UNDEF", "INSTR", "SEQ", "LOGICAL", "COND", "OPTIONAL", "BLOCK", "IF",
    "CASE", "SWITCH", "DOWHILE", "WHILE", "FOR", "FOROF", "FORIN", "LABEL", "TRY", "SCOPE",
    "PRUNED", "RETURN", "THROW", "BREAK", "CONTINUE",
];

/// An index buffer's words beside the lines of an accepted table that has some.
pub const LENT_INDEXES: [&str; 8] =
    ["none", "1", "2", "a line less", "a word less", "just the lines", "1 or 2 more", "lines more"];

const KINDS: [&str; 3] = ["Implicit", "Labeled", "Unlabeled"];

/// Greatest depth of a walk, by upper bound.
const DEPTHS: [u32; 9] = [1, 2, 4, 8, 16, 32, 64, 127, 128];

#[derive(Default, Clone)]
pub struct Coverage {
    pub tables: u64,
    pub compared: u64,
    /// Block runs compared with tree runs.
    pub runs: u64,
    pub differences: u64,
    /// Tables that the language entry refuses with 29, and those in which it labels a break.
    pub unnamed: u64,
    pub relabeled: u64,
    /// Previews and lookups in built indexes by the proved library; index buffers of each length (M-101).
    pub previews: u64,
    pub lookups: u64,
    pub lent_indexes: [u64; LENT_INDEXES.len()],
    most_lines: u32,
    families: [u64; FAMILIES.len()],
    accepted: [u64; FAMILIES.len()],
    /// In the order of `CODES`.
    codes: [u64; CODES.len()],
    statement_ends: [u64; 22],
    value_ends: [u64; 22],
    ops: [u64; 26],
    breaks: [u64; 3],
    continues: [u64; 3],
    depths: [u64; DEPTHS.len()],
    most_visits: u32,
    most_rows: u32,
}

impl Coverage {
    /// Counts one answer, with the rows that were written.
    pub fn answer(&mut self, family: usize, outcome: Outcome, buffer: &[u32]) {
        self.tables += 1;
        self.families[family] += 1;
        let code = CODES.iter().position(|code| *code == outcome.code).expect("a known code");
        self.codes[code] += 1;
        self.most_visits = self.most_visits.max(outcome.visits);
        self.most_lines = self.most_lines.max(outcome.lines);
        if matches!(outcome.code, 0 | 40 | 41) {
            self.accepted[family] += 1;
            self.most_rows = self.most_rows.max(outcome.rows);
        }
        if outcome.code == 0 {
            for row in buffer.chunks_exact(ROW_WORDS).take(outcome.rows as usize) {
                self.ops[row[0] as usize] += 1;
                match row[0] {
                    24 => self.breaks[row[3] as usize] += 1,
                    25 => self.continues[row[3] as usize] += 1,
                    _ => {}
                }
            }
        }
    }

    /// Counts the ends of the blocks that the reference visited, and its greatest depth.
    pub fn walk(&mut self, words: &[u32], seen: &Seen) {
        self.compared += 1;
        let table = Table::of(words);
        for (block, walk) in &seen.trail {
            let end = table.block(*block)[2] as usize;
            match walk {
                Walk::Statement => self.statement_ends[end] += 1,
                Walk::Value => self.value_ends[end] += 1,
            }
        }
        let deepest = seen.deepest as u32;
        let class = DEPTHS.iter().position(|bound| deepest <= *bound).expect("at most 128");
        self.depths[class] += 1;
    }

    pub fn add(&mut self, other: &Coverage) {
        self.tables += other.tables;
        self.compared += other.compared;
        self.runs += other.runs;
        self.differences += other.differences;
        self.unnamed += other.unnamed;
        self.relabeled += other.relabeled;
        self.previews += other.previews;
        self.lookups += other.lookups;
        add(&mut self.lent_indexes, &other.lent_indexes);
        self.most_lines = self.most_lines.max(other.most_lines);
        add(&mut self.families, &other.families);
        add(&mut self.accepted, &other.accepted);
        add(&mut self.codes, &other.codes);
        add(&mut self.statement_ends, &other.statement_ends);
        add(&mut self.value_ends, &other.value_ends);
        add(&mut self.ops, &other.ops);
        add(&mut self.breaks, &other.breaks);
        add(&mut self.continues, &other.continues);
        add(&mut self.depths, &other.depths);
        self.most_visits = self.most_visits.max(other.most_visits);
        self.most_rows = self.most_rows.max(other.most_rows);
    }

    /// Of a long run: every code, end, op, kind of jump and depth is met.
    pub fn verdict(&self, is_long: bool) -> Verdict {
        let mut verdict = Verdict::of(self.differences, is_long);
        let mut need = |count: u64, what: String| verdict.need(what, count);
        for (code, count) in CODES.iter().zip(self.codes) {
            need(count, format!("code {code}"));
        }
        for (end, name) in ENDS.iter().enumerate() {
            need(self.statement_ends[end], format!("{name} in the statement walk"));
            need(self.value_ends[end], format!("{name} in the value walk"));
        }
        for (op, name) in OPS.iter().enumerate().skip(1) {
            need(self.ops[op], name.to_string());
        }
        for (kind, name) in KINDS.iter().enumerate() {
            need(self.breaks[kind], format!("BREAK {name}"));
            need(self.continues[kind], format!("CONTINUE {name}"));
        }
        need(self.unnamed, "code 29 of the language entry".to_string());
        need(self.relabeled, "a break that the language entry labels".to_string());
        for (count, name) in self.lent_indexes.iter().zip(LENT_INDEXES) {
            need(*count, format!("an index lent, {name}"));
        }
        for (class, bound) in DEPTHS.iter().enumerate() {
            need(self.depths[class], format!("depth up to {bound}"));
        }
        verdict
    }

    /// The coverage as tables of Markdown.
    pub fn report(&self) -> String {
        let mut out = String::new();
        let mut table = |head: &str, lines: Vec<String>| {
            let columns = head.matches('|').count() - 1;
            out += &format!("{head}\n|{}\n{}\n\n", "---|".repeat(columns), lines.join("\n"));
        };
        let families = FAMILIES.iter().enumerate();
        table(
            "| family | tables | accepted |",
            families
                .map(|(at, name)| {
                    format!("| {name} | {} | {} |", self.families[at], self.accepted[at])
                })
                .collect(),
        );
        let codes =
            CODES.iter().zip(self.codes).map(|(code, count)| format!("| {code} | {count} |"));
        table("| code | tables |", codes.collect());
        let ends = ENDS.iter().enumerate().map(|(at, name)| {
            format!("| {at} {name} | {} | {} |", self.statement_ends[at], self.value_ends[at])
        });
        table("| end | statement visits | value visits |", ends.collect());
        let ops = (1..OPS.len()).map(|op| format!("| {op} {} | {} |", OPS[op], self.ops[op]));
        table("| op | rows |", ops.collect());
        let kinds = KINDS
            .iter()
            .enumerate()
            .map(|(at, name)| format!("| {name} | {} | {} |", self.breaks[at], self.continues[at]));
        table("| kind | BREAK | CONTINUE |", kinds.collect());
        let depths = DEPTHS.iter().zip(self.depths);
        table(
            "| greatest depth up to | walks |",
            depths.map(|(bound, count)| format!("| {bound} | {count} |")).collect(),
        );
        let lent = LENT_INDEXES.iter().zip(self.lent_indexes);
        table(
            "| words of index lent | accepted tables with lines |",
            lent.map(|(name, count)| format!("| {name} | {count} |")).collect(),
        );
        out += &format!(
            "Language entry: {} tables refused with 29, {} with a break that it labels.\n\n",
            self.unnamed, self.relabeled
        );
        out + &format!("Most visits {}, most rows {}, most lines {}.\n", self.most_visits, self.most_rows, self.most_lines)
    }
}

fn add<const N: usize>(sum: &mut [u64; N], more: &[u64; N]) {
    for (sum, more) in sum.iter_mut().zip(more) {
        *sum += more;
    }
}
