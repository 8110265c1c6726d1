//! `compare_lookup [LOOKUPS [SEED]]`: lookups of M-101, by the model and by the proved library: in indexes
//! of any words, with any number of lines and trees of any length, and of every label in the lines of trees
//! that the model's build makes. The status is not 0 if anything differs, if a tree has a label twice or a
//! lookup in its lines gives other rows than the statement's, if an answer was not met in a long enough
//! run, or if the library is not linked.

use std::process::ExitCode;

use comparison::candidate::{CANDIDATE_LOOKUP, CandidateLookup, Looked};
use comparison::generate::trees::built;
use comparison::harness::{LONG_ENOUGH, Verdict, count_and_tell, with_library};
use comparison::model::Row;
use comparison::model::index::{LINE_WORDS, Line, lines, lookup};
use comparison::rng::Rng;

#[derive(Default)]
struct Met {
    lookups: u64,
    trees: u64,
    labels: u64,
    found: u64,
    /// 42 in lines that were read, and where the number or the buffer left none.
    no_label: u64,
    no_line: u64,
    /// 43 for its two reasons.
    first_after: u64,
    closing_beyond: u64,
    /// A second line with the label; more lines told than the buffer has, and a part of one more in it.
    twice: u64,
    too_many: u64,
    cut: u64,
    differences: u64,
}

/// Words that meet each other often, and some that a product would spoil.
const WORDS: [u32; 16] = [0, 0, 1, 1, 2, 2, 3, 3, 4, 5, 6, 65_535, 65_536, 715_827_882, 1 << 31, u32::MAX];

fn main() -> ExitCode {
    with_library("lookup", CANDIDATE_LOOKUP, compare_lookups)
}

fn compare_lookups(candidate: CandidateLookup, lookups: u64, seed: u64) -> Verdict {
    let mut met = Met::default();
    let mut rng = Rng::new(seed);
    for _ in 0..lookups {
        met.any(candidate, &mut rng);
    }
    let mut number = 0;
    while met.labels < lookups {
        let rows = built(seed, number);
        number += 1;
        if let Some(rows) = rows {
            met.built(candidate, &rows, number, &mut rng);
        }
    }

    let verdict = met.verdict(lookups);
    println!(
        "seed {seed}: {} lookups, {} of labels of {} built trees among them, {} found, model and proved lookup with {verdict}",
        met.lookups, met.labels, met.trees, met.found,
    );
    verdict
}

impl Met {
    /// An index of any words.
    fn any(&mut self, candidate: CandidateLookup, rng: &mut Rng) {
        let index: Vec<u32> = (0..rng.below(20)).map(|_| rng.pick(&WORDS)).collect();
        let number = if rng.percent(50) { rng.below(8) } else { rng.pick(&WORDS) };
        let label = rng.pick(&WORDS);
        // Each word is its own number, so that the part tells where it lies.
        let tree: Vec<u32> = (0..rng.below(45)).collect();
        self.compare(candidate, &index, number, label, &tree);
    }

    /// The lines of a tree, in a buffer with other words after them: each label is found, with its rows.
    fn built(&mut self, candidate: CandidateLookup, rows: &[Row], number: u64, rng: &mut Rng) {
        let lines = lines(rows);
        let mut index = lines.as_flattened().to_vec();
        let count = lines.len() as u32;
        index.extend((0..rng.below(8)).map(|_| rng.below(4)));
        let mut tree = rows.as_flattened().to_vec();
        tree.extend((0..rng.below(8)).map(|_| 0));
        self.trees += 1;
        for (place, &[label, first, closing]) in lines.iter().enumerate() {
            self.labels += 1;
            let own = &tree[first as usize * 6..(closing as usize + 1) * 6];
            if lines[..place].iter().any(|line: &Line| line[0] == label) {
                self.differs(&format!("tree {number} has the label {label} twice"));
            }
            let told = if rng.percent(80) { count } else { rng.pick(&WORDS) };
            let looked = self.compare(candidate, &index, told, label, &tree);
            if told >= count && (looked.code != 0 || looked.part != own) {
                self.differs(&format!("tree {number}, label {label}: not the statement's rows"));
            }
        }
        self.compare(candidate, &index, count, rng.below(1_200), &tree);
    }

    fn compare<'a>(&mut self, candidate: CandidateLookup, index: &[u32], number: u32, label: u32, tree: &'a [u32]) -> Looked<'a> {
        let expected = match lookup(index, number, label, tree.len()) {
            Ok(words) => Looked { code: 0, at: 0, begin: words.start, end: words.end, part: &tree[words] },
            Err(refusal) => Looked { code: refusal.code, at: refusal.at, begin: 0, end: 0, part: &[] },
        };
        self.lookups += 1;
        self.note(index, number, label, &expected);
        let found = candidate(index, number, label, tree);
        if found != expected {
            self.differs(&format!("index {index:?}, number {number}, label {label}, {} words of tree", tree.len()));
            println!("  expected {expected:?}, candidate {found:?}");
        }
        expected
    }

    fn differs(&mut self, what: &str) {
        if count_and_tell(&mut self.differences) {
            println!("differs: {what}");
        }
    }

    fn note(&mut self, index: &[u32], number: u32, label: u32, looked: &Looked) {
        let read = (index.len() / LINE_WORDS).min(number as usize);
        let mut with = index.chunks_exact(LINE_WORDS).take(read).filter(|line| line[0] == label);
        let line = with.next();
        self.twice += u64::from(with.next().is_some());
        self.too_many += u64::from(number as usize > index.len() / LINE_WORDS);
        self.cut += u64::from(index.len() % LINE_WORDS != 0 && index[index.len() / LINE_WORDS * LINE_WORDS] == label && line.is_none());
        match (looked.code, line) {
            (0, _) => self.found += 1,
            (42, _) if read == 0 => self.no_line += 1,
            (42, _) => self.no_label += 1,
            (_, Some(line)) if line[1] > line[2] => self.first_after += 1,
            _ => self.closing_beyond += 1,
        }
    }

    fn verdict(&self, lookups: u64) -> Verdict {
        let mut verdict = Verdict::of(self.differences, lookups >= LONG_ENOUGH);
        verdict.need("found", self.found);
        verdict.need("42, no line has the label", self.no_label);
        verdict.need("42, no line is read", self.no_line);
        verdict.need("43, first row after the closing row", self.first_after);
        verdict.need("43, closing row beyond the tree", self.closing_beyond);
        verdict.need("two lines with the label", self.twice);
        verdict.need("more lines told than there are", self.too_many);
        verdict.need("a label in a line that is not whole", self.cut);
        verdict
    }
}
