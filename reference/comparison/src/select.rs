//! Chooses tables for what they show (`features`), small ones first.

use std::collections::BTreeMap;

use crate::features::{PAIR, features};
use crate::generate::{corners, generate};
use crate::model::check::check;
use crate::reference;

const SEED: u64 = 11;
const POOL: u64 = 400_000;
const MOST_WORDS: usize = 260;

/// Checked tables chosen from a pool: three for each single feature, and then one for each pair of
/// visits or rows that no chosen table shows yet.
pub struct Chosen {
    pub singles: Vec<Vec<u32>>,
    pub pairs: Vec<Vec<u32>>,
}

pub fn choose() -> Chosen {
    let mut shown = Shown::default();
    for (_, words) in corners::corners() {
        shown.wants(&words, |_, _| true);
    }
    let mut pool: Vec<Vec<u32>> = (0..POOL)
        .map(|number| generate(SEED, number).words)
        .filter(|words| words.len() <= MOST_WORDS && check(words).is_ok())
        .collect();
    pool.sort_by_key(Vec::len);
    let mut chosen = Chosen { singles: Vec::new(), pairs: Vec::new() };
    for words in pool {
        if shown.wants(&words, |feature, times| !feature.starts_with(PAIR) && times < 3) {
            chosen.singles.push(words);
        } else if shown.wants(&words, |_, times| times == 0) {
            chosen.pairs.push(words);
        }
    }
    chosen
}

/// How many of the chosen tables show each feature.
#[derive(Default)]
struct Shown(BTreeMap<String, usize>);

impl Shown {
    /// Whether the table shows a feature that is wanted, by how often it is shown. If so, its
    /// features count as shown.
    fn wants(&mut self, words: &[u32], wanted: impl Fn(&str, usize) -> bool) -> bool {
        let (walked, seen) = reference::walk(&check(words).expect("a checked table"));
        let features = features(words, &walked, &seen);
        let times = |feature: &String| self.0.get(feature).copied().unwrap_or(0);
        let wants = features.iter().any(|feature| wanted(feature, times(feature)));
        if wants {
            for feature in features {
                *self.0.entry(feature).or_default() += 1;
            }
        }
        wants
    }
}
