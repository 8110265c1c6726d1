//! Tables to run, each repeatable from a seed and its number.

pub mod corners;
pub mod draft;
pub mod files;
pub mod graphs;
pub mod limits;
pub mod long;
pub mod lowered;
pub mod mutate;
pub mod plain;
pub mod program;
pub mod rows;
pub mod samples;
pub mod shared;
pub mod small;
pub mod small_plain;
pub mod small_wide;
pub mod trees;
pub mod words;

use crate::rng::Rng;
use crate::runs::Width;
use draft::Draft;

/// The families of tables, for the report.
pub const FAMILIES: [&str; 9] = [
    "small, exhaustive",
    "small, random",
    "programs",
    "programs, mutated",
    "large programs",
    "plain",
    "shared values",
    "limits",
    "malformed words",
];

pub struct Generated {
    pub family: usize,
    pub words: Vec<u32>,
}

/// Table `number` of the run with this seed. Of the first, every other one is of the exhaustive
/// ones, and those at the limits come between them, the same for every seed.
pub fn generate(seed: u64, number: u64) -> Generated {
    let mut rng = Rng::new(seed ^ number.wrapping_mul(0xD134_2543_DE82_EF95));
    rng.word();
    let (half, turn) = (number / 2, number % 2);
    if turn == 0 && half < small::EXHAUSTIVE {
        return Generated { family: 0, words: small::exhaustive(half) };
    }
    if turn == 1 && half < limits::COUNT {
        return Generated { family: 7, words: limits::limit(half) };
    }
    let family = match rng.below(100) {
        0..=19 => 1,
        20..=44 => 2,
        45..=79 => 3,
        80 => 4,
        81..=87 => 5,
        88..=90 => 6,
        _ => 8,
    };
    let words = match family {
        1 => small::random(&mut rng).words(),
        2 => any_program(&mut rng, 40).words(),
        3 => mutated_program(&mut rng).words(),
        4 => any_program(&mut rng, 900).words(),
        5 => plain::plain(&mut rng, Width::Paper01).words(),
        6 => shared::shared_values(&mut rng).words(),
        _ => malformed(&mut rng),
    };
    Generated { family, words }
}

fn any_program(rng: &mut Rng, most: u32) -> Draft {
    let blocks = rng.from_to(1, most);
    let mut draft = program::program(rng, blocks);
    if rng.percent(20) {
        mutate::shuffle(&mut draft, rng);
    }
    draft
}

fn mutated_program(rng: &mut Rng) -> Draft {
    let blocks = rng.from_to(1, 25);
    let mut draft = program::program(rng, blocks);
    for _ in 0..rng.from_to(1, 3) {
        mutate::mutate(&mut draft, rng);
    }
    draft
}

fn malformed(rng: &mut Rng) -> Vec<u32> {
    let draft = if rng.percent(50) { small::random(rng) } else { any_program(rng, 8) };
    let mut words = draft.words();
    for _ in 0..rng.from_to(1, 2) {
        if words.len() >= 6 && words[1] <= 1_024 {
            mutate::spoil(&mut words, rng);
        }
    }
    words
}
