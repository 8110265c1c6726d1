//! `compare_dot [TABLES [SEED]]`: draws seeded tables, every other one a graph of its own, by the model
//! and by the proved library, into buffers of exactly the text's length, a byte less, none, and some
//! more, and says how often they differ and what was met. The status is not 0 if anything differs, if a kind of line was not met in
//! a long enough run, or if the library is not linked.

use std::process::ExitCode;

use comparison::candidate::{CANDIDATE_DOT, CandidateDot};
use comparison::generate::graphs::graph_or_table;
use comparison::harness::{LONG_ENOUGH, Room, Verdict, count_and_tell, stale, with_library};
use comparison::model::check::check;
use comparison::model::columns::NONE;
use comparison::model::dot::{draw, text};
use comparison::model::table::Table;
use comparison::rng::Rng;

/// Accepted, and every refusal.
const ANSWERS: [u32; 6] = [0, 1, 2, 3, 4, 44];

/// What tables show: each code, and what a line can come from.
#[derive(Default)]
struct Met {
    codes: [u64; 22],
    /// How often each of `ANSWERS` was given.
    answers: [u64; ANSWERS.len()],
    no_update: u64,
    twice: u64,
    shared_case: u64,
    unlisted_case: u64,
    four_digits: u64,
    longest: usize,
    calls: u64,
    differences: u64,
}

fn main() -> ExitCode {
    with_library("dot", CANDIDATE_DOT, compare_tables)
}

fn compare_tables(candidate: CandidateDot, tables: u64, seed: u64) -> Verdict {
    let mut met = Met::default();
    for number in 0..tables {
        let mut rng = Rng::of_table(seed, number);
        let words = graph_or_table(seed, number, &mut rng);
        let longer = rng.below(40) as usize;
        let exact = match check(&words) {
            Ok(table) => {
                met.table(&table);
                text(&table).len()
            }
            // Refused: any length.
            Err(_) => longer,
        };
        for lent in [exact, exact.saturating_sub(1), 0, exact + longer] {
            compare(candidate, number, &words, lent, &mut met);
        }
    }

    let verdict = met.verdict(tables);
    println!(
        "seed {seed}: {tables} tables, {} drawings into lent buffers, model and proved drawing with {verdict}, longest text {} bytes",
        met.calls, met.longest,
    );
    verdict
}

/// Code, at, length and every byte of the buffer are compared, and the bytes around it.
fn compare(candidate: CandidateDot, number: u64, words: &[u32], lent: usize, met: &mut Met) {
    let mut expected_text = stale(lent);
    let expected = draw(words, &mut expected_text);
    met.calls += 1;
    let answer = ANSWERS.iter().position(|code| *code == expected.code).expect("a known code");
    met.answers[answer] += 1;
    met.longest = met.longest.max(expected.length);

    let mut room = Room::new(lent);
    let drawn = candidate(words, room.lent());
    let untouched = room.is_kept();
    if drawn == expected && *room.lent() == expected_text && untouched {
        return;
    }
    if count_and_tell(&mut met.differences) {
        println!("table {number} differs, {lent} bytes lent: {words:?}");
        println!("  expected {expected:?} {:?}", String::from_utf8_lossy(&expected_text));
        println!("  candidate {drawn:?} {:?}", String::from_utf8_lossy(room.lent()));
        println!("  bytes around it kept: {untouched}");
    }
}

impl Met {
    fn table(&mut self, table: &Table) {
        let mut listed = vec![0; table.words[3] as usize];
        for row in 0..table.words[1] {
            let [_, _, code, _, b, c, d, ..] = *table.block(row);
            self.codes[code as usize] += 1;
            match code {
                5 => self.twice += u64::from(b == c || c == d || b == d),
                7 => (b..b + c).for_each(|case| listed[case as usize] += 1),
                10 => self.no_update += u64::from(c == NONE),
                _ => {}
            }
            self.four_digits += u64::from(code == 4 && row >= 1_000);
        }
        self.shared_case += u64::from(listed.iter().any(|times| *times > 1));
        self.unlisted_case += u64::from(listed.contains(&0));
    }

    fn verdict(&self, tables: u64) -> Verdict {
        let mut verdict = Verdict::of(self.differences, tables >= LONG_ENOUGH);
        for (code, times) in self.codes.iter().enumerate() {
            verdict.need(format_args!("code {code}"), *times);
        }
        for (code, times) in ANSWERS.iter().zip(self.answers) {
            verdict.need(format_args!("answer {code}"), times);
        }
        verdict.need("a For with no update", self.no_update);
        verdict.need("an If that names a block twice", self.twice);
        verdict.need("a case row of two Switches", self.shared_case);
        verdict.need("a case row of no Switch", self.unlisted_case);
        verdict.need("a number of four digits", self.four_digits);
        verdict
    }
}
