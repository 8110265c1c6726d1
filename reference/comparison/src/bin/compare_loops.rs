//! `compare_loops [TABLES [SEED [BLOCKS [REUSED [CASES]]]]]`: beyond the papers, the run law with DoWhile and For, with switches as compilers make them, and with ends
//! that are not reached. As `compare_switches`: every small table with these conditions that is accepted, of so many blocks (5; with REUSED 1 a statement may also
//! name blocks that were named before) and so many cases a Switch (3), with every list of up to five answers; so many larger ones, lowered as a compiler does it, with
//! random lists. Of a table without Switch the first entry's tree is held to the runs too. With the proved library, `table_plain` is held to the model on each of these
//! tables and on each of the generator's programs, refused ones too. Then it prints what share of the generator's programs each law speaks of.
//! The status is not 0 if anything differs, or if something was not met.

use std::process::ExitCode;

use comparison::candidate::CANDIDATE_PLAIN;
use comparison::generate::draft::Draft;
use comparison::generate::mutate::{mutate, shuffle};
use comparison::generate::plain::plain;
use comparison::generate::program::program;
use comparison::generate::small_plain::{Bound, each};
use comparison::harness::{Verdict, arguments};
use comparison::law::{CASES, Met, any_answers, with_bare_tests};
use comparison::model::check::check;
use comparison::model::table::Table;
use comparison::model::{Rule, walk_by};
use comparison::rng::Rng;
use comparison::runs::{Width, is_plain};

const WIDTHS: [Width; 3] = [Width::Paper01, Width::WithSwitch, Width::Loops];

/// Which law speaks of a table, by the model and by the library.
#[derive(Default)]
struct Laws {
    compared: u64,
    of: [u64; 4],
    refused: u64,
    differences: u64,
}

impl Laws {
    fn hold(&mut self, words: &[u32]) {
        let Some(candidate) = CANDIDATE_PLAIN else { return };
        let wanted = check(words).map(|table| WIDTHS.iter().position(|width| is_plain(&table, *width)).map_or(0, |place| place + 1));
        self.compared += 1;
        match &wanted {
            Ok(law) => self.of[*law] += 1,
            Err(_) => self.refused += 1,
        }
        let given = candidate(words);
        if given != wanted.map_err(|refusal| (refusal.code, refusal.at)) {
            self.differences += 1;
            println!("table_plain gives {given:?} for the words {words:?}");
        }
    }
}

fn main() -> ExitCode {
    let (tables, seed, mut more) = arguments();
    let blocks = more.next().unwrap_or(5) as u32;
    let reused = more.next() == Some(1);
    let cases = more.next().map_or(CASES, |cases| cases as u32);
    let bound = Bound { width: Width::Loops, blocks, cases, reused };

    let mut small = Met::default();
    let mut laws = Laws::default();
    let counted = each(bound, |draft| {
        laws.hold(&draft.words());
        let same = !has(draft, 7);
        small.every_list(draft, same);
        small.every_list(&with_bare_tests(draft), same);
    });
    println!(
        "small: {} accepted tables of up to {blocks} blocks and {cases} cases a Switch, {} of them with For or DoWhile, {} with a Switch ({} refused on the way), {}",
        counted.accepted, counted.with_loops, counted.with_switch, counted.refused, small.summary(),
    );

    let mut larger = Met::default();
    let (mut accepted, mut with_loops, mut refused, mut number, mut most) = (0, 0, 0, 0, 0);
    while accepted < tables {
        let mut rng = Rng::new(seed.rotate_left(40) ^ number);
        number += 1;
        let draft = any_table(&mut rng);
        let words = draft.words();
        laws.hold(&words);
        let Ok(table) = check(&words) else { continue };
        if !is_plain(&table, Width::Loops) || is_plain(&table, Width::WithSwitch) {
            continue;
        }
        let Some(built) = larger.built(table, !has(&draft, 7)) else {
            refused += 1;
            continue;
        };
        accepted += 1;
        with_loops += u64::from(has(&draft, 8) || has(&draft, 10));
        most = most.max(table.words[1]);
        for _ in 0..8 {
            let answers = any_answers(&table, &mut rng);
            larger.compare(&built, &answers);
        }
    }
    let shares = shares(tables.min(20_000), seed, &mut laws);
    println!("programs: {} accepted without value terminals, ForOf, ForIn, Try, MaybeThrow; plain by paper 01 {}, by M-113 {}, with loops {}", shares[0], shares[1], shares[2], shares[3]);

    let (all, differences) = (small.runs + larger.runs, small.differences + larger.differences + laws.differences);
    let met = |met: &Met| met.unspoken > 0 && [1, 2, 4].iter().all(|reason| met.reasons[*reason] > 0);
    let long = tables >= 10_000 || blocks >= 6;
    let all_met = counted.with_switch > 0 && counted.with_loops > 0 && met(&small) && (!long || met(&larger) && with_loops > 0 && small.first_entry + larger.first_entry > 0);
    let mut verdict = Verdict::of(differences, true);
    verdict.need("a table of each law for table_plain", u64::from(CANDIDATE_PLAIN.is_none() || laws.of.iter().all(|met| *met > 0)));
    verdict.need("a For or DoWhile, a Switch, a reason, a list not spoken of or a run of the first entry that differs", u64::from(all_met));
    if CANDIDATE_PLAIN.is_some() {
        let [none, paper, switches, loops] = laws.of;
        println!("table_plain: {} tables ({none} with no law, {paper} plain by paper 01, {switches} by M-113, {loops} with loops, {} refused), {} differences", laws.compared, laws.refused, laws.differences);
    }
    println!(
        "seed {seed}: {all} runs of {} small and {accepted} larger tables beyond the papers ({with_loops} with For or DoWhile; up to {most} blocks; {refused} refused; {}), blocks, tree and runner with {differences} differences",
        counted.accepted, larger.summary(),
    );
    verdict.status()
}

fn has(draft: &Draft, code: u32) -> bool {
    draft.blocks.iter().any(|row| row[2] == code)
}

/// Mostly as it is made; else something in it is changed, which few tables survive.
fn any_table(rng: &mut Rng) -> Draft {
    let mut draft = plain(rng, Width::Loops);
    if rng.percent(30) {
        mutate(&mut draft, rng);
    }
    if rng.percent(20) {
        shuffle(&mut draft, rng);
    }
    draft
}

/// Of so many programs of the generator: how many are accepted and have only ends that a law could speak of, and how many are plain in each width.
fn shares(programs: u64, seed: u64, laws: &mut Laws) -> [u64; 4] {
    let mut counts = [0; 4];
    for number in 0..programs {
        let mut rng = Rng::new(seed.rotate_left(20) ^ number);
        let blocks = rng.from_to(1, 40);
        let draft = program(&mut rng, blocks);
        let words = draft.words();
        laws.hold(&words);
        let other = |row: &[u32; 11]| (11..=15).contains(&row[2]) || (17..=19).contains(&row[2]);
        if draft.blocks.iter().any(other) || check(&words).is_err() {
            continue;
        }
        let table = Table::of(&words);
        if walk_by(Rule::Language, &table).result.is_ok() {
            counts[0] += 1;
            for (place, width) in WIDTHS.into_iter().enumerate() {
                counts[place + 1] += u64::from(is_plain(&table, width));
            }
        }
    }
    counts
}
