//! `compare_switches [TABLES [SEED [BLOCKS]]]`: M-113, the run law with switches. The block run and the run of the language entry's tree are compared (rows
//! performed, answers taken, reason with value and id) over every small table that is plain with switches and accepted, of so many blocks (6) and three cases a
//! Switch, with every list of up to five answers; and over so many larger ones with random lists. The runner of M-103 is held to them: the same rows and reason
//! where the buffer is long enough, 65 where it is a word short. The status is not 0 if anything differs, or if something was not met: a Switch, a list that is
//! not spoken of, and a tree of the first entry that runs otherwise. Libraries that are linked are run beside the model.

use std::process::ExitCode;

use comparison::generate::draft::Draft;
use comparison::generate::mutate::{mutate, shuffle};
use comparison::generate::plain::plain;
use comparison::generate::small_plain::{Bound, each};
use comparison::harness::{Verdict, arguments};
use comparison::law::{CASES, Met, any_answers, with_bare_tests};
use comparison::model::check::check;
use comparison::rng::Rng;
use comparison::runs::{Width, is_plain};

fn main() -> ExitCode {
    let (tables, seed, mut more) = arguments();
    let bound = Bound { width: Width::WithSwitch, blocks: more.next().unwrap_or(6) as u32, cases: CASES, reused: false };

    let mut small = Met::default();
    let counted = each(bound, |draft| {
        small.every_list(draft, false);
        small.every_list(&with_bare_tests(draft), false);
    });
    println!(
        "small: {} accepted tables of up to {} blocks and {CASES} cases a Switch, {} of them with a Switch ({} refused on the way), {}",
        counted.accepted, bound.blocks, counted.with_switch, counted.refused, small.summary(),
    );

    let mut larger = Met::default();
    let (mut accepted, mut refused, mut number, mut most) = (0, 0, 0, 0);
    while accepted < tables {
        let mut rng = Rng::new(seed.rotate_left(40) ^ number);
        number += 1;
        let words = any_table(&mut rng).words();
        let Ok(table) = check(&words) else { continue };
        if !is_plain(&table, Width::WithSwitch) || is_plain(&table, Width::Paper01) {
            continue;
        }
        let Some(built) = larger.built(table, false) else {
            refused += 1;
            continue;
        };
        accepted += 1;
        most = most.max(table.words[1]);
        for _ in 0..8 {
            let answers = any_answers(&table, &mut rng);
            larger.compare(&built, &answers);
        }
    }
    let (all, differences) = (small.runs + larger.runs, small.differences + larger.differences);
    let met = |met: &Met| met.unspoken > 0 && met.first_entry > 0 && [1, 2, 4].iter().all(|reason| met.reasons[*reason] > 0);
    let all_met = counted.with_switch > 0 && met(&small) && (tables < 10_000 || met(&larger));
    let mut verdict = Verdict::of(differences, true);
    verdict.need("a Switch, a reason, a list not spoken of or a run of the first entry that differs", u64::from(all_met));
    println!(
        "seed {seed}: {all} runs of {} small and {accepted} larger tables with a Switch (up to {most} blocks; {refused} refused; {}), blocks, tree and runner with {differences} differences",
        counted.with_switch, larger.summary(),
    );
    verdict.status()
}

/// Mostly as it is made; else something in it is changed, which few tables survive.
fn any_table(rng: &mut Rng) -> Draft {
    let mut draft = plain(rng, Width::WithSwitch);
    if rng.percent(30) {
        mutate(&mut draft, rng);
    }
    if rng.percent(20) {
        shuffle(&mut draft, rng);
    }
    draft
}
