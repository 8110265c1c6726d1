//! `compare_runs [TABLES [SEED [MORE]]]`: the run law of all terminals (src/wide). The run of the Rust's tree, with a Switch that of the
//! language entry's tree, read off the Rust's, is held to the run of the blocks: rows performed, where values go, answers taken, where a
//! throw goes, and why the run stopped. It takes
//! - TABLES programs, lowered as a compiler does it, and prints what share of those accepted the law covers;
//! - three times as many with small changes;
//! - every small table of some families, with MORE blocks than usual;
//! - TABLES small ones drawn at random, in which rows also name blocks that were named before.
//!
//! Each runs over all lists of up to four answers, with no throw and with one at each of the first six rows; all but the small ones over
//! some random longer lists too. The model's tree and, where it is linked, the proved library's must be the Rust's. The status is not 0 if
//! anything differs, if a program is not covered for another reason than the fault of Goto Try, or if something was not met.

use std::process::ExitCode;

use comparison::generate::draft::Draft;
use comparison::generate::lowered::{fits, lowered};
use comparison::generate::mutate::{mutate, shuffle};
use comparison::generate::small_wide::{Family, each, sampled};
use comparison::harness::{Verdict, arguments};
use comparison::model::Rule;
use comparison::model::check::check;
use comparison::model::table::Table;
use comparison::reference;
use comparison::rng::Rng;
use comparison::wide::conditions::{COUNT, OF_THROWS, OF_TRY, SAID, failed, has_failed};
use comparison::wide::ends::{Role, names, present};
use comparison::wide::law::{Judged, Met};

/// A name, the terminals, how many blocks, the most cases of a Switch, and how many blocks may have other rows.
type Named = (&'static str, &'static [u32], u32, u32, u32);

const FAMILIES: [Named; 10] = [
    ("Logical", &[3, 4, 6, 13], 4, 0, 1),
    ("Ternary", &[3, 4, 6, 14], 4, 0, 1),
    ("Optional", &[3, 4, 6, 15], 4, 0, 1),
    ("Sequence and MaybeThrow", &[3, 4, 17, 18], 4, 0, 1),
    ("Try and If", &[3, 4, 5, 19], 4, 0, 0),
    ("ForIn", &[3, 4, 6, 12], 4, 0, 1),
    ("ForOf", &[3, 4, 6, 11], 4, 0, 1),
    ("While and DoWhile", &[3, 4, 6, 8, 9], 4, 0, 0),
    ("Branch and Label", &[2, 3, 4, 6, 16], 4, 0, 0),
    ("Switch and scope", &[1, 3, 4, 7, 20], 4, 2, 0),
];

/// Of these, tables are only drawn.
const ALL: Named = ("all", &[1, 2, 3, 4, 5, 6, 7, 8, 9, 10, 11, 12, 13, 14, 15, 16, 17, 18, 19, 20, 21], 4, 3, 0);
/// How many blocks the tables drawn at random have at most.
const DRAWN: u32 = 8;

fn main() -> ExitCode {
    reference::on_large_stack(compare)
}

fn compare() -> ExitCode {
    reference::install_panic_hook();
    let (tables, seed, mut more) = arguments();
    let more = more.next().unwrap_or(0) as u32;

    let (programs, cured, uncovered) = lowered_programs(tables, seed);
    println!("lowered programs: {}", programs.summary());
    let faults = programs.fails_alone[OF_TRY];
    let share = 100.0 * programs.covered as f64 / programs.accepted.max(1) as f64;
    println!(
        "covered are {} of the {} accepted ({share:.3} %); {faults} fail the condition of Goto Try alone, {uncovered} another; with \
         each Goto Try as a break: {}",
        programs.covered, programs.accepted, cured.summary(),
    );

    let changed = changed_programs(3 * tables, seed);
    println!("changed programs: {}", changed.summary());
    for (number, said) in SAID.iter().enumerate() {
        println!("condition {number}: {} fail it, {} it alone: {said}", changed.fails[number], changed.fails_alone[number]);
    }

    let mut all = Met::default();
    let mut small = 0;
    for family in FAMILIES {
        let met = every_small_table(family, more);
        println!("{} of up to {} blocks: {}", family.0, family.2 + more, met.summary());
        small += met.covered;
        all.add(&met);
    }
    let (drawn, twice) = drawn_tables(tables, seed);
    println!("drawn at random, {twice} with a block that is named twice: {}", drawn.summary());
    for met in [&programs, &cured, &changed, &drawn] {
        all.add(met);
    }

    let long = tables >= 10_000;
    let mut verdict = Verdict::of(all.differences + uncovered, true);
    for (code, times) in programs.with_code.iter().enumerate().skip(1) {
        verdict.need(format_args!("a covered program with terminal {code}"), u64::from(tables < 1_000) + times);
    }
    for (number, times) in changed.fails.iter().enumerate().filter(|_| long) {
        verdict.need(format_args!("a changed program that fails condition {number}"), *times);
    }
    for (stop, times) in all.stops.iter().enumerate() {
        verdict.need(format_args!("stop {stop}"), *times);
    }
    verdict.need("a small table under the conditions", small);
    verdict.need("a table that names a block twice", u64::from(!long) + twice);
    println!(
        "seed {seed}: {} runs of {} lowered programs ({share:.3} % of the accepted ones), {} changed ones, {small} small tables and \
         {} drawn ones, blocks and tree with {} differences",
        all.runs, programs.covered, changed.covered, drawn.covered, all.differences,
    );
    verdict.status()
}

fn any_program(rng: &mut Rng) -> Draft {
    let size = rng.from_to(1, 40);
    let mut draft = lowered(rng, size);
    if rng.percent(20) {
        shuffle(&mut draft, rng);
    }
    draft
}

/// What was met, the same of the programs with a Goto Try where each is a break, and how many programs fail another condition than theirs.
fn lowered_programs(tables: u64, seed: u64) -> (Met, Met, u64) {
    let (mut programs, mut cured, mut uncovered) = (Met::default(), Met::default(), 0);
    for number in 0..tables {
        let mut rng = Rng::of_table(seed, number);
        let mut draft = any_program(&mut rng);
        if !fits(&draft) {
            continue;
        }
        let words = draft.words();
        let table = check(&words).expect("a lowered program is a table");
        if programs.table(&words, &[], Some(&mut rng)) == Judged::NotCovered {
            let failed = failed(&table);
            let others = (0..OF_THROWS).any(|condition| failed[condition] && condition != OF_TRY);
            println!("not covered: {:?}, {words:?}", (0..COUNT).filter(|condition| failed[*condition]).collect::<Vec<_>>());
            uncovered += u64::from(others);
        }
        let mut gotos = draft.blocks.iter_mut().filter(|row| row[2] == 4 && row[4] == 2).peekable();
        if gotos.peek().is_some() {
            gotos.for_each(|row| row[4] = 0);
            cured.table(&draft.words(), &[], Some(&mut rng));
        }
    }
    (programs, cured, uncovered)
}

fn changed_programs(tables: u64, seed: u64) -> Met {
    let mut met = Met::default();
    for number in 0..tables {
        let mut rng = Rng::of_table(!seed, number);
        let mut draft = any_program(&mut rng);
        for _ in 0..rng.from_to(1, 2) {
            mutate(&mut draft, &mut rng);
        }
        let words = draft.words();
        if check(&words).is_ok() {
            met.table(&words, &[], Some(&mut rng));
        }
    }
    met
}

fn family((_, codes, blocks, cases, shapes): Named, more: u32) -> Family<'static> {
    let rule = if codes.contains(&7) { Rule::Language } else { Rule::Rust };
    Family { blocks: blocks + more, codes, cases, shapes, rule }
}

fn may_be_covered(draft: &Draft) -> bool {
    !has_failed(&Table::of(&draft.words()))
}

fn every_small_table(named: Named, more: u32) -> Met {
    let mut met = Met::default();
    each(family(named, more), may_be_covered, |draft| {
        met.table(&draft.words(), &[], None);
    });
    met
}

/// What was met, and how many covered tables name a block twice, Gotos apart.
fn drawn_tables(tables: u64, seed: u64) -> (Met, u64) {
    let (mut met, mut twice) = (Met::default(), 0);
    for number in 0..tables {
        let mut rng = Rng::of_table(seed.rotate_left(20), number);
        let mut named = if rng.percent(50) { ALL } else { rng.pick(&FAMILIES) };
        named.2 = rng.from_to(3, DRAWN);
        named.3 = 3;
        let Some(draft) = sampled(family(named, 0), &mut rng, may_be_covered) else { continue };
        let words = draft.words();
        if met.table(&words, &[], Some(&mut rng)) == Judged::Agrees {
            twice += u64::from(names_one_twice(&Table::of(&words)));
        }
    }
    (met, twice)
}

/// Not counting Gotos, and what a statement's own test or arms name of it: its loop block and its fallthrough.
fn names_one_twice(table: &Table) -> bool {
    let all: Vec<(Role, u32)> = present(table).into_iter().flat_map(|(_, row)| names(table, row)).collect();
    let of_statements = |block: u32| all.iter().any(|(role, named)| *named == block && matches!(role, Role::Fallthrough | Role::LoopBlock));
    let counts = |(role, block): &&(Role, u32)| match role {
        Role::Goto => false,
        Role::BranchArm | Role::Arm | Role::Case => !of_statements(*block),
        _ => true,
    };
    let mut blocks: Vec<u32> = all.iter().filter(counts).map(|(_, block)| *block).collect();
    blocks.sort_unstable();
    blocks.windows(2).any(|pair| pair[0] == pair[1])
}
