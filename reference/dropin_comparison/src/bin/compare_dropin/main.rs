//! `compare_dropin [TABLES [SEED]]`: on generated functions, the drop-in beside the Rust, by the Debug text of the whole
//! function or of the diagnostic; the library alone beside it; and the library by the language's rule beside the first.

mod scrambled;

use std::collections::BTreeMap;
use std::panic::{self, AssertUnwindSafe};
use std::process::ExitCode;

use comparison::generate::generate;
use comparison::harness::{LONG_ENOUGH, Verdict, arguments, count_and_tell};
use comparison::model::check::check;
use comparison::model::{MAX_DEPTH, MAX_VISITS};
use comparison::reference;
use comparison::rng::Rng;
use dropin::proved;
use dropin::proved::library::lower::Lowered;
use dropin::proved::library::{
    Failed, Outside, build_reactive_function, build_reactive_function_language,
};
use oxc_allocator::Allocator;
use oxc_diagnostics::OxcDiagnostic;
use oxc_react_compiler::react_compiler_hir::environment::Environment;
use oxc_react_compiler::react_compiler_hir::{HirFunction, ReactiveFunction};
use oxc_react_compiler::react_compiler_reactive_scopes::build_reactive_function::build_reactive_function as rust;
use reactive_build::code;
use scrambled::Scrambled;
use walk_observer::{Bounds, Stop};

const TREE: &str = "a tree";
const LANGUAGE: &str = "a tree that the language's rule labels otherwise";
/// How many messages there are: one for each of the codes 11 to 27 but 16, which has one for each of five loops, and 25, for each of three
/// values.
const MESSAGES: u64 = 23;
const LANGUAGE_REFUSED: &str = "refused by the language's rule alone";

fn main() -> ExitCode {
    let (tables, seed, _) = arguments();
    reference::install_panic_hook();
    reference::on_large_stack(|| compare(tables, seed)).status()
}

fn compare(tables: u64, seed: u64) -> Verdict {
    let (mut met, mut differences) = (BTreeMap::<String, u64>::new(), 0);
    for number in 0..tables {
        let words = generate(seed, number).words;
        let Ok(table) = check(&words) else { continue };
        let allocator = Allocator;
        let lowering = Scrambled::lowering(table, &allocator, Rng::of_table(seed, number));
        let (env, hir) = (lowering.environment(), Scrambled::function(&lowering));
        let theirs = ended(rust, &hir, &env);
        let instead = ended(proved::build_reactive_function, &hir, &env);
        if instead != theirs && count_and_tell(&mut differences) {
            println!(
                "function {number} differs by the Rust's signature:\n  Rust {}\n  ours {}",
                beginning(&theirs),
                beginning(&instead)
            );
        }
        let ours = build_reactive_function(&hir, &env);
        let (sort, given) = told(&ours);
        *met.entry(sort).or_default() += 1;
        if !is_same(&given, &theirs) && count_and_tell(&mut differences) {
            println!(
                "function {number} differs:\n  Rust {}\n  ours {}",
                beginning(&theirs),
                beginning(&given)
            );
        }
        match by_language(&given, &hir, &env) {
            Ok(Some(sort)) => *met.entry(sort.into()).or_default() += 1,
            Ok(None) => {}
            Err(what) if count_and_tell(&mut differences) => {
                println!("function {number} differs by the language's rule: {what}")
            }
            Err(_) => {}
        }
    }
    summary(&met, Verdict::of(differences, tables >= LONG_ENOUGH))
}

fn summary(met: &BTreeMap<String, u64>, mut verdict: Verdict) -> Verdict {
    for (sort, count) in met {
        println!("{count:9} {sort}");
    }
    let times = |sort: &str| met.get(sort).copied().unwrap_or_default();
    [TREE, LANGUAGE, LANGUAGE_REFUSED].iter().for_each(|sort| verdict.need(sort, times(sort)));
    for code in [10, 28, 30, 31] {
        verdict.need(format!("outside: {code}"), times(&format!("outside: {code}")));
    }
    let of = |sorts: &'static str| {
        met.iter().filter(move |(sort, _)| sort.starts_with(sorts)).map(|(_, count)| *count)
    };
    verdict.need("some of the messages", u64::from(of("message: ").count() as u64 >= MESSAGES));
    let (trees, messages, outside) =
        (times(TREE), of("message: ").sum::<u64>(), of("outside: ").sum::<u64>());
    let functions = trees + messages + outside;
    println!(
        "drop-in: {functions} functions, {trees} trees, {messages} messages, {outside} outside; {verdict}"
    );
    verdict
}

type Build<'a> =
    fn(&HirFunction<'a>, &Environment<'a>) -> Result<ReactiveFunction<'a>, OxcDiagnostic>;

/// The Debug text, or in what way the Rust ends that has no counterpart.
fn ended<'a>(build: Build<'a>, hir: &HirFunction<'a>, env: &Environment<'a>) -> String {
    walk_observer::start(Bounds { depth: MAX_DEPTH as usize, visits: MAX_VISITS });
    let ended = panic::catch_unwind(AssertUnwindSafe(|| build(hir, env)));
    walk_observer::finish();
    let code = match ended {
        Ok(Ok(function)) => return format!("{function:?}"),
        Ok(Err(diagnostic)) => return format!("{diagnostic:?}"),
        Err(payload) => match payload.downcast_ref::<Stop>() {
            Some(Stop::Missing { .. }) => code::MISSING_BLOCK,
            Some(Stop::Depth { .. }) => code::DEPTH,
            Some(Stop::Visits { .. }) => code::VISITS,
            None => code::EMPTY_MAYBE_THROW,
        },
    };
    outside(code)
}

fn outside(code: u32) -> String {
    format!("outside: {code}")
}

/// What sort of answer it is, and its text.
fn told(answer: &Result<ReactiveFunction, Failed>) -> (String, String) {
    match answer {
        Ok(function) => (TREE.into(), format!("{function:?}")),
        Err(Failed::Refused(diagnostic)) => {
            let words = diagnostic
                .message
                .split([' ', '(', ':'])
                .take_while(|word| !word.starts_with("bb"));
            (format!("message: {}", words.collect::<Vec<_>>().join(" ")), format!("{diagnostic:?}"))
        }
        Err(Failed::Outside(Outside::Code(refusal))) => {
            (outside(refusal.code), outside(refusal.code))
        }
        Err(Failed::Outside(other)) => ("outside: an id".into(), format!("outside: {other:?}")),
    }
}

/// Too many places, each being one of its own here: the one limit that a table which passes the check can be over.
fn is_same(given: &str, theirs: &str) -> bool {
    given == theirs || given == outside(code::COUNT_LIMIT) || given == without_label(theirs)
}

/// The label of code 24's message, which the library alone does not give.
fn without_label(text: &str) -> String {
    match text.split_once("labels: [LabeledSpan") {
        Some((before, _)) if before.contains("Unexpected empty block with `goto`") => {
            format!("{before}labels: [] }}")
        }
        _ => text.into(),
    }
}

/// By the language's rule: the same text, but for breaks that are Labeled in place of Unlabeled, as many as its rows have; or 29, the one
/// refusal of its own.
fn by_language<'a>(
    first: &str,
    hir: &HirFunction<'a>,
    env: &Environment<'a>,
) -> Result<Option<&'static str>, String> {
    let (_, given) = told(&build_reactive_function_language(hir, env));
    if given == first {
        return Ok(None);
    }
    if given == outside(code::NO_LABEL) {
        return Ok(Some(LANGUAGE_REFUSED));
    }
    let lowered = Lowered::of(hir, env).map_err(|outside| outside.to_string())?;
    let rows =
        [reactive_build::rows(&lowered.words), reactive_build::rows_language(&lowered.words)];
    let [Ok(first_rows), Ok(rows)] = &rows else { return Err(beginning(&given).into()) };
    let changed = first_rows.iter().zip(rows).filter(|(first, row)| first != row).count();
    let kinds = |text: &str| {
        text.split("target_kind: ")
            .skip(1)
            .map(|rest| rest.starts_with("Labeled"))
            .collect::<Vec<_>>()
    };
    let (was, is) = (kinds(first), kinds(&given));
    let more = was.iter().zip(&is).filter(|(was, is)| !*was && **is).count();
    let rest = |text: &str| text.replace("target_kind: Labeled", "target_kind: Unlabeled");
    if more == changed
        && was.iter().zip(&is).all(|(was, is)| !was || *is)
        && rest(first) == rest(&given)
    {
        Ok(Some(LANGUAGE))
    } else {
        Err(format!("{more} more Labeled, {changed} rows: {}", beginning(&given)))
    }
}

fn beginning(text: &str) -> &str {
    text.get(..600).unwrap_or(text)
}
