//! Runs the reference on checked words and tells its answer in paper 01's terms.

pub mod hir;
mod rows;

use std::any::Any;
use std::hint::black_box;
use std::panic::{self, AssertUnwindSafe};
use std::thread;
use std::time::{Duration, Instant};

use oxc_allocator::Allocator;
use oxc_diagnostics::OxcDiagnostic;
use oxc_react_compiler::react_compiler_reactive_scopes::build_reactive_function::build_reactive_function;
use walk_observer::{Bounds, Seen, Stop};

use crate::model::table::Table;
use crate::model::{self, MAX_DEPTH, MAX_VISITS, Refusal, Row, Walked};

const BREAK: u32 = 24;
const CONTINUE: u32 = 25;
const LABELED: u32 = 1;

/// A walk recurses some kilobytes for each of its 128 levels, and so does the tree that it gives.
pub const STACK_BYTES: usize = 256 << 20;

/// Keeps panics of the reference quiet, and has the observer note where they are raised. To be
/// called once, before the first walk.
pub fn install_panic_hook() {
    let default = panic::take_hook();
    panic::set_hook(Box::new(move |info| {
        walk_observer::gives_up();
        if code_of_panic(info.payload()).is_none() {
            default(info);
        }
    }));
}

/// Runs this on a thread with stack enough for any walk.
pub fn on_large_stack<T: Send>(work: impl FnOnce() -> T + Send) -> T {
    thread::scope(|scope| {
        let builder = thread::Builder::new().stack_size(STACK_BYTES);
        builder.spawn_scoped(scope, work).expect("a thread").join().expect("it ends")
    })
}

/// The rows or the refusal, the visits and the greatest depth; and the blocks visited.
pub fn walk(table: &Table) -> (Walked, Seen) {
    walk_within(table, Bounds { depth: MAX_DEPTH as usize, visits: MAX_VISITS })
}

/// The same, and in d of the jumps' rows how many loops each leaves (M-107). The Rust does not count
/// them: the number is the model's, held to the Rust's kind. All else is the Rust's.
pub fn walk_counted(table: &Table) -> (Walked, Seen) {
    let (mut walked, seen) = walk(table);
    if let (Ok(rows), Ok(counted)) = (&mut walked.result, model::walk(table).result) {
        for (row, counted) in rows.iter_mut().zip(counted) {
            if matches!(row[0], BREAK | CONTINUE) && row[0] == counted[0] {
                row[4] = if fits_kind(row, counted[4]) { counted[4] } else { u32::MAX };
            }
        }
    }
    (walked, seen)
}

/// A continue is Labeled exactly when it leaves a loop, a break only if Labeled leaves any.
fn fits_kind(row: &Row, loops: u32) -> bool {
    let labeled = row[3] == LABELED;
    if row[0] == CONTINUE { labeled == (loops > 0) } else { labeled || loops == 0 }
}

/// The same with other bounds than paper 01's. The Rust has none.
pub fn walk_within(table: &Table, bounds: Bounds) -> (Walked, Seen) {
    let allocator = Allocator;
    let lowering = hir::Lowering { table: *table, allocator: &allocator, dress: hir::Plain };
    let environment = lowering.environment();
    let function = lowering.function();
    walk_observer::start(bounds);
    let ended =
        panic::catch_unwind(AssertUnwindSafe(|| build_reactive_function(&function, &environment)));
    let seen = walk_observer::finish();
    let result = match ended {
        Ok(Ok(built)) => {
            let mut rows = rows::Rows::default();
            rows.block(&built.body);
            Ok(rows.0)
        }
        Ok(Err(diagnostic)) => Err(of_diagnostic(&diagnostic, &seen)),
        Err(payload) => Err(of_panic(payload, &seen)),
    };
    (Walked { result, visits: seen.visits, deepest: seen.deepest as u32 }, seen)
}

/// The time of so many builds of an accepted table, without the making of the graph before them.
pub fn time(table: &Table, calls: u32) -> Duration {
    let allocator = Allocator;
    let lowering = hir::Lowering { table: *table, allocator: &allocator, dress: hir::Plain };
    let environment = lowering.environment();
    let function = lowering.function();
    let start = Instant::now();
    for _ in 0..calls {
        walk_observer::start(Bounds { depth: MAX_DEPTH as usize, visits: MAX_VISITS });
        let built = black_box(build_reactive_function(black_box(&function), &environment));
        assert!(built.is_ok(), "the table is accepted");
        walk_observer::finish();
    }
    start.elapsed()
}

/// Each message, whether it names its block, and its code.
const MESSAGES: [(&str, bool, u32); 21] = [
    ("was already emitted", true, 11),
    ("Unexpected 'if' where consequent is already scheduled", true, 12),
    ("Unexpected 'if' where the alternate is already scheduled", true, 13),
    ("Unexpected 'switch' where a case is already scheduled", false, 14),
    ("Continue block is already scheduled", true, 15),
    ("Unexpected 'do-while' where the loop is already scheduled", false, 16),
    ("Unexpected 'while' where the loop is already scheduled", false, 16),
    ("Unexpected 'for' where the loop is already scheduled", false, 16),
    ("Unexpected 'for-of' where the loop is already scheduled", false, 16),
    ("Unexpected 'for-in' where the loop is already scheduled", false, 16),
    ("Unexpected 'label' where the block is already scheduled", false, 17),
    ("Unexpected 'scope' where the block is already scheduled", false, 18),
    ("Unexpected 'branch' where the alternate is already scheduled", false, 19),
    ("Expected a break target for", true, 20),
    ("Expected continue target to be scheduled for", true, 21),
    ("Expected reactive scope to implicitly break to fallthrough", false, 22),
    ("Did not expect to reach the fallthrough of a value block", true, 23),
    ("Unexpected empty block with `goto` terminal", true, 24),
    ("Expected a branch terminal for", false, 25),
    ("Support labeled statements combined with value blocks is not yet implemented", false, 26),
    ("Unsupported terminal kind in value block", false, 27),
];

fn of_diagnostic(diagnostic: &OxcDiagnostic, seen: &Seen) -> Refusal {
    let text = &diagnostic.message;
    let known = MESSAGES.iter().find(|(message, ..)| text.contains(message));
    let Some((_, names_block, code)) = known else {
        panic!("a message that paper 01 does not know: {text}");
    };
    let at = if *names_block {
        named_block(text).or_else(|| named_block(diagnostic.help.as_deref()?))
    } else {
        seen.gave_up_in
    };
    Refusal { code: *code, at: at.expect("a message names a block or is made in a visit") }
}

/// The number after "bb".
fn named_block(text: &str) -> Option<u32> {
    let (_, after) = text.rsplit_once("bb")?;
    let digits = after.find(|c: char| !c.is_ascii_digit()).unwrap_or(after.len());
    after[..digits].parse().ok()
}

fn of_panic(payload: Box<dyn Any + Send>, seen: &Seen) -> Refusal {
    match (payload.downcast_ref::<Stop>(), code_of_panic(&*payload)) {
        (Some(Stop::Depth { block }), _) => Refusal { code: 30, at: *block },
        (Some(Stop::Visits { block }), _) => Refusal { code: 31, at: *block },
        (Some(Stop::Missing { block }), _) => Refusal { code: 10, at: *block },
        (None, Some(code)) => {
            Refusal { code, at: seen.gave_up_in.expect("a panic is raised in a visit") }
        }
        (None, None) => panic::resume_unwind(payload),
    }
}

/// The one panic of the original that paper 01 gives a code.
fn code_of_panic(payload: &(dyn Any + Send)) -> Option<u32> {
    let text = payload.downcast_ref::<&str>().copied();
    let text = text.or_else(|| payload.downcast_ref::<String>().map(String::as_str));
    text.is_some_and(|text| text.contains("Expected non-empty instructions")).then_some(28)
}
