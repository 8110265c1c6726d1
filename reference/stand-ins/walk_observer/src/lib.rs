//! Watches a walk of the reference from inside the stand-ins: which blocks it looks up, which
//! visits are open, and which of them is the innermost when it gives up.
//!
//! A visit begins when `visit_block` or `visit_value_block` looks up its block. It lasts as long as
//! the copy of the block's terminal that the function makes at once and drops when it returns, or,
//! in `visit_block`, when it takes the next block. So the depth is the number of copies alive.

use std::cell::RefCell;
use std::panic::resume_unwind;

/// Bounds that the caller sets, since the Rust has none. Paper 01's are 128 and 8,192.
#[derive(Debug, Clone, Copy)]
pub struct Bounds {
    pub depth: usize,
    pub visits: u32,
}

/// Ends the walk by unwinding, where the Rust would recurse on or panic on a missing block.
#[derive(Debug, Clone, Copy, PartialEq, Eq)]
pub enum Stop {
    Depth { block: u32 },
    Visits { block: u32 },
    Missing { block: u32 },
}

/// What was seen of a walk.
#[derive(Debug, Clone, Default)]
pub struct Seen {
    pub visits: u32,
    /// The visits begun: the block, and the walk that made it.
    pub trail: Vec<(u32, Walk)>,
    pub deepest: usize,
    /// The innermost open visit when the first diagnostic was made or the first panic raised.
    pub gave_up_in: Option<u32>,
}

#[derive(Default)]
struct Observer {
    bounds: Option<Bounds>,
    open: Vec<u32>,
    /// The block of the last visit to begin.
    visited: u32,
    seen: Seen,
}

thread_local! {
    static OBSERVER: RefCell<Observer> = RefCell::default();
}

fn with<T>(action: impl FnOnce(&mut Observer) -> T) -> T {
    OBSERVER.with_borrow_mut(action)
}

/// Starts to watch this thread's next walk.
pub fn start(bounds: Bounds) {
    with(|observer| *observer = Observer { bounds: Some(bounds), ..Observer::default() });
}

/// Stops watching.
pub fn finish() -> Seen {
    with(|observer| {
        observer.bounds = None;
        std::mem::take(&mut observer.seen)
    })
}

/// Which of the two walks makes a visit.
#[derive(Debug, Clone, Copy, PartialEq, Eq)]
pub enum Walk {
    Statement,
    Value,
}

/// The walk looks up a block in order to visit it.
pub fn visit(block: u32, walk: Walk) {
    let stop = with(|observer| {
        let bounds = observer.bounds?;
        let depth = observer.open.len() + 1;
        if depth > bounds.depth {
            return Some(Stop::Depth { block });
        }
        if observer.seen.visits == bounds.visits {
            return Some(Stop::Visits { block });
        }
        observer.seen.visits += 1;
        observer.seen.deepest = observer.seen.deepest.max(depth);
        observer.visited = block;
        observer.seen.trail.push((block, walk));
        None
    });
    if let Some(stop) = stop {
        resume_unwind(Box::new(stop));
    }
}

/// The walk looks up a block that is not there.
pub fn missing(block: u32) -> ! {
    resume_unwind(Box::new(Stop::Missing { block }))
}

/// The walk copies the terminal of the block that it visits. Where no walk is watched nothing is kept.
pub fn terminal_copied() {
    with(|observer| {
        if observer.bounds.is_some() {
            observer.open.push(observer.visited);
        }
    });
}

/// A terminal is dropped: the innermost copy, while a walk is watched.
pub fn terminal_dropped() {
    with(|observer| {
        if observer.bounds.is_some() {
            observer.open.pop();
        }
    });
}

/// The walk gives up.
pub fn gives_up() {
    with(|observer| {
        if observer.seen.gave_up_in.is_none() {
            observer.seen.gave_up_in = observer.open.last().copied();
        }
    });
}
