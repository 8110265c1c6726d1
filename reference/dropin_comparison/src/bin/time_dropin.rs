//! The time of the drop-in and of its parts beside the Rust's own function, on functions of three sizes: the least of many turns.

#[path = "compare_dropin/scrambled.rs"]
mod scrambled;

use std::hint::black_box;
use std::time::{Duration, Instant};

use comparison::generate::program;
use comparison::model::check::check;
use comparison::reference;
use comparison::rng::Rng;
use dropin::proved::build_reactive_function;
use dropin::proved::library::lower::Lowered;
use dropin::proved::library::raise::raise;
use oxc_allocator::Allocator;
use oxc_react_compiler::react_compiler_reactive_scopes::build_reactive_function::build_reactive_function as rust;
use reactive_build::{LINE_WORDS, MOST_LINES, ROW_WORDS};
use scrambled::Scrambled;

fn main() {
    reference::on_large_stack(|| [10, 100, 900].into_iter().for_each(time));
}

/// The first program of at least so many blocks that is accepted.
fn words(blocks: u32) -> Vec<u32> {
    let programs = (0..).map(|seed| program::program(&mut Rng::new(seed), blocks).words());
    let mut large = programs.filter(|words| words[1] >= blocks * 9 / 10 && words[1] <= 1_024);
    large.find(|words| reactive_build::rows(words).is_ok()).expect("there is no end of programs")
}

fn time(blocks: u32) {
    let words = words(blocks);
    let allocator = Allocator;
    let table = check(&words).ok().expect("an accepted table is a good one");
    let lowering = Scrambled::lowering(table, &allocator, Rng::new(3));
    let (env, hir) = (lowering.environment(), Scrambled::function(&lowering));
    let lowered = Lowered::of(&hir, &env).expect("it fits");
    let rows = reactive_build::rows(&lowered.words).expect("it is accepted");
    let turns = 200_000 / blocks;
    let rust = least(turns, || rust(black_box(&hir), &env).expect("accepted").body.len());
    let dropin = least(turns, || {
        build_reactive_function(black_box(&hir), &env).expect("accepted").body.len()
    });
    let lower = least(turns, || Lowered::of(black_box(&hir), &env).expect("it fits").words.len());
    let build =
        least(turns, || reactive_build::rows(black_box(&lowered.words)).expect("accepted").len());
    let (mut tree, mut index) = (vec![0; rows.len() * ROW_WORDS], vec![0; MOST_LINES * LINE_WORDS]);
    let lent = least(turns, || {
        reactive_build::build(black_box(&lowered.words), &mut tree, &mut index).rows as usize
    });
    let raise = least(turns, || raise(black_box(&rows), &lowered, &hir, &env).len());
    println!(
        "{} blocks, {} instructions, {} rows: the Rust {rust:.1} us, the drop-in {dropin:.1} us, {:.2} times; of it to lower {lower:.1}, to build {build:.1} ({lent:.1} into lent buffers), to raise {raise:.1}",
        words[1],
        words[2],
        rows.len(),
        dropin / rust,
    );
}

/// In microseconds, dropping what was made included.
fn least(turns: u32, mut work: impl FnMut() -> usize) -> f64 {
    let mut least = Duration::MAX;
    for _ in 0..turns {
        let start = Instant::now();
        black_box(work());
        least = least.min(start.elapsed());
    }
    least.as_secs_f64() * 1e6
}
