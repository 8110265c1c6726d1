//! What the comparison programs share: their arguments, the library that must be linked, what is told
//! of differences and of what was never met, the status, and buffers to lend.

use std::fmt::{self, Display, Formatter};
use std::process::ExitCode;

/// A run this long meets everything, where the program does not say otherwise.
pub const LONG_ENOUGH: u64 = 20_000;

/// So many differences are told; the others are counted.
const TOLD: u64 = 10;

/// What a lent buffer holds before the call, and the words around it after it.
const STALE: u8 = 7;
const AROUND: usize = 16;

/// `[TABLES [SEED ..]]` of the program, 100,000 and 1 if they are left out, and the numbers after them.
pub fn arguments() -> (u64, u64, impl Iterator<Item = u64>) {
    let mut given = std::env::args().skip(1).map(|word| word.parse().expect("a number"));
    let (tables, seed) = (given.next().unwrap_or(100_000), given.next().unwrap_or(1));
    (tables, seed, given)
}

/// A program that compares a part of the proved library with the model, given the part, TABLES and SEED. It
/// fails where the library is not linked.
pub fn with_library<L>(
    name: &str,
    library: Option<L>,
    compare: fn(L, u64, u64) -> Verdict,
) -> ExitCode {
    let (tables, seed, _) = arguments();
    let Some(library) = library else {
        let said = name.replace('-', " ");
        println!("{said}: FAILED: the proved library is not linked (feature candidate)");
        return ExitCode::FAILURE;
    };
    compare(library, tables, seed).status()
}

/// Counts a difference, and says whether it is one of those to tell.
pub fn count_and_tell(differences: &mut u64) -> bool {
    *differences += 1;
    *differences <= TOLD
}

/// How a comparison came out. Shown as the numbers of differences and of things not met.
pub struct Verdict {
    differences: u64,
    is_long: bool,
    missing: u64,
}

impl Verdict {
    /// `is_long`: the run meets everything that it needs.
    pub fn of(differences: u64, is_long: bool) -> Self {
        Self { differences, is_long, missing: 0 }
    }

    /// What a long run meets, and how often this one did.
    pub fn need(&mut self, what: impl Display, times: u64) {
        if self.is_long && times == 0 {
            println!("never met: {what}");
            self.missing += 1;
        }
    }

    pub fn status(&self) -> ExitCode {
        if self.differences == 0 && self.missing == 0 {
            ExitCode::SUCCESS
        } else {
            ExitCode::FAILURE
        }
    }
}

impl Display for Verdict {
    fn fmt(&self, out: &mut Formatter) -> fmt::Result {
        write!(out, "{} differences, {} not met", self.differences, self.missing)
    }
}

/// Words or bytes as they stand before a call.
pub fn stale<T: Clone + From<u8>>(length: usize) -> Vec<T> {
    vec![T::from(STALE); length]
}

/// A buffer to lend, stale, with words around it that must stay.
pub struct Room<T>(Vec<T>);

impl<T: Clone + From<u8> + PartialEq> Room<T> {
    pub fn new(length: usize) -> Self {
        Self(stale(length + 2 * AROUND))
    }

    pub fn lent(&mut self) -> &mut [T] {
        let end = self.0.len() - AROUND;
        &mut self.0[AROUND..end]
    }

    pub fn is_kept(&self) -> bool {
        let end = self.0.len() - AROUND;
        self.0[..AROUND].iter().chain(&self.0[end..]).all(|word| *word == T::from(STALE))
    }
}

#[test]
fn a_word_beside_the_buffer_is_noticed() {
    let mut room = Room::<u32>::new(3);
    room.lent().fill(0);
    assert!(room.is_kept());
    for beside in [0, AROUND - 1, AROUND + 3, 2 * AROUND + 2] {
        let mut room = Room::<u32>::new(3);
        room.0[beside] = 0;
        assert!(!room.is_kept());
    }
}
