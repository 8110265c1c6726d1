//! The run law of all 22 terminals. Values run as blocks; a value's store and an Optional's alternate are left out in both runs; an
//! Optional's no leaves the whole chain. The block run, the tree run, and the conditions under which they agree.

pub mod blocks;
pub mod conditions;
pub mod ends;
pub mod law;
pub mod tree;

/// Something that a run does.
#[derive(Clone, Copy, Debug, PartialEq, Eq)]
pub enum Step {
    /// An instruction row is performed.
    Row(u32),
    /// An identifier takes what another holds: a value's store, in the tree a load where a value ends.
    Move { to: u32, from: u32 },
}

/// Why a run stopped.
#[derive(Clone, Copy, Debug, PartialEq, Eq)]
pub enum Stop {
    /// With value and id, as `Threw`.
    Returned(u32, u32),
    Threw(u32, u32),
    /// An instruction row threw, and no Try is around it.
    RowThrew(u32),
    /// An answer was asked for and none was left.
    OutOfAnswers,
    /// An answer at a Switch is the place of no case: the law does not speak of such a list.
    NoSuchCase,
    /// The rest, to which no run comes of which the law speaks: an Unreachable or missing block, blocks that go round without an answer, a
    /// tree that ends, a jump that leaves it.
    Lost,
    Endless,
    EndOfTree,
    NoTarget,
}

impl Stop {
    /// A stop of which the law speaks.
    pub fn is_good(self) -> bool {
        matches!(self, Stop::Returned(..) | Stop::Threw(..) | Stop::RowThrew(_) | Stop::OutOfAnswers)
    }
}

#[derive(Debug, PartialEq, Eq)]
pub struct Run {
    pub steps: Vec<Step>,
    pub taken: usize,
    pub stop: Stop,
}

impl Run {
    /// The rows alone.
    pub fn performed(&self) -> Vec<u32> {
        let rows = self.steps.iter().filter_map(|step| match step {
            Step::Row(row) => Some(*row),
            Step::Move { .. } => None,
        });
        rows.collect()
    }
}

/// Which run is meant.
#[derive(Clone, Copy, Debug, Default, PartialEq, Eq)]
pub struct Kind {
    /// Each seen row may throw, by an outcome of its own.
    pub throws: bool,
    /// Where values go is told too.
    pub moves: bool,
    /// A ForOf's init runs once, and not in each round.
    pub once: bool,
}

/// What is given to a run: an answer at each test, and with throws an outcome for each row. 0 is no, or no throw, as is an outcome that
/// is missing.
#[derive(Clone, Copy, Debug)]
pub struct Given<'g> {
    pub answers: &'g [u32],
    pub outcomes: &'g [u32],
}

impl<'g> Given<'g> {
    pub fn answers(answers: &'g [u32]) -> Self {
        Self { answers, outcomes: &[] }
    }
}

/// What both runs share: what is done, and what is taken.
struct Log<'g> {
    kind: Kind,
    given: Given<'g>,
    steps: Vec<Step>,
    taken: usize,
    outcomes: usize,
}

impl<'g> Log<'g> {
    fn new(kind: Kind, given: Given<'g>) -> Self {
        Self { kind, given, steps: Vec::new(), taken: 0, outcomes: 0 }
    }

    fn answer(&mut self) -> Option<u32> {
        let answer = self.given.answers.get(self.taken).copied()?;
        self.taken += 1;
        Some(answer)
    }

    /// Performs a row, and says whether it throws.
    fn row(&mut self, row: u32) -> bool {
        self.steps.push(Step::Row(row));
        self.kind.throws && {
            self.outcomes += 1;
            self.given.outcomes.get(self.outcomes - 1).is_some_and(|outcome| *outcome != 0)
        }
    }

    fn moves(&mut self, to: u32, from: u32) {
        if self.kind.moves && to != from {
            self.steps.push(Step::Move { to, from });
        }
    }

    fn run(self, stop: Stop) -> Run {
        Run { steps: self.steps, taken: self.taken, stop }
    }
}
