//! Reading checked words by table, row and column.

/// The names of each table's columns, the head first, in the order of the words.
pub const NAMES: [&str; 6] = [
    "entry blocks instructions cases places identifiers",
    "first count code a b c d e id from to",
    "id lvalue code p q from to",
    "test block",
    "identifier",
    "named",
];

/// How many words a row of each table has.
pub const WIDTHS: [usize; 6] = [
    names_in(NAMES[0]),
    names_in(NAMES[1]),
    names_in(NAMES[2]),
    names_in(NAMES[3]),
    names_in(NAMES[4]),
    names_in(NAMES[5]),
];

pub const HEAD_WORDS: usize = WIDTHS[0];
pub const BLOCK_WORDS: usize = WIDTHS[1];
pub const INSTRUCTION_WORDS: usize = WIDTHS[2];
pub const CASE_WORDS: usize = WIDTHS[3];

pub type BlockRow = [u32; BLOCK_WORDS];
pub type InstructionRow = [u32; INSTRUCTION_WORDS];

const fn names_in(line: &str) -> usize {
    let (mut names, mut at) = (1, 0);
    while at < line.len() {
        if line.as_bytes()[at] == b' ' {
            names += 1;
        }
        at += 1;
    }
    names
}

/// Where something stands in the source: handed on as one thing, taken apart by the rows alone.
#[derive(Clone, Copy, Debug, PartialEq, Eq)]
pub struct Span {
    pub from: u32,
    pub to: u32,
}

/// The most rows that each table may have, in the order of the head.
pub const LIMITS: [u32; 5] = [1_024, 4_096, 1_024, 4_096, 4_096];

/// The words, and where each table begins.
#[derive(Clone, Copy)]
pub struct Table<'w> {
    pub words: &'w [u32],
    pub instructions: usize,
    pub cases: usize,
    pub places: usize,
    pub identifiers: usize,
    /// The length that the head asks for.
    pub end: usize,
}

impl<'w> Table<'w> {
    /// Takes six words or more, with every count within its limit.
    pub fn of(words: &'w [u32]) -> Self {
        let count = |at: usize| words[at] as usize;
        let instructions = HEAD_WORDS + BLOCK_WORDS * count(1);
        let cases = instructions + INSTRUCTION_WORDS * count(2);
        let places = cases + CASE_WORDS * count(3);
        let identifiers = places + count(4);
        Self { words, instructions, cases, places, identifiers, end: identifiers + count(5) }
    }

    pub fn entry(&self) -> u32 {
        self.words[0]
    }

    pub fn block(&self, row: u32) -> &'w BlockRow {
        self.row(HEAD_WORDS, row)
    }

    pub fn instruction(&self, row: u32) -> &'w InstructionRow {
        self.row(self.instructions, row)
    }

    pub fn case(&self, row: u32) -> &'w [u32; CASE_WORDS] {
        self.row(self.cases, row)
    }

    pub fn identifier_of(&self, place: u32) -> u32 {
        self.words[self.places + place as usize]
    }

    pub fn is_named(&self, identifier: u32) -> bool {
        self.words[self.identifiers + identifier as usize] == 1
    }

    fn row<const WIDTH: usize>(&self, table: usize, row: u32) -> &'w [u32; WIDTH] {
        let first = table + WIDTH * row as usize;
        self.words[first..first + WIDTH].try_into().expect("a slice of the row's width")
    }
}
