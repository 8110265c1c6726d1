//! Why there is no answer: a code, a place, and the sentence that docs/FORMAT.md has for them.

use std::error::Error;
use std::fmt::{self, Display, Formatter};

/// Why there is no answer. As text it is the code, what `at` counts, and the sentence of docs/FORMAT.md, "Refusals".
///
/// ```
/// use reactive_build::Refusal;
/// use reactive_build::code;
///
/// let refusal = Refusal { code: code::CONTINUE_SCHEDULED, at: 1 };
/// assert_eq!(refusal.to_string(), "15 at block 1: The continue block of a loop is scheduled already.");
/// ```
#[derive(Clone, Copy, Debug, PartialEq, Eq, Hash)]
pub struct Refusal {
    /// One of [`code`].
    pub code: u32,
    /// A byte of the file, a word of the table, a block or a row of the tree, or 0: [`Refusal::at_counts`].
    pub at: u32,
}

impl Refusal {
    /// What is meant by `at`: it begins with `byte`, `word`, `block` or `row`, or is `0`; none of a code that there is not.
    pub fn at_counts(&self) -> Option<&'static str> {
        self.line().map(|(_, at, _)| *at)
    }

    /// The sentence of docs/FORMAT.md; none of a code that there is not.
    pub fn sentence(&self) -> Option<&'static str> {
        self.line().map(|(_, _, sentence)| *sentence)
    }

    fn line(&self) -> Option<&'static (u32, &'static str, &'static str)> {
        LINES.iter().find(|(code, ..)| *code == self.code)
    }
}

impl Display for Refusal {
    fn fmt(&self, out: &mut Formatter) -> fmt::Result {
        let Self { code, at } = self;
        match self.line() {
            Some((_, "0", sentence)) => write!(out, "{code}: {sentence}"),
            Some((_, counts, sentence)) => {
                let what = counts.split([' ', ':']).next().unwrap_or_default();
                write!(out, "{code} at {what} {at}: {sentence}")
            }
            None => write!(out, "{code} at {at}: no code of this library"),
        }
    }
}

impl Error for Refusal {}

/// What a check gives.
#[derive(Clone, Copy, Debug, PartialEq, Eq)]
pub struct Checked {
    /// 0, or one of [`code`].
    pub code: u32,
    /// The refusal's place ([`Refusal::at_counts`]); 0 where there is none.
    pub at: u32,
}

impl Checked {
    /// The refusal, if it is one.
    pub fn result(&self) -> Result<(), Refusal> {
        let Self { code, at } = *self;
        if code == 0 { Ok(()) } else { Err(Refusal { code, at }) }
    }
}

/// A code's constant, and its line of docs/FORMAT.md. tests/format.rs holds them to that page.
macro_rules! refusals {
    ($($name:ident = $code:literal, $at:literal, $sentence:literal;)+) => {
        /// The codes of refusals. 0 is none.
        pub mod code {
            $(#[doc = $sentence] pub const $name: u32 = $code;)+
        }

        /// Every code with its name, what `at` counts, and its sentence.
        pub const CODES: &[(u32, &str)] = &[$(($code, stringify!($name))),+];

        const LINES: &[(u32, &str, &str)] = &[$(($code, $at, $sentence)),+];
    };
}

refusals! {
    WORD_COUNT = 1, "0", "There are fewer than six words, or not as many as the head says.";
    COUNT_LIMIT = 2, "word of the head", "A count is over its limit: blocks 1,024, instructions 4,096, cases 1,024, places 4,096, identifiers 4,096.";
    ENTRY = 3, "0", "The entry is no block.";
    WORD = 4, "word", "The column does not allow this word, or a `to` is below its `from`.";
    MISSING_BLOCK = 10, "block that is missing", "A block is named that is not there: its code is 0.";
    EMITTED = 11, "block", "The block was emitted before.";
    CONSEQUENT_SCHEDULED = 12, "block: the consequent", "The consequent of an If is scheduled already.";
    ALTERNATE_SCHEDULED = 13, "block: the alternate", "The alternate of an If is scheduled already.";
    CASE_SCHEDULED = 14, "block with the Switch", "The block of a case is scheduled already.";
    CONTINUE_SCHEDULED = 15, "block: the continue block", "The continue block of a loop is scheduled already.";
    LOOP_SCHEDULED = 16, "block with the loop", "The loop block is scheduled already, or is the fallthrough.";
    LABEL_SCHEDULED = 17, "block with the Label", "The block of a Label is scheduled already.";
    SCOPE_SCHEDULED = 18, "block with the Scope", "The block of a Scope is scheduled already.";
    BRANCH_SCHEDULED = 19, "block with the Branch", "The alternate of a Branch is scheduled already.";
    NO_BREAK_TARGET = 20, "block: the target", "No open statement ends where a break goes.";
    NO_CONTINUE_TARGET = 21, "block: the target", "No open loop continues where a continue goes.";
    SCOPE_BREAK = 22, "block with the Goto", "A break out of a scope is not Implicit.";
    FALLTHROUGH_REACHED = 23, "block: the fallthrough", "The fallthrough of a value was reached before its end.";
    EMPTY_GOTO = 24, "block", "A block of a value is only a Goto.";
    TEST_WITHOUT_BRANCH = 25, "block with the value", "A test does not end in a Branch.";
    LABEL_IN_VALUE = 26, "block", "A Label stands in a value.";
    NOT_A_VALUE = 27, "block", "A terminal stands in a value that no value has.";
    EMPTY_MAYBE_THROW = 28, "block", "A MaybeThrow with no instruction stands as a value.";
    NO_LABEL = 29, "block with the Goto or Branch", "By the rule of the language: no statement around a Labeled jump has the label that it names; of a continue, its own loop has not.";
    DEPTH = 30, "block not visited", "The walk is deeper than 128 visits.";
    VISITS = 31, "block not visited", "The walk has more than 8,192 visits.";
    ROWS_LENT = 40, "0", "The tree has more rows than were lent: `rows` is the number needed.";
    LINES_LENT = 41, "0", "The tree has more labelled rows than lines were lent for the index.";
    LABEL_NOT_FOUND = 42, "0", "No line of the index has the label.";
    LINE_NOT_OF_TREE = 43, "0", "The line with the label does not fit the tree: its first row is after its closing row, or its closing row is beyond the rows.";
    DRAWING_LENT = 44, "0", "The text of the drawing is longer than the lent buffer.";
    LENGTH_LENT = 45, "0", "An output of the rearrangement, or of its inverse, is shorter or longer than just needed.";
    NO_PERMUTATION = 46, "0", "The list handed to the inverse is no permutation of the block numbers.";
    FORM = 50, "byte of the file", "The file is not in the form: no good file has this byte here, or the file ends too early.";
    FILE_LENGTH = 51, "0", "The file is too long: a table has at most 32,768 bytes, a file of rows 262,144.";
    TWO_ENDS = 52, "word", "A `to` differs from its `from`: the old form has one end.";
    TEXT_LENT = 53, "0", "The written text is longer than the lent buffer.";
    WORDS_LENT = 54, "0", "The file has more words than were lent.";
    ROW_OUT_OF_RANGE = 60, "row", "The op of this row, or one of its columns, is out of range.";
    PARTS_MISSING = 61, "row", "This row does not find its parts before it.";
    NOT_ONE_TREE = 62, "0", "The rows are not one tree: no row, over 2,048 rows, words that are no multiple of six, or something else left at the end than one BLOCK.";
    NO_TARGET = 63, "row", "This jump was reached, and nothing around it is a target of its sort.";
    NOT_RUN = 64, "row", "LOGICAL, COND, OPTIONAL, TRY, FOROF and FORIN are not run.";
    PERFORMED_LENT = 65, "row", "The lent buffer has no room for the instruction of this PLAIN.";
}
