//! Numbers of rows, each sort a type of its own, so that a block is not taken for a place.

use std::fmt::{self, Display, Formatter};

macro_rules! rows {
    ($($(#[$about:meta])* $name:ident;)+) => { $(
        $(#[$about])*
        #[derive(Clone, Copy, Debug, Default, PartialEq, Eq, PartialOrd, Ord, Hash)]
        #[repr(transparent)]
        pub struct $name(
            /// The row's number.
            pub u32,
        );

        /// To index with.
        impl From<$name> for usize {
            fn from(row: $name) -> Self {
                row.0 as Self
            }
        }

        impl Display for $name {
            fn fmt(&self, out: &mut Formatter) -> fmt::Result {
                self.0.fmt(out)
            }
        }
    )+ };
}

rows! {
    /// A block: its row in the table. As a label it is the block that a statement goes on with, by which jumps name the statement.
    BlockRow;
    /// A place, one use of an identifier: its row in the table.
    PlaceRow;
    /// An identifier, a variable or a temporary: its row in the table.
    IdentifierRow;
    /// An instruction: its row in the table.
    InstructionRow;
}

/// The number of the last of so many rows. Beyond 4,294,967,295 it is that number for each: the build refuses it.
pub(crate) fn last(rows: usize) -> u32 {
    u32::try_from(rows.saturating_sub(1)).unwrap_or(u32::MAX)
}

/// A count of rows as a word. Beyond 4,294,967,295 it is that number: the build refuses it.
pub(crate) fn count(rows: usize) -> u32 {
    u32::try_from(rows).unwrap_or(u32::MAX)
}

#[cfg(test)]
mod tests {
    use super::{count, last};

    #[test]
    fn numbers_do_not_begin_anew() {
        let most = u32::MAX as usize;
        assert_eq!([last(1), last(most), last(most + 1), last(most + 2)], [0, u32::MAX - 1, u32::MAX, u32::MAX]);
        assert_eq!([count(0), count(most), count(most + 1), count(usize::MAX)], [0, u32::MAX, u32::MAX, u32::MAX]);
    }
}
