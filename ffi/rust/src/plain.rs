//! Which run law speaks of a table: whether the tree of a build runs as its blocks do.

use crate::Refusal;
use std::ffi::c_uint;

unsafe extern "C" {
    fn reactive_table_plain(words: *const u32, word_count: usize, at: *mut u32, number: *mut u32) -> c_uint;
}

/// The first law that speaks of a table.
#[derive(Clone, Copy, Debug, PartialEq, Eq)]
pub enum Law {
    /// No law.
    None,
    /// That of plain tables without Switch: the trees of both entries run as the blocks do.
    Plain,
    /// That with Switch: of [`build_language`](crate::build_language).
    Switches,
    /// That with the loops and switches that compilers make: of [`build_language`](crate::build_language), and of both entries where no
    /// block ends in Switch.
    Loops,
}

/// The law of a table's words, of any content and number, or the refusal 1 to 4.
///
/// ```
/// use reactive_build::table::{Ending, Table};
/// use reactive_build::plain::{Law, law};
///
/// let mut table = Table::default();
/// let named = table.identifier(true);
/// let value = table.place(named);
/// table.block(&[], Ending::Return { value }, 1, None);
/// assert_eq!(law(&table.words()), Ok(Law::Plain));
/// assert_eq!(law(&[0; 6]).unwrap_err().code, 3); // no blocks, so that the entry is none
/// ```
pub fn law(words: &[u32]) -> Result<Law, Refusal> {
    let (mut at, mut number) = (0, 0);
    // SAFETY: a slice gives a pointer that is not null, aligned and valid for its length; the two results are
    // borrowed for this call alone. The function reads and writes nothing else.
    let code = unsafe { reactive_table_plain(words.as_ptr(), words.len(), &mut at, &mut number) };
    match (code, number) {
        (0, 1) => Ok(Law::Plain),
        (0, 2) => Ok(Law::Switches),
        (0, 3) => Ok(Law::Loops),
        (0, _) => Ok(Law::None),
        _ => Err(Refusal { code, at }),
    }
}
