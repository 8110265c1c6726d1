//! Stands in for `oxc_index`: a number of its own type, to the least extent that the originals and the drop-in use.

/// As in `oxc_index`, `u32::MAX` is no number of it. The originals make an id by `from_usize` alone, so nothing else may
/// be used here:
///
/// ```
/// oxc_index::define_nonmax_u32_index_type! { pub struct Id; }
/// assert_eq!(Id::from_usize(7).index(), 7);
/// ```
///
/// ```compile_fail,E0599
/// oxc_index::define_nonmax_u32_index_type! { pub struct Id; }
/// Id::new(7);
/// ```
#[macro_export]
macro_rules! define_nonmax_u32_index_type {
    ($(#[$about:meta])* $visible:vis struct $name:ident;) => {
        $(#[$about])*
        #[derive(Debug, Clone, Copy, PartialEq, Eq, PartialOrd, Ord, Hash)]
        $visible struct $name(u32);

        impl $name {
            pub const MAX_INDEX: usize = u32::MAX as usize - 1;

            pub const fn from_usize(number: usize) -> Self {
                assert!(number <= Self::MAX_INDEX);
                Self(number as u32)
            }

            pub const fn index(self) -> usize {
                self.0 as usize
            }
        }
    };
}
