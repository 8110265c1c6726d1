//! Stands in for `oxc_str`: names, which the walk copies and never looks into.

use std::fmt::{self, Display, Formatter};

use oxc_allocator::{Allocator, CloneIn, CloneInSemanticIds};

macro_rules! names {
    ($($name:ident),*) => { $(
        #[derive(Debug, Clone, Copy, PartialEq, Eq, Hash)]
        pub struct $name<'a>(pub &'a str);

        impl<'a> $name<'a> {
            pub fn as_str(&self) -> &'a str {
                self.0
            }
        }

        impl<'a> From<&'a str> for $name<'a> {
            fn from(text: &'a str) -> Self {
                Self(text)
            }
        }

        impl PartialEq<&str> for $name<'_> {
            fn eq(&self, text: &&str) -> bool {
                self.0 == *text
            }
        }

        impl<'a> CloneIn<'a> for $name<'a> {
            type Cloned = Self;

            fn clone_in_impl(&self, _: CloneInSemanticIds, _: &'a Allocator) -> Self {
                *self
            }
        }

        impl Display for $name<'_> {
            fn fmt(&self, out: &mut Formatter) -> fmt::Result {
                out.write_str(self.0)
            }
        }
    )* };
}

names!(Ident, Str);
