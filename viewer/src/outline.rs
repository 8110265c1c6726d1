//! The lines of a tree, by the crate.

pub use reactive_build::outline::{Line, lines, roles};
