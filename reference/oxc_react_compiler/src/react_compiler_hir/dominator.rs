//! Stands in for the crate's `dominator`, of which `mod.rs` has only the declaration.
