//! Stands in for the crate's `globals`, of which `mod.rs` has only the declaration.
