//! Stands in for the crate's `visitors`, of which `mod.rs` has only the declaration.
