//! Stands in for the crate's `environment_config`, of which `mod.rs` has only the declaration.
