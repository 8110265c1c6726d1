//! Stands in for the crate's `default_module_type_provider`, of which `mod.rs` has only the declaration.
