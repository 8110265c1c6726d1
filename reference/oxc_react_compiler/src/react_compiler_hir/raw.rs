//! Stands in for the crate's `raw`: the name that `mod.rs` gives on.

#[derive(Debug, Clone, Copy, PartialEq, Eq)]
pub enum RawTypeCategory {}
