//! Stands in for the crate's `react_compiler_utils`: its maps.

pub mod ordered_map;

pub use ordered_map::OrderedMap;
