//! The reference beside a model of paper 01.

pub mod candidate;
pub mod coverage;
pub mod features;
pub mod generate;
pub mod harness;
pub mod language;
pub mod law;
pub mod model;
pub mod parts;
pub mod reference;
pub mod rng;
pub mod runs;
pub mod select;
pub mod vector;
pub mod wide;
