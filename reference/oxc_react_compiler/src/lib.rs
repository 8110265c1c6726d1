//! `build_reactive_function` of oxc_react_compiler 0.143.0 and all types of its HIR, unchanged, over stand-ins.
//! The README beside this crate says which file is which.

pub mod diagnostics;
pub mod observed;
// Some of it serves modules that are not here.
#[allow(dead_code)]
pub mod react_compiler_hir;
pub mod react_compiler_reactive_scopes;
pub mod react_compiler_utils;
