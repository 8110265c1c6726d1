//! `build_reactive_function` over the proved library (crate `reactive_build`), by the Rust's own signature.
//!
//! A tree is the library's. Where the library gives none (a limit, a refusal, another machine, the feature `proved` left
//! out), the Rust's own function is asked, so that every diagnostic and every panic is the Rust's own.

// A crate in which this module is private uses a part of it alone.
#[allow(dead_code)]
#[cfg(all(feature = "proved", target_arch = "x86_64", target_pointer_width = "64", target_os = "linux"))]
pub mod library;

use oxc_diagnostics::OxcDiagnostic;

use crate::react_compiler_hir::environment::Environment;
use crate::react_compiler_hir::{HirFunction, ReactiveFunction};
use crate::react_compiler_reactive_scopes::build_reactive_function::build_reactive_function as rust;

/// Convert the HIR CFG into a tree-structured ReactiveFunction.
pub fn build_reactive_function<'a>(
    hir: &HirFunction<'a>,
    env: &Environment<'a>,
) -> Result<ReactiveFunction<'a>, OxcDiagnostic> {
    #[cfg(all(feature = "proved", target_arch = "x86_64", target_pointer_width = "64", target_os = "linux"))]
    if let Ok(function) = library::build_reactive_function(hir, env) {
        return Ok(function);
    }
    rust(hir, env)
}
