//! The drop-in as a crate of its own. `proved` is the module that a compiler puts into its crate, as it is
//! (docs/FROM-YOUR-HIR.md); what it finds there under `crate` it finds here by these lines.

#[allow(unused_imports)] // without the feature
use oxc_react_compiler::diagnostics;
use oxc_react_compiler::{react_compiler_hir, react_compiler_reactive_scopes};

pub mod proved;
