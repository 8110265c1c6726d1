//! Tables, trees and runs shown to people as text (`treeshow`). What is shown comes from the proved library, through `proved` alone; the
//! other modules give it names and places.

pub mod escape;
pub mod input;
pub mod links;
pub mod names;
pub mod outline;
pub mod program;
pub mod proved;
pub mod refusal;
pub mod source;
pub mod text;
