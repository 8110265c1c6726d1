//! Where the library is: the folder that REACTIVE_BUILD_DIR names; else `lib` beside this crate, as in the package; else
//! target/staticlib of the repository, where `./run library` puts it. Linked is its libreactive.a, which has everything. Where there is
//! none, `cargo doc` and `cargo check` work all the same, and a warning says why a build fails.

use std::env;
use std::path::PathBuf;

fn main() {
    println!("cargo::rerun-if-env-changed=REACTIVE_BUILD_DIR");
    let folder = match env::var_os("REACTIVE_BUILD_DIR") {
        Some(named) => from_where_cargo_was_started(PathBuf::from(named)),
        None => beside(),
    };
    let archive = folder.join("libreactive.a");
    println!("cargo::rerun-if-changed={}", archive.display());
    if !archive.is_file() {
        let missing = "`./run library` writes it, or REACTIVE_BUILD_DIR names its folder; nothing links without it";
        println!("cargo::warning=no libreactive.a in {}: {missing}", folder.display());
    }
    println!("cargo::rustc-link-search=native={}", folder.display());
    println!("cargo::rustc-link-lib=static=reactive");
}

/// This script is run in the crate's own folder.
fn from_where_cargo_was_started(named: PathBuf) -> PathBuf {
    if named.is_relative() {
        println!("cargo::rerun-if-env-changed=PWD");
        env::var_os("PWD").map(PathBuf::from).unwrap_or_default().join(named)
    } else {
        named
    }
}

fn beside() -> PathBuf {
    let own = PathBuf::from(env::var_os("CARGO_MANIFEST_DIR").expect("cargo sets it"));
    let packed = own.join("../lib");
    if packed.join("libreactive.a").is_file() { packed } else { own.join("../../target/staticlib") }
}
