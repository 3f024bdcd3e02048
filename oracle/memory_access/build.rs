//! Finds RITM's sources, and names RITM's file as a module.
//!
//! The file begins with an inner attribute, which `include!` refuses and a module file may have, so OUT_DIR/source.rs
//! names it as a module. As the crate's root, or by a `#[path]` in lib.rs, `cargo fmt` would rewrite it.

use std::path::{Path, PathBuf};
use std::{env, fs};

fn main() {
    println!("cargo::rerun-if-changed=build.rs");
    println!("cargo::rerun-if-env-changed=RITM_SRC");
    let folder = sources();
    println!("cargo::metadata=folder={}", folder.display());
    let file = folder.join("memory_access/src/lib.rs");
    let out = PathBuf::from(env::var_os("OUT_DIR").expect("cargo sets the output folder"));
    fs::write(out.join("source.rs"), format!("#[path = {file:?}]\nmod source;\n")).expect("OUT_DIR takes a file");
}

/// The folder RITM_SRC; a relative one counts from the workspace's.
fn sources() -> PathBuf {
    let named = env::var_os("RITM_SRC").expect("RITM_SRC names the folder of RITM's sources");
    let workspace = Path::new(env!("CARGO_MANIFEST_DIR")).parent().expect("the crate stands in the workspace");
    let folder = workspace.join(named);
    fs::canonicalize(&folder).unwrap_or_else(|error| panic!("RITM_SRC is {}: {error}", folder.display()))
}
