//! Names the folder of RITM's sources to the compiler, and chooses the platform.

use std::path::PathBuf;
use std::{env, fs};

/// RITM's platform.rs includes OUT_DIR/platform.rs, which RITM's own build writes to choose the platform.
const CHOICE: &str = r#"include!(concat!(env!("CARGO_MANIFEST_DIR"), "/src/platform_choice.rs"));"#;

fn main() {
    println!("cargo::rerun-if-changed=build.rs");
    let sources = env::var("DEP_RITM_SOURCES_FOLDER").expect("memory_access found RITM's sources");
    println!("cargo::rustc-env=RITM_SOURCES={sources}");
    let out = PathBuf::from(env::var_os("OUT_DIR").expect("cargo sets the output folder"));
    fs::write(out.join("platform.rs"), CHOICE).expect("OUT_DIR takes a file");
}
