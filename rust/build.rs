//! Links the proved archive: libritm.a in the folder RITM_LIB_DIR, by default where
//! `board/build-archive` writes that of the target's architecture.

use std::env;
use std::path::PathBuf;
use std::process;

fn main() {
    println!("cargo:rerun-if-env-changed=RITM_LIB_DIR");
    let folder = match env::var_os("RITM_LIB_DIR") {
        Some(folder) => PathBuf::from(folder),
        None => default_folder(),
    };
    let archive = folder.join("libritm.a");
    if !archive.is_file() {
        fail(&format!(
            "{} is missing: build it with `board/build-archive`, or name its folder in RITM_LIB_DIR",
            archive.display()
        ));
    }
    println!("cargo:rerun-if-changed={}", archive.display());
    println!("cargo:rustc-link-search=native={}", folder.display());
    println!("cargo:rustc-link-lib=static=ritm");
}

fn default_folder() -> PathBuf {
    let manifest = env::var_os("CARGO_MANIFEST_DIR").expect("cargo sets the manifest's folder");
    let architecture = env::var("CARGO_CFG_TARGET_ARCH").expect("cargo sets the target's architecture");
    PathBuf::from(manifest).join(match architecture.as_str() {
        "x86_64" => "../target/staticlib",
        "aarch64" => "../target/staticlib/aarch64",
        _ => fail(&format!("there is no archive for {architecture}, only for x86_64 and aarch64")),
    })
}

/// Says in one line what is wrong, which cargo shows.
fn fail(message: &str) -> ! {
    eprintln!("{message}");
    process::exit(1)
}
