//! Links the proved static library, which `./run` makes in target/staticlib of the repository (tools/library.sh).
//! SIBUKYARAN_LIB_DIR names another folder that has it, such as the one that tools/install has filled.

use std::path::PathBuf;
use std::{env, process};

fn main() {
    println!("cargo:rerun-if-env-changed=SIBUKYARAN_LIB_DIR");
    let manifest = PathBuf::from(env::var_os("CARGO_MANIFEST_DIR").unwrap());
    let folder = env::var_os("SIBUKYARAN_LIB_DIR").map_or(manifest.join("../target/staticlib"), PathBuf::from);
    let archive = folder.join("libsibukyaran.a");
    if !archive.is_file() {
        eprintln!("{} is not there: run `./run` in the repository first", archive.display());
        process::exit(1);
    }
    println!("cargo:rerun-if-changed={}", archive.display());
    println!("cargo:rustc-link-search=native={}", folder.display());
    println!("cargo:rustc-link-lib=static=sibukyaran");
}
