// What the build scripts of the reference's crates share: each source file is copied whole and
// unchanged, with public accessors to its private functions appended, and a module tree is written
// over the copies.

use std::{env, fs, path::PathBuf};

/// A module of the reference: its name, its file below the source folder, and what is appended to the copy.
pub struct Part {
    pub module: &'static str,
    pub file: &'static str,
    pub appended: &'static str,
}

/// Writes the copies and `reference.rs`, whose module `layouts` holds the parts and passes on their names.
pub fn assemble(parts: &[Part]) {
    println!("cargo:rerun-if-env-changed=POULPY_SRC");
    println!("cargo:rerun-if-changed=../assemble.rs");
    println!("cargo:rerun-if-changed=build.rs");
    let source = PathBuf::from(env::var("POULPY_SRC").expect("POULPY_SRC names the folder of the reference's files"));
    let out = PathBuf::from(env::var("OUT_DIR").unwrap());
    let mut tree = String::from("pub mod layouts {\n");
    for part in parts {
        let from = source.join(part.file);
        println!("cargo:rerun-if-changed={}", from.display());
        let text = fs::read_to_string(&from).unwrap_or_else(|e| panic!("{}: {e}", from.display()));
        let copy = out.join(format!("{}.rs", part.module));
        fs::write(&copy, format!("{text}\n{}", part.appended)).unwrap();
        tree += &format!("    #[path = {:?}]\n    pub mod {};\n    pub use {}::*;\n", copy, part.module, part.module);
    }
    tree += "}\n";
    fs::write(out.join("reference.rs"), tree).unwrap();
}
