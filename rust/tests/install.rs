//! tools/install: what it puts where, and that C finds it there.

mod common;

use std::fs;
use std::os::unix::fs::PermissionsExt;
use std::path::{Path, PathBuf};
use std::process::Command;

use common::{Folder, at_hand, printed, repository, text};

fn tool() -> Command {
    let mut tool = Command::new(repository().join("tools/install"));
    tool.env("SIBUKYARAN_LIB_DIR", fs::canonicalize(common::archive()).unwrap().parent().unwrap());
    tool
}

/// The files below a folder, by their paths in it.
fn files_below(folder: &Path) -> Vec<PathBuf> {
    let mut files = Vec::new();
    for entry in fs::read_dir(folder).unwrap() {
        let path = entry.unwrap().path();
        match path.is_dir() {
            true => files.extend(files_below(&path).iter().map(|file| path.join(file))),
            false => files.push(path),
        }
    }
    files.sort();
    files.iter().map(|file| file.strip_prefix(folder).unwrap().to_path_buf()).collect()
}

/// What a program prints that is made of the example with the flags that pkg-config has for the folder.
fn example_with(prefix: &Path, folder: &Folder) -> String {
    let asked = |option: &str| {
        let mut command = Command::new("pkg-config");
        printed(command.env("PKG_CONFIG_PATH", prefix.join("lib/pkgconfig")).args([option, "sibukyaran"]))
    };
    assert_eq!(asked("--modversion").trim(), env!("CARGO_PKG_VERSION"));
    let program = folder.0.join("averages");
    let mut cc = Command::new("cc");
    cc.arg("-std=c11").arg(repository().join("examples/c/averages.c"));
    printed(
        cc.args(asked("--cflags").split_whitespace()).args(asked("--libs").split_whitespace()).arg("-o").arg(&program),
    );
    printed(&mut Command::new(program))
}

#[test]
fn a_folder_is_asked_for() {
    for arguments in [&[][..], &[""], &["a", "b"]] {
        let output = tool().args(arguments).output().unwrap();
        assert_eq!(output.status.code(), Some(2), "{arguments:?}");
        assert_eq!(String::from_utf8(output.stderr).unwrap(), "usage: tools/install PREFIX\n");
        assert!(output.stdout.is_empty());
    }
}

#[test]
fn nothing_is_installed_without_an_archive() {
    let folder = Folder::new("nothing");
    let output = tool().env("SIBUKYARAN_LIB_DIR", &folder.0).arg(folder.0.join("prefix")).output().unwrap();
    assert_eq!(output.status.code(), Some(1));
    assert!(String::from_utf8(output.stderr).unwrap().ends_with("libsibukyaran.a is not there\n"));
    assert_eq!(fs::read_dir(&folder.0).unwrap().count(), 0);
}

#[test]
fn four_files_are_installed_and_found() {
    let folder = Folder::new("install");
    // Over what is there already, too.
    for _ in 0..2 {
        printed(tool().current_dir(&folder.0).arg("prefix"));
    }
    let prefix = fs::canonicalize(folder.0.join("prefix")).unwrap();
    let files = ["bin/sibukyaran", "include/sibukyaran.h", "lib/libsibukyaran.a", "lib/pkgconfig/sibukyaran.pc"];
    assert_eq!(files_below(&prefix), files.map(PathBuf::from));
    let mode = |file: &str| fs::metadata(prefix.join(file)).unwrap().permissions().mode() & 0o777;
    assert_eq!(files.map(mode), [0o755, 0o644, 0o644, 0o644]);
    assert_eq!(fs::read_to_string(prefix.join(files[1])).unwrap(), text("include/sibukyaran.h"));
    assert!(
        fs::read(prefix.join(files[2])).unwrap() == fs::read(common::archive()).unwrap(),
        "the archive is the same"
    );
    let pc = fs::read_to_string(prefix.join(files[3])).unwrap();
    assert_eq!(pc.lines().next(), Some(format!("prefix={}", prefix.display()).as_str()));
    if at_hand("pkg-config") && at_hand("cc") {
        assert_eq!(example_with(&prefix, &folder), text("examples/c/averages.out"));
    }
}
