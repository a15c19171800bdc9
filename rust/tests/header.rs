//! The header, as C and C++ read it: it compiles alone and without a warning, its version is the crate's, its structs have
//! the layout that the crate takes them to have, and examples/c does what it says.

mod common;

use std::mem::{align_of, offset_of, size_of};
use std::path::Path;
use std::process::Command;

use common::{Folder, at_hand, printed, repository, text};
use sibukyaran::lent;

/// A language by its compiler, its standard and its name for the option -x.
const LANGUAGES: [(&str, &str, &str); 2] = [("cc", "-std=c11", "c"), ("c++", "-std=c++17", "c++")];

/// A compiler of the language with every warning an error, and the header where it is looked for.
fn compiler((program, standard, name): (&str, &str, &str)) -> Command {
    let mut command = Command::new(program);
    command.args([standard, "-Wall", "-Wextra", "-Wpedantic", "-Werror", "-x", name, "-I"]);
    command.arg(repository().join("include"));
    command
}

/// What a program prints that is made of a source and the archive.
fn made(language: (&str, &str, &str), source: &Path, folder: &Folder) -> String {
    let program = folder.0.join(language.2);
    printed(compiler(language).arg(source).args(["-x", "none"]).arg(common::archive()).arg("-o").arg(&program));
    printed(&mut Command::new(program))
}

#[test]
fn the_header_compiles_alone() {
    let folder = Folder::new("alone");
    let source = folder.file("alone.c", "#include <sibukyaran.h>\n#include <sibukyaran.h>\n");
    for language in LANGUAGES.into_iter().filter(|language| at_hand(language.0)) {
        printed(compiler(language).arg("-fsyntax-only").arg(&source));
    }
}

#[test]
fn the_example_prints_what_it_says() {
    let folder = Folder::new("example");
    let expected = text("examples/c/averages.out");
    for language in LANGUAGES.into_iter().filter(|language| at_hand(language.0)) {
        let told = made(language, &repository().join("examples/c/averages.c"), &folder);
        assert_eq!(told, expected, "{}", language.2);
    }
}

/// What the header defines a name as.
fn defined(name: &str) -> String {
    let line = format!("#define SIBUKYARAN_{name} ");
    let header = text("include/sibukyaran.h");
    let value = header.lines().find_map(|text| text.strip_prefix(&line));
    value.unwrap_or_else(|| panic!("{name} is not defined")).into()
}

#[test]
fn the_version_is_the_crate_s() {
    let version = env!("CARGO_PKG_VERSION");
    assert_eq!(defined("VERSION"), format!("\"{version}\""));
    assert_eq!(["MAJOR", "MINOR", "PATCH"].map(|part| defined(&format!("VERSION_{part}"))).join("."), version);
}

/// Of each struct its name in the header, what the crate says of its size, alignment and offsets, and lines of C that print
/// what the header says of them.
macro_rules! layouts {
    ($($name:literal $of:ident { $($field:ident),* })*) => {
        [$({
            // All fields are listed, or this does not compile.
            let _ = |lent::$of { $($field: _),* }: lent::$of| ();
            let mut told = format!("{} {} {}\n", $name, size_of::<lent::$of>(), align_of::<lent::$of>());
            let mut c = format!("printf(\"{0} %zu %zu\\n\", sizeof(struct {0}), _Alignof(struct {0}));\n", $name);
            $(
                let field = stringify!($field);
                told += &format!("{} {}\n", field, offset_of!(lent::$of, $field));
                c += &format!("printf(\"{field} %zu\\n\", offsetof(struct {}, {field}));\n", $name);
            )*
            ($name, told, c)
        }),*]
    };
}

fn layouts() -> [(&'static str, String, String); 10] {
    layouts! {
        "sibukyaran_numbers" Numbers { refusal, value }
        "sibukyaran_truth" Truth { refusal, value }
        "sibukyaran_signed_digit" SignedDigit { refusal, value }
        "sibukyaran_plan_numbers" PlanNumbers { refusal, babies, giants, diagonals }
        "sibukyaran_pass_numbers" PassNumbers { refusal, passes, moves }
        "sibukyaran_tree_numbers" TreeNumbers { refusal, bits, pairs }
        "sibukyaran_pair_record" PairRecord { odd, even_there }
        "sibukyaran_file_room_numbers" FileRoomNumbers { refusal, pairs, values }
        "sibukyaran_file_map_numbers" FileMapNumbers { refusal, slots, count }
        "sibukyaran_keyed_numbers" KeyedNumbers { refusal, switches, finished, babies, giants, diagonals, pairs }
    }
}

#[test]
fn the_structs_have_one_layout() {
    let layouts = layouts();
    let header = text("include/sibukyaran.h");
    let structs = header.lines().filter_map(|line| line.strip_prefix("struct ")?.strip_suffix(" {"));
    assert_eq!(structs.collect::<Vec<_>>(), layouts.each_ref().map(|layout| layout.0), "all structs are listed");
    if at_hand("cc") {
        let folder = Folder::new("layouts");
        let lines: String = layouts.iter().map(|layout| layout.2.as_str()).collect();
        let program = format!("#include <sibukyaran.h>\n#include <stdio.h>\nint main(void) {{\n{lines}return 0;\n}}\n");
        let told = made(LANGUAGES[0], &folder.file("layouts.c", &program), &folder);
        assert_eq!(told, layouts.map(|layout| layout.1).concat());
    }
}
