//! A C compiler takes the header without a warning, as C and as C++, and hosts in C do what they should: one in tests/c, and the
//! one in docs/HOSTS.md.

use std::fs;
use std::path::{Path, PathBuf};
use std::process::Command;

fn folder(name: &str) -> PathBuf {
    Path::new(env!("CARGO_MANIFEST_DIR")).join(name)
}

fn compiler(language: &[&str]) -> Command {
    let mut command = Command::new("cc");
    command.args(["-Wall", "-Wextra", "-Werror", "-pedantic"]).args(language).arg("-I").arg(folder("../../include"));
    command
}

const LANGUAGES: [[&str; 3]; 4] =
    [["-x", "c", "-std=c99"], ["-x", "c", "-std=c11"], ["-x", "c++", "-std=c++11"], ["-x", "c++", "-std=c++17"]];

#[test]
fn the_header_is_c_and_cpp() {
    for language in LANGUAGES {
        let header = folder("../../include/stack_assembly.h");
        assert!(compiler(&language).arg("-fsyntax-only").arg(header).status().unwrap().success(), "{language:?}");
    }
}

/// The sizes and places that src/ffi.rs has.
#[test]
fn the_structs_are_laid_out_as_in_rust() {
    for language in [["-x", "c", "-std=c11"], ["-x", "c++", "-std=c++17"]] {
        let layout = folder("tests/c/layout.c");
        assert!(compiler(&language).arg("-fsyntax-only").arg(layout).status().unwrap().success(), "{language:?}");
    }
}

/// What a program prints that is linked with the engine.
fn printed(source: &Path, name: &str) -> String {
    let library = std::env::var("STACK_ASSEMBLY_LIB").map_or_else(|_| folder("../../target/staticlib"), PathBuf::from);
    let program = Path::new(env!("CARGO_TARGET_TMPDIR")).join(name);
    let mut build = compiler(&["-std=c11"]);
    build.arg(source).arg(library.join("libstack_assembly_c.a")).arg("-o").arg(&program);
    assert!(build.status().unwrap().success());
    String::from_utf8(Command::new(program).output().unwrap().stdout).unwrap()
}

#[test]
fn a_host_in_c() {
    assert_eq!(printed(&folder("tests/c/host.c"), "host"), "8 3 4\n3\n+\n31\n");
}

#[test]
fn the_host_in_the_document() {
    let document = fs::read_to_string(folder("../../docs/HOSTS.md")).unwrap();
    let block = |language: &str| {
        let (_, rest) = document.split_once(&format!("```{language}\n")).expect(language);
        rest.split_once("```").expect(language).0
    };
    let source = Path::new(env!("CARGO_TARGET_TMPDIR")).join("documented.c");
    fs::write(&source, block("c")).unwrap();
    assert_eq!(printed(&source, "documented"), block("text"));
}
