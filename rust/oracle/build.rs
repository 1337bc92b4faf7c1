//! Imports the six files by import.sh into the build's own folder.

use std::process::Command;

fn main() {
    println!("cargo::rerun-if-env-changed=STACK_ASSEMBLY_SRC");
    println!("cargo::rerun-if-changed=import.sh");
    println!("cargo::rerun-if-changed=SHA256SUMS");
    let folder = std::env::var("OUT_DIR").expect("cargo names it");
    let import = Command::new("./import.sh").arg(folder).status().expect("a shell is at hand");
    if !import.success() {
        println!("cargo::error=the Rust's six files could not be imported: see oracle/import.sh");
    }
}
