//! Links the engine's static library, which `staticlib.sh` writes to target/staticlib in the repository.
//! STACK_ASSEMBLY_LIB names another folder.

use std::path::PathBuf;

fn main() {
    println!("cargo::rerun-if-env-changed=STACK_ASSEMBLY_LIB");
    let repository = concat!(env!("CARGO_MANIFEST_DIR"), "/../../target/staticlib");
    let folder = std::env::var("STACK_ASSEMBLY_LIB").map_or_else(|_| PathBuf::from(repository), PathBuf::from);
    let library = folder.join("libstack_assembly_c.a");
    println!("cargo::rerun-if-changed={}", library.display());
    if !library.is_file() {
        println!("cargo::error={} is not there: run `staticlib.sh` first", library.display());
    }
    println!("cargo::rustc-link-search=native={}", folder.display());
    println!("cargo::rustc-link-lib=static=stack_assembly_c");
}
