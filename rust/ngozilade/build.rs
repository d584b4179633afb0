//! Links `libabi.a` from the folder that `NGOZILADE_LIB` names, else from the repository's `target/staticlib`.

use std::env;
use std::path::PathBuf;

fn main() {
    println!("cargo:rerun-if-env-changed=NGOZILADE_LIB");
    let folder = match env::var_os("NGOZILADE_LIB") {
        Some(folder) => PathBuf::from(folder),
        None => PathBuf::from(
            env::var_os("CARGO_MANIFEST_DIR").expect("cargo names the crate's folder"),
        )
        .join("../../target/staticlib"),
    };
    let archive = folder.join("libabi.a");
    println!("cargo:rerun-if-changed={}", archive.display());
    if !archive.is_file() {
        println!(
            "cargo:warning={} is missing: run `rust/run test` first",
            archive.display()
        );
    }
    println!("cargo:rustc-link-search=native={}", folder.display());
    println!("cargo:rustc-link-lib=static=abi");
}
