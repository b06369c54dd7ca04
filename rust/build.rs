//! Finds libengine.a and libdesk.a: in the folder that SULGHETI_LIB names, or in ../target/staticlib.

use std::env;
use std::path::PathBuf;

fn main() {
    println!("cargo:rerun-if-env-changed=SULGHETI_LIB");
    let folder = match env::var_os("SULGHETI_LIB") {
        Some(folder) => PathBuf::from(folder),
        None => PathBuf::from(env::var_os("CARGO_MANIFEST_DIR").unwrap()).join("../target/staticlib"),
    };
    for name in ["engine", "desk"] {
        let archive = folder.join(format!("lib{name}.a"));
        println!("cargo:rerun-if-changed={}", archive.display());
        if !archive.is_file() {
            panic!(
                "{} is missing: run tools/archives.sh in the repository's root, or set SULGHETI_LIB to the archives' folder",
                archive.display()
            );
        }
        println!("cargo:rustc-link-lib=static={name}");
    }
    println!("cargo:rustc-link-search=native={}", folder.display());
}
