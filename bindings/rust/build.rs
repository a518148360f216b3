//! Finds the library: the folder that MIZGALON_LIBRARY_DIR names, else the repository's own.

use std::{env, path::PathBuf};

fn main() {
    println!("cargo:rerun-if-env-changed=MIZGALON_LIBRARY_DIR");
    let own = || PathBuf::from(env!("CARGO_MANIFEST_DIR")).join("../../target/staticlib");
    let folder = env::var_os("MIZGALON_LIBRARY_DIR").map_or_else(own, PathBuf::from);
    let archive = folder.join("libmizgalon.a");
    if !archive.is_file() {
        panic!("{} is not there; make it with: bindings/build", archive.display());
    }
    println!("cargo:rerun-if-changed={}", archive.display());
    println!("cargo:rustc-link-search=native={}", folder.display());
    println!("cargo:rustc-link-lib=static=mizgalon");
}
