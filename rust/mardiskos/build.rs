//! Links the static library found in MARDISKOS_LIB_DIR, by default `build/lib` at the top of the repository.

use std::env;
use std::path::PathBuf;

fn main() {
    let here = PathBuf::from(env::var_os("CARGO_MANIFEST_DIR").unwrap());
    let folder = match env::var_os("MARDISKOS_LIB_DIR") {
        Some(folder) => PathBuf::from(folder),
        None => here.join("../../build/lib"),
    };
    let library = folder.join("libmardiskos.a");
    println!("cargo::rerun-if-env-changed=MARDISKOS_LIB_DIR");
    println!("cargo::rerun-if-changed={}", library.display());
    if !library.is_file() {
        println!("cargo::error={} is missing: run `sh tools/build` first", library.display());
    }
    println!("cargo::rustc-link-search=native={}", folder.display());
    println!("cargo::rustc-link-lib=static=mardiskos");
}
