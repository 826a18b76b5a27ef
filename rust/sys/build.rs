//! Links libpeliranopi.a, which `./library` writes; PELIRANOPI_LIB names another folder that has it,
//! by its whole path.

use std::path::PathBuf;

fn main() {
    let built = PathBuf::from(env!("CARGO_MANIFEST_DIR")).join("../../target/staticlib");
    let folder = std::env::var_os("PELIRANOPI_LIB").map_or(built, PathBuf::from);
    let library = folder.join("libpeliranopi.a");
    println!("cargo:rerun-if-env-changed=PELIRANOPI_LIB");
    println!("cargo:rerun-if-changed={}", library.display());
    if !library.exists() {
        println!(
            "cargo:warning={} is missing: `./library` writes it, or PELIRANOPI_LIB names its folder",
            library.display()
        );
    }
    println!("cargo:rustc-link-search=native={}", folder.display());
    println!("cargo:rustc-link-lib=static=peliranopi");
}
