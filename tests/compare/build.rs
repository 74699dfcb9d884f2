//! Links libhankboulder.a, from the folder that HANKBOULDER_LIB_DIR names or
//! else from where `make` writes it. A relative folder counts from this
//! package.

use std::env;
use std::path::PathBuf;

const LIB_DIR: &str = "HANKBOULDER_LIB_DIR";

fn main() {
    let package = PathBuf::from(env::var_os("CARGO_MANIFEST_DIR").expect("cargo sets it"));
    let folder = env::var_os(LIB_DIR).unwrap_or_else(|| "../../target/staticlib".into());
    let folder = package.join(folder);
    println!("cargo:rustc-link-search=native={}", folder.display());
    println!("cargo:rustc-link-lib=static=hankboulder");
    println!("cargo:rerun-if-env-changed={LIB_DIR}");
    let archive = folder.join("libhankboulder.a");
    println!("cargo:rerun-if-changed={}", archive.display());
}
