//! Finds libkernelhop.a, which bindings/library makes: in the folder that KERNELHOP_LIB_DIR names, or else in this repository's target/.

use std::env;
use std::path::{Path, PathBuf};

fn main() {
    println!("cargo:rerun-if-env-changed=KERNELHOP_LIB_DIR");
    let folder = env::var_os("KERNELHOP_LIB_DIR").map_or_else(
        || Path::new(env!("CARGO_MANIFEST_DIR")).join("../../target/staticlib"),
        PathBuf::from,
    );
    let library = folder.join("libkernelhop.a");
    assert!(
        library.is_file(),
        "{} is not there: run bindings/library in the repository, or set KERNELHOP_LIB_DIR to the folder that has libkernelhop.a",
        library.display()
    );
    println!("cargo:rerun-if-changed={}", library.display());
    println!("cargo:rustc-link-search=native={}", folder.display());
    println!("cargo:rustc-link-lib=static=kernelhop");
}
