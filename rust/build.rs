//! Links libhpr.a, which `c/build` makes: from the folder `HPR_LIB_DIR`, or from where `c/build` puts it, beside this crate.

use std::env;
use std::path::PathBuf;

fn main() {
    println!("cargo:rerun-if-env-changed=HPR_LIB_DIR");
    let here = env::var_os("CARGO_MANIFEST_DIR").map_or_else(PathBuf::new, PathBuf::from);
    let folder = match env::var_os("HPR_LIB_DIR") {
        Some(folder) => PathBuf::from(folder),
        None => here.join("../crates/hpr_c/out/c/lib"),
    };
    let library = folder.join("libhpr.a");
    println!("cargo:rerun-if-changed={}", library.display());
    assert!(
        library.is_file(),
        "{} is missing: c/build makes it, or HPR_LIB_DIR names its folder",
        library.display()
    );
    println!("cargo:rustc-link-search=native={}", folder.display());
    println!("cargo:rustc-link-lib=static=hpr");
}
