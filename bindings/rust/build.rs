//! Finds the static library, `libqanbillox.a`.
//!
//! It is looked for in the directory that `QANBILLOX_LIB_DIR` names, otherwise where the
//! repository builds it (`tools/build qanbillox` writes to `target/staticlib` at the root). If it
//! is there, it is linked and `cfg(qbx_lib)` is set; if not, the crate still compiles and its
//! tests run on the reference implementation alone. A directory that is named must have it.

use std::env;
use std::path::PathBuf;

const ARCHIVE: &str = "libqanbillox.a";

fn main() {
    println!("cargo:rustc-check-cfg=cfg(qbx_lib)");
    println!("cargo:rerun-if-env-changed=QANBILLOX_LIB_DIR");

    let named = env::var_os("QANBILLOX_LIB_DIR").map(PathBuf::from);
    let package = PathBuf::from(env::var_os("CARGO_MANIFEST_DIR").expect("set by cargo"));
    let dir = match &named {
        Some(dir) => dir.clone(),
        None => package.join("../../target/staticlib"),
    };
    let archive = dir.join(ARCHIVE);
    // A path that is not there yet is watched too: building the library starts this script again.
    println!("cargo:rerun-if-changed={}", archive.display());

    if archive.is_file() {
        println!("cargo:rustc-link-search=native={}", dir.display());
        println!("cargo:rustc-link-lib=static=qanbillox");
        println!("cargo:rustc-cfg=qbx_lib");
    } else if named.is_some() {
        // Whoever names a directory wants that library and no tests without it.
        panic!(
            "QANBILLOX_LIB_DIR: there is no {ARCHIVE} in {}",
            dir.display()
        );
    } else {
        println!(
            "cargo:warning={ARCHIVE} is not in target/staticlib of the repository: build it with \
             `tools/build qanbillox` or set QANBILLOX_LIB_DIR. Programs will not link, and tests \
             run without the library."
        );
    }
}
