//! Says where the static library `libpx8.a` is: the repository's own
//! target/staticlib, or the folder named by PX8_LIB_DIR.

use std::path::PathBuf;

fn main() {
    println!("cargo:rerun-if-env-changed=PX8_LIB_DIR");
    let folder = match std::env::var_os("PX8_LIB_DIR") {
        Some(named) => PathBuf::from(named),
        None => PathBuf::from(std::env::var_os("CARGO_MANIFEST_DIR").unwrap()).join("../../target/staticlib"),
    };
    let archive = folder.join("libpx8.a");
    // A new archive has to be linked anew; Cargo does not see that by itself.
    println!("cargo:rerun-if-changed={}", archive.display());
    if !archive.exists() {
        println!("cargo:warning=no {}: make it with `.ci/archive`", archive.display());
    }
    println!("cargo:rustc-link-search=native={}", folder.display());
    println!("cargo:rustc-link-lib=static=px8");
}
