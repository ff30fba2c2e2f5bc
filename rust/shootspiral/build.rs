//! Finds `libshootspiral.a`, which `scripts/build-library` writes to `target/staticlib` of the
//! repository. `SHOOTSPIRAL_LIB_DIR` names another folder.

use std::env;
use std::path::PathBuf;

fn main() {
    println!("cargo:rerun-if-env-changed=SHOOTSPIRAL_LIB_DIR");
    let folder = match env::var_os("SHOOTSPIRAL_LIB_DIR") {
        Some(folder) => PathBuf::from(folder),
        None => PathBuf::from(env!("CARGO_MANIFEST_DIR")).join("../../target/staticlib"),
    };
    let archive = folder.join("libshootspiral.a");
    println!("cargo:rerun-if-changed={}", archive.display());
    if !archive.exists() {
        println!(
            "cargo:warning={} is not there: run `scripts/build-library` in the repository, \
             or set SHOOTSPIRAL_LIB_DIR",
            archive.display()
        );
    }
    println!("cargo:rustc-link-search=native={}", folder.display());
    println!("cargo:rustc-link-lib=static=shootspiral");
}
