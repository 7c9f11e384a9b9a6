//! Finds the archive with the library's BLAKE3, in the folder that SOCKETLEMON_LIB names, else where `tools/build library` puts it; and asks the oracle whether the
//! original is available.

use std::path::{Path, PathBuf};
use std::{env, process};

fn main() {
    println!("cargo:rerun-if-env-changed=SOCKETLEMON_LIB");
    let here = env::var_os("CARGO_MANIFEST_DIR").map_or_else(PathBuf::new, PathBuf::from);
    let folder = match env::var_os("SOCKETLEMON_LIB") {
        Some(named) => here.join(named),
        None => here.join(Path::new("../../target/staticlib")),
    };
    let archive = folder.join("libblake3_export.a");
    println!("cargo:rerun-if-changed={}", archive.display());
    if !archive.is_file() {
        eprintln!(
            "{} is not there: make it with `tools/build library blake3_export` in the repository.",
            archive.display()
        );
        process::exit(1);
    }
    println!("cargo:rustc-link-search=native={}", folder.display());

    println!("cargo:rustc-check-cfg=cfg(original)");
    if env::var_os("DEP_ORIGINAL_AT_HAND").is_some() {
        println!("cargo:rustc-cfg=original");
    }
}
