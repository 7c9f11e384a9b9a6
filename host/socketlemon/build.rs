//! Finds the static library: in the folder that SOCKETLEMON_LIB names, else where `tools/build library` puts it.

use std::path::{Path, PathBuf};

fn main() {
    println!("cargo:rerun-if-env-changed=SOCKETLEMON_LIB");
    let here = std::env::var_os("CARGO_MANIFEST_DIR").map_or_else(PathBuf::new, PathBuf::from);
    let folder = match std::env::var_os("SOCKETLEMON_LIB") {
        Some(named) => here.join(named),
        None => here.join(Path::new("../../target/staticlib")),
    };
    let library = folder.join("libsocketlemon.a");
    println!("cargo:rerun-if-changed={}", library.display());
    if !library.is_file() {
        eprintln!(
            "{} is not there: make it with `tools/build library socketlemon` in the repository, or name its folder in SOCKETLEMON_LIB.",
            library.display()
        );
        std::process::exit(1);
    }
    println!("cargo:rustc-link-search=native={}", folder.display());
    println!("cargo:rustc-link-lib=static=socketlemon");
}
