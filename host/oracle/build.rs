//! Finds the static library, and the original's files if they are available.
//!
//! The library: in the folder that SOCKETLEMON_LIB names, else where `tools/build library` puts it. The original: in the folder that SOCKETLEMON_ORIGINAL
//! names, else in shared/docs/src beside the repository. Its files are copied unchanged, after their BLAKE3 sums were found to be those of original.sums;
//! without them the crate is built without the comparison, unless a folder was named.

use std::path::{Path, PathBuf};
use std::{env, fs, process};

const SUMS: &str = "original.sums";
const ORIGINAL: &str = "SOCKETLEMON_ORIGINAL";

fn main() {
    let here = PathBuf::from(env::var_os("CARGO_MANIFEST_DIR").expect("cargo names the crate's folder"));
    link_library(&here);
    take_original(&here);
}

/// The folder that the environment variable names, else `usual`; both from the crate's folder.
fn folder(here: &Path, variable: &str, usual: &str) -> PathBuf {
    println!("cargo:rerun-if-env-changed={variable}");
    here.join(env::var_os(variable).unwrap_or_else(|| usual.into()))
}

fn link_library(here: &Path) {
    let folder = folder(here, "SOCKETLEMON_LIB", "../../target/staticlib");
    let library = folder.join("libsocketlemon.a");
    println!("cargo:rerun-if-changed={}", library.display());
    if !library.is_file() {
        fail(format!(
            "{} is not there: make it with `tools/build library socketlemon` in the repository, or name its folder in SOCKETLEMON_LIB.",
            library.display()
        ));
    }
    println!("cargo:rustc-link-search=native={}", folder.display());
    println!("cargo:rustc-link-lib=static=socketlemon");
}

fn take_original(here: &Path) {
    println!("cargo:rustc-check-cfg=cfg(original)");
    println!("cargo:rerun-if-changed={SUMS}");
    let folder = folder(here, ORIGINAL, "../../../shared/docs/src");
    let out = PathBuf::from(env::var_os("OUT_DIR").expect("cargo names the folder for output"));
    let sums = fs::read_to_string(here.join(SUMS)).unwrap_or_else(|e| fail(format!("{SUMS}: {e}.")));
    let mut files = Vec::new();
    for line in sums.lines().filter(|line| !line.starts_with('#')) {
        let (sum, name) = line
            .split_once("  ")
            .unwrap_or_else(|| fail(format!("{SUMS}: '{line}' is not a sum and a file.")));
        let from = folder.join(name);
        println!("cargo:rerun-if-changed={}", from.display());
        match fs::read(&from) {
            Ok(bytes) => files.push((name, sum, bytes)),
            Err(error) if env::var_os(ORIGINAL).is_some() => fail(format!(
                "{ORIGINAL} names a folder that lacks a file of the original: {}: {error}.",
                from.display()
            )),
            Err(_) => {
                return println!(
                    "cargo:warning=the original is not available ({} is missing): no comparison is built",
                    from.display()
                )
            }
        }
    }
    for (name, sum, bytes) in files {
        if blake3::hash(&bytes).to_hex().to_string() != sum {
            fail(format!("{} is not the file whose BLAKE3 sum stands in {SUMS}: the comparison is with that version only.", folder.join(name).display()));
        }
        let to = out.join(name.trim_start_matches("mycelium/src/"));
        fs::create_dir_all(to.parent().expect("a file has a folder"))
            .and_then(|()| fs::write(&to, bytes))
            .unwrap_or_else(|e| fail(format!("{}: {e}.", to.display())));
    }
    let root = "#[allow(warnings)]\npub mod crypto;\n#[allow(warnings)]\npub mod message;\n#[allow(warnings)]\npub mod subnet;\n";
    fs::write(out.join("original.rs"), root).unwrap_or_else(|e| fail(format!("original.rs: {e}.")));
    println!("cargo:rustc-cfg=original");
    println!("cargo:at-hand=yes");
}

fn fail(why: String) -> ! {
    eprintln!("{why}");
    process::exit(1)
}
