//! Finds the verified library's archive and has it linked.
//!
//! `MIROKDEUL_LIB` is the path of the archive; without it, the place where the repository's own
//! build leaves it is taken. This is the only place that knows the archive's name.

use std::env;
use std::path::{Path, PathBuf};

/// Where the archive is built, from this crate's folder.
const DEFAULT: &str = "../../crates/kernel/out/libkernel.a";

fn main() {
    println!("cargo:rerun-if-env-changed=MIROKDEUL_LIB");
    if env::var_os("CARGO_FEATURE_PLAIN_ONLY").is_some() {
        return;
    }
    link(&archive());
}

fn archive() -> PathBuf {
    match env::var_os("MIROKDEUL_LIB") {
        Some(path) => PathBuf::from(path),
        None => Path::new(&env::var_os("CARGO_MANIFEST_DIR").unwrap()).join(DEFAULT),
    }
}

fn link(archive: &Path) {
    let Ok(archive) = archive.canonicalize() else {
        panic!(
            "no archive at {}: build it first, or name it in MIROKDEUL_LIB, or try the feature plain-only",
            archive.display()
        );
    };
    let file = archive.file_name().unwrap().to_string_lossy().into_owned();
    let name = file.strip_prefix("lib").and_then(|rest| rest.strip_suffix(".a"));
    let name = name.unwrap_or_else(|| panic!("{file} is not called libNAME.a"));
    println!("cargo:rerun-if-changed={}", archive.display());
    println!("cargo:rustc-link-search=native={}", archive.parent().unwrap().display());
    // The archive is linked into programs as it is, and not packed into this crate's own library.
    println!("cargo:rustc-link-lib=static:-bundle={name}");
}
