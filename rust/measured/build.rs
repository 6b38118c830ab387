//! Has the archive of the measured functions linked, from where the repository's build leaves it.

use std::env;
use std::path::Path;

/// Where the archive is built, from this crate's folder.
const FOLDER: &str = "../../crates/measured/out";

fn main() {
    let folder = Path::new(&env::var_os("CARGO_MANIFEST_DIR").unwrap()).join(FOLDER);
    let archive = folder.join("libmeasured.a");
    println!("cargo:rerun-if-changed={}", archive.display());
    assert!(archive.exists(), "no archive at {}: build it by `rt lib` in crates/measured", archive.display());
    println!("cargo:rustc-link-search=native={}", folder.display());
    // The archive is linked into programs as it is, and not packed into this crate's own library.
    println!("cargo:rustc-link-lib=static:-bundle=measured");
}
