//! Links the archive that `rt lib` writes in crates/exports.

use std::env;
use std::path::PathBuf;

fn main() {
    let package = PathBuf::from(env::var_os("CARGO_MANIFEST_DIR").expect("cargo sets the folder"));
    let folder = package.join("../crates/exports/out");
    println!("cargo:rustc-link-search=native={}", folder.display());
    println!("cargo:rustc-link-lib=static=exports");
    println!("cargo:rerun-if-changed={}", folder.join("libexports.a").display());
}
