//! Lays out the supplied Rust for the compiler without changing a byte of it.
//!
//! Two of the four supplied files cannot be named by `#[path]` alone. The fields of
//! `FederateCoordinationState` are private to its module, so the module that is compiled is the
//! supplied text followed by `src/shims/state_access.rs`. And `secondary_map/mod.rs` asks for a file
//! `iter_many.rs` beside it that is not supplied, so a copy gets the stand-in beside it.

use std::env;
use std::fs;
use std::path::{Path, PathBuf};

const STATE: &str = "upstream/boomerang_runtime/src/sched/federate/state.rs";
const STATE_ACCESS: &str = "src/shims/state_access.rs";
const SECONDARY_MAP: &str = "upstream/boomerang_tinymap/src/secondary_map/mod.rs";
const ITER_MANY: &str = "src/shims/iter_many.rs";

fn main() {
    let out = PathBuf::from(env::var_os("OUT_DIR").expect("cargo sets OUT_DIR"));
    lay_out(&out.join("federate/state.rs"), &(read(STATE) + &read(STATE_ACCESS)));
    lay_out(&out.join("federate/modules.rs"), "#[allow(dead_code)]\npub(crate) mod state;\n");
    lay_out(&out.join("tinymap/secondary_map/mod.rs"), &read(SECONDARY_MAP));
    lay_out(&out.join("tinymap/secondary_map/iter_many.rs"), &read(ITER_MANY));
    lay_out(
        &out.join("tinymap/modules.rs"),
        "#[allow(dead_code, unused_imports)]\npub(crate) mod secondary_map;\n",
    );
}

/// The text of a file of this package, which is built anew when that file changes.
fn read(path: &str) -> String {
    println!("cargo:rerun-if-changed={path}");
    fs::read_to_string(path).unwrap_or_else(|error| panic!("{path}: {error}"))
}

fn lay_out(path: &Path, text: &str) {
    let folder = path.parent().expect("a file has a folder");
    fs::create_dir_all(folder).unwrap_or_else(|error| panic!("{}: {error}", folder.display()));
    fs::write(path, text).unwrap_or_else(|error| panic!("{}: {error}", path.display()));
}
