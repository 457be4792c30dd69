//! The supplied Rust of the federate coordination state, unchanged, driven by document 01's scripts.
//!
//! `shims` places the supplied files; `script`, `run` and `listing` are document 01's script program
//! around them; `generate`, `coverage`, `shrink` and `compare` hold another program against it.

#![forbid(unsafe_code)]

extern crate alloc;
// The supplied state.rs takes its map from a crate `tinymap`; here that is this crate.
extern crate self as tinymap;

mod shims;

// The names under which the supplied files expect one another at the root of their crate.
pub(crate) use ::time::Duration;
pub(crate) use shims::tinymap::secondary_map::TinySecondaryMap;
pub(crate) use shims::{clock, image};
#[path = "../upstream/boomerang_runtime/src/time.rs"]
#[allow(dead_code)]
#[rustfmt::skip]
mod time;
pub(crate) use crate::time::Tag;

// A microstep is a `usize`; document 01 says 64 bits.
const _: () = assert!(usize::BITS == 64);

mod branches;
mod commands;
mod compare;
mod coverage;
mod delay;
mod dump;
mod generate;
mod listing;
mod load;
mod prng;
mod program;
mod run;
mod script;
mod shrink;
mod slip;

pub use commands::{compare_main, generate_main, oracle_main};
pub use load::load_main;
// For what is compared in one process: host/.
pub use dump::listing_with_states;
pub use generate::generate;
pub use run::silence_expected_panics;
