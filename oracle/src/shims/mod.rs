//! Stand-ins for what the supplied Rust names and nobody supplied: each the least that compiles.

pub(crate) mod clock;
pub(crate) mod federate;
pub(crate) mod image;
pub(crate) mod tinymap;
