//! Stand-in for the root of the crate `tinymap`: the key's trait, and the supplied map below it.

pub trait Key: Copy + From<usize> {
    fn index(&self) -> usize;
}

include!(concat!(env!("OUT_DIR"), "/tinymap/modules.rs"));
