//! Stand-in for the map's iterator over many entries: `secondary_map/mod.rs` exports its name alone.

pub struct IterManyMut;
