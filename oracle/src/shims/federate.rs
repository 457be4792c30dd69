//! The folder `sched/federate` of the runtime, with the two supplied files that the port follows.

#[path = "../../upstream/boomerang_runtime/src/sched/federate/backend.rs"]
#[allow(dead_code)]
#[rustfmt::skip]
pub(crate) mod backend;

include!(concat!(env!("OUT_DIR"), "/federate/modules.rs"));
