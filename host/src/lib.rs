//! The proved federate coordination state for a Rust host.
//!
//! [`FederateCoordinationState`] has the method names of the Rust that was ported, on records with its
//! names; a refusal is document 01's. Under it, [`numbers`] holds the library's functions and structs as
//! they are, for a host that keeps state and room itself. Threads and channels are the host's.

pub mod numbers;
mod records;
mod state;

pub use records::{
    CoordinationAction, CoordinationPhase, CoordinationRevision, EnclaveIndex, FederateAcquisition,
    FederateCompletion, FederatePublication, LifecyclePolicy, Observation, Refusal,
    SchedulerMessage, Tag,
};
pub use state::FederateCoordinationState;
