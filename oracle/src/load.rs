//! The loads of bench/ on the unchanged Rust.

use std::hint::black_box;

use crate::image::EnclaveIndex;
use crate::shims::federate::backend::FederateAcquisition;
use crate::shims::federate::state::{
    CoordinationAction, CoordinationPhase, CoordinationStateError, FederateCoordinationState,
    LifecyclePolicy, Observation, SchedulerMessage,
};
use crate::{Duration, Tag};

#[path = "../../bench/driver.rs"]
mod driver;
use driver::{play, Federate, Observed, Phase, Policy, Sums, Time};

/// A line on standard input, two sums out.
pub fn load_main() {
    play(open);
}

/// The state, and one `Vec` that takes the actions of each call, as the port's calls share a room. Chosen
/// because it comes within 2.2 % of the figures (docs/PERFORMANCE.md); actions that are only
/// counted and dropped cost 16 to 25 instructions a call less.
struct Original {
    state: FederateCoordinationState,
    taken: Vec<CoordinationAction>,
}

fn open(enclaves: &[u32], policy: Policy) -> Original {
    let policy = match policy {
        Policy::Keep => LifecyclePolicy::KeepAlive,
        Policy::Terminate => LifecyclePolicy::TerminateWhenIdle,
    };
    let enclaves = enclaves.iter().copied().map(EnclaveIndex);
    let state = FederateCoordinationState::new(enclaves, policy).expect("distinct participants");
    Original { state, taken: Vec::new() }
}

impl Original {
    fn tell(&mut self, message: SchedulerMessage) -> Sums {
        let result = self.state.handle_scheduler(message);
        self.take(result)
    }

    fn take(&mut self, result: Result<Vec<CoordinationAction>, CoordinationStateError>) -> Sums {
        let Ok(actions) = result else {
            return Sums { actions: 0, refusals: 1 };
        };
        self.taken.clear();
        self.taken.extend(actions);
        Sums { actions: black_box(&self.taken).len(), refusals: 0 }
    }
}

impl Federate for Original {
    fn publish(&mut self, enclave: u32, next_event: Option<Time>) -> Sums {
        let (enclave, next_event) = (EnclaveIndex(enclave), next_event.map(tag));
        self.tell(SchedulerMessage::Publish { enclave, next_event })
    }

    fn acquire(&mut self, granted: Time) -> Sums {
        let acquisition = FederateAcquisition::new(self.state.revision(), tag(granted));
        let result = self.state.handle_acquisition(acquisition);
        self.take(result)
    }

    fn complete(&mut self, enclave: u32, completed: Time) -> Sums {
        let (enclave, tag) = (EnclaveIndex(enclave), tag(completed));
        self.tell(SchedulerMessage::CompleteTag { enclave, tag, network_input: true })
    }

    fn acknowledge(&mut self, enclave: u32) -> Sums {
        let (enclave, generation) = (EnclaveIndex(enclave), self.state.generation());
        self.tell(SchedulerMessage::CompletionObserved { enclave, generation })
    }

    fn observe(&mut self, enclave: u32, observed: Observed) -> Sums {
        let observation = match observed {
            Observed::Probed => Observation::Probed,
            Observed::Parked => Observation::Parked,
            Observed::Rechecked => Observation::Rechecked,
        };
        let (enclave, revision) = (EnclaveIndex(enclave), self.state.revision());
        let result = self.state.handle_observation(enclave, revision, observation);
        self.take(result)
    }

    fn notice_input(&mut self, affected: &[u32]) -> Sums {
        self.state.input_publishing(affected.iter().copied().map(EnclaveIndex));
        Sums::default()
    }

    fn phase(&self) -> Phase {
        match self.state.view().phase {
            CoordinationPhase::Active => Phase::Active,
            CoordinationPhase::Probing => Phase::Probing,
            CoordinationPhase::Parking => Phase::Parking,
            CoordinationPhase::Rechecking => Phase::Rechecking,
            CoordinationPhase::Stopped => Phase::Stopped,
            _ => Phase::Other,
        }
    }
}

fn tag(time: Time) -> Tag {
    Tag::new(Duration::new(time.seconds, time.nanoseconds), 0)
}
