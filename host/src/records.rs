//! What goes in and out of the state, under the names that the Rust has, and the refusals.

/// A compiled participant's identity.
#[derive(Clone, Copy, Debug, Eq, Ord, PartialEq, PartialOrd)]
pub struct EnclaveIndex(pub u32);

/// A point of logical time: signed seconds and nanoseconds from its origin, and a step at it. A call
/// refuses one whose nanoseconds are a second or more, or of the opposite sign to the seconds.
#[repr(C)]
#[derive(Clone, Copy, Debug, Eq, Ord, PartialEq, PartialOrd)]
pub struct Tag {
    pub seconds: i64,
    pub nanoseconds: i32,
    pub microstep: u64,
}

impl Tag {
    pub const NEVER: Self = Self::new(i64::MIN, -999_999_999, 0);
    pub const ZERO: Self = Self::new(0, 0, 0);
    pub const FOREVER: Self = Self::new(i64::MAX, 999_999_999, u64::MAX);

    pub const fn new(seconds: i64, nanoseconds: i32, microstep: u64) -> Self {
        Self { seconds, nanoseconds, microstep }
    }
}

/// The version of a coordination exchange.
#[derive(Clone, Copy, Debug, Eq, Ord, PartialEq, PartialOrd)]
pub struct CoordinationRevision(u64);

impl CoordinationRevision {
    pub const fn new(value: u64) -> Self {
        Self(value)
    }

    pub const fn value(self) -> u64 {
        self.0
    }
}

/// A federate's revision with its next event and the horizon that it had accepted.
#[derive(Clone, Copy, Debug, Eq, PartialEq)]
pub struct FederatePublication {
    revision: CoordinationRevision,
    next_event: Option<Tag>,
    grant_horizon: Option<Tag>,
}

impl FederatePublication {
    pub const fn new(revision: CoordinationRevision, next_event: Option<Tag>) -> Self {
        Self { revision, next_event, grant_horizon: None }
    }

    pub const fn with_grant_horizon(mut self, horizon: Option<Tag>) -> Self {
        self.grant_horizon = horizon;
        self
    }

    pub const fn revision(self) -> CoordinationRevision {
        self.revision
    }

    pub const fn next_event(self) -> Option<Tag> {
        self.next_event
    }

    pub const fn grant_horizon(self) -> Option<Tag> {
        self.grant_horizon
    }
}

/// A tag granted to a revision.
#[derive(Clone, Copy, Debug, Eq, PartialEq)]
pub struct FederateAcquisition {
    revision: CoordinationRevision,
    granted: Tag,
}

impl FederateAcquisition {
    pub const fn new(revision: CoordinationRevision, granted: Tag) -> Self {
        Self { revision, granted }
    }

    pub const fn revision(self) -> CoordinationRevision {
        self.revision
    }

    pub const fn granted(self) -> Tag {
        self.granted
    }
}

/// A completed tag, and whether it covers processed network input.
#[derive(Clone, Copy, Debug, Eq, PartialEq)]
pub struct FederateCompletion {
    completed: Tag,
    network_input: bool,
}

impl FederateCompletion {
    pub const fn new(completed: Tag) -> Self {
        Self { completed, network_input: false }
    }

    pub const fn with_network_input(mut self, network_input: bool) -> Self {
        self.network_input = network_input;
        self
    }

    pub const fn completed(self) -> Tag {
        self.completed
    }

    pub const fn confirms_network_input(self) -> bool {
        self.network_input
    }
}

/// What is done when every participant has published no next event.
#[derive(Clone, Copy, Debug, Eq, PartialEq)]
pub enum LifecyclePolicy {
    KeepAlive,
    TerminateWhenIdle,
    CoordinatedTermination,
}

#[derive(Clone, Copy, Debug, Eq, PartialEq)]
pub enum CoordinationPhase {
    Active,
    Probing,
    Parking,
    Rechecking,
    Parked,
    AwaitingIdleConfirmation,
    Stopped,
}

/// One participant's acknowledgement of a fixed-point phase.
#[derive(Clone, Copy, Debug, Eq, PartialEq)]
pub enum Observation {
    Probed,
    Parked,
    Rechecked,
}

#[derive(Clone, Copy, Debug, Eq, PartialEq)]
pub enum SchedulerMessage {
    Active { enclave: EnclaveIndex },
    Publish { enclave: EnclaveIndex, next_event: Option<Tag> },
    CompleteTag { enclave: EnclaveIndex, tag: Tag, network_input: bool },
    CompletionObserved { enclave: EnclaveIndex, generation: u64 },
    ParticipantStopped { enclave: EnclaveIndex },
    Failed { enclave: Option<EnclaveIndex> },
}

#[derive(Clone, Copy, Debug, Eq, PartialEq)]
pub enum CoordinationAction {
    Publish(FederatePublication),
    AdvanceHorizon { tag: Tag },
    Grant { enclave: EnclaveIndex, tag: Tag },
    Complete(FederateCompletion),
    CompletionProbe { enclave: EnclaveIndex, generation: u64 },
    Probe { revision: CoordinationRevision },
    Park { revision: CoordinationRevision },
    Recheck { revision: CoordinationRevision },
    Resume { enclave: EnclaveIndex, revision: CoordinationRevision },
    Stop,
    Abort,
}

/// Why a call was refused: document 01, "Ceilings and refusals", those that this crate can be given.
#[derive(Clone, Copy, Debug, Eq, PartialEq)]
pub enum Refusal {
    NoParticipants = 1,
    DuplicateEnclave = 2,
    UnknownEnclave = 3,
    InvalidObservationTransition = 4,
    TooManyParticipants = 5,
    IndexTooLarge = 6,
    ImproperTag = 7,
    GenerationSpent = 9,
}

impl Refusal {
    /// The refusal of a number, `Ok` for 0. The other numbers are of what the safe type never does: it
    /// lends all the room that a call can need, and holds no state but an opened one that calls changed.
    pub(crate) fn check(number: u8) -> Result<(), Self> {
        Err(match number {
            0 => return Ok(()),
            1 => Self::NoParticipants,
            2 => Self::DuplicateEnclave,
            3 => Self::UnknownEnclave,
            4 => Self::InvalidObservationTransition,
            5 => Self::TooManyParticipants,
            6 => Self::IndexTooLarge,
            7 => Self::ImproperTag,
            9 => Self::GenerationSpent,
            other => unreachable!("refused {other}"),
        })
    }

    /// Document 01's number.
    pub const fn number(self) -> u8 {
        self as u8
    }
}
