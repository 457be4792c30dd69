
// Everything above this line is the supplied state.rs, byte for byte; the build appends what follows
// to the same module, because the fields are private to it.

/// One participant's state in plain values.
#[derive(Clone, Copy, Debug, Eq, PartialEq)]
pub(crate) struct ParticipantView {
    pub(crate) enclave: EnclaveIndex,
    pub(crate) granted: Option<Tag>,
    pub(crate) started: Option<Tag>,
    pub(crate) candidate: Option<Tag>,
    pub(crate) completed: Option<Tag>,
    pub(crate) published: bool,
    pub(crate) completion_observed: Option<u64>,
    pub(crate) observation: Option<Observation>,
}

/// The whole state in plain values, participants by ascending index.
#[derive(Clone, Debug, Eq, PartialEq)]
pub(crate) struct StateView {
    pub(crate) input_horizon: Option<Tag>,
    pub(crate) input_acquisition: Option<FederateAcquisition>,
    pub(crate) participants: Vec<ParticipantView>,
    pub(crate) revision: CoordinationRevision,
    pub(crate) pending_publication: Option<FederatePublication>,
    pub(crate) completed_frontier: Option<Tag>,
    pub(crate) pending_inputs: Option<(Tag, Tag)>,
    pub(crate) completion_generation: u64,
    pub(crate) completion_probe: Option<Tag>,
    pub(crate) grant_horizon: Option<Tag>,
    pub(crate) first_failure: Option<EnclaveIndex>,
    pub(crate) lifecycle: LifecyclePolicy,
    pub(crate) idle_authorization: Option<CoordinationRevision>,
    pub(crate) phase: CoordinationPhase,
}

impl FederateCoordinationState {
    /// Sets the two opening numbers, which the Rust starts at 0.
    pub(crate) fn start_at(&mut self, revision: u64, generation: u64) {
        self.revision = CoordinationRevision::new(revision);
        self.completion_generation = generation;
    }

    /// The generation that an answer to a completion probe names.
    pub(crate) fn generation(&self) -> u64 {
        self.completion_generation
    }

    /// A copy to try a call on; the struct itself derives no `Clone`.
    pub(crate) fn copy(&self) -> Self {
        Self {
            input_horizon: self.input_horizon,
            input_acquisition: self.input_acquisition,
            participants: self.participants.clone(),
            revision: self.revision,
            pending_publication: self.pending_publication,
            completed_frontier: self.completed_frontier,
            pending_inputs: self.pending_inputs,
            completion_generation: self.completion_generation,
            completion_probe: self.completion_probe,
            grant_horizon: self.grant_horizon,
            first_failure: self.first_failure,
            lifecycle: self.lifecycle,
            idle_authorization: self.idle_authorization,
            phase: self.phase,
        }
    }

    /// All fields in plain values.
    pub(crate) fn view(&self) -> StateView {
        StateView {
            input_horizon: self.input_horizon,
            input_acquisition: self.input_acquisition,
            participants: self
                .participants
                .iter()
                .map(|(enclave, participant)| participant.view(enclave))
                .collect(),
            revision: self.revision,
            pending_publication: self.pending_publication,
            completed_frontier: self.completed_frontier,
            pending_inputs: self.pending_inputs,
            completion_generation: self.completion_generation,
            completion_probe: self.completion_probe,
            grant_horizon: self.grant_horizon,
            first_failure: self.first_failure,
            lifecycle: self.lifecycle,
            idle_authorization: self.idle_authorization,
            phase: self.phase,
        }
    }

    /// The completion step by itself, for the deliberate slip that runs it where the Rust does not.
    pub(crate) fn completion_step(&mut self) -> Vec<CoordinationAction> {
        self.advance_completion()
    }
}

impl ParticipantState {
    fn view(&self, enclave: EnclaveIndex) -> ParticipantView {
        ParticipantView {
            enclave,
            granted: self.granted,
            started: self.started,
            candidate: self.candidate,
            completed: self.completed,
            published: self.published,
            completion_observed: self.completion_observed,
            observation: self.observation,
        }
    }
}
