//! The state under the original's method names.

use crate::numbers::{
    self, ActionNumbers, AskedNumbers, CallNumbers, Held, ReplyNumbers, TagNumbers, RECORD, ROOM,
};
use crate::{
    CoordinationAction, CoordinationPhase, CoordinationRevision, EnclaveIndex, FederateAcquisition,
    FederateCompletion, FederatePublication, LifecyclePolicy, Observation, Refusal,
    SchedulerMessage, Tag,
};

type Actions = Result<Vec<CoordinationAction>, Refusal>;

const BLANK: CallNumbers = CallNumbers::BLANK;

/// One federate's coordination state, with the room that its calls write their actions into. A refused
/// call changes nothing.
#[derive(Clone, Debug)]
pub struct FederateCoordinationState {
    held: Box<Held>,
    room: [u8; ROOM],
}

impl FederateCoordinationState {
    /// As the original, at revision 0 and generation 0.
    pub fn new(
        enclaves: impl IntoIterator<Item = EnclaveIndex>,
        lifecycle: LifecyclePolicy,
    ) -> Result<Self, Refusal> {
        Self::starting_at(enclaves, lifecycle, CoordinationRevision::new(0), 0)
    }

    pub fn starting_at(
        enclaves: impl IntoIterator<Item = EnclaveIndex>,
        lifecycle: LifecyclePolicy,
        revision: CoordinationRevision,
        generation: u64,
    ) -> Result<Self, Refusal> {
        let enclaves = indices(enclaves);
        let opened = numbers::open(&enclaves, lifecycle as u8, revision.value(), generation);
        Refusal::check(opened.refusal)?;
        Ok(Self { held: Box::new(opened.state), room: [0; ROOM] })
    }

    pub fn handle_scheduler(&mut self, message: SchedulerMessage) -> Actions {
        self.act(call_of(message))
    }

    pub fn handle_acquisition(&mut self, acquisition: FederateAcquisition) -> Actions {
        let first = TagNumbers::present(acquisition.granted());
        self.act(CallNumbers { kind: 7, number: acquisition.revision().value(), first, ..BLANK })
    }

    pub fn handle_publication_sent(&mut self, publication: FederatePublication) -> Actions {
        self.act(CallNumbers {
            kind: 8,
            number: publication.revision().value(),
            first: given(publication.next_event()),
            second: given(publication.grant_horizon()),
            ..BLANK
        })
    }

    pub fn handle_observation(
        &mut self,
        enclave: EnclaveIndex,
        revision: CoordinationRevision,
        observation: Observation,
    ) -> Actions {
        self.act(CallNumbers {
            kind: 9,
            observation: observation as u8,
            enclave: enclave.0,
            number: revision.value(),
            ..BLANK
        })
    }

    pub fn handle_idle_confirmation(&mut self, revision: CoordinationRevision) -> Actions {
        self.act(CallNumbers { kind: 10, number: revision.value(), ..BLANK })
    }

    pub fn stop(&mut self) -> Actions {
        self.act(CallNumbers { kind: 11, ..BLANK })
    }

    /// The original's field `input_horizon` set.
    pub fn set_input_horizon(&mut self, horizon: Option<Tag>) -> Result<(), Refusal> {
        self.taken(CallNumbers { kind: 12, first: given(horizon), ..BLANK }, &[]).map(drop)
    }

    pub fn begin_tag(&mut self, enclave: EnclaveIndex, tag: Tag) -> Result<bool, Refusal> {
        let first = TagNumbers::present(tag);
        self.taken(CallNumbers { kind: 13, enclave: enclave.0, first, ..BLANK }, &[]).map(is_yes)
    }

    pub fn input_is_late(&self, enclave: EnclaveIndex, tag: Tag) -> Result<bool, Refusal> {
        self.answer(14, enclave, tag)
    }

    pub fn input_completed(&self, enclave: EnclaveIndex, tag: Tag) -> Result<bool, Refusal> {
        self.answer(15, enclave, tag)
    }

    pub fn input_publishing(
        &mut self,
        affected: impl IntoIterator<Item = EnclaveIndex>,
    ) -> Result<(), Refusal> {
        self.taken(CallNumbers { kind: 16, ..BLANK }, &indices(affected)).map(drop)
    }

    pub fn input_progress(&mut self) -> Actions {
        self.act(CallNumbers { kind: 17, ..BLANK })
    }

    pub fn revision(&self) -> CoordinationRevision {
        CoordinationRevision::new(self.ask(1).number)
    }

    pub fn completion_generation(&self) -> u64 {
        self.ask(2).number
    }

    pub fn phase(&self) -> CoordinationPhase {
        match self.ask(3).number {
            0 => CoordinationPhase::Active,
            1 => CoordinationPhase::Probing,
            2 => CoordinationPhase::Parking,
            3 => CoordinationPhase::Rechecking,
            4 => CoordinationPhase::Parked,
            5 => CoordinationPhase::AwaitingIdleConfirmation,
            _ => CoordinationPhase::Stopped,
        }
    }

    pub fn is_stopped(&self) -> bool {
        self.ask(4).number == 1
    }

    /// Whether no publication is pending and no completion probe is out.
    pub fn is_settled(&self) -> bool {
        self.ask(5).number == 1
    }

    pub fn first_failure(&self) -> Option<EnclaveIndex> {
        let asked = self.ask(6);
        asked.present.then_some(EnclaveIndex(asked.number as u32))
    }

    pub fn grant_horizon(&self) -> Option<Tag> {
        optional(self.ask(7).first)
    }

    pub fn completed_frontier(&self) -> Option<Tag> {
        optional(self.ask(8).first)
    }

    pub fn pending_publication(&self) -> Option<FederatePublication> {
        let asked = self.ask(9);
        asked.present.then(|| publication(asked.number, asked.first, asked.second))
    }

    pub fn idle_confirmation_revision(&self) -> Option<CoordinationRevision> {
        let asked = self.ask(10);
        asked.present.then_some(CoordinationRevision::new(asked.number))
    }

    /// Unknown told apart from none.
    pub fn candidate(&self, enclave: EnclaveIndex) -> Option<Option<Tag>> {
        let asked = numbers::ask(&self.held, 11, enclave.0);
        asked.present.then_some(optional(asked.first))
    }

    /// Every cell of the state, for a host that shows or stores them.
    pub fn held(&self) -> &Held {
        &self.held
    }

    fn ask(&self, question: u8) -> AskedNumbers {
        let asked = numbers::ask(&self.held, question, 0);
        debug_assert_eq!(asked.refusal, 0);
        asked
    }

    fn taken(&mut self, call: CallNumbers, listed: &[u32]) -> Result<ReplyNumbers, Refusal> {
        let reply = numbers::call(&mut self.held, call, listed, &mut self.room);
        Refusal::check(reply.refusal).map(|()| reply)
    }

    fn act(&mut self, call: CallNumbers) -> Actions {
        let count = self.taken(call, &[])?.actions;
        Ok(self.room.chunks_exact(RECORD).take(count).map(action).collect())
    }

    /// A call that only answers is made on a copy, so that the state need not be borrowed for writing.
    fn answer(&self, kind: u8, enclave: EnclaveIndex, tag: Tag) -> Result<bool, Refusal> {
        let first = TagNumbers::present(tag);
        let call = CallNumbers { kind, enclave: enclave.0, first, ..BLANK };
        let reply = numbers::call(&mut self.held.clone(), call, &[], &mut []);
        Refusal::check(reply.refusal).map(|()| is_yes(reply))
    }
}

fn call_of(message: SchedulerMessage) -> CallNumbers {
    match message {
        SchedulerMessage::Active { enclave } => {
            CallNumbers { kind: 1, enclave: enclave.0, ..BLANK }
        }
        SchedulerMessage::Publish { enclave, next_event } => {
            CallNumbers { kind: 2, enclave: enclave.0, first: given(next_event), ..BLANK }
        }
        SchedulerMessage::CompleteTag { enclave, tag, network_input } => {
            let first = TagNumbers::present(tag);
            CallNumbers { kind: 3, enclave: enclave.0, first, network_input, ..BLANK }
        }
        SchedulerMessage::CompletionObserved { enclave, generation } => {
            CallNumbers { kind: 4, enclave: enclave.0, number: generation, ..BLANK }
        }
        SchedulerMessage::ParticipantStopped { enclave } => {
            CallNumbers { kind: 5, enclave: enclave.0, ..BLANK }
        }
        SchedulerMessage::Failed { enclave } => CallNumbers {
            kind: 6,
            named: enclave.is_some(),
            enclave: enclave.map_or(0, |enclave| enclave.0),
            ..BLANK
        },
    }
}

/// The action of a record that a call has written.
fn action(record: &[u8]) -> CoordinationAction {
    let ActionNumbers { refusal, kind, network_input, enclave, number, first, second } =
        numbers::read_action(record);
    assert_eq!(refusal, 0, "a call writes records of actions");
    let enclave = EnclaveIndex(enclave);
    let revision = CoordinationRevision::new(number);
    let tag = first.tag;
    match kind {
        1 => CoordinationAction::Publish(publication(number, first, second)),
        2 => CoordinationAction::AdvanceHorizon { tag },
        3 => CoordinationAction::Grant { enclave, tag },
        4 => CoordinationAction::Complete(
            FederateCompletion::new(tag).with_network_input(network_input),
        ),
        5 => CoordinationAction::CompletionProbe { enclave, generation: number },
        6 => CoordinationAction::Probe { revision },
        7 => CoordinationAction::Park { revision },
        8 => CoordinationAction::Recheck { revision },
        9 => CoordinationAction::Resume { enclave, revision },
        10 => CoordinationAction::Stop,
        _ => CoordinationAction::Abort,
    }
}

fn publication(revision: u64, next_event: TagNumbers, horizon: TagNumbers) -> FederatePublication {
    FederatePublication::new(CoordinationRevision::new(revision), optional(next_event))
        .with_grant_horizon(optional(horizon))
}

fn given(tag: Option<Tag>) -> TagNumbers {
    tag.map_or(TagNumbers::ABSENT, TagNumbers::present)
}

fn optional(numbers: TagNumbers) -> Option<Tag> {
    numbers.present.then_some(numbers.tag)
}

fn is_yes(reply: ReplyNumbers) -> bool {
    reply.answer == 1
}

fn indices(enclaves: impl IntoIterator<Item = EnclaveIndex>) -> Vec<u32> {
    enclaves.into_iter().map(|enclave| enclave.0).collect()
}
