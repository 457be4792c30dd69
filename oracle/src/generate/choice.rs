//! The choice of a guided script's next event by the state it has reached.

use super::guided::Leaning;
use super::tags::{ahead_tag, fresh_tag, moved, near_tag, own_tag};
use super::unguided::some_named;
use super::OBSERVATIONS;
use crate::prng::Rng;
use crate::script::{Event, WrittenTag};
use crate::shims::federate::state::{CoordinationPhase, Observation, ParticipantView, StateView};

/// The moves of a guided script.
#[derive(Clone, Copy)]
enum Move {
    PublishUnpublished,
    PublishChanged,
    PublishAgain,
    Active,
    CompleteGranted,
    CompleteNear,
    ObservedCurrent,
    ObservedOther,
    End,
    AcquirePending,
    AcquireMore,
    AcquireBelowStored,
    AcquireOtherRevision,
    SentPending,
    SentOther,
    ObserveExpected,
    ObserveOther,
    ObserveOtherRevision,
    IdleCurrent,
    IdleOther,
    Horizon,
    Begin,
    LateOrDone,
    Input,
    Progress,
}

/// The choice of one event.
pub(super) struct Choice<'a> {
    pub(super) rng: &'a mut Rng,
    pub(super) leaning: &'a Leaning,
    pub(super) view: &'a StateView,
}

impl Choice<'_> {
    pub(super) fn event(&mut self) -> Event {
        let weights = [self.message_weights(), self.answer_weights(), self.gate_weights()].concat();
        match self.rng.weighted(&weights) {
            Move::PublishUnpublished => self.publish_unpublished(),
            Move::PublishChanged => Event::Publish(self.enclave(), self.candidate()),
            Move::PublishAgain => self.publish_again(),
            Move::Active => Event::Active(self.enclave()),
            Move::CompleteGranted => self.complete_granted(),
            Move::CompleteNear => {
                Event::Complete(self.enclave(), self.near(), self.rng.percent(50))
            }
            Move::ObservedCurrent => self.observed_current(),
            Move::ObservedOther => self.observed_other(),
            Move::End => self.end(),
            Move::AcquirePending => self.acquire_pending(),
            Move::AcquireMore => Event::Acquire(self.revision(), self.ahead()),
            Move::AcquireBelowStored => self.acquire_below_stored(),
            Move::AcquireOtherRevision => Event::Acquire(self.other_revision(), self.ahead()),
            Move::SentPending => self.sent_pending(),
            Move::SentOther => self.sent_other(),
            Move::ObserveExpected => self.observe_expected(),
            Move::ObserveOther => self.observe_other(),
            Move::ObserveOtherRevision => self.observe_other_revision(),
            Move::IdleCurrent => Event::Idle(self.revision()),
            Move::IdleOther => Event::Idle(self.other_revision()),
            Move::Horizon => self.horizon(),
            Move::Begin => self.begin(),
            Move::LateOrDone => self.late_or_done(),
            Move::Input => self.input(),
            Move::Progress => Event::Progress,
        }
    }

    fn message_weights(&self) -> Vec<(usize, Move)> {
        let view = self.view;
        let unpublished = view.participants.iter().any(|p| !p.published);
        let probing = view.completion_probe.is_some();
        vec![
            (if unpublished { 40 } else { 0 }, Move::PublishUnpublished),
            (3, Move::PublishChanged),
            (4, Move::PublishAgain),
            (2, Move::Active),
            (12, Move::CompleteGranted),
            (6, Move::CompleteNear),
            (if probing { 40 } else { 1 }, Move::ObservedCurrent),
            (if probing { 6 } else { 1 }, Move::ObservedOther),
            (self.leaning.ends, Move::End),
        ]
    }

    fn answer_weights(&self) -> Vec<(usize, Move)> {
        let pending = self.view.pending_publication.is_some();
        let awaiting = self.view.phase == CoordinationPhase::AwaitingIdleConfirmation;
        let expecting = expected_observation(self.view.phase).is_some();
        vec![
            (if pending && !expecting { 25 } else { 3 }, Move::AcquirePending),
            (4, Move::AcquireMore),
            (1, Move::AcquireOtherRevision),
            (if pending && !expecting { 15 } else { 1 }, Move::SentPending),
            (2, Move::SentOther),
            (if expecting { 80 } else { 0 }, Move::ObserveExpected),
            (4, Move::ObserveOther),
            (1, Move::ObserveOtherRevision),
            (if awaiting { 30 } else { 1 }, Move::IdleCurrent),
            (if awaiting { 5 } else { 1 }, Move::IdleOther),
        ]
    }

    fn gate_weights(&self) -> Vec<(usize, Move)> {
        let stopped = self.view.phase == CoordinationPhase::Stopped;
        if !self.leaning.gate {
            return vec![(if stopped { 6 } else { 0 }, Move::Input)];
        }
        let stored = self.view.input_acquisition;
        let current = stored.is_some_and(|stored| stored.revision() == self.view.revision);
        // What is stored waits for a higher input horizon, and then for `progress`.
        let waits = current && stored.map(|stored| stored.granted()) > self.view.grant_horizon;
        let capped = self.view.input_horizon <= self.view.grant_horizon;
        let wants_horizon = self.view.input_horizon.is_none() || (waits && capped);
        vec![
            (if wants_horizon { 25 } else { 6 }, Move::Horizon),
            (if waits && !capped { 30 } else { 8 }, Move::Progress),
            (if stored.is_some() && !current { 20 } else { 0 }, Move::AcquireBelowStored),
            (if waits { 8 } else { 0 }, Move::Active),
            (12, Move::Begin),
            (10, Move::LateOrDone),
            (if stopped { 15 } else { 4 }, Move::Input),
        ]
    }

    fn participant(&mut self) -> ParticipantView {
        self.rng.pick(&self.view.participants)
    }

    fn enclave(&mut self) -> u32 {
        self.participant().enclave.0
    }

    /// One of the participants that have this property; any where none has.
    fn participant_with(&mut self, property: impl Fn(&ParticipantView) -> bool) -> ParticipantView {
        let having: Vec<ParticipantView> =
            self.view.participants.iter().copied().filter(|p| property(p)).collect();
        if having.is_empty() {
            return self.participant();
        }
        self.rng.pick(&having)
    }

    fn revision(&self) -> u64 {
        self.view.revision.value()
    }

    fn other_revision(&mut self) -> u64 {
        let offset = self.rng.pick(&[1, 2, u64::MAX, u64::MAX - 1]);
        self.revision().wrapping_add(offset)
    }

    fn near(&mut self) -> WrittenTag {
        near_tag(self.rng, self.view, self.leaning.pool)
    }

    fn ahead(&mut self) -> WrittenTag {
        ahead_tag(self.rng, self.view, self.leaning.pool)
    }

    fn candidate(&mut self) -> Option<WrittenTag> {
        if self.rng.percent(self.leaning.idle) {
            return None;
        }
        Some(self.ahead())
    }

    fn publish_unpublished(&mut self) -> Event {
        let participant = self.participant_with(|p| !p.published);
        let unchanged = self.rng.percent(20);
        let candidate =
            if unchanged { participant.candidate.map(WrittenTag::from) } else { self.candidate() };
        Event::Publish(participant.enclave.0, candidate)
    }

    fn publish_again(&mut self) -> Event {
        let participant = self.participant_with(|p| p.published);
        Event::Publish(participant.enclave.0, participant.candidate.map(WrittenTag::from))
    }

    /// Completes what was granted, so that the enclave runs ahead of the others.
    fn complete_granted(&mut self) -> Event {
        let participant = self.participant_with(|p| !p.published && p.candidate.is_some());
        let tag = match (self.rng.below(4), participant.candidate, self.view.grant_horizon) {
            (0, _, Some(horizon)) => horizon.into(),
            (1 | 2, Some(candidate), _) => candidate.into(),
            _ => self.ahead(),
        };
        Event::Complete(participant.enclave.0, tag, self.rng.percent(40))
    }

    fn observed_current(&mut self) -> Event {
        let probe = self.view.completion_probe;
        let generation = self.view.completion_generation;
        let participant = self
            .participant_with(|p| p.completed < probe && p.completion_observed != Some(generation));
        Event::Observed(participant.enclave.0, generation)
    }

    fn observed_other(&mut self) -> Event {
        let offset = self.rng.pick(&[1, u64::MAX, u64::MAX, u64::MAX - 1]);
        let generation = self.view.completion_generation.wrapping_add(offset);
        Event::Observed(self.enclave(), generation)
    }

    fn end(&mut self) -> Event {
        match self.rng.below(4) {
            0 => Event::Stopped(self.enclave()),
            1 => Event::Failed(Some(self.enclave())),
            2 => Event::Failed(None),
            _ => Event::Stop,
        }
    }

    /// An acquisition at, below or above the next event, so that some enclaves are granted.
    fn acquire_pending(&mut self) -> Event {
        let next_event = self.view.pending_publication.and_then(|pending| pending.next_event());
        let tag = match (self.rng.below(3), next_event) {
            (0, _) => self.near(),
            (1, _) => self.ahead(),
            (_, Some(next_event)) => next_event.into(),
            (_, None) => fresh_tag(self.rng, self.leaning.pool),
        };
        Event::Acquire(self.revision(), tag)
    }

    /// An acquisition that may take the place of a stored one of another revision, lower than that.
    fn acquire_below_stored(&mut self) -> Event {
        let tag = match self.view.input_acquisition {
            Some(stored) if self.rng.percent(60) => moved(stored.granted().into(), -1),
            _ => self.near(),
        };
        Event::Acquire(self.revision(), tag)
    }

    fn sent_pending(&mut self) -> Event {
        match self.view.pending_publication {
            Some(pending) => Event::Sent(
                pending.revision().value(),
                pending.next_event().map(WrittenTag::from),
                pending.grant_horizon().map(WrittenTag::from),
            ),
            None => Event::Sent(self.revision(), self.candidate(), None),
        }
    }

    /// The pending publication with one field made another.
    fn sent_other(&mut self) -> Event {
        let Event::Sent(revision, next_event, horizon) = self.sent_pending() else {
            unreachable!("a sent publication")
        };
        match self.rng.below(4) {
            0 => Event::Sent(self.other_revision(), next_event, horizon),
            1 => Event::Sent(revision, self.candidate(), horizon),
            2 => Event::Sent(revision, None, horizon),
            _ => Event::Sent(revision, next_event, Some(self.near())),
        }
    }

    fn observe_expected(&mut self) -> Event {
        let expected = expected_observation(self.view.phase).expect("weighed only in its phases");
        let participant = self.participant_with(|p| p.observation != Some(expected));
        Event::Observe(participant.enclave.0, self.revision(), expected)
    }

    fn observe_other(&mut self) -> Event {
        Event::Observe(self.enclave(), self.revision(), self.rng.pick(&OBSERVATIONS))
    }

    fn observe_other_revision(&mut self) -> Event {
        let observation = self.rng.pick(&OBSERVATIONS);
        Event::Observe(self.enclave(), self.other_revision(), observation)
    }

    fn horizon(&mut self) -> Event {
        match self.rng.below(6) {
            0 => Event::Horizon(None),
            1 => Event::Horizon(Some(self.near())),
            _ => Event::Horizon(Some(self.ahead())),
        }
    }

    fn begin(&mut self) -> Event {
        let participant = self.participant_with(|p| p.granted.is_some());
        let tag = self.own_or_near(&participant);
        Event::Begin(participant.enclave.0, tag)
    }

    fn late_or_done(&mut self) -> Event {
        let participant = self.participant_with(|p| p.started > p.completed);
        let tag = self.own_or_near(&participant);
        if self.rng.percent(60) {
            return Event::Late(participant.enclave.0, tag);
        }
        Event::Done(participant.enclave.0, tag)
    }

    fn own_or_near(&mut self, participant: &ParticipantView) -> WrittenTag {
        if self.rng.percent(30) {
            return self.near();
        }
        own_tag(self.rng, participant, self.leaning.pool)
    }

    fn input(&mut self) -> Event {
        let known: Vec<u32> = self.view.participants.iter().map(|p| p.enclave.0).collect();
        if self.rng.percent(90) {
            let count = self.rng.below(known.len().min(3) + 1);
            return Event::Input((0..count).map(|_| self.rng.pick(&known)).collect());
        }
        Event::Input(some_named(self.rng, &known))
    }
}

/// The observation that counts in this phase.
fn expected_observation(phase: CoordinationPhase) -> Option<Observation> {
    match phase {
        CoordinationPhase::Probing => Some(Observation::Probed),
        CoordinationPhase::Parking => Some(Observation::Parked),
        CoordinationPhase::Rechecking => Some(Observation::Rechecked),
        _ => None,
    }
}
