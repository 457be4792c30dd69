//! Events on the unchanged Rust, with document 01's refusals added around it.
//!
//! The Rust itself says 1, 2, 3 and 4 where it answers an error; 5, 6 and 7 are tested before the
//! call, and so is 3 for `input`, where the Rust would panic. A call that panics because the
//! generation is spent is 9. Every call is made on a copy, so a refusal leaves the entry state.

use std::panic::{catch_unwind, resume_unwind, set_hook, take_hook, AssertUnwindSafe};

use crate::image::EnclaveIndex;
use crate::script::{Event, Script, WrittenTag};
use crate::shims::federate::backend::{
    CoordinationRevision, FederateAcquisition, FederatePublication,
};
use crate::shims::federate::state::{
    CoordinationAction, CoordinationStateError, FederateCoordinationState, SchedulerMessage,
};

/// The events that the script program may use.
pub(crate) const BUDGET: usize = 4_096;
const MOST_PARTICIPANTS: usize = 32;
const GREATEST_INDEX: u32 = 4_095;
/// The Rust's only panic that document 01 makes a refusal.
const GENERATION_SPENT: &str = "completion generation exhausted";

/// What one event gave.
#[derive(Clone, Debug, Eq, PartialEq)]
pub(crate) struct Outcome {
    pub(crate) refusal: u8,
    /// Of `begin`, `late` and `done` alone.
    pub(crate) answer: Option<bool>,
    pub(crate) actions: Vec<CoordinationAction>,
}

/// The answer and the actions of a taken call, or the refusal of one that is not.
type Call = Result<(Option<bool>, Vec<CoordinationAction>), u8>;

/// Opens a federate as the script's first two sections say: 5, 1, then along the list 6 before 2.
pub(crate) fn open(script: &Script) -> Result<FederateCoordinationState, u8> {
    let listed = &script.participants;
    if listed.len() > MOST_PARTICIPANTS {
        return Err(5);
    }
    let in_range = listed.iter().take_while(|index| **index <= GREATEST_INDEX).count();
    if in_range == 0 && !listed.is_empty() {
        return Err(6);
    }
    // The part before an index out of range is the Rust's to judge: a repeat in it comes first.
    let enclaves = listed[..in_range].iter().map(|index| EnclaveIndex(*index));
    let mut state =
        FederateCoordinationState::new(enclaves, script.policy).map_err(refusal_of_error)?;
    if in_range < listed.len() {
        return Err(6);
    }
    state.start_at(script.revision, script.generation);
    Ok(state)
}

/// Takes as many events as the budget allows.
pub(crate) fn run(
    state: &mut FederateCoordinationState,
    events: &[Event],
    budget: usize,
    mut step: impl FnMut(&mut FederateCoordinationState, &Event) -> Outcome,
) -> Vec<Outcome> {
    let taken = events.len().min(budget);
    events[..taken].iter().map(|event| step(state, event)).collect()
}

/// One event: refusals 7, 3, 4, 9 in this order. The script lends room enough, and its state is sound.
pub(crate) fn step(state: &mut FederateCoordinationState, event: &Event) -> Outcome {
    let mut next = state.copy();
    let call = if event.tags().iter().all(|tag| tag.is_proper()) {
        guarded_call(&mut next, event)
    } else {
        Err(7)
    };
    if call.is_ok() {
        *state = next;
    }
    outcome_of(event, call)
}

pub(crate) fn outcome_of(event: &Event, call: Call) -> Outcome {
    match call {
        Ok((answer, actions)) => Outcome { refusal: 0, answer, actions },
        Err(refusal) => Outcome {
            refusal,
            answer: matches!(event, Event::Begin(..) | Event::Late(..) | Event::Done(..))
                .then_some(false),
            actions: Vec::new(),
        },
    }
}

/// The call, with the one expected panic turned into refusal 9. Another panic goes on.
pub(crate) fn guarded_call(state: &mut FederateCoordinationState, event: &Event) -> Call {
    catch_unwind(AssertUnwindSafe(|| call(state, event))).unwrap_or_else(|panic| {
        if panic_text(&*panic) != Some(GENERATION_SPENT) {
            resume_unwind(panic);
        }
        Err(9)
    })
}

fn call(state: &mut FederateCoordinationState, event: &Event) -> Call {
    if let Some(message) = scheduler_message(event) {
        return acted(state.handle_scheduler(message));
    }
    match event {
        Event::Acquire(revision, tag) => acted(state.handle_acquisition(FederateAcquisition::new(
            CoordinationRevision::new(*revision),
            tag.tag(),
        ))),
        Event::Sent(revision, next_event, horizon) => {
            let revision = CoordinationRevision::new(*revision);
            let publication = FederatePublication::new(revision, next_event.map(WrittenTag::tag))
                .with_grant_horizon(horizon.map(WrittenTag::tag));
            acted(state.handle_publication_sent(publication))
        }
        Event::Observe(enclave, revision, observation) => acted(state.handle_observation(
            EnclaveIndex(*enclave),
            CoordinationRevision::new(*revision),
            *observation,
        )),
        Event::Idle(revision) => {
            let revision = CoordinationRevision::new(*revision);
            Ok((None, state.handle_idle_confirmation(revision)))
        }
        Event::Stop => Ok((None, state.stop())),
        _ => gate_call(state, event),
    }
}

/// The message of the six events that are one.
pub(crate) fn scheduler_message(event: &Event) -> Option<SchedulerMessage> {
    Some(match event {
        Event::Active(enclave) => SchedulerMessage::Active { enclave: EnclaveIndex(*enclave) },
        Event::Publish(enclave, tag) => SchedulerMessage::Publish {
            enclave: EnclaveIndex(*enclave),
            next_event: tag.map(WrittenTag::tag),
        },
        Event::Complete(enclave, tag, network_input) => SchedulerMessage::CompleteTag {
            enclave: EnclaveIndex(*enclave),
            tag: tag.tag(),
            network_input: *network_input,
        },
        Event::Observed(enclave, generation) => SchedulerMessage::CompletionObserved {
            enclave: EnclaveIndex(*enclave),
            generation: *generation,
        },
        Event::Stopped(enclave) => {
            SchedulerMessage::ParticipantStopped { enclave: EnclaveIndex(*enclave) }
        }
        Event::Failed(enclave) => SchedulerMessage::Failed { enclave: enclave.map(EnclaveIndex) },
        _ => return None,
    })
}

fn gate_call(state: &mut FederateCoordinationState, event: &Event) -> Call {
    match event {
        Event::Horizon(tag) => {
            state.input_horizon = tag.map(WrittenTag::tag);
            Ok((None, Vec::new()))
        }
        Event::Begin(enclave, tag) => answered(state.begin_tag(EnclaveIndex(*enclave), tag.tag())),
        Event::Late(enclave, tag) => {
            answered(state.input_is_late(EnclaveIndex(*enclave), tag.tag()))
        }
        Event::Done(enclave, tag) => {
            answered(state.input_completed(EnclaveIndex(*enclave), tag.tag()))
        }
        Event::Input(named) => {
            let named = || named.iter().map(|enclave| EnclaveIndex(*enclave));
            // The Rust would revise first and then panic on the unknown one.
            if named().any(|enclave| state.candidate(enclave).is_none()) {
                return Err(3);
            }
            state.input_publishing(named());
            Ok((None, Vec::new()))
        }
        Event::Progress => acted(state.input_progress()),
        _ => unreachable!("every other event is a call of its own"),
    }
}

fn answered(answer: bool) -> Call {
    Ok((Some(answer), Vec::new()))
}

fn acted(result: Result<Vec<CoordinationAction>, CoordinationStateError>) -> Call {
    result.map(|actions| (None, actions)).map_err(refusal_of_error)
}

fn refusal_of_error(error: CoordinationStateError) -> u8 {
    match error {
        CoordinationStateError::NoParticipants => 1,
        CoordinationStateError::DuplicateEnclave { .. } => 2,
        CoordinationStateError::UnknownEnclave { .. } => 3,
        CoordinationStateError::InvalidObservationTransition { .. } => 4,
    }
}

fn panic_text(panic: &(dyn std::any::Any + Send)) -> Option<&str> {
    panic
        .downcast_ref::<&str>()
        .copied()
        .or_else(|| panic.downcast_ref::<String>().map(String::as_str))
}

/// Keeps the expected panics off the error output; others are shown as ever. Called once by a program.
pub fn silence_expected_panics(expected: &'static [&'static str]) {
    let shown = take_hook();
    set_hook(Box::new(move |info| {
        let text = panic_text(info.payload());
        if text != Some(GENERATION_SPENT) && !text.is_some_and(|text| expected.contains(&text)) {
            shown(info);
        }
    }));
}
