//! A script run by the safe type, listed in the words of the oracle: document 01's listing, with the whole
//! state after the opening and after each event.

use std::fmt::Display;

use spindlecove_host::numbers::Held;
use spindlecove_host::{
    CoordinationAction, CoordinationPhase, EnclaveIndex, FederateCoordinationState,
    FederatePublication, Refusal, Tag,
};

use crate::script::{self, Event, Script};

/// What an event gave: the answer of begin, late and done alone, and the actions of the others.
type Outcome = Result<(Option<bool>, Vec<CoordinationAction>), Refusal>;

pub fn listing_with_states(text: &str) -> String {
    let Script { participants, policy, revision, generation, events } = script::read(text);
    let opened = FederateCoordinationState::starting_at(participants, policy, revision, generation);
    let mut state = match opened {
        Ok(state) => state,
        Err(refusal) => return format!("refused {}\n", refusal.number()),
    };
    let mut listing = state_lines(&state);
    for (event, number) in events.iter().zip(1..) {
        let before = state.clone();
        let outcome = take(&mut state, event);
        if outcome.is_err() {
            assert_eq!(before.held(), state.held(), "a refused call changes nothing");
        }
        listing += &event_lines(number, event, outcome);
        listing += &state_lines(&state);
    }
    listing + &end_line(&state)
}

fn take(state: &mut FederateCoordinationState, event: &Event) -> Outcome {
    match event {
        Event::Scheduler(message) => acted(state.handle_scheduler(*message)),
        Event::Acquisition(acquisition) => acted(state.handle_acquisition(*acquisition)),
        Event::PublicationSent(publication) => acted(state.handle_publication_sent(*publication)),
        Event::Observation(enclave, revision, observation) => {
            acted(state.handle_observation(*enclave, *revision, *observation))
        }
        Event::IdleConfirmation(revision) => acted(state.handle_idle_confirmation(*revision)),
        Event::Stop => acted(state.stop()),
        Event::InputHorizon(tag) => state.set_input_horizon(*tag).map(|()| (None, Vec::new())),
        Event::BeginTag(enclave, tag) => answered(state.begin_tag(*enclave, *tag)),
        Event::InputIsLate(enclave, tag) => answered(state.input_is_late(*enclave, *tag)),
        Event::InputCompleted(enclave, tag) => answered(state.input_completed(*enclave, *tag)),
        Event::InputPublishing(named) => {
            state.input_publishing(named.iter().copied()).map(|()| (None, Vec::new()))
        }
        Event::InputProgress => acted(state.input_progress()),
    }
}

fn acted(result: Result<Vec<CoordinationAction>, Refusal>) -> Outcome {
    result.map(|actions| (None, actions))
}

fn answered(result: Result<bool, Refusal>) -> Outcome {
    result.map(|answer| (Some(answer), Vec::new()))
}

fn event_lines(number: usize, event: &Event, outcome: Outcome) -> String {
    let answers =
        matches!(event, Event::BeginTag(..) | Event::InputIsLate(..) | Event::InputCompleted(..));
    let (refusal, answer, actions) = match outcome {
        Ok((answer, actions)) => (0, answer, actions),
        Err(refusal) => (refusal.number(), answers.then_some(false), Vec::new()),
    };
    let answer = or_dash(answer.map(u8::from));
    let mut lines = format!("{number} {refusal} {answer} {}\n", actions.len());
    for action in actions {
        lines += &action_line(action);
        lines.push('\n');
    }
    lines
}

fn action_line(action: CoordinationAction) -> String {
    match action {
        CoordinationAction::Publish(p) => format!(
            "publish {} {} {}",
            p.revision().value(),
            optional_tag(p.next_event()),
            optional_tag(p.grant_horizon())
        ),
        CoordinationAction::AdvanceHorizon { tag } => format!("advance {}", tag_text(tag)),
        CoordinationAction::Grant { enclave, tag } => {
            format!("grant {} {}", enclave.0, tag_text(tag))
        }
        CoordinationAction::Complete(c) => {
            let network = u8::from(c.confirms_network_input());
            format!("complete {} {network}", tag_text(c.completed()))
        }
        CoordinationAction::CompletionProbe { enclave, generation } => {
            format!("completion-probe {} {generation}", enclave.0)
        }
        CoordinationAction::Probe { revision } => format!("probe {}", revision.value()),
        CoordinationAction::Park { revision } => format!("park {}", revision.value()),
        CoordinationAction::Recheck { revision } => format!("recheck {}", revision.value()),
        CoordinationAction::Resume { enclave, revision } => {
            format!("resume {} {}", enclave.0, revision.value())
        }
        CoordinationAction::Stop => "stop".to_string(),
        CoordinationAction::Abort => "abort".to_string(),
    }
}

/// What the original's queries show comes from the queries, the rest from the cells.
fn state_lines(state: &FederateCoordinationState) -> String {
    let held = state.held();
    assert_eq!(state.is_stopped(), state.phase() == CoordinationPhase::Stopped);
    let awaited = (held.coordination.phase == 5).then_some(state.revision());
    assert_eq!(state.idle_confirmation_revision(), awaited);
    let mut lines = format!(
        "state policy={} phase={} revision={} generation={} probe={} frontier={} horizon={} \
         pending={} inputs={} failure={} authorization={} input-horizon={} input-acquisition={}\n",
        ["keep", "terminate", "coordinated"][usize::from(held.lifecycle)],
        phase_word(state.phase()),
        state.revision().value(),
        state.completion_generation(),
        optional_tag(cell(held.completion.completion_probe)),
        optional_tag(state.completed_frontier()),
        optional_tag(state.grant_horizon()),
        or_dash(state.pending_publication().map(publication_text)),
        or_dash(inputs(held)),
        or_dash(state.first_failure().map(|enclave| enclave.0)),
        or_dash(held.coordination.authorized.then_some(held.coordination.idle_authorization)),
        optional_tag(cell(held.gate.input_horizon)),
        or_dash(stored(held)),
    );
    for place in 0..held.count {
        lines += &participant_line(state, place);
    }
    lines
}

fn participant_line(state: &FederateCoordinationState, place: usize) -> String {
    let held = state.held();
    let enclave = EnclaveIndex(held.enclaves[place]);
    let candidate = state.candidate(enclave).expect("a participant is known");
    let observation = ["-", "probed", "parked", "rechecked"][usize::from(held.observation[place])];
    format!(
        "participant {} published={} candidate={} completed={} granted={} started={} \
         acknowledged={} observation={observation}\n",
        enclave.0,
        u8::from(held.published[place]),
        optional_tag(candidate),
        optional_tag(tag_at(held, 32 + place)),
        optional_tag(cell(held.gate.granted)),
        optional_tag(tag_at(held, 64 + place)),
        or_dash(held.acknowledged[place].then_some(held.completion_observed[place])),
    )
}

fn end_line(state: &FederateCoordinationState) -> String {
    format!(
        "end {} {} {} {} {} {}\n",
        state.revision().value(),
        phase_word(state.phase()),
        state.completion_generation(),
        optional_tag(state.completed_frontier()),
        optional_tag(state.grant_horizon()),
        u8::from(state.is_settled()),
    )
}

fn phase_word(phase: CoordinationPhase) -> String {
    format!("{phase:?}").to_lowercase()
}

fn publication_text(p: FederatePublication) -> String {
    let horizon = optional_tag(p.grant_horizon());
    format!("{}/{}/{horizon}", p.revision().value(), optional_tag(p.next_event()))
}

fn inputs(held: &Held) -> Option<String> {
    let last = tag_text(held.completion.last_input);
    cell(held.completion.first_input).map(|first| format!("{}/{last}", tag_text(first)))
}

fn stored(held: &Held) -> Option<String> {
    let revision = held.gate.stored_revision;
    cell(held.gate.stored_granted).map(|tag| format!("{revision}/{}", tag_text(tag)))
}

/// The tag at a place of the columns of tags.
fn tag_at(held: &Held, place: usize) -> Option<Tag> {
    cell(Tag::new(held.seconds[place], held.nanoseconds[place], held.microsteps[place]))
}

/// The tag of a cell; no proper tag has the nanoseconds that mark an absent one.
fn cell(tag: Tag) -> Option<Tag> {
    Some(tag).filter(|tag| tag.nanoseconds != i32::MIN)
}

fn tag_text(tag: Tag) -> String {
    format!("{}:{}:{}", tag.seconds, tag.nanoseconds, tag.microstep)
}

fn optional_tag(tag: Option<Tag>) -> String {
    or_dash(tag.map(tag_text))
}

fn or_dash(value: Option<impl Display>) -> String {
    value.map_or("-".to_string(), |value| value.to_string())
}
