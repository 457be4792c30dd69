//! The listing with the whole state after each event, for looking into a run.

use crate::listing::{end_line, event_lines, fault_line, optional_tag, phase_word, refused_line};
use crate::run;
use crate::script::{observation_word, policy_word, read_script, OrDash, WrittenTag};
use crate::shims::federate::state::{ParticipantView, StateView};
use crate::Tag;

/// As the listing, with a `state` line and a `participant` line for each enclave after the opening
/// and after each event.
pub fn listing_with_states(bytes: &[u8]) -> String {
    let script = match read_script(bytes) {
        Ok(script) => script,
        Err(fault) => return fault_line(fault),
    };
    let mut state = match run::open(&script) {
        Ok(state) => state,
        Err(refusal) => return refused_line(refusal),
    };
    let mut listing = state_lines(&state.view());
    for (event, number) in script.events.iter().take(run::BUDGET).zip(1..) {
        let outcome = run::step(&mut state, event);
        listing += &event_lines(number, &outcome);
        listing += &state_lines(&state.view());
    }
    listing + &end_line(&state.view())
}

fn state_lines(view: &StateView) -> String {
    let acquisition = view.input_acquisition.map(|acquisition| {
        let tag = WrittenTag::from(acquisition.granted());
        format!("{}/{tag}", acquisition.revision().value())
    });
    let pending = view.pending_publication.map(|publication| {
        let next_event = optional_tag(publication.next_event());
        let horizon = optional_tag(publication.grant_horizon());
        format!("{}/{next_event}/{horizon}", publication.revision().value())
    });
    let mut lines = format!(
        "state policy={} phase={} revision={} generation={} probe={} frontier={} horizon={} \
         pending={} inputs={} failure={} authorization={} input-horizon={} input-acquisition={}\n",
        policy_word(view.lifecycle),
        phase_word(view.phase),
        view.revision.value(),
        view.completion_generation,
        optional_tag(view.completion_probe),
        optional_tag(view.completed_frontier),
        optional_tag(view.grant_horizon),
        OrDash(pending),
        OrDash(view.pending_inputs.map(pair)),
        OrDash(view.first_failure.map(|enclave| enclave.0)),
        OrDash(view.idle_authorization.map(|revision| revision.value())),
        optional_tag(view.input_horizon),
        OrDash(acquisition),
    );
    for participant in &view.participants {
        lines += &participant_line(participant);
    }
    lines
}

fn pair((first, last): (Tag, Tag)) -> String {
    format!("{}/{}", WrittenTag::from(first), WrittenTag::from(last))
}

fn participant_line(participant: &ParticipantView) -> String {
    format!(
        "participant {} published={} candidate={} completed={} granted={} started={} \
         acknowledged={} observation={}\n",
        participant.enclave.0,
        u8::from(participant.published),
        optional_tag(participant.candidate),
        optional_tag(participant.completed),
        optional_tag(participant.granted),
        optional_tag(participant.started),
        OrDash(participant.completion_observed),
        OrDash(participant.observation.map(observation_word)),
    )
}
