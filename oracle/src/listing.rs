//! Document 01's listing of a script's run.

use std::fmt::Write;

use crate::run::{self, Outcome};
use crate::script::{read_script, Event, OrDash, Script, ScriptFault, WrittenTag};
use crate::shims::federate::state::{
    CoordinationAction, CoordinationPhase, FederateCoordinationState, StateView,
};
use crate::Tag;

/// The whole output of the script program for these bytes.
pub(crate) fn listing_of(bytes: &[u8]) -> String {
    match read_script(bytes) {
        Ok(script) => listing_of_script(&script, run::step),
        Err(fault) => fault_line(fault),
    }
}

/// The listing of a script of good form, its events taken by `step`.
pub(crate) fn listing_of_script(
    script: &Script,
    step: impl FnMut(&mut FederateCoordinationState, &Event) -> Outcome,
) -> String {
    let mut state = match run::open(script) {
        Ok(state) => state,
        Err(refusal) => return refused_line(refusal),
    };
    let outcomes = run::run(&mut state, &script.events, run::BUDGET, step);
    let mut listing = String::new();
    for (outcome, number) in outcomes.iter().zip(1..) {
        listing += &event_lines(number, outcome);
    }
    listing + &end_line(&state.view())
}

pub(crate) fn fault_line(fault: ScriptFault) -> String {
    match fault {
        ScriptFault::TooLong => refused_line(12),
        ScriptFault::Form { place, .. } => format!("refused 11 {place}\n"),
    }
}

pub(crate) fn refused_line(refusal: u8) -> String {
    format!("refused {refusal}\n")
}

/// The event's own line and a line for each of its actions.
pub(crate) fn event_lines(number: usize, outcome: &Outcome) -> String {
    let answer = OrDash(outcome.answer.map(u8::from));
    let count = outcome.actions.len();
    let mut lines = format!("{number} {} {answer} {count}\n", outcome.refusal);
    for action in &outcome.actions {
        writeln!(lines, "{}", action_line(action)).expect("writing to a string");
    }
    lines
}

fn action_line(action: &CoordinationAction) -> String {
    let word = action_word(action);
    match *action {
        CoordinationAction::Publish(publication) => format!(
            "{word} {} {} {}",
            publication.revision().value(),
            optional_tag(publication.next_event()),
            optional_tag(publication.grant_horizon()),
        ),
        CoordinationAction::AdvanceHorizon { tag } => format!("{word} {}", WrittenTag::from(tag)),
        CoordinationAction::Grant { enclave, tag } => {
            format!("{word} {} {}", enclave.0, WrittenTag::from(tag))
        }
        CoordinationAction::Complete(completion) => format!(
            "{word} {} {}",
            WrittenTag::from(completion.completed()),
            u8::from(completion.confirms_network_input()),
        ),
        CoordinationAction::CompletionProbe { enclave, generation } => {
            format!("{word} {} {generation}", enclave.0)
        }
        CoordinationAction::Probe { revision }
        | CoordinationAction::Park { revision }
        | CoordinationAction::Recheck { revision } => format!("{word} {}", revision.value()),
        CoordinationAction::Resume { enclave, revision } => {
            format!("{word} {} {}", enclave.0, revision.value())
        }
        CoordinationAction::Stop | CoordinationAction::Abort => word.to_string(),
    }
}

/// The word that begins an action's line.
pub(crate) fn action_word(action: &CoordinationAction) -> &'static str {
    match action {
        CoordinationAction::Publish(_) => "publish",
        CoordinationAction::AdvanceHorizon { .. } => "advance",
        CoordinationAction::Grant { .. } => "grant",
        CoordinationAction::Complete(_) => "complete",
        CoordinationAction::CompletionProbe { .. } => "completion-probe",
        CoordinationAction::Probe { .. } => "probe",
        CoordinationAction::Park { .. } => "park",
        CoordinationAction::Recheck { .. } => "recheck",
        CoordinationAction::Resume { .. } => "resume",
        CoordinationAction::Stop => "stop",
        CoordinationAction::Abort => "abort",
    }
}

pub(crate) fn end_line(view: &StateView) -> String {
    format!(
        "end {} {} {} {} {} {}\n",
        view.revision.value(),
        phase_word(view.phase),
        view.completion_generation,
        optional_tag(view.completed_frontier),
        optional_tag(view.grant_horizon),
        u8::from(is_settled(view)),
    )
}

/// No publication is pending and no completion probe is out.
fn is_settled(view: &StateView) -> bool {
    view.pending_publication.is_none() && view.completion_probe.is_none()
}

/// The Rust's own name in lower case.
pub(crate) fn phase_word(phase: CoordinationPhase) -> String {
    format!("{phase:?}").to_lowercase()
}

pub(crate) fn optional_tag(tag: Option<Tag>) -> OrDash<WrittenTag> {
    OrDash(tag.map(WrittenTag::from))
}
