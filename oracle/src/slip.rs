//! Deliberately wrong oracles: each has one slip that a port could make.
//!
//! They show that a comparison can fail. The comparer's own oracle never slips.

use std::fmt::Write;

use crate::listing::{listing_of, listing_of_script};
use crate::run::{self, outcome_of, Outcome};
use crate::script::{read_script, Event, WrittenTag};
use crate::shims::federate::state::FederateCoordinationState;

/// The slips by name.
pub(crate) const SLIPS: &[(&str, fn(&[u8]) -> String)] = &[
    ("phase-words-swapped", phase_words_swapped),
    ("network-mark-dropped", network_mark_dropped),
    ("leading-zero-taken", leading_zero_taken),
    ("minus-zero-taken", minus_zero_taken),
    ("place-one-line-late", place_one_line_late),
    ("only-taken-counted", only_taken_counted),
    ("last-event-left", last_event_left),
    ("idle-after-first", idle_after_first),
    ("grown-horizon-granted", |bytes| stepped(bytes, grown_horizon_granted)),
    ("old-generation-kept", |bytes| stepped(bytes, old_generation_kept)),
    ("step-after-acquisition", |bytes| stepped(bytes, step_after_acquisition)),
    ("spent-generation-stored", |bytes| stepped(bytes, spent_generation_stored)),
];

type Step = fn(&mut FederateCoordinationState, &Event) -> Outcome;

fn stepped(bytes: &[u8], step: Step) -> String {
    match read_script(bytes) {
        Ok(script) => listing_of_script(&script, step),
        Err(_) => listing_of(bytes),
    }
}

fn phase_words_swapped(bytes: &[u8]) -> String {
    listing_of(bytes)
        .replace(" parking ", " \u{1} ")
        .replace(" rechecking ", " parking ")
        .replace(" \u{1} ", " rechecking ")
}

fn network_mark_dropped(bytes: &[u8]) -> String {
    edit_lines(&listing_of(bytes), |line| {
        match (line.starts_with("complete "), line.strip_suffix(" 1")) {
            (true, Some(rest)) => format!("{rest} 0"),
            _ => line.to_string(),
        }
    })
}

fn edit_lines(text: &str, edit: impl Fn(&str) -> String) -> String {
    text.lines().map(|line| edit(line) + "\n").collect()
}

/// Reads the script as if each number's leading zeros were not there.
fn leading_zero_taken(bytes: &[u8]) -> String {
    let mut plain: Vec<u8> = Vec::new();
    for (at, byte) in bytes.iter().enumerate() {
        let begins_number = at == 0 || b" \n:-".contains(&bytes[at - 1]);
        let digit_follows = bytes.get(at + 1).is_some_and(u8::is_ascii_digit);
        if *byte != b'0' || !begins_number || !digit_follows {
            plain.push(*byte);
        }
    }
    listing_of(&plain)
}

/// Reads the script as if each `-0` were `0`.
fn minus_zero_taken(bytes: &[u8]) -> String {
    let plain: Vec<u8> = bytes
        .iter()
        .enumerate()
        .filter(|(at, byte)| **byte != b'-' || bytes.get(at + 1) != Some(&b'0'))
        .map(|(_, byte)| *byte)
        .collect();
    listing_of(&plain)
}

fn place_one_line_late(bytes: &[u8]) -> String {
    let listing = listing_of(bytes);
    let place =
        listing.strip_prefix("refused 11 ").and_then(|rest| rest.trim_end().parse::<usize>().ok());
    let Some(place) = place else {
        return listing;
    };
    let line = bytes[place..].iter().position(|byte| *byte == b'\n');
    format!("refused 11 {}\n", line.map_or(bytes.len(), |length| place + length + 1))
}

/// Numbers the event lines by the taken events alone.
fn only_taken_counted(bytes: &[u8]) -> String {
    let mut taken = 0;
    let mut listing = String::new();
    for line in listing_of(bytes).lines() {
        let fields: Vec<&str> = line.split(' ').collect();
        let is_event_line = fields.len() == 4 && line.starts_with(|c: char| c.is_ascii_digit());
        if is_event_line {
            taken += usize::from(fields[1] == "0");
            writeln!(listing, "{taken} {}", fields[1..].join(" ")).expect("writing to a string");
        } else {
            listing = listing + line + "\n";
        }
    }
    listing
}

/// A budget that stops one early.
fn last_event_left(bytes: &[u8]) -> String {
    match read_script(bytes) {
        Ok(mut script) => {
            script.events.pop();
            listing_of_script(&script, run::step)
        }
        Err(_) => listing_of(bytes),
    }
}

fn idle_after_first(bytes: &[u8]) -> String {
    match read_script(bytes) {
        Ok(script) => {
            let mut first = true;
            listing_of_script(&script, |state, event| {
                if std::mem::take(&mut first) {
                    return run::step(state, event);
                }
                outcome_of(event, Ok((None, Vec::new())))
            })
        }
        Err(_) => listing_of(bytes),
    }
}

/// Grants up to the grown horizon in place of this acquisition's tag.
fn grown_horizon_granted(state: &mut FederateCoordinationState, event: &Event) -> Outcome {
    match (event, state.view().grant_horizon) {
        (Event::Acquire(revision, tag), Some(horizon)) if tag.is_proper() => {
            let grown = WrittenTag::from(tag.tag().max(horizon));
            run::step(state, &Event::Acquire(*revision, grown))
        }
        _ => run::step(state, event),
    }
}

/// Takes an acknowledgement of an older generation for one of the current.
fn old_generation_kept(state: &mut FederateCoordinationState, event: &Event) -> Outcome {
    match event {
        Event::Observed(enclave, generation) => {
            let current = (*generation).max(state.view().completion_generation);
            run::step(state, &Event::Observed(*enclave, current))
        }
        _ => run::step(state, event),
    }
}

/// Runs the completion step after an acquisition too.
fn step_after_acquisition(state: &mut FederateCoordinationState, event: &Event) -> Outcome {
    let mut outcome = run::step(state, event);
    let may_step = state.view().completion_generation < u64::MAX;
    if matches!(event, Event::Acquire(..)) && outcome.refusal == 0 && may_step {
        outcome.actions.extend(state.completion_step());
    }
    outcome
}

/// Refuses by 9 and keeps what the call had stored by then.
fn spent_generation_stored(state: &mut FederateCoordinationState, event: &Event) -> Outcome {
    let mut next = state.copy();
    let outcome = run::step(&mut next, event);
    if outcome.refusal == 9 {
        let refused = run::guarded_call(state, event);
        return outcome_of(event, refused);
    }
    *state = next;
    outcome
}
