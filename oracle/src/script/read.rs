//! The reader: a script's form, strictly.
//!
//! It answers the script, or refusal 12, or refusal 11 with the first byte of the first bad line (the
//! length where a line is lacking). The opening's own refusals come later, in `run`.

use super::{Event, Script, WrittenTag, MOST_BYTES, MOST_EVENTS, MOST_NAMED, SETTINGS};
use crate::shims::federate::state::{LifecyclePolicy, Observation};

/// The part of a script that a line belongs to.
#[derive(Clone, Copy, Debug, Eq, PartialEq)]
pub(crate) enum Section {
    ParticipantsHeader,
    Participant,
    SettingsHeader,
    Policy,
    Revision,
    Generation,
    EventsHeader,
    Event,
    AfterTheEnd,
}

/// Why a place is no good line.
#[derive(Clone, Copy, Debug, Eq, PartialEq)]
pub(crate) enum BadLine {
    Lacking,
    Unended,
    OutOfForm,
}

/// Why a script is not read.
#[derive(Clone, Copy, Debug, Eq, PartialEq)]
pub(crate) enum ScriptFault {
    /// Refusal 12.
    TooLong,
    /// Refusal 11; section and reason are for counting only.
    Form { place: usize, section: Section, reason: BadLine },
}

/// Reads a whole script.
pub(crate) fn read_script(bytes: &[u8]) -> Result<Script, ScriptFault> {
    if bytes.len() > MOST_BYTES {
        return Err(ScriptFault::TooLong);
    }
    let mut lines = Lines { bytes, at: 0 };
    let count = lines.item(Section::ParticipantsHeader, |line| header(line, b"participants"))?;
    let mut participants = Vec::new();
    for _ in 0..count {
        participants.push(lines.item(Section::Participant, number_32)?);
    }
    lines.item(Section::SettingsHeader, |line| {
        header(line, b"settings").filter(|count| *count == SETTINGS)
    })?;
    let policy = lines.item(Section::Policy, read_policy)?;
    let revision = lines.item(Section::Revision, number_64)?;
    let generation = lines.item(Section::Generation, number_64)?;
    let count = lines.item(Section::EventsHeader, |line| {
        header(line, b"events").filter(|count| *count <= MOST_EVENTS)
    })?;
    let mut events = Vec::new();
    for _ in 0..count {
        events.push(lines.item(Section::Event, read_event)?);
    }
    lines.end()?;
    Ok(Script { participants, policy, revision, generation, events })
}

/// The script and the place reached in it.
struct Lines<'a> {
    bytes: &'a [u8],
    at: usize,
}

impl<'a> Lines<'a> {
    /// The next line as `read` understands it; it is bad where `read` answers nothing.
    fn item<T>(
        &mut self,
        section: Section,
        read: impl FnOnce(&'a [u8]) -> Option<T>,
    ) -> Result<T, ScriptFault> {
        let place = self.at;
        let bad = |reason| ScriptFault::Form { place, section, reason };
        let rest = &self.bytes[place..];
        if rest.is_empty() {
            return Err(bad(BadLine::Lacking));
        }
        let length = rest.iter().position(|byte| *byte == b'\n').ok_or(bad(BadLine::Unended))?;
        self.at = place + length + 1;
        read(&rest[..length]).ok_or(bad(BadLine::OutOfForm))
    }

    fn end(&self) -> Result<(), ScriptFault> {
        if self.at == self.bytes.len() {
            return Ok(());
        }
        Err(ScriptFault::Form {
            place: self.at,
            section: Section::AfterTheEnd,
            reason: BadLine::OutOfForm,
        })
    }
}

/// A section's first line: its word and its count.
fn header(line: &[u8], word: &[u8]) -> Option<u32> {
    let count = line.strip_prefix(word)?.strip_prefix(b" ")?;
    number_32(count)
}

fn read_policy(line: &[u8]) -> Option<LifecyclePolicy> {
    match line {
        b"keep" => Some(LifecyclePolicy::KeepAlive),
        b"terminate" => Some(LifecyclePolicy::TerminateWhenIdle),
        b"coordinated" => Some(LifecyclePolicy::CoordinatedTermination),
        _ => None,
    }
}

fn read_event(line: &[u8]) -> Option<Event> {
    let fields: Vec<&[u8]> = line.split(|byte| *byte == b' ').collect();
    let (word, fields) = fields.split_first()?;
    read_scheduler_message(word, fields)
        .or_else(|| read_other_call(word, fields))
        .or_else(|| read_gate_call(word, fields))
}

/// The six scheduler messages.
fn read_scheduler_message(word: &[u8], fields: &[&[u8]]) -> Option<Event> {
    match (word, fields) {
        (b"active", [enclave]) => Some(Event::Active(number_32(enclave)?)),
        (b"publish", [enclave, tag]) => {
            Some(Event::Publish(number_32(enclave)?, or_dash(tag, read_tag)?))
        }
        (b"complete", [enclave, tag, network_input]) => {
            Some(Event::Complete(number_32(enclave)?, read_tag(tag)?, bit(network_input)?))
        }
        (b"observed", [enclave, generation]) => {
            Some(Event::Observed(number_32(enclave)?, number_64(generation)?))
        }
        (b"stopped", [enclave]) => Some(Event::Stopped(number_32(enclave)?)),
        (b"failed", [enclave]) => Some(Event::Failed(or_dash(enclave, number_32)?)),
        _ => None,
    }
}

/// Acquisition, publication sent, observation, idle confirmation and stop.
fn read_other_call(word: &[u8], fields: &[&[u8]]) -> Option<Event> {
    match (word, fields) {
        (b"acquire", [revision, tag]) => Some(Event::Acquire(number_64(revision)?, read_tag(tag)?)),
        (b"sent", [revision, next_event, horizon]) => Some(Event::Sent(
            number_64(revision)?,
            or_dash(next_event, read_tag)?,
            or_dash(horizon, read_tag)?,
        )),
        (b"observe", [enclave, revision, observation]) => Some(Event::Observe(
            number_32(enclave)?,
            number_64(revision)?,
            read_observation(observation)?,
        )),
        (b"idle", [revision]) => Some(Event::Idle(number_64(revision)?)),
        (b"stop", []) => Some(Event::Stop),
        _ => None,
    }
}

/// The calls of the input gate.
fn read_gate_call(word: &[u8], fields: &[&[u8]]) -> Option<Event> {
    match (word, fields) {
        (b"horizon", [tag]) => Some(Event::Horizon(or_dash(tag, read_tag)?)),
        (b"begin", [enclave, tag]) => Some(Event::Begin(number_32(enclave)?, read_tag(tag)?)),
        (b"late", [enclave, tag]) => Some(Event::Late(number_32(enclave)?, read_tag(tag)?)),
        (b"done", [enclave, tag]) => Some(Event::Done(number_32(enclave)?, read_tag(tag)?)),
        (b"input", [count, named @ ..]) => {
            let count = number_32(count).filter(|count| *count <= MOST_NAMED)?;
            if named.len() != count as usize {
                return None;
            }
            let named: Option<Vec<u32>> = named.iter().map(|enclave| number_32(enclave)).collect();
            Some(Event::Input(named?))
        }
        (b"progress", []) => Some(Event::Progress),
        _ => None,
    }
}

fn read_observation(field: &[u8]) -> Option<Observation> {
    match field {
        b"probed" => Some(Observation::Probed),
        b"parked" => Some(Observation::Parked),
        b"rechecked" => Some(Observation::Rechecked),
        _ => None,
    }
}

fn bit(field: &[u8]) -> Option<bool> {
    match field {
        b"0" => Some(false),
        b"1" => Some(true),
        _ => None,
    }
}

fn or_dash<T>(field: &[u8], read: impl FnOnce(&[u8]) -> Option<T>) -> Option<Option<T>> {
    if field == b"-" {
        return Some(None);
    }
    read(field).map(Some)
}

pub(crate) fn read_tag(field: &[u8]) -> Option<WrittenTag> {
    let parts: Vec<&[u8]> = field.split(|byte| *byte == b':').collect();
    let [seconds, nanoseconds, microstep] = parts[..] else {
        return None;
    };
    Some(WrittenTag {
        seconds: signed(seconds)?.try_into().ok()?,
        nanoseconds: signed(nanoseconds)?.try_into().ok()?,
        microstep: number_64(microstep)?,
    })
}

pub(crate) fn number_32(field: &[u8]) -> Option<u32> {
    unsigned(field)?.try_into().ok()
}

fn number_64(field: &[u8]) -> Option<u64> {
    unsigned(field)?.try_into().ok()
}

/// A numeral without sign: digits alone, no leading zero, of 20 digits at most so that it fits.
fn unsigned(field: &[u8]) -> Option<i128> {
    let plain = !field.is_empty() && field.len() <= 20 && field.iter().all(u8::is_ascii_digit);
    if !plain || (field[0] == b'0' && field.len() > 1) {
        return None;
    }
    Some(field.iter().fold(0, |value, digit| value * 10 + i128::from(*digit - b'0')))
}

/// A numeral that may have a minus, and no minus before 0.
pub(crate) fn signed(field: &[u8]) -> Option<i128> {
    match field.strip_prefix(b"-") {
        Some(digits) => unsigned(digits).filter(|value| *value != 0).map(|value| -value),
        None => unsigned(field),
    }
}
