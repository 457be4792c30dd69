//! Document 01's script: what it holds and how it is written. `read` is its reader.

mod read;

pub(crate) use read::{read_script, read_tag, signed, ScriptFault};

use std::fmt;

use crate::shims::federate::state::{LifecyclePolicy, Observation};
use crate::{Duration, Tag};

pub(crate) const MOST_BYTES: usize = 65_536;
pub(crate) const MOST_EVENTS: u32 = 4_096;
pub(crate) const MOST_NAMED: u32 = 32;
const SETTINGS: u32 = 3;

/// A tag as a script writes it: each part within its width, the whole perhaps not proper.
#[derive(Clone, Copy, Debug, Eq, PartialEq)]
pub(crate) struct WrittenTag {
    pub(crate) seconds: i64,
    pub(crate) nanoseconds: i32,
    pub(crate) microstep: u64,
}

impl WrittenTag {
    /// Document 01: nanoseconds in range, and never of the opposite sign to the seconds.
    pub(crate) fn is_proper(self) -> bool {
        (-999_999_999..=999_999_999).contains(&self.nanoseconds)
            && !(self.seconds < 0 && self.nanoseconds > 0)
            && !(self.seconds > 0 && self.nanoseconds < 0)
    }

    /// The Rust's tag. Of a proper tag only: the constructor would normalise another.
    pub(crate) fn tag(self) -> Tag {
        debug_assert!(self.is_proper());
        Tag::new(Duration::new(self.seconds, self.nanoseconds), self.microstep as usize)
    }
}

impl From<Tag> for WrittenTag {
    fn from(tag: Tag) -> Self {
        Self {
            seconds: tag.offset().whole_seconds(),
            nanoseconds: tag.offset().subsec_nanoseconds(),
            microstep: tag.microstep() as u64,
        }
    }
}

impl fmt::Display for WrittenTag {
    fn fmt(&self, f: &mut fmt::Formatter<'_>) -> fmt::Result {
        write!(f, "{}:{}:{}", self.seconds, self.nanoseconds, self.microstep)
    }
}

/// Something that may be absent, written `-` then.
pub(crate) struct OrDash<T>(pub(crate) Option<T>);

impl<T: fmt::Display> fmt::Display for OrDash<T> {
    fn fmt(&self, f: &mut fmt::Formatter<'_>) -> fmt::Result {
        match &self.0 {
            Some(value) => value.fmt(f),
            None => f.write_str("-"),
        }
    }
}

/// One event line.
#[derive(Clone, Debug, Eq, PartialEq)]
pub(crate) enum Event {
    Active(u32),
    Publish(u32, Option<WrittenTag>),
    Complete(u32, WrittenTag, bool),
    Observed(u32, u64),
    Stopped(u32),
    Failed(Option<u32>),
    Acquire(u64, WrittenTag),
    /// Revision, next event, horizon.
    Sent(u64, Option<WrittenTag>, Option<WrittenTag>),
    Observe(u32, u64, Observation),
    Idle(u64),
    Stop,
    Horizon(Option<WrittenTag>),
    Begin(u32, WrittenTag),
    Late(u32, WrittenTag),
    Done(u32, WrittenTag),
    Input(Vec<u32>),
    Progress,
}

impl Event {
    /// The word that begins the event's line.
    pub(crate) fn word(&self) -> &'static str {
        match self {
            Event::Active(..) => "active",
            Event::Publish(..) => "publish",
            Event::Complete(..) => "complete",
            Event::Observed(..) => "observed",
            Event::Stopped(..) => "stopped",
            Event::Failed(..) => "failed",
            Event::Acquire(..) => "acquire",
            Event::Sent(..) => "sent",
            Event::Observe(..) => "observe",
            Event::Idle(..) => "idle",
            Event::Stop => "stop",
            Event::Horizon(..) => "horizon",
            Event::Begin(..) => "begin",
            Event::Late(..) => "late",
            Event::Done(..) => "done",
            Event::Input(..) => "input",
            Event::Progress => "progress",
        }
    }

    /// The tags that the event gives, in the line's order.
    pub(crate) fn tags(&self) -> Vec<WrittenTag> {
        match *self {
            Event::Publish(_, tag) | Event::Horizon(tag) => tag.into_iter().collect(),
            Event::Complete(_, tag, _)
            | Event::Acquire(_, tag)
            | Event::Begin(_, tag)
            | Event::Late(_, tag)
            | Event::Done(_, tag) => vec![tag],
            Event::Sent(_, next_event, horizon) => next_event.into_iter().chain(horizon).collect(),
            _ => Vec::new(),
        }
    }
}

impl fmt::Display for Event {
    fn fmt(&self, f: &mut fmt::Formatter<'_>) -> fmt::Result {
        f.write_str(self.word())?;
        match self {
            Event::Active(enclave) | Event::Stopped(enclave) => write!(f, " {enclave}"),
            Event::Publish(enclave, tag) => write!(f, " {enclave} {}", OrDash(*tag)),
            Event::Complete(enclave, tag, network_input) => {
                write!(f, " {enclave} {tag} {}", u8::from(*network_input))
            }
            Event::Observed(enclave, generation) => write!(f, " {enclave} {generation}"),
            Event::Failed(enclave) => write!(f, " {}", OrDash(*enclave)),
            Event::Acquire(revision, tag) => write!(f, " {revision} {tag}"),
            Event::Sent(revision, next_event, horizon) => {
                write!(f, " {revision} {} {}", OrDash(*next_event), OrDash(*horizon))
            }
            Event::Observe(enclave, revision, observation) => {
                write!(f, " {enclave} {revision} {}", observation_word(*observation))
            }
            Event::Idle(revision) => write!(f, " {revision}"),
            Event::Horizon(tag) => write!(f, " {}", OrDash(*tag)),
            Event::Begin(enclave, tag) | Event::Late(enclave, tag) | Event::Done(enclave, tag) => {
                write!(f, " {enclave} {tag}")
            }
            Event::Input(named) => {
                write!(f, " {}", named.len())?;
                named.iter().try_for_each(|enclave| write!(f, " {enclave}"))
            }
            Event::Stop | Event::Progress => Ok(()),
        }
    }
}

/// A script of good form.
#[derive(Clone, Debug, Eq, PartialEq)]
pub(crate) struct Script {
    pub(crate) participants: Vec<u32>,
    pub(crate) policy: LifecyclePolicy,
    pub(crate) revision: u64,
    pub(crate) generation: u64,
    pub(crate) events: Vec<Event>,
}

impl fmt::Display for Script {
    fn fmt(&self, f: &mut fmt::Formatter<'_>) -> fmt::Result {
        writeln!(f, "participants {}", self.participants.len())?;
        for enclave in &self.participants {
            writeln!(f, "{enclave}")?;
        }
        let policy = policy_word(self.policy);
        writeln!(f, "settings {SETTINGS}\n{policy}\n{}\n{}", self.revision, self.generation)?;
        writeln!(f, "events {}", self.events.len())?;
        self.events.iter().try_for_each(|event| writeln!(f, "{event}"))
    }
}

pub(crate) fn policy_word(policy: LifecyclePolicy) -> &'static str {
    match policy {
        LifecyclePolicy::KeepAlive => "keep",
        LifecyclePolicy::TerminateWhenIdle => "terminate",
        LifecyclePolicy::CoordinatedTermination => "coordinated",
    }
}

pub(crate) fn observation_word(observation: Observation) -> &'static str {
    match observation {
        Observation::Probed => "probed",
        Observation::Parked => "parked",
        Observation::Rechecked => "rechecked",
    }
}
