//! Scripts of good form, read as plainly as can be: the oracle's generator wrote them.

use std::str::{FromStr, Lines, SplitWhitespace};

use spindlecove_host::{
    CoordinationRevision, EnclaveIndex, FederateAcquisition, FederatePublication, LifecyclePolicy,
    Observation, SchedulerMessage, Tag,
};

pub struct Script {
    pub participants: Vec<EnclaveIndex>,
    pub policy: LifecyclePolicy,
    pub revision: CoordinationRevision,
    pub generation: u64,
    pub events: Vec<Event>,
}

/// One event, by the method that takes it.
pub enum Event {
    Scheduler(SchedulerMessage),
    Acquisition(FederateAcquisition),
    PublicationSent(FederatePublication),
    Observation(EnclaveIndex, CoordinationRevision, Observation),
    IdleConfirmation(CoordinationRevision),
    Stop,
    InputHorizon(Option<Tag>),
    BeginTag(EnclaveIndex, Tag),
    InputIsLate(EnclaveIndex, Tag),
    InputCompleted(EnclaveIndex, Tag),
    InputPublishing(Vec<EnclaveIndex>),
    InputProgress,
}

pub fn read(text: &str) -> Script {
    let mut lines = text.lines();
    let participants = section(&mut lines).map(|line| EnclaveIndex(number(line))).collect();
    let settings: Vec<&str> = section(&mut lines).collect();
    Script {
        participants,
        policy: policy(settings[0]),
        revision: CoordinationRevision::new(number(settings[1])),
        generation: number(settings[2]),
        events: section(&mut lines).map(|line| event(Fields(line.split_whitespace()))).collect(),
    }
}

/// The lines of the section whose heading comes next.
fn section<'a>(lines: &mut Lines<'a>) -> std::vec::IntoIter<&'a str> {
    let heading = lines.next().expect("a heading");
    let (_, count) = heading.split_once(' ').expect("a count");
    lines.take(number(count)).collect::<Vec<_>>().into_iter()
}

fn policy(word: &str) -> LifecyclePolicy {
    match word {
        "keep" => LifecyclePolicy::KeepAlive,
        "terminate" => LifecyclePolicy::TerminateWhenIdle,
        "coordinated" => LifecyclePolicy::CoordinatedTermination,
        other => panic!("no policy {other}"),
    }
}

fn number<T: FromStr>(text: &str) -> T {
    text.parse().unwrap_or_else(|_| panic!("no number of this width: {text}"))
}

fn tag(text: &str) -> Tag {
    let mut parts = text.split(':');
    let mut part = || parts.next().expect("three parts");
    Tag::new(number(part()), number(part()), number(part()))
}

/// The fields of an event's line, taken one after the other.
struct Fields<'a>(SplitWhitespace<'a>);

impl<'a> Fields<'a> {
    fn text(&mut self) -> &'a str {
        self.0.next().expect("a field")
    }

    fn number<T: FromStr>(&mut self) -> T {
        number(self.text())
    }

    fn enclave(&mut self) -> EnclaveIndex {
        EnclaveIndex(self.number())
    }

    fn revision(&mut self) -> CoordinationRevision {
        CoordinationRevision::new(self.number())
    }

    fn tag(&mut self) -> Tag {
        tag(self.text())
    }

    fn optional<T>(&mut self, read: impl Fn(&str) -> T) -> Option<T> {
        Some(self.text()).filter(|text| *text != "-").map(read)
    }

    fn observation(&mut self) -> Observation {
        match self.text() {
            "probed" => Observation::Probed,
            "parked" => Observation::Parked,
            "rechecked" => Observation::Rechecked,
            other => panic!("no observation {other}"),
        }
    }
}

fn event(mut line: Fields) -> Event {
    match line.text() {
        "acquire" => Event::Acquisition(FederateAcquisition::new(line.revision(), line.tag())),
        "sent" => {
            let publication = FederatePublication::new(line.revision(), line.optional(tag));
            Event::PublicationSent(publication.with_grant_horizon(line.optional(tag)))
        }
        "observe" => Event::Observation(line.enclave(), line.revision(), line.observation()),
        "idle" => Event::IdleConfirmation(line.revision()),
        "stop" => Event::Stop,
        "horizon" => Event::InputHorizon(line.optional(tag)),
        "begin" => Event::BeginTag(line.enclave(), line.tag()),
        "late" => Event::InputIsLate(line.enclave(), line.tag()),
        "done" => Event::InputCompleted(line.enclave(), line.tag()),
        "input" => {
            let count = line.number();
            Event::InputPublishing((0..count).map(|_: u32| line.enclave()).collect())
        }
        "progress" => Event::InputProgress,
        word => Event::Scheduler(message(word, line)),
    }
}

fn message(word: &str, mut line: Fields) -> SchedulerMessage {
    match word {
        "active" => SchedulerMessage::Active { enclave: line.enclave() },
        "publish" => {
            SchedulerMessage::Publish { enclave: line.enclave(), next_event: line.optional(tag) }
        }
        "complete" => SchedulerMessage::CompleteTag {
            enclave: line.enclave(),
            tag: line.tag(),
            network_input: line.text() == "1",
        },
        "observed" => SchedulerMessage::CompletionObserved {
            enclave: line.enclave(),
            generation: line.number(),
        },
        "stopped" => SchedulerMessage::ParticipantStopped { enclave: line.enclave() },
        "failed" => {
            SchedulerMessage::Failed { enclave: line.optional(|text| EnclaveIndex(number(text))) }
        }
        other => panic!("no event {other}"),
    }
}
