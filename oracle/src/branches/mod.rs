//! Which branches of document 01's step rules a taken event went through, told from the states before
//! and after it. It judges nothing: it only names what a comparison has met.

mod answers;
mod completion;
mod gate;
mod messages;
mod names;

pub(crate) use names::{BRANCHES, NEVER_REACHED};

use crate::run::{scheduler_message, Outcome};
use crate::script::{Event, WrittenTag};
use crate::shims::federate::state::{
    CoordinationAction, CoordinationPhase, ParticipantView, StateView,
};

/// A taken event between two states.
pub(crate) struct Taken<'a> {
    pub(crate) before: &'a StateView,
    pub(crate) event: &'a Event,
    pub(crate) outcome: &'a Outcome,
    pub(crate) after: &'a StateView,
}

/// The branches of a taken event.
pub(crate) fn branches_of(taken: &Taken) -> Vec<&'static str> {
    let mut met = Vec::new();
    match taken.event {
        Event::Active(_) => taken.active(&mut met),
        Event::Publish(enclave, tag) => taken.publish(*enclave, tag.map(WrittenTag::tag), &mut met),
        Event::Complete(enclave, tag, network) => {
            taken.complete(*enclave, tag.tag(), *network, &mut met)
        }
        Event::Observed(_, generation) => taken.observed(*generation, &mut met),
        Event::Stopped(_) | Event::Failed(_) | Event::Stop => taken.ends(&mut met),
        Event::Acquire(revision, tag) => taken.acquire(*revision, tag.tag(), &mut met),
        Event::Sent(..) => taken.sent(&mut met),
        Event::Observe(enclave, revision, observation) => {
            taken.observe(*enclave, *revision, *observation, &mut met)
        }
        Event::Idle(revision) => taken.idle(*revision, &mut met),
        Event::Horizon(tag) => {
            met.push(if tag.is_some() { "horizon: set" } else { "horizon: removed" })
        }
        Event::Begin(enclave, tag) => taken.begin(*enclave, tag.tag(), &mut met),
        Event::Late(enclave, tag) => taken.late(*enclave, tag.tag(), &mut met),
        Event::Done(enclave, tag) => taken.done(*enclave, tag.tag(), &mut met),
        Event::Input(named) => taken.input(named, &mut met),
        Event::Progress => taken.progress(&mut met),
    }
    if taken.before.revision.value() == u64::MAX && taken.after.revision.value() == 0 {
        met.push("revision goes to 0");
    }
    if scheduler_message(taken.event).is_some() {
        taken.completion_step(&mut met);
    }
    met
}

type Met = Vec<&'static str>;

impl Taken<'_> {
    fn was_stopped(&self) -> bool {
        self.before.phase == CoordinationPhase::Stopped
    }

    fn participant(&self, enclave: u32) -> Option<&ParticipantView> {
        self.before.participants.iter().find(|p| p.enclave.0 == enclave)
    }

    fn emits(&self, is_this: fn(&CoordinationAction) -> bool) -> bool {
        self.outcome.actions.iter().any(is_this)
    }

    fn count_of(&self, is_this: fn(&CoordinationAction) -> bool) -> usize {
        self.outcome.actions.iter().filter(|action| is_this(action)).count()
    }
}

fn is_complete(action: &CoordinationAction) -> bool {
    matches!(action, CoordinationAction::Complete(_))
}
