//! Branches of acquisition, publication sent, observation and idle confirmation.

use super::{Met, Taken};
use crate::script::{Event, WrittenTag};
use crate::shims::federate::state::{
    CoordinationAction, CoordinationPhase, LifecyclePolicy, Observation,
};
use crate::Tag;

impl Taken<'_> {
    pub(super) fn acquire(&self, revision: u64, tag: Tag, met: &mut Met) {
        if self.was_stopped() {
            return met.push("acquire: stopped");
        }
        if revision != self.before.revision.value() {
            return met.push("acquire: other revision");
        }
        if let Some(cap) = self.before.input_horizon {
            met.push(match self.before.input_acquisition {
                None => "acquire: stored, none before",
                Some(old) if old.revision().value() != revision => {
                    "acquire: stored over another revision"
                }
                Some(old) if old.granted() < tag => "acquire: stored over a lower tag",
                Some(_) => "acquire: not stored, one as high is",
            });
            met.push(if cap < tag { "acquire: capped" } else { "acquire: not capped" });
        }
        let capped = self.before.input_horizon.map_or(tag, |cap| tag.min(cap));
        self.grants(capped, met);
    }

    fn grants(&self, capped: Tag, met: &mut Met) {
        let pending = self.before.pending_publication.is_some();
        met.push(match (pending, self.before.grant_horizon) {
            (false, None) => "acquire: nothing pending, no horizon",
            (false, Some(horizon)) if capped <= horizon => {
                "acquire: nothing pending, not above the horizon"
            }
            (false, Some(_)) => "acquire: nothing pending, above the horizon",
            (true, None) => "acquire: pending, no horizon",
            (true, Some(horizon)) if capped < horizon => "acquire: pending, below the horizon",
            (true, Some(_)) => "acquire: pending, at or above the horizon",
        });
        if self.outcome.actions.is_empty() {
            return;
        }
        met.push(match self.count_of(is_grant) {
            0 => "acquire: grants none",
            1 => "acquire: grants one",
            _ => "acquire: grants several",
        });
        let before = &self.before.participants;
        if before.iter().any(|p| p.granted > Some(capped)) {
            met.push("acquire: lowers a granted tag");
        }
        let between = |tag: Tag| capped < tag && Some(tag) <= self.after.grant_horizon;
        if before.iter().any(|p| p.published && p.candidate.is_some_and(between)) {
            met.push("acquire: leaves a candidate between it and the horizon");
        }
    }

    pub(super) fn sent(&self, met: &mut Met) {
        let Event::Sent(revision, next_event, horizon) = self.event else {
            return;
        };
        let Some(pending) = self.before.pending_publication else {
            return met.push(if self.was_stopped() {
                "sent: stopped"
            } else {
                "sent: none pending"
            });
        };
        met.push(if pending.revision().value() != *revision {
            "sent: other revision"
        } else if pending.next_event() != next_event.map(WrittenTag::tag) {
            "sent: other next event"
        } else if pending.grant_horizon() != horizon.map(WrittenTag::tag) {
            "sent: other horizon"
        } else {
            match (pending.next_event(), self.before.grant_horizon) {
                (_, None) => "sent: no horizon",
                (None, _) => "sent: no next event",
                (Some(next_event), Some(horizon)) if next_event > horizon => {
                    "sent: next event above the horizon"
                }
                _ => "sent: taken",
            }
        });
    }

    pub(super) fn observe(
        &self,
        enclave: u32,
        revision: u64,
        observation: Observation,
        met: &mut Met,
    ) {
        let had = self.participant(enclave).and_then(|p| p.observation);
        let coordinated = self.before.lifecycle == LifecyclePolicy::CoordinatedTermination;
        met.push(if self.was_stopped() {
            "observe: stopped"
        } else if revision != self.before.revision.value() {
            "observe: other revision"
        } else if self.before.phase == CoordinationPhase::AwaitingIdleConfirmation {
            "observe: awaiting idle confirmation"
        } else if had == Some(observation) {
            "observe: repeat"
        } else {
            match (self.before.phase, self.after.phase) {
                (CoordinationPhase::Probing, CoordinationPhase::Parking) => "observe: Park",
                (CoordinationPhase::Parking, CoordinationPhase::Rechecking) => "observe: Recheck",
                (_, CoordinationPhase::AwaitingIdleConfirmation) => "observe: awaits",
                (_, CoordinationPhase::Stopped) if coordinated => "observe: stops, authorized",
                (_, CoordinationPhase::Stopped) => "observe: stops, TerminateWhenIdle",
                _ if self.before == self.after => "observe: ignored",
                _ => "observe: others to come",
            }
        });
    }

    pub(super) fn idle(&self, revision: u64, met: &mut Met) {
        if self.before.phase != CoordinationPhase::AwaitingIdleConfirmation {
            return met.push("idle: another phase");
        }
        if revision != self.before.revision.value() {
            return met.push("idle: other revision");
        }
        met.push("idle: taken");
        if self.after.completion_probe.is_some() {
            met.push("idle: taken, a probe stays out");
        }
        if self.before.pending_publication.is_some() {
            met.push("idle: taken, a pending publication cleared");
        }
    }
}

fn is_grant(action: &CoordinationAction) -> bool {
    matches!(action, CoordinationAction::Grant { .. })
}
