//! Branches of the six scheduler messages and of `stop`.

use super::completion::{mark, widened, Mark};
use super::{is_complete, Met, Taken};
use crate::script::Event;
use crate::shims::federate::state::{CoordinationAction, CoordinationPhase};
use crate::Tag;

impl Taken<'_> {
    pub(super) fn active(&self, met: &mut Met) {
        if !self.was_stopped() {
            return met.push("active: running");
        }
        met.push("active: stopped");
        if self.before.completion_probe.is_some() {
            met.push("active: stopped, clears a probe");
        }
    }

    pub(super) fn publish(&self, enclave: u32, tag: Option<Tag>, met: &mut Met) {
        let Some(participant) = self.participant(enclave) else {
            return;
        };
        if self.was_stopped() {
            return met.push("publish: stopped");
        }
        let changed = participant.candidate != tag;
        if !changed && participant.published {
            return met.extend(repeat_branch(self.before.phase));
        }
        if !self.emits(is_publish) {
            met.push(if changed {
                "publish: changed, others unpublished"
            } else {
                "publish: unchanged, others unpublished"
            });
            if changed && self.before.phase != CoordinationPhase::Active {
                met.push("publish: changed outside Active, others unpublished");
            }
            return;
        }
        met.push(if changed {
            "publish: all published, changed"
        } else {
            "publish: all published, unchanged"
        });
        self.publish_for_all(met);
    }

    fn publish_for_all(&self, met: &mut Met) {
        let resume = self.emits(is_resume);
        if resume {
            met.push("publish: all published, Resume");
        }
        if self.before.grant_horizon.is_some() {
            met.push("publish: all published, with a horizon");
        }
        if self.before.input_acquisition.is_some() {
            met.push("publish: all published, drops a stored acquisition");
        }
        met.push(match self.after.phase {
            CoordinationPhase::Parked => "publish: all published, KeepAlive parks",
            CoordinationPhase::Probing => "publish: all published, Probe",
            _ => "publish: all published, a candidate",
        });
        if resume && self.after.phase == CoordinationPhase::Probing {
            met.push("publish: all published, Resume and Probe");
        }
    }

    pub(super) fn complete(&self, enclave: u32, tag: Tag, network_input: bool, met: &mut Met) {
        let completed = self.participant(enclave).and_then(|p| p.completed);
        if self.was_stopped() {
            return met.push("complete: stopped");
        }
        if completed >= Some(tag) {
            return met.push("complete: not past its own");
        }
        met.push(match (network_input, self.before.pending_inputs) {
            (false, _) => "complete: no network input",
            (true, None) => "complete: pair begins",
            (true, Some((first, _))) if tag < first => "complete: pair grows down",
            (true, Some((_, last))) if last < tag => "complete: pair grows up",
            (true, Some(_)) => "complete: pair stays",
        });
        let Some(frontier) = self.least_completed() else {
            return met.push("complete: another has none");
        };
        if self.before.completed_frontier >= Some(frontier) {
            return met.push("complete: least not past the frontier");
        }
        if self.before.grant_horizon.is_some_and(|horizon| horizon < frontier) {
            met.push("complete: emits past the horizon");
        }
        if self.count_of(is_complete) == 2 {
            met.push("complete: emits twice");
        }
        let pair = widened(self.before.pending_inputs, tag, network_input);
        met.push(match mark(pair, frontier) {
            Mark::NoPair => "complete: emits, no pair",
            Mark::NotMarked => "complete: emits, not marked, pair kept",
            Mark::Kept => "complete: emits, marked, pair kept",
            Mark::Dropped => "complete: emits, marked, pair dropped",
        });
    }

    pub(super) fn observed(&self, generation: u64, met: &mut Met) {
        let current = self.before.completion_generation;
        met.push(if self.before.completion_probe.is_none() {
            "observed: no probe"
        } else if generation < current {
            "observed: older generation"
        } else if generation > current {
            "observed: newer generation"
        } else if self.was_stopped() {
            "observed: kept while stopped"
        } else {
            "observed: kept"
        });
    }

    pub(super) fn ends(&self, met: &mut Met) {
        let stopped = self.was_stopped();
        met.push(match (self.event, stopped) {
            (Event::Stopped(_), false) => "stopped: running",
            (Event::Stopped(_), true) => "stopped: stopped",
            (Event::Failed(Some(_)), false) => "failed: running, named",
            (Event::Failed(None), false) => "failed: running, unnamed",
            (Event::Failed(_), true) => "failed: stopped",
            (_, false) => "stop: running",
            (_, true) => "stop: stopped",
        });
        if matches!(self.event, Event::Failed(_)) && !stopped && self.before.first_failure.is_some()
        {
            met.push("failed: overwrites a failure");
        }
        if !stopped && self.after.completion_probe.is_some() {
            met.push("stop: a probe stays out");
        }
    }
}

fn repeat_branch(phase: CoordinationPhase) -> Option<&'static str> {
    match phase {
        CoordinationPhase::Active => Some("publish: repeats nothing in Active"),
        CoordinationPhase::Probing => Some("publish: repeats Probe"),
        CoordinationPhase::Parking => Some("publish: repeats Park"),
        CoordinationPhase::Rechecking => Some("publish: repeats Recheck"),
        CoordinationPhase::Parked => Some("publish: repeats nothing in Parked"),
        CoordinationPhase::AwaitingIdleConfirmation => {
            Some("publish: repeats nothing in AwaitingIdleConfirmation")
        }
        CoordinationPhase::Stopped => None,
    }
}

fn is_publish(action: &CoordinationAction) -> bool {
    matches!(action, CoordinationAction::Publish(_))
}

fn is_resume(action: &CoordinationAction) -> bool {
    matches!(action, CoordinationAction::Resume { .. })
}
