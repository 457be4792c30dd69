//! Branches of the completion step, and of the mark of what it and `complete` emit.

use super::{is_complete, Met, Taken};
use crate::script::Event;
use crate::shims::federate::state::{CoordinationPhase, ParticipantView};
use crate::Tag;

impl Taken<'_> {
    pub(super) fn completion_step(&self, met: &mut Met) {
        if self.after.phase == CoordinationPhase::Stopped {
            return;
        }
        let greatest = self.after.participants.iter().filter_map(|p| p.completed).max();
        let (greatest, horizon) = match (greatest, self.after.grant_horizon) {
            (None, _) => return met.push("step: nobody completed"),
            (_, None) => return met.push("step: no horizon"),
            (Some(greatest), Some(horizon)) => (greatest, horizon),
        };
        let f = greatest.min(horizon);
        let lagging: Vec<&ParticipantView> =
            self.after.participants.iter().filter(|p| p.completed < Some(f)).collect();
        self.step_clears_a_probe(met);
        if self.before.completion_generation != self.after.completion_generation {
            return self.step_probes(f, horizon, &lagging, met);
        }
        let (frontier, pair, own_completes) = self.after_the_message();
        if self.count_of(is_complete) > own_completes {
            return self.step_completes(f, pair, &lagging, met);
        }
        met.push(if frontier >= Some(f) {
            "step: not past the frontier"
        } else if lagging.iter().any(|p| !p.published) {
            "step: a lagging one unpublished"
        } else if lagging.iter().any(|p| p.candidate.is_some_and(|candidate| candidate <= f)) {
            "step: a lagging candidate at or below"
        } else {
            "step: waits"
        });
    }

    /// Frontier and pair between the message and the step, and how often the message itself completed.
    fn after_the_message(&self) -> (Option<Tag>, Option<(Tag, Tag)>, usize) {
        let (frontier, pair) = (self.before.completed_frontier, self.before.pending_inputs);
        let Event::Complete(enclave, tag, network_input) = self.event else {
            return (frontier, pair, 0);
        };
        let tag = tag.tag();
        if self.participant(*enclave).and_then(|p| p.completed) >= Some(tag) {
            return (frontier, pair, 0);
        }
        let pair = widened(pair, tag, *network_input);
        match self.least_completed() {
            Some(least) if Some(least) > frontier => {
                (Some(least), pair.filter(|(_, last)| *last > least), 1)
            }
            _ => (frontier, pair, 0),
        }
    }

    fn step_clears_a_probe(&self, met: &mut Met) {
        // A changed candidate and `active` clear it before the step does.
        let by_the_step = self.before.revision == self.after.revision;
        let cleared =
            self.before.completion_probe.is_some() && self.after.completion_probe.is_none();
        let (_, _, own_completes) = self.after_the_message();
        if by_the_step && cleared && self.count_of(is_complete) == own_completes {
            met.push("step: clears a probe");
        }
    }

    fn step_probes(&self, f: Tag, horizon: Tag, lagging: &[&ParticipantView], met: &mut Met) {
        met.push(match lagging.len() {
            0 => "step: probes nobody",
            1 => "step: probes one",
            _ => "step: probes several",
        });
        met.push(if f == horizon {
            "step: probes at the horizon"
        } else {
            "step: probes at the greatest completed"
        });
        if self.before.revision == self.after.revision && self.before.completion_probe.is_some() {
            met.push("step: probes anew in place of another");
        }
        if lagging.iter().any(|p| p.candidate.is_some()) {
            met.push("step: probes past a lagging candidate above");
        }
        let did_nothing = match self.event {
            Event::Complete(enclave, tag, _) => {
                self.participant(*enclave).and_then(|p| p.completed) >= Some(tag.tag())
            }
            Event::Observed(_, generation) => *generation != self.before.completion_generation,
            _ => false,
        };
        if did_nothing {
            met.push("step: acts after a message that did nothing");
        }
    }

    fn step_completes(
        &self,
        f: Tag,
        pair: Option<(Tag, Tag)>,
        lagging: &[&ParticipantView],
        met: &mut Met,
    ) {
        met.push(match mark(pair, f) {
            Mark::NoPair => "step: completes, no pair",
            Mark::NotMarked => "step: completes, not marked, pair kept",
            Mark::Kept => "step: completes, marked, pair kept",
            Mark::Dropped => "step: completes, marked, pair dropped",
        });
        if lagging.iter().any(|p| p.completed.is_none()) {
            met.push("step: completes with one never completed");
        }
    }

    /// The least completed tag after the event, where all have one.
    pub(super) fn least_completed(&self) -> Option<Tag> {
        self.after.participants.iter().map(|p| p.completed).min().flatten()
    }
}

/// What a Complete does with the pending pair.
pub(super) enum Mark {
    NoPair,
    NotMarked,
    Kept,
    Dropped,
}

pub(super) fn mark(pair: Option<(Tag, Tag)>, f: Tag) -> Mark {
    match pair {
        None => Mark::NoPair,
        Some((first, _)) if f < first => Mark::NotMarked,
        Some((_, last)) if f < last => Mark::Kept,
        Some(_) => Mark::Dropped,
    }
}

pub(super) fn widened(
    pair: Option<(Tag, Tag)>,
    tag: Tag,
    network_input: bool,
) -> Option<(Tag, Tag)> {
    match pair {
        _ if !network_input => pair,
        None => Some((tag, tag)),
        Some((first, last)) => Some((first.min(tag), last.max(tag))),
    }
}
