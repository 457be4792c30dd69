//! Branches of the input gate.

use super::{Met, Taken};
use crate::Tag;

impl Taken<'_> {
    pub(super) fn begin(&self, enclave: u32, tag: Tag, met: &mut Met) {
        let participant = self.participant(enclave);
        let Some(cap) = self.before.input_horizon else {
            if self.was_stopped() {
                met.push("begin: no input horizon, stopped");
            }
            return met.push(match participant {
                Some(_) => "begin: no input horizon, known",
                None => "begin: no input horizon, unknown",
            });
        };
        met.push(match participant {
            _ if self.was_stopped() => "begin: stopped",
            _ if tag > cap => "begin: above the input horizon",
            None => "begin: unknown",
            Some(p) if p.granted.is_none() => "begin: nothing granted",
            Some(p) if p.granted < Some(tag) => "begin: above the granted tag",
            Some(p) if p.started > Some(tag) => "begin: yes, lowers started",
            Some(_) => "begin: yes",
        });
    }

    pub(super) fn late(&self, enclave: u32, tag: Tag, met: &mut Met) {
        met.push(match self.participant(enclave) {
            None => "late: unknown",
            Some(p) if p.started >= Some(tag) => "late: started",
            Some(p) if p.completed >= Some(tag) => "late: completed",
            Some(_) => "late: no",
        });
    }

    pub(super) fn done(&self, enclave: u32, tag: Tag, met: &mut Met) {
        met.push(match self.participant(enclave) {
            None => "done: unknown",
            Some(p) if p.completed.is_none() => "done: nothing completed",
            Some(p) if p.completed >= Some(tag) => "done: yes",
            Some(_) => "done: not yet",
        });
    }

    pub(super) fn input(&self, named: &[u32], met: &mut Met) {
        met.push(if named.is_empty() { "input: names none" } else { "input: names one" });
        if named.iter().enumerate().any(|(at, enclave)| named[..at].contains(enclave)) {
            met.push("input: names one twice");
        }
        if self.was_stopped() {
            met.push("input: stopped");
        }
        if self.before.input_acquisition.is_some() {
            met.push("input: drops a stored acquisition");
        }
        if self.before.participants.iter().any(|p| p.granted.is_some()) {
            met.push("input: drops granted tags");
        }
    }

    pub(super) fn progress(&self, met: &mut Met) {
        let Some(stored) = self.before.input_acquisition else {
            return met.push("progress: nothing stored");
        };
        met.push(if self.was_stopped() {
            "progress: stopped"
        } else if stored.revision() != self.before.revision {
            "progress: other revision"
        } else if self.outcome.actions.is_empty() {
            "progress: nothing more"
        } else {
            "progress: acts"
        });
        if self.before.input_horizon.is_none() {
            met.push("progress: no input horizon");
        }
    }
}
