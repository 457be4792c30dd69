//! What a set of scripts has met: counters by group and name, and the full list of what there is.

use std::collections::BTreeMap;

use crate::branches::{branches_of, Taken, BRANCHES, NEVER_REACHED};
use crate::listing::{action_word, phase_word};
use crate::run;
use crate::script::{observation_word, policy_word, read_script, Event, Script, ScriptFault};
use crate::shims::federate::state::{FederateCoordinationState, StateView};

type Name = (&'static str, String);

/// Counters; what is expected stands in them from the start, with 0.
pub(crate) struct Coverage {
    counters: BTreeMap<Name, u64>,
    /// Met, but in no list of what can be met.
    unlisted: BTreeMap<Name, u64>,
}

const PHASES: &[&str] = &[
    "active",
    "probing",
    "parking",
    "rechecking",
    "parked",
    "awaitingidleconfirmation",
    "stopped",
];

const ACTIONS: &[&str] = &[
    "publish",
    "advance",
    "grant",
    "complete",
    "completion-probe",
    "probe",
    "park",
    "recheck",
    "resume",
    "stop",
    "abort",
];

/// The refusals that each event can give, 0 among them.
const EVENT_REFUSALS: &[(&str, &[u8])] = &[
    ("active", &[0, 3, 9]),
    ("publish", &[0, 3, 7, 9]),
    ("complete", &[0, 3, 7, 9]),
    ("observed", &[0, 3, 9]),
    ("stopped", &[0, 3]),
    ("failed", &[0, 3]),
    ("acquire", &[0, 7]),
    ("sent", &[0, 7]),
    ("observe", &[0, 3, 4]),
    ("idle", &[0]),
    ("stop", &[0]),
    ("horizon", &[0, 7]),
    ("begin", &[0, 7]),
    ("late", &[0, 7]),
    ("done", &[0, 7]),
    ("input", &[0, 3]),
    ("progress", &[0]),
];

/// The lines of a script, each of which can be lacking, unended or out of form.
const SECTIONS: &[&str] = &[
    "ParticipantsHeader",
    "Participant",
    "SettingsHeader",
    "Policy",
    "Revision",
    "Generation",
    "EventsHeader",
    "Event",
];

impl Coverage {
    pub(crate) fn new() -> Self {
        Self {
            counters: expected().into_iter().map(|name| (name, 0)).collect(),
            unlisted: BTreeMap::new(),
        }
    }

    /// Runs a script and counts what it meets.
    pub(crate) fn add(&mut self, bytes: &[u8]) {
        match read_script(bytes) {
            Ok(script) => self.add_script(&script),
            Err(ScriptFault::TooLong) => self.count("refusal", "12".to_string()),
            Err(ScriptFault::Form { section, reason, .. }) => {
                self.count("refusal", "11".to_string());
                self.count("form", format!("{section:?} {reason:?}"));
            }
        }
    }

    fn add_script(&mut self, script: &Script) {
        let mut state = match run::open(script) {
            Ok(state) => state,
            Err(refusal) => return self.count("refusal", refusal.to_string()),
        };
        self.count("policy", policy_word(script.policy).to_string());
        self.count("participants", script.participants.len().to_string());
        let mut view = state.view();
        for event in script.events.iter().take(run::BUDGET) {
            view = self.add_event(&mut state, view, event);
        }
        self.count("phase at the end", phase_word(view.phase));
    }

    fn add_event(
        &mut self,
        state: &mut FederateCoordinationState,
        before: StateView,
        event: &Event,
    ) -> StateView {
        let outcome = run::step(state, event);
        let after = state.view();
        self.count("refusal", outcome.refusal.to_string());
        self.count("event, refusal", format!("{} {}", event.word(), outcome.refusal));
        if let (Some(answer), 0) = (outcome.answer, outcome.refusal) {
            self.count("answer", format!("{} {}", event.word(), u8::from(answer)));
        }
        for action in &outcome.actions {
            self.count("action", action_word(action).to_string());
        }
        self.count_verdict(&before, event);
        if outcome.refusal == 0 {
            let taken = Taken { before: &before, event, outcome: &outcome, after: &after };
            for branch in branches_of(&taken) {
                self.count("branch", branch.to_string());
            }
        }
        after
    }

    /// The cell of the 21 that a current observation of a known enclave falls into.
    fn count_verdict(&mut self, before: &StateView, event: &Event) {
        let Event::Observe(enclave, revision, observation) = event else {
            return;
        };
        let known = before.participants.iter().any(|p| p.enclave.0 == *enclave);
        if known && *revision == before.revision.value() {
            let phase = phase_word(before.phase);
            self.count("verdict", format!("{phase} {}", observation_word(*observation)));
        }
    }

    fn count(&mut self, group: &'static str, name: String) {
        let name = (group, name);
        match self.counters.get_mut(&name) {
            Some(counter) => *counter += 1,
            None => *self.unlisted.entry(name).or_default() += 1,
        }
    }

    /// Whether everything in the lists was met and nothing else.
    pub(crate) fn is_complete(&self) -> bool {
        self.unlisted.is_empty() && self.counters.values().all(|counter| *counter > 0)
    }

    /// A line a group, then what was not met; all counters where wanted.
    pub(crate) fn report(&self, all: bool) -> String {
        let mut groups: BTreeMap<&str, (usize, usize, u64)> = BTreeMap::new();
        for ((group, _), counter) in &self.counters {
            let (met, listed, sum) = groups.entry(group).or_default();
            *met += usize::from(*counter > 0);
            *listed += 1;
            *sum += counter;
        }
        let mut lines: Vec<String> = groups
            .iter()
            .map(|(group, (met, listed, sum))| {
                format!("{group}: {met} of {listed} met, {sum} times")
            })
            .collect();
        for ((group, name), counter) in &self.counters {
            if all {
                lines.push(format!("  {group}: {name}: {counter}"));
            }
            if *counter == 0 {
                lines.push(format!("not met: {group}: {name}"));
            }
        }
        for ((group, name), counter) in &self.unlisted {
            lines.push(format!("MET, not listed: {group}: {name}: {counter}"));
        }
        for branch in NEVER_REACHED {
            if !self.unlisted.contains_key(&("branch", branch.to_string())) {
                lines.push(format!("not met, as listed: branch: {branch}"));
            }
        }
        lines.join("\n") + "\n"
    }
}

/// Everything that scripts can meet.
fn expected() -> Vec<Name> {
    let mut names: Vec<Name> = Vec::new();
    let mut add = |group: &'static str, list: &[&str]| {
        names.extend(list.iter().map(|name| (group, name.to_string())));
    };
    add("action", ACTIONS);
    add("refusal", &["0", "1", "2", "3", "4", "5", "6", "7", "9", "11", "12"]);
    add("phase at the end", PHASES);
    add("policy", &["keep", "terminate", "coordinated"]);
    add("answer", &["begin 0", "begin 1", "late 0", "late 1", "done 0", "done 1"]);
    add("form", &["AfterTheEnd OutOfForm"]);
    add("branch", BRANCHES);
    for count in 1..=32 {
        names.push(("participants", count.to_string()));
    }
    for (phase, observation) in pairs(PHASES, &["probed", "parked", "rechecked"]) {
        names.push(("verdict", format!("{phase} {observation}")));
    }
    for (section, reason) in pairs(SECTIONS, &["Lacking", "Unended", "OutOfForm"]) {
        names.push(("form", format!("{section} {reason}")));
    }
    for (word, refusals) in EVENT_REFUSALS {
        for refusal in *refusals {
            names.push(("event, refusal", format!("{word} {refusal}")));
        }
    }
    names
}

fn pairs<'a>(first: &'a [&str], second: &'a [&str]) -> impl Iterator<Item = (&'a str, &'a str)> {
    first.iter().flat_map(|a| second.iter().map(|b| (*a, *b)))
}
