//! Scripts from a kind and a seed.
//!
//! | kind | what it is |
//! |---|---|
//! | deep | guided by a running state: events that move it forward, some that do not |
//! | extremes | as deep, on the limits of tags, revision, generation and indices |
//! | random | any events, unguided, over few tags |
//! | opening | participant lists about the opening's refusals |
//! | long | about 65,536 bytes and 4,096 events |
//! | damaged | a good script of another kind with its form hurt |

mod choice;
mod damaged;
mod guided;
mod long;
mod opening;
mod tags;
mod unguided;

use crate::prng::Rng;
use crate::script::{Event, Script};
use crate::shims::federate::state::{LifecyclePolicy, Observation};

type Generator = fn(&mut Rng) -> Vec<u8>;

/// The kinds by name, each with its share of a hundred scripts of all kinds.
const KINDS: &[(&str, usize, Generator)] = &[
    ("deep", 40, |rng| text(guided::deep(rng))),
    ("extremes", 20, |rng| text(guided::extremes(rng))),
    ("random", 12, |rng| text(unguided::random(rng))),
    ("opening", 5, |rng| text(opening::opening(rng))),
    ("long", 1, long::long),
    ("damaged", 22, damaged::damaged),
];

const POLICIES: [LifecyclePolicy; 3] = [
    LifecyclePolicy::KeepAlive,
    LifecyclePolicy::TerminateWhenIdle,
    LifecyclePolicy::CoordinatedTermination,
];

const OBSERVATIONS: [Observation; 3] =
    [Observation::Probed, Observation::Parked, Observation::Rechecked];

/// The script of a kind and a seed; nothing where the kind has no such name.
pub fn generate(kind: &str, seed: u64) -> Option<Vec<u8>> {
    let at = KINDS.iter().position(|(name, ..)| *name == kind)?;
    let kind_number = at as u64 + 1;
    let mut rng = Rng::new(seed ^ kind_number << 56);
    Some((KINDS[at].2)(&mut rng))
}

pub(crate) fn kind_names() -> impl Iterator<Item = &'static str> {
    KINDS.iter().map(|(name, ..)| *name)
}

/// The kind of the script at this place among scripts of all kinds.
pub(crate) fn kind_at(place: u64) -> &'static str {
    // A step without common factor with 100 spreads the kinds instead of giving them in blocks.
    let mut left = (place * 37 % 100) as usize;
    for (name, share, _) in KINDS {
        if left < *share {
            return name;
        }
        left -= share;
    }
    unreachable!("the shares sum to a hundred")
}

fn text(script: Script) -> Vec<u8> {
    script.to_string().into_bytes()
}

/// The first two sections: some enclaves in any order, a policy, opening numbers mostly 0.
fn some_header(rng: &mut Rng, participants: Vec<u32>) -> Script {
    Script {
        participants,
        policy: rng.pick(&POLICIES),
        revision: some_start(rng, 10),
        generation: some_start(rng, 10),
        events: Vec::new(),
    }
}

/// An opening number: 0, or by this chance one close to the greatest.
fn some_start(rng: &mut Rng, percent: usize) -> u64 {
    if rng.percent(percent) {
        return u64::MAX - rng.below(4) as u64;
    }
    rng.weighted(&[(6, 0), (1, 1), (1, 1_000_000)])
}

/// Distinct indices below a bound, in any order.
fn some_indices(rng: &mut Rng, count: usize, bound: u32) -> Vec<u32> {
    let mut indices: Vec<u32> = Vec::new();
    while indices.len() < count {
        let index = rng.below(bound as usize) as u32;
        if !indices.contains(&index) {
            indices.push(index);
        }
    }
    indices
}

/// The event with another enclave in each place where it names one.
fn with_enclave(event: Event, enclave: u32) -> Event {
    match event {
        Event::Active(_) => Event::Active(enclave),
        Event::Publish(_, tag) => Event::Publish(enclave, tag),
        Event::Complete(_, tag, network_input) => Event::Complete(enclave, tag, network_input),
        Event::Observed(_, generation) => Event::Observed(enclave, generation),
        Event::Stopped(_) => Event::Stopped(enclave),
        Event::Failed(_) => Event::Failed(Some(enclave)),
        Event::Observe(_, revision, observation) => Event::Observe(enclave, revision, observation),
        Event::Begin(_, tag) => Event::Begin(enclave, tag),
        Event::Late(_, tag) => Event::Late(enclave, tag),
        Event::Done(_, tag) => Event::Done(enclave, tag),
        Event::Input(mut named) => {
            named.truncate(31);
            named.push(enclave);
            Event::Input(named)
        }
        other => other,
    }
}
