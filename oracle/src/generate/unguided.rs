//! Events that know nothing of the state: enclaves, numbers and tags from small sets.

use super::tags::{fresh_tag, improper_tag, Pool};
use super::{some_header, some_indices, OBSERVATIONS};
use crate::prng::Rng;
use crate::script::{Event, Script, WrittenTag};

pub(super) fn random(rng: &mut Rng) -> Script {
    let count = rng.between(1, 4);
    let indices = some_indices(rng, count, 6);
    let mut script = some_header(rng, indices);
    let pool = rng.pick(&[Pool::Small, Pool::Signed, Pool::Extreme]);
    for _ in 0..rng.between(0, 40) {
        let event = some_event(rng, &script, pool);
        script.events.push(event);
    }
    script
}

/// Any event, of numbers close to the opening's.
pub(super) fn some_event(rng: &mut Rng, script: &Script, pool: Pool) -> Event {
    let enclave = some_enclave(rng, &script.participants);
    let revision = script.revision.wrapping_add(rng.below(6) as u64);
    let generation = script.generation.wrapping_add(rng.below(4) as u64);
    let tag = some_tag(rng, pool);
    match rng.below(24) {
        0 => Event::Active(enclave),
        1..=4 => Event::Publish(enclave, some_absence(rng, tag, 40)),
        5..=6 => Event::Complete(enclave, tag, rng.percent(50)),
        7..=8 => Event::Observed(enclave, generation),
        9 if rng.percent(30) => Event::Stopped(enclave),
        9 => Event::Failed((!rng.percent(20)).then_some(enclave)),
        10..=11 => Event::Acquire(revision, tag),
        12 => {
            let horizon = some_tag(rng, pool);
            Event::Sent(revision, some_absence(rng, tag, 30), some_absence(rng, horizon, 60))
        }
        13..=15 => Event::Observe(enclave, revision, rng.pick(&OBSERVATIONS)),
        16 => Event::Idle(revision),
        17 if rng.percent(40) => Event::Stop,
        17..=18 => Event::Horizon(some_absence(rng, tag, 20)),
        19 => Event::Begin(enclave, tag),
        20 => Event::Late(enclave, tag),
        21 => Event::Done(enclave, tag),
        22 => Event::Input(some_named(rng, &script.participants)),
        _ => Event::Progress,
    }
}

fn some_tag(rng: &mut Rng, pool: Pool) -> WrittenTag {
    if rng.percent(4) {
        return improper_tag(rng);
    }
    fresh_tag(rng, pool)
}

fn some_absence(rng: &mut Rng, tag: WrittenTag, percent: usize) -> Option<WrittenTag> {
    (!rng.percent(percent)).then_some(tag)
}

pub(super) fn some_enclave(rng: &mut Rng, participants: &[u32]) -> u32 {
    if participants.is_empty() || rng.percent(5) {
        return rng.pick(&[0, 1, 2, 7, 4_095, 4_096, u32::MAX]);
    }
    rng.pick(participants)
}

/// Enclaves of an `input`, few or none, sometimes one twice.
pub(super) fn some_named(rng: &mut Rng, participants: &[u32]) -> Vec<u32> {
    let most = participants.len().min(31) + 1;
    (0..rng.below(most + 1).min(32)).map(|_| some_enclave(rng, participants)).collect()
}
