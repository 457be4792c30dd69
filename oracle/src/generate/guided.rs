//! Scripts made beside a running state: at each event a move is chosen that the state makes fruitful,
//! and sometimes one that it does not.

use super::choice::Choice;
use super::tags::{improper_tag, Pool};
use super::unguided::{some_enclave, some_event};
use super::{some_header, some_indices, some_start, with_enclave};
use crate::prng::Rng;
use crate::run;
use crate::script::{Event, Script};
use crate::shims::federate::state::StateView;

/// What a script leans to.
pub(super) struct Leaning {
    pub(super) pool: Pool,
    /// Percent of published candidates that are absent.
    pub(super) idle: usize,
    /// Whether the input gate is used.
    pub(super) gate: bool,
    /// Percent of events that are chosen blindly.
    noise: usize,
    /// Weight of the moves that stop the federate, against about a hundred of the others.
    pub(super) ends: usize,
}

pub(super) fn deep(rng: &mut Rng) -> Script {
    let any = rng.between(1, 32);
    let count = rng.weighted(&[(3, 1), (8, 2), (8, 3), (4, 4), (2, 6), (3, any)]);
    let bound = rng.weighted(&[(12, 40), (1, 4_096)]);
    let indices = some_indices(rng, count, bound);
    let script = some_header(rng, indices);
    let leaning = Leaning {
        pool: rng.weighted(&[(8, Pool::Small), (2, Pool::Signed)]),
        idle: rng.pick(&[10, 40, 70, 95]),
        gate: rng.percent(40),
        noise: rng.pick(&[0, 5, 15]),
        ends: rng.pick(&[0, 1, 4]),
    };
    let length = rng.between(10, 40 + 6 * count);
    guided(rng, script, &leaning, length)
}

/// A guided script of few events, to be damaged.
pub(super) fn short(rng: &mut Rng) -> Script {
    let indices = some_indices(rng, 2, 12);
    let script = some_header(rng, indices);
    let leaning = Leaning { pool: Pool::Signed, idle: 40, gate: true, noise: 30, ends: 1 };
    let length = rng.between(0, 12);
    guided(rng, script, &leaning, length)
}

pub(super) fn extremes(rng: &mut Rng) -> Script {
    let any = rng.between(1, 32);
    let count = rng.weighted(&[(3, 1), (6, 2), (4, 3), (1, any), (1, 32)]);
    let bound = rng.weighted(&[(6, 33), (1, 4_096)]);
    let mut indices = some_indices(rng, count, bound);
    if rng.percent(15) && !indices.contains(&4_095) {
        indices[0] = 4_095;
    }
    let mut script = some_header(rng, indices);
    script.revision = some_start(rng, 60);
    script.generation = some_start(rng, 60);
    let leaning = Leaning {
        pool: rng.weighted(&[(5, Pool::Extreme), (1, Pool::Signed)]),
        idle: rng.pick(&[10, 50, 90]),
        gate: rng.percent(50),
        noise: 10,
        ends: rng.pick(&[0, 2]),
    };
    let length = rng.between(8, 30 + 4 * count);
    guided(rng, script, &leaning, length)
}

fn guided(rng: &mut Rng, mut script: Script, leaning: &Leaning, length: usize) -> Script {
    let mut state = run::open(&script).unwrap_or_else(|refusal| panic!("opening: {refusal}"));
    for _ in 0..length {
        let view = state.view();
        let event = next_event(rng, &script, leaning, &view);
        run::step(&mut state, &event);
        script.events.push(event);
    }
    script
}

fn next_event(rng: &mut Rng, script: &Script, leaning: &Leaning, view: &StateView) -> Event {
    if rng.percent(leaning.noise) {
        return some_event(rng, script, leaning.pool);
    }
    let mut choice = Choice { rng, leaning, view };
    let event = choice.event();
    match rng.below(100) {
        0 => with_enclave(event, some_enclave(rng, &[])),
        1 => with_improper_tag(rng, event),
        _ => event,
    }
}

fn with_improper_tag(rng: &mut Rng, event: Event) -> Event {
    let tag = improper_tag(rng);
    match event {
        Event::Publish(enclave, _) => Event::Publish(enclave, Some(tag)),
        Event::Complete(enclave, _, network_input) => Event::Complete(enclave, tag, network_input),
        Event::Acquire(revision, _) => Event::Acquire(revision, tag),
        Event::Sent(revision, next_event, _) if rng.percent(50) => {
            Event::Sent(revision, next_event, Some(tag))
        }
        Event::Sent(revision, _, horizon) => Event::Sent(revision, Some(tag), horizon),
        Event::Horizon(_) => Event::Horizon(Some(tag)),
        Event::Begin(enclave, _) => Event::Begin(enclave, tag),
        Event::Late(enclave, _) => Event::Late(enclave, tag),
        Event::Done(enclave, _) => Event::Done(enclave, tag),
        other => other,
    }
}
