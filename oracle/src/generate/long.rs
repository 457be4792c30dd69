//! Scripts at and just past the limits: 65,536 bytes, 4,096 events.

use super::unguided::some_event;
use super::{some_header, some_indices, tags::Pool, text};
use crate::prng::Rng;
use crate::script::{Event, Script, MOST_BYTES, MOST_EVENTS};

pub(super) fn long(rng: &mut Rng) -> Vec<u8> {
    let count = rng.pick(&[1, 2, 4, 32]);
    let indices = some_indices(rng, count, 40);
    let script = some_header(rng, indices);
    if rng.percent(50) {
        return text(many_events(rng, script));
    }
    let size = MOST_BYTES - 2 + rng.below(5);
    text(of_size(rng, script, size))
}

/// One event below, at, or past the most.
fn many_events(rng: &mut Rng, mut script: Script) -> Script {
    let count = MOST_EVENTS as usize - 1 + rng.below(3);
    while script.events.len() < count {
        let event = short_event(rng, &script);
        script.events.push(event);
    }
    script
}

/// An event of few bytes, so that 4,096 of them stay within the bytes of a script.
fn short_event(rng: &mut Rng, script: &Script) -> Event {
    let enclave = rng.pick(&script.participants);
    match rng.below(6) {
        0 => Event::Progress,
        1 => Event::Input(Vec::new()),
        2 => Event::Active(enclave),
        3 => Event::Publish(enclave, None),
        4 => Event::Observed(enclave, rng.below(9) as u64),
        _ => Event::Horizon(None),
    }
}

/// A script of exactly this many bytes, far fewer events than the most.
fn of_size(rng: &mut Rng, mut script: Script, size: usize) -> Script {
    // The count of events will have four digits; it has one now.
    let digits_to_come = 3;
    let mut length = text(script.clone()).len() + digits_to_come;
    // An event's line has well under 600 bytes, so the rest is never overrun.
    while size - length > 600 {
        let event = some_event(rng, &script, Pool::Extreme);
        length += event.to_string().len() + 1;
        script.events.push(event);
    }
    while length < size {
        let event = filler(script.participants[0], size - length);
        length += event.to_string().len() + 1;
        script.events.push(event);
    }
    script
}

/// An event whose line has the wanted bytes, or leaves enough of them for another such line.
fn filler(enclave: u32, wanted: usize) -> Event {
    const MOST_DIGITS: usize = 19;
    let shortest = Event::Observed(enclave, 1).to_string().len() + 1;
    let longest = shortest + MOST_DIGITS - 1;
    let length = if wanted <= longest { wanted } else { longest.min(wanted - shortest) };
    let digits = length - shortest + 1;
    Event::Observed(enclave, 10_u64.pow(digits as u32 - 1))
}
