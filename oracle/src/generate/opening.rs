//! Participant lists about the opening's refusals 5, 1, 6 and 2 and their order.

use super::unguided::some_event;
use super::{some_header, some_indices, tags::Pool};
use crate::prng::Rng;
use crate::script::Script;

pub(super) fn opening(rng: &mut Rng) -> Script {
    let participants = some_list(rng);
    let mut script = some_header(rng, participants);
    for _ in 0..rng.between(0, 6) {
        let event = some_event(rng, &script, Pool::Small);
        script.events.push(event);
    }
    script
}

fn some_list(rng: &mut Rng) -> Vec<u32> {
    let count = rng.pick(&[0, 1, 1, 2, 3, 8, 31, 32, 32, 33, 33, 40]);
    let bound = rng.pick(&[64, 4_096]);
    let mut list = some_indices(rng, count, bound);
    if rng.percent(20) {
        list.sort_unstable();
    }
    // A wrong index and a repeat, in either order, in many lists.
    for _ in 0..rng.below(3) {
        if list.is_empty() {
            break;
        }
        let at = rng.below(list.len());
        list[at] = match rng.below(3) {
            0 => list[rng.below(list.len())],
            1 => rng.pick(&[4_096, 4_097, 65_536, u32::MAX]),
            _ => rng.pick(&[0, 4_095]),
        };
    }
    list
}
