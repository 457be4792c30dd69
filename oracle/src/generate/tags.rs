//! Tags to write into scripts.

use crate::prng::Rng;
use crate::script::WrittenTag;
use crate::shims::federate::state::{ParticipantView, StateView};
use crate::Tag;

const MOST_NANOSECONDS: i32 = 999_999_999;

/// Where a script's fresh tags come from.
#[derive(Clone, Copy, Debug, Eq, PartialEq)]
pub(super) enum Pool {
    /// Few tags from 0 on, so that equal ones are frequent.
    Small,
    /// Few tags about 0, of both signs.
    Signed,
    /// The limits, NEVER and FOREVER.
    Extreme,
}

pub(super) fn written(seconds: i64, nanoseconds: i32, microstep: u64) -> WrittenTag {
    WrittenTag { seconds, nanoseconds, microstep }
}

/// A proper tag of the pool.
pub(super) fn fresh_tag(rng: &mut Rng, pool: Pool) -> WrittenTag {
    match pool {
        Pool::Small => {
            let nanoseconds =
                rng.weighted(&[(8, 0), (1, 1), (1, 500_000_000), (1, MOST_NANOSECONDS)]);
            let microstep = rng.weighted(&[(8, 0), (2, 1), (1, 2)]);
            written(rng.below(7) as i64, nanoseconds, microstep)
        }
        Pool::Signed => {
            let seconds = rng.between(0, 6) as i64 - 3;
            let nanoseconds = rng.pick(&[0, 0, 1, -1, 500_000_000, -500_000_000]);
            sign_matched(written(seconds, nanoseconds, rng.pick(&[0, 0, 0, 1, 2])))
        }
        Pool::Extreme => extreme_tag(rng),
    }
}

fn extreme_tag(rng: &mut Rng) -> WrittenTag {
    let seconds =
        rng.pick(&[i64::MIN, i64::MIN, i64::MIN + 1, -1, 0, 1, i64::MAX - 1, i64::MAX, i64::MAX]);
    let nanoseconds = rng.pick(&[
        -MOST_NANOSECONDS,
        -MOST_NANOSECONDS + 1,
        -1,
        0,
        1,
        MOST_NANOSECONDS - 1,
        MOST_NANOSECONDS,
    ]);
    let microstep = rng.pick(&[0, 0, 1, u64::MAX - 1, u64::MAX]);
    match rng.below(6) {
        0 => Tag::NEVER.into(),
        1 => Tag::FOREVER.into(),
        _ => sign_matched(written(seconds, nanoseconds, microstep)),
    }
}

/// The tag with its nanoseconds' sign made that of its seconds.
fn sign_matched(tag: WrittenTag) -> WrittenTag {
    if tag.is_proper() {
        return tag;
    }
    written(tag.seconds, -tag.nanoseconds, tag.microstep)
}

/// A tag that its event refuses by 7.
pub(super) fn improper_tag(rng: &mut Rng) -> WrittenTag {
    let (seconds, nanoseconds) = rng.pick(&[
        (0, 1_000_000_000),
        (0, -1_000_000_000),
        (5, -1),
        (-5, 1),
        (1, -MOST_NANOSECONDS),
        (-1, MOST_NANOSECONDS),
        (i64::MAX, 1_000_000_000),
        (i64::MIN, -1_000_000_000),
        (i64::MAX, -1),
        (i64::MIN, 1),
        (0, i32::MAX),
        (0, i32::MIN),
        (i64::MAX, i32::MAX),
        (i64::MIN, i32::MIN),
    ]);
    written(seconds, nanoseconds, rng.pick(&[0, 1, u64::MAX]))
}

/// A tag that the state holds, or one just beside it, or a fresh one.
pub(super) fn near_tag(rng: &mut Rng, view: &StateView, pool: Pool) -> WrittenTag {
    near_one_of(rng, &held_tags(view), pool)
}

/// A tag that the gate compares with those of this enclave, or one just beside it, or a fresh one.
pub(super) fn own_tag(rng: &mut Rng, participant: &ParticipantView, pool: Pool) -> WrittenTag {
    let own = [participant.granted, participant.started, participant.completed];
    let own: Vec<Tag> = own.into_iter().flatten().collect();
    near_one_of(rng, &own, pool)
}

fn near_one_of(rng: &mut Rng, held: &[Tag], pool: Pool) -> WrittenTag {
    if held.is_empty() || rng.percent(20) {
        return fresh_tag(rng, pool);
    }
    let tag = WrittenTag::from(rng.pick(held));
    match rng.below(6) {
        0 => written(tag.seconds, tag.nanoseconds, tag.microstep.saturating_add(1)),
        1 => written(tag.seconds, tag.nanoseconds, tag.microstep.saturating_sub(1)),
        2 => moved(tag, 1),
        3 => moved(tag, -1),
        _ => tag,
    }
}

/// A tag at or past everything granted and completed, so that time moves on.
pub(super) fn ahead_tag(rng: &mut Rng, view: &StateView, pool: Pool) -> WrittenTag {
    let completed = view.participants.iter().filter_map(|p| p.completed);
    let reached = completed.chain(view.grant_horizon).max();
    match reached {
        Some(reached) if !rng.percent(15) => moved(reached.into(), rng.below(4) as i64),
        _ => fresh_tag(rng, pool),
    }
}

/// The tag some seconds later or earlier, as far as there are any.
pub(super) fn moved(tag: WrittenTag, seconds: i64) -> WrittenTag {
    let moved = written(tag.seconds.saturating_add(seconds), tag.nanoseconds, tag.microstep);
    sign_matched(moved)
}

fn held_tags(view: &StateView) -> Vec<Tag> {
    let mut held: Vec<Tag> = Vec::new();
    for p in &view.participants {
        let tags = [p.granted, p.started, p.candidate, p.completed];
        held.extend(tags.into_iter().flatten());
    }
    let tags = [
        view.input_horizon,
        view.input_acquisition.map(|acquisition| acquisition.granted()),
        view.completed_frontier,
        view.completion_probe,
        view.grant_horizon,
        view.pending_inputs.map(|(first, _)| first),
        view.pending_inputs.map(|(_, last)| last),
    ];
    held.extend(tags.into_iter().flatten());
    held
}
