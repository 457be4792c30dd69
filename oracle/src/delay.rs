//! The Rust's `Tag::delay` with document 01's refusals 7, then 10, one case a line.
//!
//! A line holds a tag and a duration, as `1:500000000:0 0:-600000000`; the answer is the refusal and
//! the resulting tag (its own where refused). A line of another form is answered by `?`.

use std::panic::{catch_unwind, AssertUnwindSafe};

use crate::script::{read_tag, signed, WrittenTag};
use crate::Duration;

/// How the Rust panics where the result has no place: in the microstep, in the seconds.
pub(crate) const OUT_OF_RANGE: &[&str] =
    &["attempt to add with overflow", "overflow when adding durations"];

pub(crate) fn delays(input: &[u8]) -> String {
    input
        .split(|byte| *byte == b'\n')
        .filter(|line| !line.is_empty())
        .map(|line| match read_case(line) {
            Some((tag, seconds, nanoseconds)) => {
                let (refusal, result) = delay(tag, seconds, nanoseconds);
                format!("{refusal} {result}\n")
            }
            None => "?\n".to_string(),
        })
        .collect()
}

fn read_case(line: &[u8]) -> Option<(WrittenTag, i64, i32)> {
    let (tag, duration) = split_at_byte(line, b' ')?;
    let (seconds, nanoseconds) = split_at_byte(duration, b':')?;
    Some((read_tag(tag)?, signed(seconds)?.try_into().ok()?, signed(nanoseconds)?.try_into().ok()?))
}

fn split_at_byte(bytes: &[u8], byte: u8) -> Option<(&[u8], &[u8])> {
    let at = bytes.iter().position(|other| *other == byte)?;
    Some((&bytes[..at], &bytes[at + 1..]))
}

fn delay(tag: WrittenTag, seconds: i64, nanoseconds: i32) -> (u8, WrittenTag) {
    let duration = WrittenTag { seconds, nanoseconds, microstep: 0 };
    if !tag.is_proper() || !duration.is_proper() {
        return (7, tag);
    }
    let offset = Duration::new(seconds, nanoseconds);
    match catch_unwind(AssertUnwindSafe(|| tag.tag().delay(offset))) {
        Ok(result) => (0, result.into()),
        Err(_) => (10, tag),
    }
}
