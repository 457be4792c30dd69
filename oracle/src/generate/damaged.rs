//! Good scripts with their form hurt.

use super::{guided, opening, text, unguided};
use crate::prng::Rng;

/// Numerals at and past the limits of their widths, and things that are none.
#[rustfmt::skip]
const NUMERALS: &[&str] = &[
    "0", "1", "4095", "4096", "4097", "2147483647", "2147483648", "-2147483648", "-2147483649",
    "4294967295", "4294967296", "9223372036854775807", "9223372036854775808",
    "-9223372036854775808", "-9223372036854775809", "18446744073709551615",
    "18446744073709551616", "99999999999999999999", "100000000000000000000",
    "340282366920938463463374607431768211456", "00", "01", "007", "-0", "-00", "-01", "-1", "+0",
    "+1", "", "-", "--1", "1-", "1e3", "0x1", "1.0", "1_000", "NaN", "\u{0661}",
];

/// Fields that are whole, or nearly whole, of another form.
#[rustfmt::skip]
const FIELDS: &[&str] = &[
    "-", "0:0:0", "1:2", "1:2:3:4", "1::3", ":1:2", "1:2:", "::", "1:2:-1", "1:2:-0", "-0:0:0",
    "0:-0:0", "0:00:0", "00:0:0", "+1:0:0", "0:2147483647:0", "0:2147483648:0",
    "0:-2147483648:0", "0:-2147483649:0", "9223372036854775807:999999999:18446744073709551615",
    "9223372036854775808:0:0", "-9223372036854775808:-999999999:0", "-9223372036854775809:0:0",
    "0:0:18446744073709551616", "probed", "parked", "rechecked", "Probed", "probe", "keep",
    "terminate", "coordinated", "Keep", "2", "33", "32",
];

/// Lines to put in a place where they do not belong, or do.
#[rustfmt::skip]
const LINES: &[&str] = &[
    "", " ", "participants 1", "participants 0", "participants", "settings 3", "settings 2",
    "settings 4", "settings 03", "events 0", "events 4096", "events 4097", "events 4294967296",
    "Events 1", "active", "active 0 0", "stop 0", "stop ", " stop", "progress 1", "publish 0",
    "publish 0 - -", "complete 0 1:0:0", "complete 0 1:0:0 2", "complete 0 - 1", "observed 0 -",
    "failed", "failed - -", "acquire 0 -", "acquire - 0:0:0", "sent 0 - ", "sent 0 -",
    "observe 0 0 parking", "idle -", "idle", "horizon", "begin 0 -", "late 0 -", "done 0 -",
    "input", "input 0 0", "input 1", "input 2 0", "input 1 -", "input -", "input 00",
    "input 33 0 0 0 0 0 0 0 0 0 0 0 0 0 0 0 0 0 0 0 0 0 0 0 0 0 0 0 0 0 0 0 0 0",
    "input 32 0 0 0 0 0 0 0 0 0 0 0 0 0 0 0 0 0 0 0 0 0 0 0 0 0 0 0 0 0 0 0 0",
    "stop\r", "STOP", "stop\t", "\u{0}", "unknown 0",
];

const BYTES: &[u8] = b"\n\n\r\t  \0-+0019:abeps\x7f\x80\xff";

pub(super) fn damaged(rng: &mut Rng) -> Vec<u8> {
    let mut bytes = text(match rng.below(8) {
        0 => guided::extremes(rng),
        1 => opening::opening(rng),
        2..=4 => unguided::random(rng),
        _ => guided::short(rng),
    });
    for _ in 0..rng.weighted(&[(7, 1), (2, 2), (1, 3)]) {
        hurt(rng, &mut bytes);
    }
    bytes
}

fn hurt(rng: &mut Rng, bytes: &mut Vec<u8>) {
    match rng.below(10) {
        0 => hurt_a_byte(rng, bytes),
        1 => hurt_an_end(rng, bytes),
        2..=3 => hurt_a_line(rng, bytes),
        4 => hurt_a_count(rng, bytes),
        5 => hurt_the_head(rng, bytes),
        6..=7 => hurt_a_field(rng, bytes, FIELDS),
        _ => hurt_a_field(rng, bytes, NUMERALS),
    }
}

fn hurt_a_byte(rng: &mut Rng, bytes: &mut Vec<u8>) {
    let at = rng.below(bytes.len() + 1);
    let byte = if rng.percent(80) { rng.pick(BYTES) } else { rng.next() as u8 };
    match rng.below(3) {
        0 => bytes.insert(at, byte),
        1 if at < bytes.len() => bytes[at] = byte,
        _ if at < bytes.len() => drop(bytes.remove(at)),
        _ => bytes.push(byte),
    }
}

fn hurt_an_end(rng: &mut Rng, bytes: &mut Vec<u8>) {
    match rng.below(8) {
        0 => drop(bytes.pop()),
        1 => bytes.push(b'\n'),
        2 => bytes.extend(b"stop\n"),
        3 => bytes.extend(b"x"),
        4 => bytes.insert(0, b'\n'),
        5 => bytes.resize(rng.pick(&[65_535, 65_536, 65_537, 70_000]), b'\n'),
        6 if rng.percent(20) => bytes.clear(),
        _ => bytes.truncate(rng.below(bytes.len() + 1)),
    }
}

fn hurt_a_line(rng: &mut Rng, bytes: &mut Vec<u8>) {
    let mut lines = lines_of(bytes);
    let at = rng.below(lines.len());
    match rng.below(6) {
        0 => drop(lines.remove(at)),
        1 => lines.insert(at, lines[at].clone()),
        2 => lines.insert(at, rng.pick(LINES).into()),
        3 => {
            let other = rng.below(lines.len());
            lines.swap(at, other);
        }
        _ => lines[at] = rng.pick(LINES).into(),
    }
    *bytes = lines.join(&b'\n');
}

/// Another count in one of the three headers.
fn hurt_a_count(rng: &mut Rng, bytes: &mut Vec<u8>) {
    let mut lines = lines_of(bytes);
    let word: &[u8] = rng.pick(&[b"participants ".as_slice(), b"settings ", b"events "]);
    for line in &mut lines {
        if let Some(count) = line.strip_prefix(word) {
            let count: u64 = String::from_utf8_lossy(count).parse().unwrap_or(0);
            let other = rng.pick(&[
                count.saturating_add(1),
                count.saturating_sub(1),
                0,
                4_096,
                4_097,
                1 << 32,
            ]);
            *line = [word, other.to_string().as_bytes()].concat();
        }
    }
    *bytes = lines.join(&b'\n');
}

/// A fault in the few lines before the events, which a random place seldom meets.
fn hurt_the_head(rng: &mut Rng, bytes: &mut Vec<u8>) {
    let mut lines = lines_of(bytes);
    let header = lines.iter().position(|line| line.starts_with(b"settings "));
    let from = if rng.percent(70) { header.unwrap_or(0) } else { 0 };
    let at = rng.between(from, header.unwrap_or(0) + 4).min(lines.len() - 1);
    match rng.below(4) {
        0 => lines.truncate(at),
        1 => lines.truncate(at + 1),
        2 => lines[at].push(rng.pick(BYTES)),
        _ => lines[at] = rng.pick(NUMERALS).into(),
    }
    *bytes = lines.join(&b'\n');
    // After the cut the last line is ended, or it is not.
    if rng.percent(60) && !bytes.is_empty() && !bytes.ends_with(b"\n") {
        bytes.push(b'\n');
    }
}

fn hurt_a_field(rng: &mut Rng, bytes: &mut Vec<u8>, others: &[&str]) {
    let mut lines = lines_of(bytes);
    let at = rng.below(lines.len());
    let separator = if rng.percent(30) { b':' } else { b' ' };
    let mut fields: Vec<Vec<u8>> =
        lines[at].split(|byte| *byte == separator).map(Vec::from).collect();
    let field = rng.below(fields.len());
    match rng.below(8) {
        0 => drop(fields.remove(field)),
        1 => fields.insert(field, fields[field].clone()),
        2 => fields[field].insert(0, rng.pick(b"0+- ")),
        _ => fields[field] = rng.pick(others).into(),
    }
    lines[at] = fields.join(&separator);
    *bytes = lines.join(&b'\n');
}

/// The lines without their ends; joined by LF they are the bytes again.
fn lines_of(bytes: &[u8]) -> Vec<Vec<u8>> {
    bytes.split(|byte| *byte == b'\n').map(Vec::from).collect()
}
