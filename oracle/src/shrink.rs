//! Makes a script smaller while a property of it stays, on its text, so that damaged ones shrink too.

use crate::script::{read_script, Event, Script};

/// Runs of the property that one script may cost.
const MOST_TRIALS: usize = 6_000;
/// Bytes up to which single bytes are tried.
const FEW_BYTES: usize = 400;

/// The smallest script found that still has the property.
pub(crate) fn shrink(script: &[u8], differs: impl FnMut(&[u8]) -> bool) -> Vec<u8> {
    let mut shrinking = Shrinking { smallest: script.to_vec(), differs, trials: 0 };
    loop {
        let before = shrinking.smallest.clone();
        shrinking.drop_items(b"events ");
        shrinking.drop_items(b"participants ");
        shrinking.number_from_zero();
        shrinking.simplify_fields();
        shrinking.drop_bytes();
        if shrinking.smallest == before || shrinking.trials >= MOST_TRIALS {
            return shrinking.smallest;
        }
    }
}

struct Shrinking<F> {
    smallest: Vec<u8>,
    differs: F,
    trials: usize,
}

impl<F: FnMut(&[u8]) -> bool> Shrinking<F> {
    /// Takes the trial in place of the smallest if it is another and has the property.
    fn takes(&mut self, trial: Vec<u8>) -> bool {
        if trial == self.smallest || self.trials >= MOST_TRIALS {
            return false;
        }
        self.trials += 1;
        let taken = (self.differs)(&trial);
        if taken {
            self.smallest = trial;
        }
        taken
    }

    /// Drops runs of a section's lines, long runs first, with its count lowered accordingly.
    fn drop_items(&mut self, header: &[u8]) {
        let mut run = section(&self.smallest, header).map_or(0, |(_, count)| count);
        while run > 0 {
            let mut at = 0;
            while let Some(trial) = without_items(&self.smallest, header, at, run) {
                if !self.takes(trial) {
                    at += run;
                }
            }
            run /= 2;
        }
    }

    /// Replaces fields by plainer ones, from the plainest on.
    fn simplify_fields(&mut self) {
        let mut place = 0;
        while let Some((from, to)) = field_after(&self.smallest, place) {
            let field = self.smallest[from..to].to_vec();
            for plainer in plainer_fields(&field) {
                let trial = [&self.smallest[..from], plainer, &self.smallest[to..]].concat();
                if self.takes(trial) {
                    break;
                }
            }
            place = from + 1;
        }
    }

    /// Gives a script of good form small enclaves and small opening numbers, each wherever it stands.
    fn number_from_zero(&mut self) {
        for renumber in [enclaves_from_zero, revision_from_zero, generation_from_zero] {
            if let Ok(script) = read_script(&self.smallest) {
                self.takes(renumber(script).to_string().into_bytes());
            }
        }
    }

    fn drop_bytes(&mut self) {
        let mut run = 16;
        while run > 0 && self.smallest.len() <= FEW_BYTES {
            let mut at = 0;
            while at + run <= self.smallest.len() {
                let trial = [&self.smallest[..at], &self.smallest[at + run..]].concat();
                if !self.takes(trial) {
                    at += run;
                }
            }
            run /= 2;
        }
    }
}

/// The line number of a header and the lines that stand in its section, whatever its count says.
fn section(script: &[u8], header: &[u8]) -> Option<(usize, usize)> {
    let lines: Vec<&[u8]> = script.split(|byte| *byte == b'\n').collect();
    let at = lines.iter().position(|line| line.starts_with(header))?;
    let begins = |line: &&[u8]| line.starts_with(b"settings ") || line.starts_with(b"events ");
    let count = lines[at + 1..].iter().take_while(|line| !begins(line)).count();
    Some((at, count))
}

/// The script without some lines of a section, its count lowered by as many; nothing past the end.
fn without_items(script: &[u8], header: &[u8], from: usize, run: usize) -> Option<Vec<u8>> {
    let (at, count) = section(script, header)?;
    if from >= count {
        return None;
    }
    let mut lines: Vec<Vec<u8>> = script.split(|byte| *byte == b'\n').map(Vec::from).collect();
    let run = run.min(count - from);
    lines.drain(at + 1 + from..at + 1 + from + run);
    let written = String::from_utf8_lossy(&lines[at][header.len()..]).into_owned();
    if let Ok(written) = written.parse::<usize>() {
        lines[at] = [header, written.saturating_sub(run).to_string().as_bytes()].concat();
    }
    // Without its last line the script still ends with LF, if it did.
    let mut shorter = lines.join(&b'\n');
    if script.ends_with(b"\n") && !shorter.ends_with(b"\n") {
        shorter.push(b'\n');
    }
    Some(shorter)
}

/// The next field (what stands between spaces and line ends) that begins at or after a place.
fn field_after(script: &[u8], place: usize) -> Option<(usize, usize)> {
    let separates = |byte: &u8| b" \n".contains(byte);
    let from = (place..script.len())
        .find(|at| !separates(&script[*at]) && (*at == 0 || separates(&script[at - 1])))?;
    let length = script[from..].iter().position(separates);
    Some((from, length.map_or(script.len(), |length| from + length)))
}

/// Plainer fields of the same sort. A field that is among them gets only those before it.
fn plainer_fields(field: &[u8]) -> impl Iterator<Item = &'static [u8]> {
    const TAGS: &[&[u8]] = &[b"-", b"0:0:0", b"1:0:0", b"2:0:0", b"3:0:0", b"0:1:0", b"0:0:1"];
    const NUMBERS: &[&[u8]] = &[b"0", b"1", b"2", b"3"];
    const POLICIES: &[&[u8]] = &[b"keep", b"terminate", b"coordinated"];
    let is_number = field.iter().all(|byte| byte.is_ascii_digit());
    let plainer = if POLICIES.contains(&field) {
        POLICIES
    } else if field.contains(&b':') {
        TAGS
    } else if is_number {
        NUMBERS
    } else {
        &[]
    };
    let before = plainer.iter().position(|other| *other == field);
    plainer[..before.unwrap_or(plainer.len())].iter().copied()
}

/// Each participant by its place among the ascending ones; others keep their number.
fn enclaves_from_zero(mut script: Script) -> Script {
    let mut ascending = script.participants.clone();
    ascending.sort_unstable();
    let place = |enclave: &mut u32| {
        if let Ok(at) = ascending.binary_search(enclave) {
            *enclave = at as u32;
        }
    };
    script.participants.iter_mut().for_each(place);
    for event in &mut script.events {
        enclaves_of(event).into_iter().for_each(place);
    }
    script
}

fn enclaves_of(event: &mut Event) -> Vec<&mut u32> {
    match event {
        Event::Active(enclave)
        | Event::Publish(enclave, _)
        | Event::Complete(enclave, ..)
        | Event::Observed(enclave, _)
        | Event::Stopped(enclave)
        | Event::Failed(Some(enclave))
        | Event::Observe(enclave, ..)
        | Event::Begin(enclave, _)
        | Event::Late(enclave, _)
        | Event::Done(enclave, _) => vec![enclave],
        Event::Input(named) => named.iter_mut().collect(),
        _ => Vec::new(),
    }
}

fn revision_from_zero(mut script: Script) -> Script {
    for event in &mut script.events {
        if let Event::Acquire(revision, _)
        | Event::Sent(revision, ..)
        | Event::Observe(_, revision, _)
        | Event::Idle(revision) = event
        {
            *revision = revision.wrapping_sub(script.revision);
        }
    }
    script.revision = 0;
    script
}

fn generation_from_zero(mut script: Script) -> Script {
    for event in &mut script.events {
        if let Event::Observed(_, generation) = event {
            *generation = generation.wrapping_sub(script.generation);
        }
    }
    script.generation = 0;
    script
}
