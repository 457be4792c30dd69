//! Another program against the oracle, on generated scripts.

use std::collections::BTreeMap;
use std::time::Instant;

use crate::coverage::Coverage;
use crate::generate::{generate, kind_at};
use crate::listing::listing_of;
use crate::program::Program;
use crate::shrink::shrink;

/// Which scripts to take.
pub(crate) struct Choice {
    pub(crate) count: u64,
    pub(crate) seed: u64,
    /// Nothing means all kinds, by their shares.
    pub(crate) kind: Option<String>,
}

impl Choice {
    /// The kind and the seed of the script at a place.
    pub(crate) fn script_at(&self, place: u64) -> (&str, u64) {
        let kind = self.kind.as_deref().unwrap_or_else(|| kind_at(place));
        (kind, self.seed.wrapping_add(place))
    }
}

/// What a comparison found: how many scripts agreed by kind, and the first that did not.
pub(crate) struct Comparison {
    agreed: BTreeMap<String, u64>,
    seconds: f64,
    pub(crate) coverage: Coverage,
    pub(crate) difference: Option<String>,
}

/// Compares until the count is reached or a script differs.
pub(crate) fn compare(program: &Program, choice: &Choice) -> Comparison {
    let begun = Instant::now();
    let mut comparison = Comparison {
        agreed: BTreeMap::new(),
        seconds: 0.0,
        coverage: Coverage::new(),
        difference: None,
    };
    for place in 0..choice.count {
        let (kind, seed) = choice.script_at(place);
        let script = generate(kind, seed).expect("the kind was tested");
        comparison.coverage.add(&script);
        if differs(program, &script) {
            comparison.difference = Some(difference_report(program, kind, seed, &script));
            break;
        }
        *comparison.agreed.entry(kind.to_string()).or_default() += 1;
    }
    comparison.seconds = begun.elapsed().as_secs_f64();
    comparison
}

impl Comparison {
    pub(crate) fn report(&self, all: bool) -> String {
        let total: u64 = self.agreed.values().sum();
        let kinds: Vec<String> =
            self.agreed.iter().map(|(kind, count)| format!("{kind} {count}")).collect();
        let pace = total as f64 / self.seconds.max(1e-9);
        format!(
            "agreed: {total} scripts ({}) in {:.1} s, {pace:.0} a second\n{}",
            kinds.join(", "),
            self.seconds,
            self.coverage.report(all),
        )
    }
}

fn differs(program: &Program, script: &[u8]) -> bool {
    program.output_for(script).as_deref() != Ok(listing_of(script).as_bytes())
}

fn difference_report(program: &Program, kind: &str, seed: u64, script: &[u8]) -> String {
    let smallest = shrink(script, |trial| differs(program, trial));
    let expected = listing_of(&smallest);
    let given = match program.output_for(&smallest) {
        Ok(output) => visible(&output),
        Err(reason) => format!("({reason})\n"),
    };
    format!(
        "DIFFERENCE: generate {kind} {seed} ({} bytes), shrunk to {} bytes\n\
         --- script\n{}--- the Rust\n{expected}--- the program\n{given}---\n",
        script.len(),
        smallest.len(),
        visible(&smallest),
    )
}

/// Text as it stands, other bytes and a lacking last LF escaped.
fn visible(bytes: &[u8]) -> String {
    let mut text = String::new();
    for byte in bytes {
        match byte {
            b'\n' => text.push('\n'),
            b' '..=b'~' => text.push(*byte as char),
            other => text += &format!("\\x{other:02x}"),
        }
    }
    if !text.ends_with('\n') {
        text += "\\ (no LF)\n";
    }
    text
}
