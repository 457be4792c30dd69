//! The three programs' arguments, input and output.

use std::env;
use std::fs;
use std::io::{self, Read, Write};
use std::process::ExitCode;
use std::time::Duration;

use crate::compare::{compare, Choice};
use crate::coverage::Coverage;
use crate::delay::{delays, OUT_OF_RANGE};
use crate::dump::listing_with_states;
use crate::generate::{generate, kind_names};
use crate::listing::listing_of;
use crate::program::Program;
use crate::run::silence_expected_panics;
use crate::slip::SLIPS;

/// The environment variable that names a slip of the program `oracle`.
const SLIP: &str = "ORACLE_SLIP";

const ORACLE_USAGE: &str = "\
oracle [--state | --delay | --slips] < INPUT
  (none)   the listing of a script
  --state  the same, with the whole state after the opening and after each event
  --delay  a tag and a duration a line, as `1:500000000:0 0:-600000000`: refusal and result
  --slips  the names that ORACLE_SLIP can have, each a deliberately wrong oracle
";

const COMPARE_USAGE: &str = "\
compare PROGRAM [--count N] [--seed S] [--kind KIND] [--patience SECONDS] [--counters]
compare --coverage [--count N] [--seed S] [--kind KIND] [--counters]
  PROGRAM     reads a script on standard input and writes its listing on standard output
  --count     scripts to compare (1000)
  --seed      the first script's seed (1); the next script has the next one
  --kind      one kind alone, in place of all by their shares
  --patience  seconds for one script (60)
  --counters  every counter of what was met, in place of the sums
  --coverage  no program: only what the scripts meet; status 1 if something is not met
Status 1 if an output differs; the smallest script found is then shown.
";

/// A script in, its listing out.
pub fn oracle_main() -> ExitCode {
    let arguments: Vec<String> = env::args().skip(1).collect();
    let arguments: Vec<&str> = arguments.iter().map(String::as_str).collect();
    let write: fn(&[u8]) -> String = match (arguments.as_slice(), env::var(SLIP)) {
        (["--slips"], _) => {
            return show(SLIPS.iter().map(|(name, _)| format!("{name}\n")).collect())
        }
        (["--state"], _) => listing_with_states,
        (["--delay"], _) => delays,
        ([], Err(_)) => listing_of,
        ([], Ok(name)) => match SLIPS.iter().find(|(slip, _)| *slip == name) {
            Some((_, listing)) => *listing,
            None => return wrong_use(&format!("{SLIP}: no slip {name}\n")),
        },
        _ => return wrong_use(ORACLE_USAGE),
    };
    silence_expected_panics(if arguments == ["--delay"] { OUT_OF_RANGE } else { &[] });
    let mut input = Vec::new();
    if let Err(error) = io::stdin().lock().read_to_end(&mut input) {
        return wrong_use(&format!("standard input: {error}\n"));
    }
    show(write(&input))
}

/// A kind and a seed in, a script out.
pub fn generate_main() -> ExitCode {
    silence_expected_panics(&[]);
    let arguments: Vec<String> = env::args().skip(1).collect();
    let script = match arguments.as_slice() {
        [kind, seed] => seed.parse().ok().and_then(|seed| generate(kind, seed)),
        _ => None,
    };
    let Some(script) = script else {
        let kinds: Vec<&str> = kind_names().collect();
        return wrong_use(&format!("generate KIND SEED\n  KIND: {}\n", kinds.join(", ")));
    };
    written(&script)
}

/// A program against the oracle.
pub fn compare_main() -> ExitCode {
    silence_expected_panics(&[]);
    let Some(options) = CompareOptions::read(env::args().skip(1)) else {
        return wrong_use(COMPARE_USAGE);
    };
    let Some(program) = &options.program else {
        return coverage_alone(&options);
    };
    // Made absolute: a bare name would be looked for elsewhere than in this folder.
    let program = match fs::canonicalize(program) {
        Ok(path) => Program::new(&path, options.patience),
        Err(error) => return wrong_use(&format!("{program}: {error}\n")),
    };
    let comparison = compare(&program, &options.choice);
    let shown = show(comparison.report(options.counters));
    match &comparison.difference {
        Some(difference) => {
            show(difference.clone());
            ExitCode::FAILURE
        }
        None => shown,
    }
}

fn coverage_alone(options: &CompareOptions) -> ExitCode {
    let mut coverage = Coverage::new();
    for place in 0..options.choice.count {
        let (kind, seed) = options.choice.script_at(place);
        coverage.add(&generate(kind, seed).expect("the kind was tested"));
    }
    let shown = show(coverage.report(options.counters));
    if coverage.is_complete() {
        return shown;
    }
    ExitCode::FAILURE
}

struct CompareOptions {
    /// Nothing where only the coverage is wanted.
    program: Option<String>,
    choice: Choice,
    patience: Duration,
    counters: bool,
}

impl CompareOptions {
    fn read(mut arguments: impl Iterator<Item = String>) -> Option<Self> {
        let first = arguments.next()?;
        let mut options = Self {
            program: (first != "--coverage").then_some(first),
            choice: Choice { count: 1_000, seed: 1, kind: None },
            patience: Duration::from_secs(60),
            counters: false,
        };
        while let Some(name) = arguments.next() {
            if name == "--counters" {
                options.counters = true;
            } else {
                options.set(&name, &arguments.next()?)?;
            }
        }
        let program = options.program.as_deref();
        (!program.is_some_and(|program| program.starts_with("--"))).then_some(options)
    }

    fn set(&mut self, name: &str, value: &str) -> Option<()> {
        match name {
            "--count" => self.choice.count = value.parse().ok()?,
            "--seed" => self.choice.seed = value.parse().ok()?,
            "--kind" => self.choice.kind = Some(kind_names().find(|kind| *kind == value)?.into()),
            "--patience" => self.patience = Duration::from_secs(value.parse().ok()?),
            _ => return None,
        }
        Some(())
    }
}

fn show(text: String) -> ExitCode {
    written(text.as_bytes())
}

fn written(bytes: &[u8]) -> ExitCode {
    let mut output = io::stdout().lock();
    match output.write_all(bytes).and_then(|()| output.flush()) {
        Ok(()) => ExitCode::SUCCESS,
        Err(error) => wrong_use(&format!("standard output: {error}\n")),
    }
}

fn wrong_use(text: &str) -> ExitCode {
    eprint!("{text}");
    ExitCode::from(2)
}
