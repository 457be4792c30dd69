//! The linked library against the unchanged Rust, in one process: scripts that the oracle generates are run
//! by this crate's safe type, and its listing with the whole state after every event has to be the
//! oracle's, byte for byte.

mod listing;
mod script;

use spindlecove_oracle::{generate, listing_with_states, silence_expected_panics};

/// The scripts of a kind: their first seed, and how many. `HOST_SCRIPTS` is a factor for longer runs.
const SEED: u64 = 1_000_000;
const KINDS: [(&str, u64); 5] =
    [("deep", 1_500), ("extremes", 1_000), ("random", 1_000), ("opening", 300), ("long", 3)];

#[test]
fn listings_and_states_are_the_oracles() {
    silence_expected_panics(&[]);
    let factor = std::env::var("HOST_SCRIPTS").map_or(1, |text| text.parse().expect("a number"));
    let mut events = 0;
    for (kind, count) in KINDS {
        for seed in SEED..SEED + count * factor {
            let text = generate(kind, seed).expect("the oracle has the kind");
            let text = String::from_utf8(text).expect("a script is text");
            events += agree(kind, seed, &text);
        }
    }
    println!("{events} events, each with its actions and the whole state");
}

/// Runs the script on both, and gives the number of its events, 0 where it has no good form.
fn agree(kind: &str, seed: u64, text: &str) -> usize {
    let theirs = listing_with_states(text.as_bytes());
    // A long script may break its form, which no call ever sees.
    if theirs.starts_with("refused 11 ") || theirs.starts_with("refused 12") {
        return 0;
    }
    let ours = listing::listing_with_states(text);
    if ours == theirs {
        return script::read(text).events.len();
    }
    let at = ours.lines().zip(theirs.lines()).take_while(|(a, b)| a == b).count();
    panic!(
        "{kind} {seed}, line {}\nhost   {:?}\noracle {:?}\n{text}",
        at + 1,
        ours.lines().nth(at),
        theirs.lines().nth(at)
    );
}
