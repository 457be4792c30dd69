//! The two loads of docs/PERFORMANCE.md, for whatever opens and takes calls. Each Rust program that plays
//! them has this file as a module, so that what stands around the calls is the same.

use std::io::{stdin, Read};
use std::ops::AddAssign;

/// What is done with an idle federate: the load keeps it, the idle load has it stop.
#[derive(Clone, Copy)]
pub enum Policy {
    Keep,
    Terminate,
}

#[derive(Clone, Copy)]
pub enum Observed {
    Probed,
    Parked,
    Rechecked,
}

/// The phases that the idle load passes.
#[derive(Debug, Eq, PartialEq)]
pub enum Phase {
    Active,
    Probing,
    Parking,
    Rechecking,
    Stopped,
    Other,
}

/// A tag of microstep 0.
#[derive(Clone, Copy)]
pub struct Time {
    pub seconds: i64,
    pub nanoseconds: i32,
}

/// The actions and the refusals of a call, or of all calls.
#[derive(Clone, Copy, Default)]
pub struct Sums {
    pub actions: usize,
    pub refusals: usize,
}

impl AddAssign for Sums {
    fn add_assign(&mut self, more: Self) {
        self.actions += more.actions;
        self.refusals += more.refusals;
    }
}

/// A federate, and where its actions go. Revision and generation of a call are the current ones.
pub trait Federate {
    fn publish(&mut self, enclave: u32, next_event: Option<Time>) -> Sums;
    fn acquire(&mut self, granted: Time) -> Sums;
    /// With network input.
    fn complete(&mut self, enclave: u32, completed: Time) -> Sums;
    /// The answer to a completion probe.
    fn acknowledge(&mut self, enclave: u32) -> Sums;
    fn observe(&mut self, enclave: u32, observed: Observed) -> Sums;
    fn notice_input(&mut self, affected: &[u32]) -> Sums;
    /// Asked in a debug build alone.
    fn phase(&self) -> Phase;
}

/// Plays what the line on standard input tells, `0|1 n stride turns nanoseconds` with 0 the load and 1 the
/// idle load; prints the actions and the refusals in all.
pub fn play<F: Federate>(open: impl Fn(&[u32], Policy) -> F) {
    let [kind, n, stride, turns, nanoseconds] = told();
    let enclaves: Vec<u32> = (0..n).map(|i| (i * stride) as u32).collect();
    let sums = match kind {
        0 => load(open(&enclaves, Policy::Keep), &enclaves, turns, nanoseconds as i32),
        _ => idle(open(&enclaves, Policy::Terminate), &enclaves, turns),
    };
    println!("{} {}", sums.actions, sums.refusals);
}

fn told() -> [i64; 5] {
    let mut line = String::new();
    stdin().read_to_string(&mut line).expect("a line of text");
    let numbers: Vec<i64> = line.split_whitespace().map(|n| n.parse().expect("a number")).collect();
    numbers.try_into().expect("0|1 n stride turns nanoseconds")
}

/// 2n + 1 calls a turn.
fn load<F: Federate>(mut federate: F, enclaves: &[u32], turns: i64, nanoseconds: i32) -> Sums {
    let mut sums = Sums::default();
    let (&last, others) = enclaves.split_last().expect("a federate has participants");
    let alone = others.is_empty();
    for k in 1..=turns {
        let now = Time { seconds: k, nanoseconds };
        let next = Time { seconds: k + 1, nanoseconds };
        for &enclave in others {
            sums += federate.publish(enclave, Some(now));
        }
        sums += federate.publish(last, Some(if alone { now } else { next }));
        sums += federate.acquire(now);
        for &enclave in others {
            sums += federate.complete(enclave, now);
        }
        sums += if alone { federate.complete(last, now) } else { federate.acknowledge(last) };
    }
    sums
}

/// 4n + 1 calls a turn, and the five actions Publish, Probe, Park, Recheck, Stop.
fn idle<F: Federate>(mut federate: F, enclaves: &[u32], turns: i64) -> Sums {
    let steps = [
        (Phase::Probing, Observed::Probed),
        (Phase::Parking, Observed::Parked),
        (Phase::Rechecking, Observed::Rechecked),
    ];
    let mut sums = Sums::default();
    for _ in 0..turns {
        debug_assert_eq!(federate.phase(), Phase::Active);
        for &enclave in enclaves {
            sums += federate.publish(enclave, None);
        }
        for (phase, observed) in &steps {
            debug_assert_eq!(federate.phase(), *phase);
            for &enclave in enclaves {
                sums += federate.observe(enclave, *observed);
            }
        }
        debug_assert_eq!(federate.phase(), Phase::Stopped);
        sums += federate.notice_input(enclaves);
    }
    sums
}
