//! The library as it is: its structs in C's layout, and its four functions.
//!
//! None of the functions demands anything of its numbers: each is proved to answer every one of them, so
//! each is safe on slices and structs that Rust itself keeps valid. What a struct's fields mean is said
//! in `crates/plain`, `crates/exports` and `crates/state`.

use std::mem::{align_of, size_of};

use crate::Tag;

/// The bytes of one action's record.
pub const RECORD: usize = 56;
/// The room that a call with 32 participants can need, two records more than they are.
pub const ROOM: usize = RECORD * 34;

#[repr(C)]
#[derive(Clone, Copy, Debug, Eq, PartialEq)]
pub struct TagNumbers {
    pub present: bool,
    pub tag: Tag,
}

impl TagNumbers {
    pub const ABSENT: Self = Self { present: false, tag: Tag::ZERO };

    pub const fn present(tag: Tag) -> Self {
        Self { present: true, tag }
    }
}

#[repr(C)]
#[derive(Clone, Copy, Debug, Eq, PartialEq)]
pub struct CallNumbers {
    pub kind: u8,
    pub observation: u8,
    pub network_input: bool,
    pub named: bool,
    pub enclave: u32,
    pub number: u64,
    pub first: TagNumbers,
    pub second: TagNumbers,
}

impl CallNumbers {
    /// A call of no kind, to be filled in.
    pub const BLANK: Self = Self {
        kind: 0,
        observation: 0,
        network_input: false,
        named: false,
        enclave: 0,
        number: 0,
        first: TagNumbers::ABSENT,
        second: TagNumbers::ABSENT,
    };
}

#[repr(C)]
#[derive(Clone, Copy, Debug, Eq, PartialEq)]
pub struct ReplyNumbers {
    pub refusal: u8,
    pub answer: u8,
    pub actions: usize,
}

#[repr(C)]
#[derive(Clone, Copy, Debug, Eq, PartialEq)]
pub struct AskedNumbers {
    pub refusal: u8,
    pub present: bool,
    pub number: u64,
    pub first: TagNumbers,
    pub second: TagNumbers,
}

#[repr(C)]
#[derive(Clone, Copy, Debug, Eq, PartialEq)]
pub struct ActionNumbers {
    pub refusal: u8,
    pub kind: u8,
    pub network_input: bool,
    pub enclave: u32,
    pub number: u64,
    pub first: TagNumbers,
    pub second: TagNumbers,
}

#[repr(C)]
#[derive(Clone, Copy, Debug, Eq, PartialEq)]
pub struct Coordination {
    pub phase: u8,
    pub authorized: bool,
    pub pending: bool,
    pub revision: u64,
    pub idle_authorization: u64,
    pub pending_revision: u64,
    pub pending_next_event: Tag,
    pub pending_grant_horizon: Tag,
}

#[repr(C)]
#[derive(Clone, Copy, Debug, Eq, PartialEq)]
pub struct Completion {
    pub completed_frontier: Tag,
    pub first_input: Tag,
    pub last_input: Tag,
    pub completion_generation: u64,
    pub completion_probe: Tag,
}

#[repr(C)]
#[derive(Clone, Copy, Debug, Eq, PartialEq)]
pub struct Gate {
    pub input_horizon: Tag,
    pub stored_revision: u64,
    pub stored_granted: Tag,
    pub granted: Tag,
}

/// `state::FederateCoordinationState`.
#[repr(C)]
#[derive(Clone, Copy, Debug, Eq, PartialEq)]
pub struct Held {
    pub count: usize,
    pub enclaves: [u32; 32],
    pub published: [bool; 32],
    pub observation: [u8; 32],
    pub acknowledged: [bool; 32],
    pub completion_observed: [u64; 32],
    pub seconds: [i64; 96],
    pub nanoseconds: [i32; 96],
    pub microsteps: [u64; 96],
    pub coordination: Coordination,
    pub completion: Completion,
    pub gate: Gate,
    pub grant_horizon: Tag,
    pub failed: bool,
    pub lifecycle: u8,
    pub first_failure: u32,
}

#[repr(C)]
#[derive(Clone, Copy, Debug, Eq, PartialEq)]
pub struct OpenedNumbers {
    pub refusal: u8,
    pub state: Held,
}

/// The sizes that C's rules give the library's structs; all are aligned as their 64-bit numbers.
const SIZES: [(usize, usize); 10] = [
    (size_of::<Tag>(), 24),
    (size_of::<TagNumbers>(), 32),
    (size_of::<CallNumbers>(), 80),
    (size_of::<ReplyNumbers>(), 16),
    (size_of::<AskedNumbers>(), 80),
    (size_of::<ActionNumbers>(), 80),
    (size_of::<Coordination>(), 80),
    (size_of::<Completion>(), 104),
    (size_of::<Gate>(), 80),
    (size_of::<Held>(), 2_704),
];

const _: () = {
    let mut at = 0;
    while at < SIZES.len() {
        assert!(SIZES[at].0 == SIZES[at].1);
        at += 1;
    }
    assert!(size_of::<OpenedNumbers>() == 2_712);
    assert!(align_of::<CallNumbers>() == 8 && align_of::<OpenedNumbers>() == 8);
    assert!(size_of::<usize>() == 8);
};

// The archive has a slice as two arguments, its first element's place and its length.
extern "C" {
    fn federate_open(
        enclaves: *const u32,
        enclaves_len: usize,
        policy: u8,
        revision: u64,
        generation: u64,
    ) -> OpenedNumbers;
    fn federate_call(
        state: *mut Held,
        call: CallNumbers,
        listed: *const u32,
        listed_len: usize,
        room: *mut u8,
        room_len: usize,
    ) -> ReplyNumbers;
    fn federate_ask(state: Held, question: u8, enclave: u32) -> AskedNumbers;
    fn federate_read_action(bytes: *const u8, bytes_len: usize) -> ActionNumbers;
}

/// An opening, policy 0 keep, 1 terminate, 2 coordinated.
pub fn open(enclaves: &[u32], policy: u8, revision: u64, generation: u64) -> OpenedNumbers {
    // SAFETY: the slice is valid for reading while the function runs, which keeps nothing of it.
    unsafe { federate_open(enclaves.as_ptr(), enclaves.len(), policy, revision, generation) }
}

/// The call of the kind's number, in document 01's order of events from 1. `input` names the listed.
pub fn call(state: &mut Held, call: CallNumbers, listed: &[u32], room: &mut [u8]) -> ReplyNumbers {
    let (listed_len, room_len) = (listed.len(), room.len());
    // SAFETY: state and room are borrowed for writing and do not overlap, the listed for reading; the
    // function keeps none of them.
    unsafe { federate_call(state, call, listed.as_ptr(), listed_len, room.as_mut_ptr(), room_len) }
}

/// The query of a number: see `exports::federate_ask`. The enclave is that of query 11.
pub fn ask(state: &Held, question: u8, enclave: u32) -> AskedNumbers {
    // SAFETY: everything is passed by value.
    unsafe { federate_ask(*state, question, enclave) }
}

/// The action of the record that the bytes begin with.
pub fn read_action(bytes: &[u8]) -> ActionNumbers {
    // SAFETY: the slice is valid for reading while the function runs, which keeps nothing of it.
    unsafe { federate_read_action(bytes.as_ptr(), bytes.len()) }
}
