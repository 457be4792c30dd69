//! What the safe type never gives the library: numbers without a meaning, too little room, states and
//! records that are none.

use spindlecove_host::numbers::{
    ask, call, open, read_action, CallNumbers, Held, TagNumbers, RECORD, ROOM,
};
use spindlecove_host::Tag;

const SILENT: u8 = 2;

fn opened() -> Held {
    let opened = open(&[3, 7], 1, 0, 0);
    assert_eq!(opened.refusal, 0);
    opened.state
}

fn call_of(kind: u8) -> CallNumbers {
    let absent = TagNumbers { present: false, tag: Tag::ZERO };
    CallNumbers {
        kind,
        observation: 0,
        network_input: false,
        named: true,
        enclave: 3,
        number: 0,
        first: absent,
        second: absent,
    }
}

/// The refusal of a call that has to change nothing, neither state nor room.
fn refused(state: &Held, told: CallNumbers, room_len: usize) -> u8 {
    let mut next = *state;
    let mut room = vec![0xa5; room_len];
    let reply = call(&mut next, told, &[], &mut room);
    assert_eq!((next, reply.actions), (*state, 0));
    assert!(room.iter().all(|byte| *byte == 0xa5));
    reply.refusal
}

#[test]
fn numbers_without_a_meaning_are_11() {
    let state = opened();
    for kind in (18..=255).chain([0]) {
        assert_eq!(refused(&state, call_of(kind), ROOM), 11);
    }
    for observation in 3..=255 {
        assert_eq!(refused(&state, CallNumbers { observation, ..call_of(9) }, ROOM), 11);
    }
    for policy in 3..=255 {
        let refused = open(&[3, 7], policy, 5, 6);
        assert_eq!((refused.refusal, refused.state), (11, open(&[], 0, 0, 0).state));
    }
    for question in (12..=255).chain([0]) {
        let asked = ask(&state, question, 3);
        assert_eq!((asked.refusal, asked.present, asked.number), (11, false, 0));
    }
}

#[test]
fn openings_are_refused_in_document_01s_order() {
    let many: Vec<u32> = (0..33).collect();
    assert_eq!(open(&many, 0, 0, 0).refusal, 5);
    assert_eq!(open(&[], 0, 0, 0).refusal, 1);
    assert_eq!(open(&[1, 4_096, 1], 0, 0, 0).refusal, 6);
    assert_eq!(open(&[1, 1, 4_096], 0, 0, 0).refusal, 2);
    assert_eq!(open(&many[..32], 0, 0, 0).refusal, 0);
}

#[test]
fn room_for_one_record_less_is_8() {
    let state = opened();
    assert_eq!(refused(&state, call_of(1), RECORD * 4 - 1), 8);
    let mut next = state;
    let mut room = [0xa5; RECORD * 5];
    let reply = call(&mut next, call_of(1), &[], &mut room);
    assert_eq!((reply.refusal, reply.answer, reply.actions), (0, SILENT, 1));
    assert_eq!(read_action(&room).kind, 9);
    assert!(room[RECORD..].iter().all(|byte| *byte == 0xa5));
}

#[test]
fn a_state_that_is_none_is_27() {
    let state = opened();
    let damaged = [
        Held { count: 0, ..state },
        Held { count: 33, ..state },
        Held { count: usize::MAX, ..state },
        Held { enclaves: [9; 32], ..state },
        Held { lifecycle: 3, ..state },
        Held { grant_horizon: Tag::new(1, -1, 0), ..state },
    ];
    for none in damaged {
        for kind in 1..=17 {
            assert_eq!(refused(&none, call_of(kind), ROOM), 27);
        }
        for question in 1..=11 {
            assert_eq!(ask(&none, question, 3).refusal, 27);
        }
    }
}

#[test]
fn a_record_that_is_none_is_28() {
    let mut room = [0; ROOM];
    call(&mut opened(), call_of(1), &[], &mut room);
    assert_eq!(read_action(&room[..RECORD]).refusal, 0);
    assert_eq!(read_action(&room[..RECORD - 1]).refusal, 28);
    assert_eq!(read_action(&[]).refusal, 28);
    for place in [0, 1, 2, 3, 16, 36, 55] {
        let mut other = room;
        other[place] ^= 0x40;
        assert_eq!(read_action(&other).refusal, 28, "byte {place}");
    }
}
