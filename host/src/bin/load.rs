//! The loads of bench/ on the proved state, lent to the library's call.

use spindlecove_host::numbers::{call, open, CallNumbers, Held, TagNumbers, ROOM};
use spindlecove_host::Tag;

#[path = "../../../bench/driver.rs"]
mod driver;
use driver::{play, Federate, Observed, Phase, Policy, Sums, Time};

const BLANK: CallNumbers = CallNumbers::BLANK;

/// State and room as a host keeps them that calls `federate_call` itself; the records are left in the room.
struct Lent {
    state: Held,
    room: [u8; ROOM],
}

fn main() {
    play(|enclaves, policy| {
        let policy = match policy {
            Policy::Keep => 0,
            Policy::Terminate => 1,
        };
        let opened = open(enclaves, policy, 0, 0);
        assert_eq!(opened.refusal, 0);
        Lent { state: opened.state, room: [0; ROOM] }
    });
}

impl Lent {
    fn tell(&mut self, told: CallNumbers, listed: &[u32]) -> Sums {
        let reply = call(&mut self.state, told, listed, &mut self.room);
        Sums { actions: reply.actions, refusals: usize::from(reply.refusal != 0) }
    }
}

impl Federate for Lent {
    fn publish(&mut self, enclave: u32, next_event: Option<Time>) -> Sums {
        let first = next_event.map_or(TagNumbers::ABSENT, tag);
        self.tell(CallNumbers { kind: 2, enclave, first, ..BLANK }, &[])
    }

    fn acquire(&mut self, granted: Time) -> Sums {
        let (number, first) = (self.state.coordination.revision, tag(granted));
        self.tell(CallNumbers { kind: 7, number, first, ..BLANK }, &[])
    }

    fn complete(&mut self, enclave: u32, completed: Time) -> Sums {
        let first = tag(completed);
        self.tell(CallNumbers { kind: 3, enclave, first, network_input: true, ..BLANK }, &[])
    }

    fn acknowledge(&mut self, enclave: u32) -> Sums {
        let number = self.state.completion.completion_generation;
        self.tell(CallNumbers { kind: 4, enclave, number, ..BLANK }, &[])
    }

    fn observe(&mut self, enclave: u32, observed: Observed) -> Sums {
        let observation = match observed {
            Observed::Probed => 0,
            Observed::Parked => 1,
            Observed::Rechecked => 2,
        };
        let number = self.state.coordination.revision;
        self.tell(CallNumbers { kind: 9, observation, enclave, number, ..BLANK }, &[])
    }

    fn notice_input(&mut self, affected: &[u32]) -> Sums {
        self.tell(CallNumbers { kind: 16, ..BLANK }, affected)
    }

    fn phase(&self) -> Phase {
        match self.state.coordination.phase {
            0 => Phase::Active,
            1 => Phase::Probing,
            2 => Phase::Parking,
            3 => Phase::Rechecking,
            6 => Phase::Stopped,
            _ => Phase::Other,
        }
    }
}

fn tag(time: Time) -> TagNumbers {
    TagNumbers::present(Tag::new(time.seconds, time.nanoseconds, 0))
}
