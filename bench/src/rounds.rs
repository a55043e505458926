//! The rounds that the C interface offers for measuring, done by the plain implementation.

use crate::plain::end::{Buffers, End};
use crate::plain::role::Role;
use crate::plain::sheet::{Identifier, Parameters};
use crate::plain::telegram::LONGEST_MESSAGE;
use crate::plain::wire::{FifoWire, LARGEST};

const MEMORY: usize = 8192;
/// At most two strings wait for an end, so the last of its fetches finds nothing.
const FETCHES: usize = 3;

const ONE: Identifier = Identifier { first: 0x5A5A_0001, second: 0x00C3_A5F0 };
const OTHER: Identifier = Identifier { first: 0xA5A5_0FF1, second: 0x00C3_5A0F };
/// The widest limits that a sheet may have.
const PARAMETERS: Parameters = Parameters {
    own: ONE,
    far: OTHER,
    version: 1,
    period: 100,
    window: 1000,
    mmin: -1000,
    mmax: 1000,
    ask: 10_000,
    wait: 1000,
    setup: 10_000,
    data: LONGEST_MESSAGE,
    ec: 0,
};

/// What came of rounds of a link that is up.
#[derive(Clone, Copy, Debug, Default, PartialEq, Eq)]
pub struct Steady {
    /// Messages that the responder was delivered.
    pub delivered: u64,
    /// Ticks and fetches of both ends, those of the opening left out.
    pub calls: u64,
}

struct Link {
    wire: FifoWire,
    buffers: Buffers,
    initiator: End,
    responder: End,
}

/// Ticks of both ends, the initiator's with a message of so many bytes, and three fetches of each.
pub fn steady(rounds: u32, size: u32) -> Steady {
    let message = vec![b'M'; LONGEST_MESSAGE.min(size as usize)];
    let mut link = Link::up();
    let mut steady = Steady::default();
    for _ in 0..rounds {
        link.initiator.tick(&message, &mut link.wire, &mut link.buffers);
        link.responder.tick(&[], &mut link.wire, &mut link.buffers);
        link.fetch(Role::Initiator, FETCHES);
        steady.delivered += link.fetch(Role::Responder, FETCHES);
        steady.calls += 2 + 2 * FETCHES as u64;
    }
    link.initiator.stop(&mut link.wire, &mut link.buffers);
    link.responder.stop(&mut link.wire, &mut link.buffers);
    steady
}

/// Puts and fetches on a wire that holds so many strings, with room for one more. Answers how
/// many fetches gave a string.
pub fn wire(held: u32, size: u32, rounds: u32) -> u64 {
    let s = vec![b'S'; LARGEST.min(size as usize)];
    let mut wire = FifoWire::new(0, (held as usize + 1) * (s.len() + 2));
    let mut buffer = [0; LARGEST];
    for _ in 0..held {
        let _ = wire.put(Role::Initiator, &s);
    }
    let mut fetched = 0;
    for _ in 0..rounds {
        let _ = wire.put(Role::Initiator, &s);
        fetched += u64::from(matches!(wire.fetch(Role::Responder, &mut buffer), Ok(Some(_))));
    }
    fetched
}

impl Link {
    /// A link both of whose ends are up, with nothing on the wire.
    fn up() -> Link {
        let mut wire = FifoWire::new(MEMORY, MEMORY);
        let mut buffers = Buffers::default();
        let initiator = End::open_initiator(PARAMETERS, 1, 2, &mut wire, &mut buffers);
        let parameters = Parameters { own: OTHER, far: ONE, ..PARAMETERS };
        let responder = End::open_responder(parameters, 3);
        let mut link = Link { wire, buffers, initiator, responder };
        for end in [Role::Responder, Role::Initiator].repeat(3) {
            link.fetch(end, 1);
        }
        link.initiator.tick(&[], &mut link.wire, &mut link.buffers);
        link.responder.tick(&[], &mut link.wire, &mut link.buffers);
        link.fetch(Role::Responder, 1);
        link
    }

    /// Fetches so often, and answers how many messages were delivered.
    fn fetch(&mut self, at: Role, times: usize) -> u64 {
        let Link { wire, buffers, initiator, responder } = self;
        let end = match at {
            Role::Initiator => initiator,
            Role::Responder => responder,
        };
        let mut delivered = 0;
        for _ in 0..times {
            delivered += u64::from(end.fetch(wire, buffers).delivered.is_some());
        }
        delivered
    }
}

#[cfg(test)]
mod tests {
    use super::*;

    #[test]
    fn every_message_is_delivered() {
        let count = 2 * PARAMETERS.ask as u32;
        assert_eq!(steady(count, 4).delivered, u64::from(count));
        assert_eq!(steady(10, 0).delivered, 0);
    }

    #[test]
    fn every_fetch_gives_a_string() {
        assert_eq!(wire(10, 32, 50), 50);
        assert_eq!(wire(0, LARGEST as u32 + 1, 50), 50);
    }
}
