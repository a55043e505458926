//! A wire that holds in memory what waits for each side, and hands out the oldest first.

use std::collections::VecDeque;

use super::refusal::Refusal;
use super::role::Role;

/// The length of the longest string that a put takes.
pub const LARGEST: usize = 1100;

/// What a string takes up besides its own bytes: its length.
const OVERHEAD: usize = 2;

#[derive(Clone, Copy, Debug, PartialEq, Eq)]
pub enum Keeping {
    Kept,
    NotKept,
}

pub struct FifoWire {
    initiator: Queue,
    responder: Queue,
}

/// The strings that wait for one side, each behind its length.
struct Queue {
    memory: VecDeque<u8>,
    room: usize,
}

impl FifoWire {
    /// A wire with so many bytes for what waits for the initiator, and for the responder.
    pub fn new(initiator: usize, responder: usize) -> FifoWire {
        FifoWire { initiator: Queue::new(initiator), responder: Queue::new(responder) }
    }

    pub fn put(&mut self, from: Role, s: &[u8]) -> Result<Keeping, Refusal> {
        if s.len() > LARGEST {
            return Err(Refusal::StringTooLong);
        }
        Ok(self.waiting(from.far()).push(s))
    }

    /// Takes the oldest string to the start of the buffer, and answers its length.
    pub fn fetch(&mut self, at: Role, buffer: &mut [u8]) -> Result<Option<usize>, Refusal> {
        if buffer.len() < LARGEST {
            return Err(Refusal::BufferTooShort);
        }
        Ok(self.waiting(at).pop(buffer))
    }

    fn waiting(&mut self, side: Role) -> &mut Queue {
        match side {
            Role::Initiator => &mut self.initiator,
            Role::Responder => &mut self.responder,
        }
    }
}

impl Queue {
    fn new(room: usize) -> Queue {
        Queue { memory: VecDeque::with_capacity(room), room }
    }

    fn push(&mut self, s: &[u8]) -> Keeping {
        if s.len() + OVERHEAD > self.room - self.memory.len() {
            return Keeping::NotKept;
        }
        self.memory.extend((s.len() as u16).to_be_bytes());
        self.memory.extend(s);
        Keeping::Kept
    }

    fn pop(&mut self, buffer: &mut [u8]) -> Option<usize> {
        let high = self.memory.pop_front()?;
        let low = self.memory.pop_front()?;
        let length = usize::from(u16::from_be_bytes([high, low]));
        let (front, back) = self.memory.as_slices();
        let cut = length.min(front.len());
        buffer[..cut].copy_from_slice(&front[..cut]);
        buffer[cut..length].copy_from_slice(&back[..length - cut]);
        self.memory.drain(..length);
        Some(length)
    }
}

#[cfg(test)]
mod tests {
    use super::*;

    #[test]
    fn an_exact_fit_is_kept_and_comes_out_in_order() {
        let mut wire = FifoWire::new(0, 7);
        let mut buffer = [0; LARGEST];
        for _ in 0..5 {
            assert_eq!(wire.put(Role::Initiator, &[]), Ok(Keeping::Kept));
            assert_eq!(wire.put(Role::Initiator, &[1, 2, 3]), Ok(Keeping::Kept));
            assert_eq!(wire.put(Role::Initiator, &[]), Ok(Keeping::NotKept));
            assert_eq!(wire.fetch(Role::Responder, &mut buffer), Ok(Some(0)));
            assert_eq!(wire.fetch(Role::Responder, &mut buffer), Ok(Some(3)));
            assert_eq!(buffer[..3], [1, 2, 3]);
            assert_eq!(wire.fetch(Role::Responder, &mut buffer), Ok(None));
        }
        assert_eq!(wire.put(Role::Responder, &[]), Ok(Keeping::NotKept));
    }
}
