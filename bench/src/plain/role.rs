//! The two parties of a connection.

use std::fmt;

#[derive(Clone, Copy, Debug, PartialEq, Eq)]
pub enum Role {
    Initiator,
    Responder,
}

impl Role {
    pub fn far(self) -> Role {
        match self {
            Role::Initiator => Role::Responder,
            Role::Responder => Role::Initiator,
        }
    }

    /// The lowest bit of the first byte of a frame towards this party.
    pub fn flag(self) -> u8 {
        match self {
            Role::Initiator => 1,
            Role::Responder => 0,
        }
    }

    /// The party towards which a frame with this first byte goes.
    pub fn addressed(first: u8) -> Role {
        if first & 1 == Role::Initiator.flag() {
            Role::Initiator
        } else {
            Role::Responder
        }
    }
}

impl fmt::Display for Role {
    fn fmt(&self, f: &mut fmt::Formatter) -> fmt::Result {
        f.write_str(match self {
            Role::Initiator => "I",
            Role::Responder => "R",
        })
    }
}
