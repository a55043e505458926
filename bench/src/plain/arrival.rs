//! What an end makes of a string before it asks for its own state.

use super::frame::{Frame, FrameType};
use super::reason::Reason;
use super::role::Role;

/// The frame that the string is to an end in this role, whose messages have at most `data` bytes,
/// or why the end is released.
///
/// A type in a direction that it never has is read on as what it is, as long as it goes this way.
pub fn read(s: &[u8], at: Role, data: usize) -> Result<Frame<'_>, Reason> {
    let Some(&first) = s.first() else {
        return Ok(Frame::BareDi);
    };
    let kind = FrameType::named(first).ok_or(Reason::NO_PLACE_HERE)?;
    if Role::addressed(first) != at {
        return Err(strayed(at));
    }
    if !kind.suits(s.len(), data) {
        return Err(wrong_length(kind));
    }
    if !kind.fixed_bytes_are_right(s) {
        return Err(wrong_fixed_bytes(kind));
    }
    Ok(Frame::fields(kind, s))
}

fn strayed(at: Role) -> Reason {
    match at {
        Role::Initiator => Reason::TOWARDS_RESPONDER,
        Role::Responder => Reason::TOWARDS_INITIATOR,
    }
}

fn wrong_length(kind: FrameType) -> Reason {
    match kind {
        FrameType::Au1 => Reason::LENGTH_OF_AU1,
        FrameType::Au2 => Reason::LENGTH_OF_AU2,
        FrameType::Au3 => Reason::LENGTH_OF_AU3,
        FrameType::Dt => Reason::LENGTH_OF_DT,
        FrameType::Ar => Reason::LENGTH_OF_AR,
        FrameType::Di => Reason::NO_PLACE_HERE,
    }
}

fn wrong_fixed_bytes(kind: FrameType) -> Reason {
    match kind {
        FrameType::Au1 => Reason::FIXED_BYTES_OF_AU1,
        _ => Reason::NO_PLACE_HERE,
    }
}

#[cfg(test)]
mod tests {
    use super::*;

    #[test]
    fn checks_in_their_order() {
        let reason = |s: &[u8], at| read(s, at, 64).err();
        let (initiator, responder) = (Role::Initiator, Role::Responder);
        assert_eq!(reason(&[], initiator), None);
        assert_eq!(reason(&[0xFF], initiator), Some(Reason::NO_PLACE_HERE));
        assert_eq!(reason(&[0x02], initiator), Some(Reason::TOWARDS_RESPONDER));
        assert_eq!(reason(&[0x03], responder), Some(Reason::TOWARDS_INITIATOR));
        assert_eq!(reason(&[0x03], initiator), Some(Reason::LENGTH_OF_AU1));
        assert_eq!(reason(&[0x10, 0], responder), Some(Reason::NO_PLACE_HERE));
        assert_eq!(reason(&[0x0A; 82], responder), None);
        assert_eq!(reason(&[0x0A; 83], responder), Some(Reason::LENGTH_OF_DT));
        assert_eq!(reason(&[0x02; 13], responder), Some(Reason::FIXED_BYTES_OF_AU1));
        assert_eq!(reason(&[0x05; 21], initiator), Some(Reason::NO_PLACE_HERE));
    }
}
