//! Frames: the byte strings that the two ends exchange.

use super::bytes::big_endian;
use super::crc;
use super::reason::Reason;
use super::refusal::Refusal;
use super::role::Role;
use super::telegram::{Telegram, LONGEST_MESSAGE};

pub const LONGEST: usize = SHORTEST_DATA + LONGEST_MESSAGE;
pub const CODE: usize = 8;

/// First byte, the header of a telegram, and the safety code.
const SHORTEST_DATA: usize = 18;
const FIXED: [u8; 4] = [0, 0, 0, 2];
const IGNORED: [u8; 8] = *b"\"GRATIS\"";

#[derive(Clone, Copy, Debug, PartialEq, Eq)]
pub enum FrameType {
    Au1 = 1,
    Au2 = 2,
    Au3 = 3,
    Dt = 5,
    Di = 8,
    Ar = 9,
}

#[derive(Clone, Copy, Debug, PartialEq, Eq)]
pub enum Frame<'a> {
    BareDi,
    Au1 { rb: u64 },
    Au2 { ra_xor_rb: u64 },
    Au3 { ra_xor_rc: u64 },
    Ar { rb: u64 },
    Dt { towards: Role, telegram: &'a [u8], code: u64 },
    Di { towards: Role, reason: Reason },
}

impl FrameType {
    /// The type that a first byte names, in whatever direction.
    pub fn named(first: u8) -> Option<FrameType> {
        Some(match first >> 1 {
            1 => FrameType::Au1,
            2 => FrameType::Au2,
            3 => FrameType::Au3,
            5 => FrameType::Dt,
            8 => FrameType::Di,
            9 => FrameType::Ar,
            _ => return None,
        })
    }

    fn goes(self, towards: Role) -> bool {
        match self {
            FrameType::Au1 | FrameType::Au3 => towards == Role::Responder,
            FrameType::Au2 | FrameType::Ar => towards == Role::Initiator,
            FrameType::Dt | FrameType::Di => true,
        }
    }

    /// Whether a frame of this type may have the length where messages have at most `message`.
    pub fn suits(self, length: usize, message: usize) -> bool {
        match self {
            FrameType::Au1 => length == 13,
            FrameType::Au2 => length == 21,
            FrameType::Au3 | FrameType::Ar => length == 9,
            FrameType::Dt => (SHORTEST_DATA..=SHORTEST_DATA + message).contains(&length),
            FrameType::Di => length == 3,
        }
    }

    /// Of a string whose length suits.
    pub fn fixed_bytes_are_right(self, s: &[u8]) -> bool {
        match self {
            FrameType::Au1 | FrameType::Au2 => s[1..5] == FIXED,
            _ => true,
        }
    }

    pub fn first_byte(self, towards: Role) -> u8 {
        (self as u8) << 1 | towards.flag()
    }
}

impl<'a> Frame<'a> {
    pub fn read(s: &'a [u8]) -> Result<Frame<'a>, Refusal> {
        let Some(&first) = s.first() else {
            return Ok(Frame::BareDi);
        };
        let towards = Role::addressed(first);
        let kind = FrameType::named(first)
            .filter(|kind| kind.goes(towards))
            .ok_or(Refusal::UnknownFrame)?;
        if !kind.suits(s.len(), LONGEST_MESSAGE) {
            return Err(Refusal::FrameLength);
        }
        if !kind.fixed_bytes_are_right(s) {
            return Err(Refusal::FixedBytes);
        }
        Ok(Frame::fields(kind, s))
    }

    /// The frame of this type that a string is whose length suits.
    pub fn fields(kind: FrameType, s: &'a [u8]) -> Frame<'a> {
        let towards = Role::addressed(s[0]);
        match kind {
            FrameType::Au1 => Frame::Au1 { rb: big_endian(&s[5..13]) },
            FrameType::Au2 => Frame::Au2 { ra_xor_rb: big_endian(&s[13..21]) },
            FrameType::Au3 => Frame::Au3 { ra_xor_rc: big_endian(&s[1..9]) },
            FrameType::Ar => Frame::Ar { rb: big_endian(&s[1..9]) },
            FrameType::Dt => {
                let (telegram, code) = s[1..].split_at(s.len() - 1 - CODE);
                Frame::Dt { towards, telegram, code: big_endian(code) }
            }
            FrameType::Di => Frame::Di { towards, reason: Reason { code: s[1], sub: s[2] } },
        }
    }

    /// Makes `out` the frame's bytes.
    pub fn write(&self, out: &mut Vec<u8>) {
        out.clear();
        let Some(first) = self.first_byte() else {
            return;
        };
        out.push(first);
        match *self {
            Frame::BareDi => {}
            Frame::Au1 { rb } => {
                out.extend_from_slice(&FIXED);
                out.extend_from_slice(&rb.to_be_bytes());
            }
            Frame::Au2 { ra_xor_rb } => {
                out.extend_from_slice(&FIXED);
                out.extend_from_slice(&IGNORED);
                out.extend_from_slice(&ra_xor_rb.to_be_bytes());
            }
            Frame::Au3 { ra_xor_rc: number } | Frame::Ar { rb: number } => {
                out.extend_from_slice(&number.to_be_bytes());
            }
            Frame::Dt { telegram, code, .. } => {
                out.extend_from_slice(telegram);
                out.extend_from_slice(&code.to_be_bytes());
            }
            Frame::Di { reason, .. } => out.extend_from_slice(&[reason.code, reason.sub]),
        }
    }

    fn first_byte(&self) -> Option<u8> {
        Some(match *self {
            Frame::BareDi => return None,
            Frame::Au1 { .. } => FrameType::Au1.first_byte(Role::Responder),
            Frame::Au2 { .. } => FrameType::Au2.first_byte(Role::Initiator),
            Frame::Au3 { .. } => FrameType::Au3.first_byte(Role::Responder),
            Frame::Ar { .. } => FrameType::Ar.first_byte(Role::Initiator),
            Frame::Dt { towards, .. } => FrameType::Dt.first_byte(towards),
            Frame::Di { towards, .. } => FrameType::Di.first_byte(towards),
        })
    }
}

/// Makes `out` the data frame of the telegram that bears the word.
pub fn seal(towards: Role, telegram: &Telegram, word: u64, out: &mut Vec<u8>) {
    out.clear();
    out.push(FrameType::Dt.first_byte(towards));
    telegram.write(out);
    let code = crc::safety_code(word, out);
    out.extend_from_slice(&code.to_be_bytes());
}

#[cfg(test)]
mod tests {
    use super::*;
    use crate::plain::numbers::{Ec, Sn};
    use crate::plain::telegram::Body;

    fn again(frame: Frame) {
        let mut bytes = Vec::new();
        frame.write(&mut bytes);
        assert_eq!(Frame::read(&bytes), Ok(frame));
    }

    #[test]
    fn what_is_written_reads_back() {
        again(Frame::BareDi);
        again(Frame::Au1 { rb: 1 });
        again(Frame::Au2 { ra_xor_rb: 2 });
        again(Frame::Au3 { ra_xor_rc: 3 });
        again(Frame::Ar { rb: u64::MAX });
        again(Frame::Dt { towards: Role::Responder, telegram: &[7; 9], code: 5 });
        again(Frame::Di { towards: Role::Initiator, reason: Reason::GAP });
    }

    #[test]
    fn a_sealed_frame_bears_its_word() {
        let telegram = Telegram { sn: Sn(1), ec: Ec(2), body: Body::Am(b"HOLD") };
        let mut bytes = Vec::new();
        seal(Role::Initiator, &telegram, 99, &mut bytes);
        let Ok(Frame::Dt { telegram: inner, code, .. }) = Frame::read(&bytes) else {
            panic!("no data frame: {bytes:?}");
        };
        assert_eq!(Telegram::read(inner), Ok(telegram));
        assert_eq!(crc::safety_code(99, &bytes[..bytes.len() - CODE]), code);
    }

    #[test]
    fn refusals_in_their_order() {
        assert_eq!(Frame::read(&[3]), Err(Refusal::UnknownFrame));
        assert_eq!(Frame::read(&[2]), Err(Refusal::FrameLength));
        assert_eq!(Frame::read(&[2; 13]), Err(Refusal::FixedBytes));
    }
}
