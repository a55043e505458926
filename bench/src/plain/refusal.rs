//! The numbers by which a call says no.

/// 6 is missing: every carrier here takes the longest frame.
#[derive(Clone, Copy, Debug, PartialEq, Eq)]
#[repr(u8)]
pub enum Refusal {
    BufferTooShort = 7,
    EndOut = 8,
    MessageTooLong = 9,
    NotUp = 10,
    StringTooLong = 11,
    PacketLength = 12,
    PacketType = 13,
    UnknownFrame = 14,
    FrameLength = 15,
    FixedBytes = 16,
}

impl Refusal {
    pub fn number(self) -> u8 {
        self as u8
    }
}
