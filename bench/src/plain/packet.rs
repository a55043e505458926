//! Packets: what carries a frame over one cable of a redundant pair.

use super::bytes::big_endian;
use super::refusal::Refusal;

const LENGTH_FIELD: usize = 2;
const HEADER: usize = 6;
const MARK_OF_AU1: u8 = 3;

#[derive(Clone, Copy, Debug, PartialEq, Eq)]
pub enum PacketType {
    Au1 = 1,
    Au2 = 2,
    Other = 3,
    Release = 4,
}

#[derive(Clone, Copy, Debug, PartialEq, Eq)]
pub enum Cable {
    Normal,
    Redundant,
}

/// N/R is not judged on reading, so it is no part of what was read.
#[derive(Clone, Copy, Debug, PartialEq, Eq)]
pub struct Packet<'a> {
    pub number: u16,
    pub kind: PacketType,
    pub frame: &'a [u8],
}

impl PacketType {
    fn numbered(number: u8) -> Option<PacketType> {
        Some(match number {
            1 => PacketType::Au1,
            2 => PacketType::Au2,
            3 => PacketType::Other,
            4 => PacketType::Release,
            _ => return None,
        })
    }

    pub fn of_frame(frame: &[u8]) -> PacketType {
        match frame.first() {
            Some(0x02) => PacketType::Au1,
            Some(0x05) => PacketType::Au2,
            Some(0x10 | 0x11) | None => PacketType::Release,
            Some(_) => PacketType::Other,
        }
    }

    /// How many bytes stand between the type and the frame.
    fn lead(self) -> usize {
        match self {
            PacketType::Au1 => 9,
            PacketType::Au2 => 4,
            PacketType::Other | PacketType::Release => 0,
        }
    }
}

impl<'a> Packet<'a> {
    pub fn read(s: &'a [u8]) -> Result<Packet<'a>, Refusal> {
        if s.len() < HEADER || big_endian(&s[..2]) != (s.len() - LENGTH_FIELD) as u64 {
            return Err(Refusal::PacketLength);
        }
        let kind = PacketType::numbered(s[5]).ok_or(Refusal::PacketType)?;
        if s.len() < HEADER + kind.lead() {
            return Err(Refusal::PacketLength);
        }
        let (lead, frame) = s[HEADER..].split_at(kind.lead());
        let marked = kind != PacketType::Au1 || lead.last() == Some(&MARK_OF_AU1);
        if !marked || PacketType::of_frame(frame) != kind {
            return Err(Refusal::PacketType);
        }
        Ok(Packet { number: u16::from_be_bytes([s[2], s[3]]), kind, frame })
    }
}

/// Makes `out` the packet of the frame.
pub fn write(number: u16, cable: Cable, frame: &[u8], out: &mut Vec<u8>) -> Result<(), Refusal> {
    let kind = PacketType::of_frame(frame);
    let length = HEADER - LENGTH_FIELD + kind.lead() + frame.len();
    let length = u16::try_from(length).map_err(|_| Refusal::StringTooLong)?;
    out.clear();
    out.extend_from_slice(&length.to_be_bytes());
    out.extend_from_slice(&number.to_be_bytes());
    out.push(u8::from(cable == Cable::Normal));
    out.push(kind as u8);
    out.resize(HEADER + kind.lead(), 0);
    if kind == PacketType::Au1 {
        out[HEADER + kind.lead() - 1] = MARK_OF_AU1;
    }
    out.extend_from_slice(frame);
    Ok(())
}

#[cfg(test)]
mod tests {
    use super::*;

    #[test]
    fn what_is_written_reads_back() {
        for frame in [&[][..], &[2; 13], &[5; 21], &[0x0A; 40], &[0x10, 0, 0], &[0xFF]] {
            let mut bytes = Vec::new();
            write(7, Cable::Normal, frame, &mut bytes).expect("a short frame");
            let kind = PacketType::of_frame(frame);
            assert_eq!(Packet::read(&bytes), Ok(Packet { number: 7, kind, frame }));
        }
    }

    #[test]
    fn a_frame_that_the_length_cannot_count_is_refused() {
        let mut bytes = Vec::new();
        let longest = vec![0xFF; 65_531];
        assert_eq!(write(0, Cable::Normal, &longest, &mut bytes), Ok(()));
        let longer = vec![0xFF; 65_532];
        assert_eq!(write(0, Cable::Normal, &longer, &mut bytes), Err(Refusal::StringTooLong));
    }
}
