//! Telegrams: what a data frame carries before its safety code.

use super::bytes::big_endian;
use super::numbers::{Ec, Sn};
use super::refusal::Refusal;

/// Type, SN and EC.
pub const HEADER: usize = 9;
pub const LONGEST_MESSAGE: usize = 1023;

pub const EC_START: u8 = 0x81;
pub const AM: u8 = 0x86;
pub const AM_REQ: u8 = 0x87;
pub const AM_ACK: u8 = 0x88;
/// The ECStart of the published option that this profile does not use.
pub const OTHER_EC_START: u8 = 0x91;

#[derive(Clone, Copy, Debug, PartialEq, Eq)]
pub struct Telegram<'a> {
    pub sn: Sn,
    pub ec: Ec,
    pub body: Body<'a>,
}

#[derive(Clone, Copy, Debug, PartialEq, Eq)]
pub enum Body<'a> {
    EcStart {
        version: u8,
        period: u16,
    },
    Am(&'a [u8]),
    AmReq(&'a [u8]),
    AmAck(&'a [u8]),
    /// Also what has the type of an ECStart and another length.
    Other {
        kind: u8,
        rest: &'a [u8],
    },
}

impl<'a> Telegram<'a> {
    pub fn read(s: &'a [u8]) -> Result<Telegram<'a>, Refusal> {
        if !(HEADER..=HEADER + LONGEST_MESSAGE).contains(&s.len()) {
            return Err(Refusal::FrameLength);
        }
        let (sn, ec) = (big_endian(&s[1..5]), big_endian(&s[5..9]));
        Ok(Telegram { sn: Sn(sn as u32), ec: Ec(ec as u32), body: Body::of(s[0], &s[HEADER..]) })
    }

    pub fn write(&self, out: &mut Vec<u8>) {
        out.push(self.body.kind());
        out.extend_from_slice(&self.sn.0.to_be_bytes());
        out.extend_from_slice(&self.ec.0.to_be_bytes());
        match self.body {
            Body::EcStart { version, period } => {
                out.push(version);
                out.extend_from_slice(&period.to_be_bytes());
            }
            Body::Am(rest) | Body::AmReq(rest) | Body::AmAck(rest) | Body::Other { rest, .. } => {
                out.extend_from_slice(rest);
            }
        }
    }
}

impl<'a> Body<'a> {
    fn of(kind: u8, rest: &'a [u8]) -> Body<'a> {
        match (kind, rest) {
            (EC_START, &[version, high, low]) => {
                Body::EcStart { version, period: u16::from_be_bytes([high, low]) }
            }
            (AM, message) => Body::Am(message),
            (AM_REQ, message) => Body::AmReq(message),
            (AM_ACK, message) => Body::AmAck(message),
            (kind, rest) => Body::Other { kind, rest },
        }
    }

    pub fn kind(&self) -> u8 {
        match *self {
            Body::EcStart { .. } => EC_START,
            Body::Am(_) => AM,
            Body::AmReq(_) => AM_REQ,
            Body::AmAck(_) => AM_ACK,
            Body::Other { kind, .. } => kind,
        }
    }
}
