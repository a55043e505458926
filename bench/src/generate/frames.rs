//! Strings to be read as frames.

use super::damage;
use crate::plain::frame::{seal, Frame};
use crate::plain::numbers::{Ec, Sn};
use crate::plain::reason::Reason;
use crate::plain::role::Role;
use crate::plain::telegram::{Body, Telegram, LONGEST_MESSAGE};
use crate::random::Random;

const FIRST_BYTES: &[u8] = &[0x02, 0x05, 0x06, 0x0A, 0x0B, 0x10, 0x11, 0x13];
const LENGTHS: &[usize] = &[0, 1, 2, 3, 4, 8, 9, 10, 12, 13, 14, 17, 18, 19, 20, 21, 22];

/// A frame of any type.
pub fn good(random: &mut Random) -> Vec<u8> {
    let mut out = Vec::new();
    let (towards, number) = (either(random), random.number());
    match random.below(7) {
        0 => Frame::BareDi.write(&mut out),
        1 => Frame::Au1 { rb: number }.write(&mut out),
        2 => Frame::Au2 { ra_xor_rb: number }.write(&mut out),
        3 => Frame::Au3 { ra_xor_rc: number }.write(&mut out),
        4 => Frame::Ar { rb: number }.write(&mut out),
        5 => {
            let reason = Reason { code: random.byte(), sub: random.byte() };
            Frame::Di { towards, reason }.write(&mut out);
        }
        _ => data(random, towards, number, &mut out),
    }
    out
}

pub fn damaged(random: &mut Random) -> Vec<u8> {
    let mut s = good(random);
    damage::string(random, &mut s);
    s
}

/// Random bytes, mostly of a length and with a first byte that a frame may have.
pub fn noise(random: &mut Random) -> Vec<u8> {
    let length = match random.below(4) {
        0 => random.below(1110),
        1 => 1035 + random.below(12),
        _ => random.pick(LENGTHS),
    };
    let mut s = random.bytes(length);
    if let Some(first) = s.first_mut() {
        if random.chance(70) {
            *first = random.pick(FIRST_BYTES);
        }
    }
    s
}

pub fn message(random: &mut Random) -> Vec<u8> {
    let length = match random.below(4) {
        0 => random.below(LONGEST_MESSAGE + 1),
        1 => LONGEST_MESSAGE - random.below(2),
        _ => random.below(40),
    };
    random.bytes(length)
}

fn data(random: &mut Random, towards: Role, word: u64, out: &mut Vec<u8>) {
    let message = message(random);
    let body = match random.below(5) {
        0 => Body::EcStart { version: random.byte(), period: 100 },
        1 => Body::Am(&message),
        2 => Body::AmReq(&message),
        3 => Body::AmAck(&message),
        _ => Body::Other { kind: random.byte(), rest: &message },
    };
    let telegram = Telegram { sn: Sn(random.number() as u32), ec: Ec(7), body };
    seal(towards, &telegram, word, out);
}

fn either(random: &mut Random) -> Role {
    random.pick(&[Role::Initiator, Role::Responder])
}
