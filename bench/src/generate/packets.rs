//! Strings to be read as packets.

use super::{damage, frames};
use crate::plain::packet::{write, Cable};
use crate::random::Random;

/// A packet with a good frame, a damaged one, or what is none.
pub fn good(random: &mut Random) -> Vec<u8> {
    let frame = match random.below(3) {
        0 => frames::good(random),
        1 => frames::damaged(random),
        _ => frames::noise(random),
    };
    let cable = random.pick(&[Cable::Normal, Cable::Redundant]);
    let mut out = Vec::new();
    write(random.number() as u16, cable, &frame, &mut out).expect("a frame that can be counted");
    out
}

/// Damaged, but in half of the cases so that the length field is right again.
pub fn damaged(random: &mut Random) -> Vec<u8> {
    let mut s = good(random);
    damage::string(random, &mut s);
    if random.chance(50) {
        count_again(&mut s);
    }
    s
}

/// Random bytes, mostly with a right length field and a type that exists.
pub fn noise(random: &mut Random) -> Vec<u8> {
    let length = if random.chance(70) { random.below(30) } else { random.below(1120) };
    let mut s = random.bytes(length);
    if random.chance(80) {
        count_again(&mut s);
    }
    if s.len() > 5 && random.chance(80) {
        s[5] = random.below(6) as u8;
    }
    if s.len() > 14 && random.chance(40) {
        s[14] = 3;
    }
    for place in [6, 10, 15] {
        if s.len() > place && random.chance(40) {
            s[place] = random.pick(&[0x02, 0x05, 0x06, 0x0A, 0x10, 0x11, 0x13]);
        }
    }
    s
}

fn count_again(s: &mut [u8]) {
    if let Some(rest) = s.len().checked_sub(2) {
        s[..2].copy_from_slice(&(rest as u16).to_be_bytes());
    }
}
