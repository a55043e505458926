//! Sheets: good ones, ones with values about the ends of their ranges, and damaged ones.

use std::ops::RangeInclusive;

use super::damage;
use crate::plain::sheet::{Identifier, Parameters, Sheet, COLUMNS, NAMES};
use crate::random::Random;

/// The ranges of the columns behind role and identifiers.
const RANGES: [RangeInclusive<i64>; 10] = [
    0..=255,
    1..=60_000,
    1..=1000,
    -1000..=-1,
    0..=1000,
    1..=10_000,
    1..=1000,
    1..=10_000,
    3..=1023,
    0..=4_294_967_295,
];
const FIRST_RANGED: usize = COLUMNS - RANGES.len();

const ODD_NUMBERS: &[&str] = &[
    "",
    "-",
    "+1",
    "00",
    "01",
    "-0",
    "-1",
    "-01",
    "--1",
    "1-",
    "1.0",
    "1e3",
    "0x1",
    "\t1",
    "1\r",
    "\u{661}",
    "-1001",
    "4294967296",
    "18446744073709551616",
    "-18446744073709551616",
    "99999999999999999999999999999999999999999",
];
const ODD_HALVES: &[&str] = &[
    "",
    "0000003f",
    "3F",
    "000000003F",
    "0000003G",
    "-000003F",
    "+000003F",
    "0x00003F",
    "0000003F\r",
];

/// A good sheet whose values are anywhere in their ranges, often at the ends.
pub fn good(random: &mut Random) -> Sheet {
    let (one, other) = identifiers(random, 6..=26);
    let initiator = anywhere(random, one, other);
    let mut responder = anywhere(random, other, one);
    // Lines that disagree in these never come up.
    if random.chance(80) {
        (responder.version, responder.period) = (initiator.version, initiator.period);
    }
    Sheet { initiator, responder }
}

/// A sheet some of whose values are just inside or outside of their ranges, or have an odd form.
pub fn about_the_ends(random: &mut Random) -> Vec<u8> {
    let mut sheet = good(random);
    if random.chance(30) {
        let (one, other) = identifiers(random, 4..=28);
        let line = random.pick(&[0, 1]);
        let line = if line == 0 { &mut sheet.initiator } else { &mut sheet.responder };
        (line.own, line.far) = (one, other);
    }
    let text = sheet.write();
    let mut rows: Vec<Vec<String>> =
        text.lines().map(|line| line.split(' ').map(String::from).collect()).collect();
    for _ in 0..random.below(4) {
        let (row, column) = (1 + random.below(2), random.below(COLUMNS));
        rows[row][column] = value(random, column);
    }
    rows.iter().flat_map(|row| (row.join(" ") + "\n").into_bytes()).collect()
}

pub fn damaged(random: &mut Random) -> Vec<u8> {
    let mut s = good(random).write().into_bytes();
    damage::text(random, &mut s);
    s
}

/// Random bytes behind a good first line.
pub fn noise(random: &mut Random) -> Vec<u8> {
    let length = random.below(100);
    let mut s = format!("{NAMES}\n").into_bytes();
    s.extend(random.bytes(length));
    s
}

/// A good sheet with small values, so that a short script leads far; its lines may disagree.
pub fn lively(random: &mut Random) -> Sheet {
    let (one, other) = identifiers(random, 6..=26);
    let initiator = small(random, one, other);
    let mut responder = Parameters { own: other, far: one, ..initiator };
    if random.chance(50) {
        let Parameters { version, period, .. } = initiator;
        responder = Parameters { version, period, ..small(random, other, one) };
    }
    if random.chance(20) {
        disagree(random, &mut responder);
    }
    Sheet { initiator, responder }
}

/// A good sheet that bears long silence and great age, but few lost frames.
pub fn patient(random: &mut Random) -> Sheet {
    let Sheet { initiator, responder } = lively(random);
    let window = random.pick(&[1, 2, 3, 5, 10, 50]);
    let ask = random.pick(&[100, 300, 10_000]);
    let data = random.pick(&[20, 63, 64, 64, 64, 1023]);
    let ec = random.pick(&[0, 0, 0, 7, u32::MAX - 200]);
    let patience = |line| Parameters {
        version: 1,
        period: 100,
        window,
        mmin: -1000,
        mmax: 1000,
        ask,
        data,
        ec,
        ..line
    };
    Sheet { initiator: patience(initiator), responder: patience(responder) }
}

fn anywhere(random: &mut Random, own: Identifier, far: Identifier) -> Parameters {
    let [version, period, window, mmin, mmax, ask, wait, setup, data, ec] =
        RANGES.map(|range| match random.below(4) {
            0 => *range.start(),
            1 => *range.end(),
            _ => random.within(range),
        });
    Parameters {
        own,
        far,
        version: version as u8,
        period: period as u16,
        window: window as u64,
        mmin,
        mmax,
        ask: ask as u64,
        wait: wait as u64,
        setup: setup as u64,
        data: data as usize,
        ec: ec as u32,
    }
}

fn small(random: &mut Random, own: Identifier, far: Identifier) -> Parameters {
    let mut often = |range: RangeInclusive<i64>, seldom: i64| {
        if random.chance(75) {
            random.within(range)
        } else {
            seldom
        }
    };
    Parameters {
        own,
        far,
        version: 1,
        period: 100,
        window: often(1..=4, 1000) as u64,
        mmin: often(-4..=-1, -1000),
        mmax: often(0..=5, 1000),
        ask: often(1..=8, 500) as u64,
        wait: often(1..=4, 1000) as u64,
        setup: often(1..=10, 10_000) as u64,
        data: often(3..=70, 1023) as usize,
        ec: often(0..=3, i64::from(u32::MAX) - 1 - (own.first % 80) as i64) as u32,
    }
}

fn disagree(random: &mut Random, line: &mut Parameters) {
    match random.below(4) {
        0 => line.version = 2,
        1 => line.period = 101,
        2 => turn_a_bit(random, &mut line.own, line.far),
        _ => turn_a_bit(random, &mut line.far, line.own),
    }
}

/// Turns a bit, unless then too few or too many would differ.
fn turn_a_bit(random: &mut Random, identifier: &mut Identifier, other: Identifier) {
    let turned = Identifier { first: identifier.first ^ 1 << random.below(32), ..*identifier };
    if turned.differs_enough(other) {
        *identifier = turned;
    }
}

/// Two identifiers, each half of which differs in so many bits.
fn identifiers(random: &mut Random, bits: RangeInclusive<i64>) -> (Identifier, Identifier) {
    let one = Identifier { first: random.number() as u32, second: random.number() as u32 };
    let mut change = |half: u32| {
        let count = if random.chance(30) {
            random.pick(&[*bits.start(), *bits.end()])
        } else {
            random.within(bits.clone())
        };
        half ^ mask(random, count as u32)
    };
    (one, Identifier { first: change(one.first), second: change(one.second) })
}

/// A number with so many bits.
fn mask(random: &mut Random, count: u32) -> u32 {
    let mut mask: u32 = 0;
    while mask.count_ones() < count {
        mask |= 1 << random.below(32);
    }
    mask
}

/// A value for the column, good or not.
fn value(random: &mut Random, column: usize) -> String {
    match column {
        0 => random.pick(&["0", "1", "2", "-1", "01", "", "10"]).into(),
        1..FIRST_RANGED if random.chance(30) => format!("{:08X}", random.number() as u32),
        1..FIRST_RANGED => random.pick(ODD_HALVES).into(),
        _ if random.chance(30) => random.pick(ODD_NUMBERS).into(),
        _ => {
            let range = &RANGES[column - FIRST_RANGED];
            let (low, high) = (*range.start(), *range.end());
            random.pick(&[low - 1, low, low + 1, high - 1, high, high + 1]).to_string()
        }
    }
}
