//! Files far larger than any good one.

use super::rehearsals::Files;
use super::sheets;
use crate::plain::{script, sheet};
use crate::random::Random;

const SMALLEST: usize = 1_000;
const LARGEST: usize = 40_000;

/// A large sheet or a large script, with a good partner.
pub fn files(random: &mut Random) -> Files {
    let size = SMALLEST + random.below(LARGEST - SMALLEST);
    let good = sheets::good(random).write();
    if random.chance(50) {
        let script = format!("{}\n", script::NAMES).into_bytes();
        return Files { sheet: large_sheet(random, &good, size), script };
    }
    Files { sheet: good.into_bytes(), script: large_script(random, size) }
}

fn large_sheet(random: &mut Random, good: &str, size: usize) -> Vec<u8> {
    let names = format!("{}\n", sheet::NAMES);
    match random.below(5) {
        0 => b"x".repeat(size),
        1 => format!("{names}1 {}", "9".repeat(size)).into_bytes(),
        2 => format!("{names}{}\n", " ".repeat(size)).into_bytes(),
        3 => format!("{good}{}", "\n".repeat(size)).into_bytes(),
        _ => with_long_number(random, good, size),
    }
}

/// A good sheet but for one number of so many digits.
fn with_long_number(random: &mut Random, good: &str, size: usize) -> Vec<u8> {
    let mut words: Vec<String> = good.split(' ').map(String::from).collect();
    // The period and the columns behind it, in the line of the initiator.
    let place = sheet::COLUMNS + 5 + random.below(7);
    let digits = "9".repeat(size);
    words[place] = if random.chance(20) { format!("-{digits}") } else { digits };
    words.join(" ").into_bytes()
}

fn large_script(random: &mut Random, size: usize) -> Vec<u8> {
    let line = match random.below(5) {
        0 => "I fetch -\n".repeat(size / 10),
        1 => "x".repeat(size),
        2 => format!("I tick {}\n", "x".repeat(size)),
        3 => format!("{}\n", " ".repeat(size)),
        _ => "\n".repeat(size),
    };
    format!("{}\n{line}", script::NAMES).into_bytes()
}
