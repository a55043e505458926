//! Sheets and scripts that go together.

use super::{scripts, sheets};
use crate::plain::listing;
use crate::random::Random;

pub struct Files {
    pub sheet: Vec<u8>,
    pub script: Vec<u8>,
}

/// Small values and anything that may happen to a link.
pub fn lively(random: &mut Random) -> Files {
    let sheet = sheets::lively(random).write().into_bytes();
    let script = scripts::lively(random);
    cut(random, Files { sheet, script })
}

/// A link that mostly stays up for as long as the script has calls.
pub fn steady(random: &mut Random) -> Files {
    let sheet = sheets::lively(random).write().into_bytes();
    let script = scripts::steady(random);
    cut(random, Files { sheet, script })
}

/// A link whose wire runs over.
pub fn flooding(random: &mut Random) -> Files {
    let sheet = sheets::patient(random).write().into_bytes();
    let script = scripts::flooding(random);
    cut(random, Files { sheet, script })
}

/// Mostly ends the script a few calls after both ends are out, since all that follows is alike.
fn cut(random: &mut Random, mut files: Files) -> Files {
    if random.chance(10) {
        return files;
    }
    let listing = listing::rehearse(&files.sheet, &files.script);
    if let Some(calls) = calls_until_out(&listing) {
        let lines = 1 + calls + random.below(8);
        let kept = files.script.split_inclusive(|&byte| byte == b'\n').take(lines);
        files.script = kept.collect::<Vec<_>>().concat();
    }
    files
}

/// The number of the call after which both ends are out.
fn calls_until_out(listing: &str) -> Option<usize> {
    let (mut initiator, mut responder) = (false, false);
    let step = listing.lines().skip(1).position(|line| {
        let out = line.split(' ').nth(3) == Some("out");
        match line.split(' ').nth(1) {
            Some("I") => initiator = out,
            _ => responder = out,
        }
        initiator && responder
    });
    step.map(|index| index + 1)
}
