//! The script: the calls of a rehearsal.

use std::fmt;
use std::ops::RangeInclusive;

use super::fault::{Fault, File, Wrong};
use super::lines::{Lines, Row};
use super::role::Role;

pub const NAMES: &str = "end do text";
pub const MOST_CALLS: usize = 800;

const TEXT_LENGTH: RangeInclusive<usize> = 1..=64;
const PRINTABLE: RangeInclusive<u8> = b'!'..=b'~';
const NO_TEXT: &[u8] = b"-";

#[derive(Clone, Copy, Debug, PartialEq, Eq)]
pub struct Call<'a> {
    pub end: Role,
    pub deed: Deed<'a>,
}

#[derive(Clone, Copy, Debug, PartialEq, Eq)]
pub enum Deed<'a> {
    /// With its message, which may be empty.
    Tick(&'a [u8]),
    Fetch,
    Stop,
}

impl fmt::Display for Deed<'_> {
    fn fmt(&self, f: &mut fmt::Formatter) -> fmt::Result {
        f.write_str(match self {
            Deed::Tick(_) => "tick",
            Deed::Fetch => "fetch",
            Deed::Stop => "stop",
        })
    }
}

pub fn read(bytes: &[u8]) -> Result<Vec<Call<'_>>, Fault> {
    let mut lines = Lines::behind_names(File::Script, bytes, NAMES)?;
    let mut calls = Vec::new();
    while !lines.at_end() {
        if calls.len() == MOST_CALLS {
            return Err(lines.miscounted());
        }
        calls.push(call(&lines.row()?)?);
    }
    Ok(calls)
}

fn call<'a>(row: &Row<'a, 3>) -> Result<Call<'a>, Fault> {
    let wrong = |index| row.fault(Wrong::Form, Some(index));
    let [end, deed, text] = row.values;
    let end = match end {
        b"I" => Role::Initiator,
        b"R" => Role::Responder,
        _ => return Err(wrong(0)),
    };
    let (deed, is_text_good) = match deed {
        b"tick" => (Deed::Tick(message(text)), is_text(text)),
        b"fetch" => (Deed::Fetch, text == NO_TEXT),
        b"stop" => (Deed::Stop, text == NO_TEXT),
        _ => return Err(wrong(1)),
    };
    if !is_text_good {
        return Err(wrong(2));
    }
    Ok(Call { end, deed })
}

fn is_text(text: &[u8]) -> bool {
    TEXT_LENGTH.contains(&text.len()) && text.iter().all(|byte| PRINTABLE.contains(byte))
}

fn message(text: &[u8]) -> &[u8] {
    if text == NO_TEXT {
        &[]
    } else {
        text
    }
}

#[cfg(test)]
mod tests {
    use super::*;

    fn fault(lines: &str) -> String {
        let text = format!("{NAMES}\n{lines}");
        read(text.as_bytes()).map_or_else(|fault| fault.to_string(), |_| "good".into())
    }

    #[test]
    fn faults() {
        assert_eq!(fault(""), "good");
        assert_eq!(fault("I tick --\nR fetch -\n"), "good");
        assert_eq!(fault("I tick -"), "fault 2 script 2 0");
        assert_eq!(fault("I tick\n"), "fault 2 script 2 0");
        assert_eq!(fault("I stop -\nX tick -\n"), "fault 3 script 3 1");
        assert_eq!(fault("I ticks -\n"), "fault 3 script 2 2");
        assert_eq!(fault("I fetch A\n"), "fault 3 script 2 3");
        assert_eq!(fault(&format!("I tick {}\n", "x".repeat(65))), "fault 3 script 2 3");
    }

    #[test]
    fn the_call_that_is_one_too_many() {
        assert_eq!(fault(&"I fetch -\n".repeat(800)), "good");
        assert_eq!(fault(&"I fetch -\n".repeat(801)), "fault 2 script 802 0");
    }
}
