//! A whole rehearsal: what the program `rehearse` prints for a sheet and a script.

use std::fmt::Write;

use super::end::{Answer, Buffers, End, State};
use super::fault::Fault;
use super::refusal::Refusal;
use super::role::Role;
use super::script::{self, Call, Deed};
use super::sheet::Sheet;
use super::wire::FifoWire;

const NAMES: &str = "step end do state got reason\n";
const MEMORY: usize = 8192;

/// The session numbers are always the same, which only a rehearsal may do.
const RA: u64 = 3;
const RB: u64 = 1;
const RC: u64 = 2;

/// The listing, or the one line of the fault.
pub fn rehearse(sheet: &[u8], script: &[u8]) -> String {
    listing(sheet, script).unwrap_or_else(|fault| format!("{fault}\n"))
}

pub fn listing(sheet: &[u8], script: &[u8]) -> Result<String, Fault> {
    let sheet = Sheet::read(sheet)?;
    let calls = script::read(script)?;
    let mut link = Link::open(&sheet);
    let mut text = String::from(NAMES);
    for (index, call) in calls.iter().enumerate() {
        let answer = link.make(call);
        link.list(index + 1, call, &answer, &mut text);
    }
    link.close();
    Ok(text)
}

/// Two ends over one wire.
struct Link {
    wire: FifoWire,
    buffers: Buffers,
    initiator: Party,
    responder: Party,
}

struct Party {
    end: End,
    /// A second stop has no token to give back.
    stopped: bool,
}

impl Link {
    fn open(sheet: &Sheet) -> Link {
        let mut wire = FifoWire::new(MEMORY, MEMORY);
        let mut buffers = Buffers::default();
        let initiator = End::open_initiator(sheet.initiator, RB, RC, &mut wire, &mut buffers);
        let responder = End::open_responder(sheet.responder, RA);
        Link {
            wire,
            buffers,
            initiator: Party { end: initiator, stopped: false },
            responder: Party { end: responder, stopped: false },
        }
    }

    fn make(&mut self, call: &Call) -> Answer {
        let Link { wire, buffers, initiator, responder } = self;
        let party = match call.end {
            Role::Initiator => initiator,
            Role::Responder => responder,
        };
        match call.deed {
            Deed::Tick(message) => party.end.tick(message, wire, buffers),
            Deed::Fetch => party.end.fetch(wire, buffers),
            Deed::Stop if party.stopped => {
                Answer { refused: Some(Refusal::EndOut), ..Answer::default() }
            }
            Deed::Stop => {
                party.stopped = true;
                party.end.stop(wire, buffers)
            }
        }
    }

    /// Stops what the script did not.
    fn close(&mut self) {
        for end in [Role::Initiator, Role::Responder] {
            self.make(&Call { end, deed: Deed::Stop });
        }
    }

    fn state(&self, role: Role) -> State {
        match role {
            Role::Initiator => self.initiator.end.state(),
            Role::Responder => self.responder.end.state(),
        }
    }

    fn list(&self, step: usize, call: &Call, answer: &Answer, text: &mut String) {
        let state = self.state(call.end);
        // Writing to a string cannot fail.
        let _ = write!(text, "{step} {} {} {state} ", call.end, call.deed);
        match &answer.delivered {
            Some(place) => text.extend(self.buffers.fetched[place.clone()].iter().map(shown)),
            None => text.push('-'),
        }
        let _ = match (answer.refused, state) {
            (Some(refusal), _) => writeln!(text, " no{}", refusal.number()),
            (None, State::Out(release)) => writeln!(text, " {release}"),
            (None, _) => writeln!(text, " -"),
        };
    }
}

fn shown(byte: &u8) -> char {
    if byte.is_ascii() {
        char::from(*byte)
    } else {
        '?'
    }
}

#[cfg(test)]
mod tests {
    use std::fs;
    use std::path::Path;

    use super::*;

    #[test]
    fn every_example_has_its_listing() {
        let examples = Path::new(env!("CARGO_MANIFEST_DIR")).join("../examples");
        let mut folders = 0;
        for folder in fs::read_dir(examples).expect("examples") {
            let folder = folder.expect("a folder").path();
            let read = |name| fs::read(folder.join(name)).expect(name);
            let text = rehearse(&read("sheet"), &read("script"));
            assert_eq!(text.as_bytes(), read("listing"), "{}", folder.display());
            folders += 1;
        }
        assert!(folders >= 9);
    }
}
