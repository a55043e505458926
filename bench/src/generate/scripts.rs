//! Scripts: calls that lead a link to all its states, and damaged texts.

use super::damage;
use crate::plain::role::Role;
use crate::plain::script::{MOST_CALLS, NAMES};
use crate::random::Random;

const BOTH: [Role; 2] = [Role::Initiator, Role::Responder];
const ODD_TEXTS: &[&str] = &["--", "~", "!", "-x", "\"", "0"];

/// Writes calls up to a limit.
struct Writer<'a> {
    random: &'a mut Random,
    text: String,
    left: usize,
}

/// A script that mostly opens the link and then does some of what may happen to one.
pub fn lively(random: &mut Random) -> Vec<u8> {
    let calls = match random.below(10) {
        0 => MOST_CALLS,
        1..=3 => random.below(MOST_CALLS + 1),
        _ => random.below(120),
    };
    let mut writer = Writer::new(random, calls);
    writer.opening();
    while writer.left > 0 {
        writer.phase();
    }
    writer.text.into_bytes()
}

/// A script under which a link that is not too strict stays up.
pub fn steady(random: &mut Random) -> Vec<u8> {
    let calls = random.below(MOST_CALLS + 1);
    let mut writer = Writer::new(random, calls);
    writer.quiet_opening();
    while writer.left > 0 {
        writer.round(3);
        if writer.random.chance(2) {
            writer.anything();
        }
    }
    writer.text.into_bytes()
}

/// A script that puts more on the wire than it holds.
pub fn flooding(random: &mut Random) -> Vec<u8> {
    let mut writer = Writer::new(random, MOST_CALLS);
    writer.quiet_opening();
    while writer.left > 0 {
        writer.flood();
    }
    writer.text.into_bytes()
}

/// The opening and a little more.
pub fn short(random: &mut Random) -> Vec<u8> {
    let calls = random.below(30);
    let mut writer = Writer::new(random, calls);
    writer.quiet_opening();
    while writer.left > 0 {
        writer.anything();
    }
    writer.text.into_bytes()
}

/// Random bytes behind a good first line.
pub fn noise(random: &mut Random) -> Vec<u8> {
    let length = random.below(40);
    let mut s = format!("{NAMES}\n").into_bytes();
    s.extend(random.bytes(length));
    s
}

pub fn damaged(random: &mut Random) -> Vec<u8> {
    let calls = random.below(12);
    let mut writer = Writer::new(random, calls);
    while writer.left > 0 {
        writer.anything();
    }
    let mut s = writer.text.into_bytes();
    damage::text(random, &mut s);
    s
}

/// A script of about as many calls as are allowed, and then at times damaged at its end.
pub fn about_the_longest(random: &mut Random) -> Vec<u8> {
    let calls = MOST_CALLS - 1 + random.below(4);
    let mut writer = Writer::new(random, calls);
    while writer.left > 0 {
        writer.anything();
    }
    let mut s = writer.text.into_bytes();
    match random.below(4) {
        0 => drop(s.pop()),
        1 => s.extend_from_slice(b"I tick\n"),
        2 => s.push(b'\n'),
        _ => {}
    }
    s
}

impl Writer<'_> {
    fn new(random: &mut Random, calls: usize) -> Writer<'_> {
        Writer { random, text: format!("{NAMES}\n"), left: calls }
    }

    fn write(&mut self, end: Role, rest: &str) {
        if self.left > 0 {
            self.left -= 1;
            self.text.push_str(&format!("{end} {rest}\n"));
        }
    }

    fn tick(&mut self, end: Role) {
        let text = self.message();
        self.write(end, &format!("tick {text}"));
    }

    fn fetch(&mut self, end: Role) {
        self.write(end, "fetch -");
    }

    fn stop(&mut self, end: Role) {
        self.write(end, "stop -");
    }

    fn message(&mut self) -> String {
        match self.random.below(6) {
            0..=2 => "-".into(),
            3 => self.random.pick(ODD_TEXTS).into(),
            4 => self.printable(64),
            _ => self.printable(8),
        }
    }

    fn printable(&mut self, longest: usize) -> String {
        let length = 1 + self.random.below(longest);
        (0..length).map(|_| char::from(b'!' + self.random.below(94) as u8)).collect()
    }

    /// The fetches that open the link, seldom disturbed.
    fn opening(&mut self) {
        if self.random.chance(70) {
            return self.quiet_opening();
        }
        for end in [BOTH[1], BOTH[0]].repeat(3) {
            if self.random.chance(25) {
                self.disturbance();
            }
            self.fetch(end);
        }
    }

    /// Both ends come up.
    fn quiet_opening(&mut self) {
        for end in [BOTH[1], BOTH[0]].repeat(3) {
            self.fetch(end);
        }
        self.tick(Role::Initiator);
        self.fetch(Role::Responder);
    }

    fn disturbance(&mut self) {
        let end = self.random.pick(&BOTH);
        if self.random.chance(15) {
            return self.stop(end);
        }
        for _ in 0..=self.random.below(6) {
            self.tick(end);
        }
    }

    fn phase(&mut self) {
        match self.random.below(16) {
            0..=7 => self.steady(),
            8 | 9 => self.lopsided(),
            10 => self.silence(),
            11 => self.burst(),
            12..=14 => {
                for _ in 0..self.random.below(10) {
                    self.anything();
                }
            }
            _ if self.random.chance(30) => {
                let end = self.random.pick(&BOTH);
                self.stop(end);
            }
            _ => {}
        }
    }

    /// Both ends tick, and fetch so often.
    fn round(&mut self, fetches: usize) {
        for end in BOTH {
            self.tick(end);
        }
        for end in BOTH.repeat(fetches) {
            self.fetch(end);
        }
    }

    /// Both ends tick alike, and fetch mostly until nothing comes.
    fn steady(&mut self) {
        let fetches = 1 + self.random.below(4);
        for _ in 0..self.random.below(20) {
            self.round(fetches);
        }
    }

    /// One end ticks more often than the other.
    fn lopsided(&mut self) {
        let fast = self.random.pick(&BOTH);
        for _ in 0..self.random.below(8) {
            self.tick(fast);
            self.round(3);
        }
    }

    /// Ticks, and nobody fetches.
    fn silence(&mut self) {
        for _ in 0..self.random.below(15) {
            let end = self.random.pick(&BOTH);
            self.tick(end);
        }
    }

    /// More ticks of one end than the wire may hold, and then fetches of the other.
    fn burst(&mut self) {
        let end = self.random.pick(&BOTH);
        let most = if self.random.chance(30) { 250 } else { 12 };
        let ticks = self.random.below(most);
        for _ in 0..ticks {
            self.tick(end);
        }
        for _ in 0..self.random.below(ticks + 2) {
            self.fetch(end.far());
        }
    }

    /// Long messages until the wire is full, some fetches, some more messages or a stop, and then
    /// fetches until little is left.
    fn flood(&mut self) {
        let end = self.random.pick(&BOTH);
        let count = 90 + self.random.below(60);
        for _ in 0..count {
            let text = self.printable(64);
            let text = if self.random.chance(80) { text.repeat(64 / text.len()) } else { text };
            self.write(end, &format!("tick {text}"));
        }
        for _ in 0..self.random.below(5) {
            self.fetch(end.far());
        }
        if self.random.chance(15) {
            self.stop(end);
        }
        for _ in 0..self.random.below(6) {
            self.tick(end);
        }
        for _ in 0..count + self.random.below(8) {
            self.fetch(end.far());
        }
    }

    fn anything(&mut self) {
        let end = self.random.pick(&BOTH);
        match self.random.below(40) {
            0 => self.stop(end),
            1..=15 => self.tick(end),
            _ => self.fetch(end),
        }
    }
}
