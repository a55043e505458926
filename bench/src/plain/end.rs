//! An end of the link: its states, and what its calls do.

use std::fmt;
use std::ops::Range;

use super::arrival;
use super::crc;
use super::frame::{self, Frame, CODE};
use super::numbers::{Ec, Sn};
use super::reason::Reason;
use super::refusal::Refusal;
use super::role::Role;
use super::sheet::Parameters;
use super::telegram::{Body, Telegram, EC_START, HEADER, OTHER_EC_START};
use super::wire::{FifoWire, LARGEST};

pub struct End {
    parameters: Parameters,
    role: Role,
    ec: Ec,
    /// Ticks since the opening, or since the count last began anew.
    count: u64,
    state: State,
}

#[derive(Clone, Copy, Debug, PartialEq, Eq)]
pub enum State {
    WaitAu2 { rb: u64, rc: u64 },
    WaitAr { ra: u64, rb: u64, rc: u64 },
    WaitEc { words: Words },
    Listen { ra: u64 },
    WaitAu3 { ra: u64, rb: u64 },
    WaitFirst { words: Words, heard: Heard },
    Up { words: Words, heard: Heard, last_put: Sn },
    Out(Release),
}

/// The words by which an end reads data frames and seals its own.
#[derive(Clone, Copy, Debug, PartialEq, Eq)]
pub struct Words {
    reads: u64,
    seals: u64,
}

/// What an end remembers of the far end's data frames.
#[derive(Clone, Copy, Debug, PartialEq, Eq)]
pub struct Heard {
    accepted: Sn,
    synchronised: Ec,
}

#[derive(Clone, Copy, Debug, PartialEq, Eq)]
pub struct Release {
    pub by: Releaser,
    pub reason: Reason,
}

#[derive(Clone, Copy, Debug, PartialEq, Eq)]
pub enum Releaser {
    Own,
    Far,
}

/// What a call answers besides the state, which the end shows itself.
#[derive(Clone, Debug, Default, PartialEq, Eq)]
pub struct Answer {
    pub refused: Option<Refusal>,
    /// The place of a message in the fetch buffer.
    pub delivered: Option<Range<usize>>,
    /// The length of the frame that was put.
    pub put: Option<usize>,
}

/// Both are always long enough, so that no call is refused with 7.
pub struct Buffers {
    pub output: Vec<u8>,
    pub fetched: [u8; LARGEST],
}

/// What a call hands to the carrier.
enum Outgoing<'a> {
    Plain(Frame<'a>),
    Sealed { telegram: Telegram<'a>, word: u64 },
}

/// What an accepted string leads to.
#[derive(Default)]
struct Accepted {
    delivered: Option<Range<usize>>,
    outgoing: Option<Outgoing<'static>>,
}

/// Why a string is not accepted.
enum Otherwise {
    Dropped,
    Released(Release),
}

impl Default for Buffers {
    fn default() -> Buffers {
        Buffers { output: Vec::with_capacity(frame::LONGEST), fetched: [0; LARGEST] }
    }
}

impl Release {
    fn own(reason: Reason) -> Release {
        Release { by: Releaser::Own, reason }
    }

    fn far(reason: Reason) -> Release {
        Release { by: Releaser::Far, reason }
    }
}

impl From<Reason> for Otherwise {
    fn from(reason: Reason) -> Otherwise {
        Otherwise::Released(Release::own(reason))
    }
}

impl Accepted {
    fn and_put(frame: Frame<'static>) -> Accepted {
        Accepted { delivered: None, outgoing: Some(Outgoing::Plain(frame)) }
    }
}

impl End {
    pub fn open_initiator(
        parameters: Parameters,
        rb: u64,
        rc: u64,
        wire: &mut FifoWire,
        buffers: &mut Buffers,
    ) -> End {
        let end = End::new(parameters, Role::Initiator, State::WaitAu2 { rb, rc });
        end.put(Some(Outgoing::Plain(Frame::Au1 { rb })), wire, &mut buffers.output);
        end
    }

    pub fn open_responder(parameters: Parameters, ra: u64) -> End {
        End::new(parameters, Role::Responder, State::Listen { ra })
    }

    fn new(parameters: Parameters, role: Role, state: State) -> End {
        End { parameters, role, ec: Ec(parameters.ec), count: 0, state }
    }

    pub fn state(&self) -> State {
        self.state
    }

    pub fn tick(&mut self, message: &[u8], wire: &mut FifoWire, buffers: &mut Buffers) -> Answer {
        if let State::Out(_) = self.state {
            return Answer { refused: Some(Refusal::EndOut), ..Answer::default() };
        }
        let fits = message.len() <= self.parameters.data;
        let outgoing = self.pass(if fits { message } else { &[] });
        let is_up = matches!(self.state, State::Up { .. });
        let refused = if !fits {
            Some(Refusal::MessageTooLong)
        } else if !message.is_empty() && !is_up {
            Some(Refusal::NotUp)
        } else {
            None
        };
        let put = self.put(outgoing, wire, &mut buffers.output);
        Answer { refused, delivered: None, put }
    }

    pub fn fetch(&mut self, wire: &mut FifoWire, buffers: &mut Buffers) -> Answer {
        if let State::Out(_) = self.state {
            return Answer { refused: Some(Refusal::EndOut), ..Answer::default() };
        }
        match wire.fetch(self.role, &mut buffers.fetched) {
            Ok(None) => Answer::default(),
            Ok(Some(length)) => {
                let accepted = self.take(&buffers.fetched[..length]);
                let put = self.put(accepted.outgoing, wire, &mut buffers.output);
                Answer { refused: None, delivered: accepted.delivered, put }
            }
            Err(refusal) => Answer { refused: Some(refusal), ..Answer::default() },
        }
    }

    pub fn stop(&mut self, wire: &mut FifoWire, buffers: &mut Buffers) -> Answer {
        let outgoing = match self.state {
            State::Out(_) => None,
            _ => Some(self.release(Reason::STOPPED)),
        };
        Answer { put: self.put(outgoing, wire, &mut buffers.output), ..Answer::default() }
    }

    /// A frame that the wire does not keep is a frame that was lost: nobody asks.
    fn put(
        &self,
        outgoing: Option<Outgoing>,
        wire: &mut FifoWire,
        output: &mut Vec<u8>,
    ) -> Option<usize> {
        match outgoing? {
            Outgoing::Plain(frame) => frame.write(output),
            Outgoing::Sealed { telegram, word } => {
                frame::seal(self.role.far(), &telegram, word, output);
            }
        }
        let _ = wire.put(self.role, output);
        Some(output.len())
    }

    fn release(&mut self, reason: Reason) -> Outgoing<'static> {
        self.state = State::Out(Release::own(reason));
        Outgoing::Plain(Frame::Di { towards: self.role.far(), reason })
    }

    fn sealed<'m>(&self, words: Words, sn: Sn, body: Body<'m>) -> Outgoing<'m> {
        Outgoing::Sealed { telegram: Telegram { sn, ec: self.ec, body }, word: words.seals }
    }
}

/// The tick.
impl End {
    fn pass<'m>(&mut self, message: &'m [u8]) -> Option<Outgoing<'m>> {
        let Some(ec) = self.ec.next() else {
            return Some(self.release(Reason::USED_UP));
        };
        self.ec = ec;
        self.count += 1;
        let Parameters { setup, wait, .. } = self.parameters;
        match self.state {
            State::WaitAu2 { .. } if self.count > setup => {
                self.release(Reason::OPENING_TIME_OUT);
                Some(Outgoing::Plain(Frame::BareDi))
            }
            State::WaitAr { .. } if self.count > setup => {
                Some(self.release(Reason::OPENING_TIME_OUT))
            }
            State::WaitEc { .. } if self.role == Role::Initiator && self.count > wait => {
                Some(self.release(Reason::NO_START))
            }
            State::WaitFirst { .. } if self.count > wait => Some(self.release(Reason::NO_START)),
            State::Up { words, heard, last_put } => {
                Some(self.pass_up(words, heard, last_put, message))
            }
            _ => None,
        }
    }

    fn pass_up<'m>(
        &mut self,
        words: Words,
        heard: Heard,
        last_put: Sn,
        message: &'m [u8],
    ) -> Outgoing<'m> {
        let Parameters { ask, wait, .. } = self.parameters;
        if self.count > ask + wait {
            return self.release(Reason::NO_ANSWER);
        }
        let Some(sn) = last_put.next() else {
            return self.release(Reason::USED_UP);
        };
        self.state = State::Up { words, heard, last_put: sn };
        let body = if self.count == ask { Body::AmReq(message) } else { Body::Am(message) };
        self.sealed(words, sn, body)
    }
}

/// The fetch.
impl End {
    fn take(&mut self, s: &[u8]) -> Accepted {
        match self.judge(s) {
            Ok(accepted) => accepted,
            Err(Otherwise::Dropped) => Accepted::default(),
            Err(Otherwise::Released(Release { by: Releaser::Own, reason })) => {
                Accepted { delivered: None, outgoing: Some(self.release(reason)) }
            }
            Err(Otherwise::Released(release)) => {
                self.state = State::Out(release);
                Accepted::default()
            }
        }
    }

    fn judge(&mut self, s: &[u8]) -> Result<Accepted, Otherwise> {
        let unread = matches!(self.state, State::Listen { .. });
        if unread && !matches!(s.first(), Some(0x02 | 0x03)) {
            return Err(Otherwise::Dropped);
        }
        match arrival::read(s, self.role, self.parameters.data)? {
            Frame::BareDi => Err(Otherwise::Released(Release::far(Reason::BARE))),
            Frame::Di { reason, .. } => Err(Otherwise::Released(Release::far(reason))),
            Frame::Dt { telegram, code, .. } => self.judge_data(s, telegram, code),
            opening => self.judge_opening(opening),
        }
    }

    fn judge_opening(&mut self, frame: Frame) -> Result<Accepted, Otherwise> {
        match (self.state, frame) {
            (State::Listen { ra }, Frame::Au1 { rb }) => {
                self.state = State::WaitAu3 { ra, rb };
                Ok(Accepted::and_put(Frame::Au2 { ra_xor_rb: ra ^ rb }))
            }
            (State::WaitAu2 { rb, rc }, Frame::Au2 { ra_xor_rb }) => {
                let ra = ra_xor_rb ^ rb;
                self.state = State::WaitAr { ra, rb, rc };
                Ok(Accepted::and_put(Frame::Au3 { ra_xor_rc: ra ^ rc }))
            }
            (State::WaitAu3 { ra, rb }, Frame::Au3 { ra_xor_rc }) => {
                let words = self.words(ra, ra_xor_rc ^ ra);
                self.state = State::WaitEc { words };
                Ok(Accepted::and_put(Frame::Ar { rb }))
            }
            (State::WaitAr { ra, rb, rc }, Frame::Ar { rb: echo }) if echo == rb => {
                let words = self.words(rc, ra);
                self.state = State::WaitEc { words };
                self.count = 0;
                Ok(Accepted { delivered: None, outgoing: Some(self.start(words)) })
            }
            (State::WaitAr { .. }, Frame::Ar { .. }) => Err(Reason::WRONG_ECHO.into()),
            (state, _) => Err(unexpected(state)),
        }
    }

    /// The words of an end that made the one session number, where the far end made the other.
    fn words(&self, own_number: u64, far_number: u64) -> Words {
        let Parameters { own, far, .. } = self.parameters;
        Words { reads: own.number() ^ far_number, seals: far.number() ^ own_number }
    }

    fn start(&self, words: Words) -> Outgoing<'static> {
        let Parameters { version, period, .. } = self.parameters;
        self.sealed(words, Sn::START, Body::EcStart { version, period })
    }

    fn judge_data(&mut self, s: &[u8], telegram: &[u8], code: u64) -> Result<Accepted, Otherwise> {
        let words = match self.state {
            State::WaitEc { words } => words,
            State::WaitFirst { words, .. } => words,
            State::Up { words, .. } => words,
            state => return Err(unexpected(state)),
        };
        if crc::safety_code(words.reads, &s[..s.len() - CODE]) != code {
            return Err(Otherwise::Dropped);
        }
        // The length suits a data frame, so it suits a telegram.
        let telegram = Telegram::read(telegram).map_err(|_| Otherwise::Dropped)?;
        match self.state {
            State::WaitFirst { heard, .. } => self.judge_first(&telegram, words, heard),
            State::Up { heard, last_put, .. } => self.judge_up(&telegram, words, heard, last_put),
            _ => self.judge_start(&telegram, words),
        }
    }

    fn judge_start(&mut self, telegram: &Telegram, words: Words) -> Result<Accepted, Otherwise> {
        let Body::EcStart { version, period } = telegram.body else {
            return Err(foreign(telegram.body.kind()).into());
        };
        if version != self.parameters.version {
            return Err(Reason::OTHER_VERSION.into());
        }
        if period != self.parameters.period {
            return Err(Reason::OTHER_PERIOD.into());
        }
        let heard = Heard { accepted: telegram.sn, synchronised: telegram.ec };
        self.count = 0;
        let outgoing = match self.role {
            Role::Initiator => {
                self.state = State::Up { words, heard, last_put: Sn::START };
                None
            }
            Role::Responder => {
                self.state = State::WaitFirst { words, heard };
                Some(self.start(words))
            }
        };
        Ok(Accepted { delivered: None, outgoing })
    }

    fn judge_first(
        &mut self,
        telegram: &Telegram,
        words: Words,
        heard: Heard,
    ) -> Result<Accepted, Otherwise> {
        self.admit(telegram, heard, false)?;
        let heard = Heard { accepted: telegram.sn, synchronised: telegram.ec };
        self.count = 0;
        self.state = State::Up { words, heard, last_put: Sn::START };
        let outgoing = match telegram.body {
            Body::AmReq(_) => Some(self.acknowledge(words, heard, Sn::START)),
            _ => None,
        };
        Ok(Accepted { delivered: delivered(telegram), outgoing })
    }

    fn judge_up(
        &mut self,
        telegram: &Telegram,
        words: Words,
        heard: Heard,
        last_put: Sn,
    ) -> Result<Accepted, Otherwise> {
        self.admit(telegram, heard, self.count >= self.parameters.ask)?;
        let mut heard = Heard { accepted: telegram.sn, ..heard };
        if let Body::AmAck(_) = telegram.body {
            heard.synchronised = telegram.ec;
            self.count = 0;
        }
        self.state = State::Up { words, heard, last_put };
        let outgoing = match telegram.body {
            Body::AmReq(_) => Some(self.acknowledge(words, heard, last_put)),
            _ => None,
        };
        Ok(Accepted { delivered: delivered(telegram), outgoing })
    }

    /// Whether an end in waitfirst or up lets the telegram through.
    fn admit(
        &self,
        telegram: &Telegram,
        heard: Heard,
        is_answer_awaited: bool,
    ) -> Result<(), Otherwise> {
        let Parameters { window, mmin, mmax, .. } = self.parameters;
        let kind = telegram.body.kind();
        if matches!(telegram.body, Body::Other { .. }) && kind != EC_START {
            return Err(foreign(kind).into());
        }
        if telegram.sn <= heard.accepted {
            return Err(Otherwise::Dropped);
        }
        if u64::from(telegram.sn.0) > u64::from(heard.accepted.0) + window {
            return Err(Reason::GAP.into());
        }
        if kind == EC_START {
            return Err(Reason::NO_PLACE_HERE.into());
        }
        let expectation = i64::from(heard.synchronised.0) + self.count as i64;
        if !(mmin..=mmax).contains(&(expectation - i64::from(telegram.ec.0))) {
            return Err(Reason::AGE.into());
        }
        if matches!(telegram.body, Body::AmAck(_)) && !is_answer_awaited {
            return Err(Reason::NO_PLACE_HERE.into());
        }
        Ok(())
    }

    /// AM+ACK, or a DI where no SN is left for it.
    fn acknowledge(&mut self, words: Words, heard: Heard, last_put: Sn) -> Outgoing<'static> {
        let Some(sn) = last_put.next() else {
            return self.release(Reason::USED_UP);
        };
        self.state = State::Up { words, heard, last_put: sn };
        self.sealed(words, sn, Body::AmAck(&[]))
    }
}

/// What a frame does to an end that awaits another.
fn unexpected(state: State) -> Otherwise {
    match state {
        State::WaitAu2 { .. } => Reason::NOT_AU2.into(),
        State::WaitAu3 { .. } => Reason::NOT_AU3.into(),
        State::WaitAr { .. } => Reason::NOT_AR.into(),
        State::WaitEc { .. } | State::WaitFirst { .. } | State::Up { .. } => {
            Reason::OPENING_FRAME.into()
        }
        State::Listen { .. } | State::Out(_) => Otherwise::Dropped,
    }
}

/// Why a telegram of a type that is not expected releases an end.
fn foreign(kind: u8) -> Reason {
    if kind == OTHER_EC_START {
        Reason::OTHER_OPTION
    } else {
        Reason::NO_PLACE_HERE
    }
}

/// The place of the message in the frame of the telegram.
fn delivered(telegram: &Telegram) -> Option<Range<usize>> {
    match telegram.body {
        Body::Am(message) | Body::AmReq(message) | Body::AmAck(message) if !message.is_empty() => {
            let start = 1 + HEADER;
            Some(start..start + message.len())
        }
        _ => None,
    }
}

impl fmt::Display for State {
    fn fmt(&self, f: &mut fmt::Formatter) -> fmt::Result {
        f.write_str(match self {
            State::WaitAu2 { .. } => "waitau2",
            State::WaitAr { .. } => "waitar",
            State::WaitEc { .. } => "waitec",
            State::Listen { .. } => "listen",
            State::WaitAu3 { .. } => "waitau3",
            State::WaitFirst { .. } => "waitfirst",
            State::Up { .. } => "up",
            State::Out(_) => "out",
        })
    }
}

impl fmt::Display for Release {
    fn fmt(&self, f: &mut fmt::Formatter) -> fmt::Result {
        match self.by {
            Releaser::Own => write!(f, "{}", self.reason),
            Releaser::Far => write!(f, "f{}", self.reason),
        }
    }
}
