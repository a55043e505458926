//! Why an end is released: two code bytes, as they stand in a DI.

use std::fmt;

#[derive(Clone, Copy, Debug, PartialEq, Eq)]
pub struct Reason {
    pub code: u8,
    pub sub: u8,
}

const fn reason(code: u8, sub: u8) -> Reason {
    Reason { code, sub }
}

impl Reason {
    pub const STOPPED: Reason = reason(0, 0);
    pub const WRONG_ECHO: Reason = reason(4, 4);
    pub const OPENING_FRAME: Reason = reason(5, 1);
    pub const TOWARDS_RESPONDER: Reason = reason(6, 1);
    pub const TOWARDS_INITIATOR: Reason = reason(6, 2);
    pub const OPENING_TIME_OUT: Reason = reason(7, 3);
    pub const NO_PLACE_HERE: Reason = reason(8, 1);
    pub const FIXED_BYTES_OF_AU1: Reason = reason(8, 5);
    pub const NOT_AU2: Reason = reason(9, 1);
    pub const NOT_AU3: Reason = reason(9, 2);
    pub const NOT_AR: Reason = reason(9, 3);
    pub const LENGTH_OF_AU1: Reason = reason(10, 1);
    pub const LENGTH_OF_AU2: Reason = reason(10, 2);
    pub const LENGTH_OF_AU3: Reason = reason(10, 3);
    pub const LENGTH_OF_DT: Reason = reason(10, 5);
    pub const LENGTH_OF_AR: Reason = reason(10, 8);
    pub const BARE: Reason = reason(127, 0);
    pub const OTHER_OPTION: Reason = reason(128, 2);
    pub const OTHER_VERSION: Reason = reason(128, 3);
    pub const NO_START: Reason = reason(128, 4);
    pub const NO_ANSWER: Reason = reason(128, 5);
    pub const USED_UP: Reason = reason(128, 16);
    pub const OTHER_PERIOD: Reason = reason(128, 17);
    pub const AGE: Reason = reason(129, 1);
    pub const GAP: Reason = reason(129, 3);
}

impl fmt::Display for Reason {
    fn fmt(&self, f: &mut fmt::Formatter) -> fmt::Result {
        write!(f, "{}/{}", self.code, self.sub)
    }
}
