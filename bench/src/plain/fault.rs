//! The fault of a file: its number, and where it is.

use std::fmt;

#[derive(Clone, Copy, Debug, PartialEq, Eq)]
pub enum Wrong {
    Names = 1,
    Count = 2,
    Form = 3,
    Range = 4,
    DifferingBits = 5,
}

#[derive(Clone, Copy, Debug, PartialEq, Eq)]
pub enum File {
    Sheet,
    Script,
}

/// Lines and columns count from 1; column 0 is the whole line.
#[derive(Clone, Copy, Debug, PartialEq, Eq)]
pub struct Fault {
    pub wrong: Wrong,
    pub file: File,
    pub line: usize,
    pub column: usize,
}

impl fmt::Display for File {
    fn fmt(&self, f: &mut fmt::Formatter) -> fmt::Result {
        f.write_str(match self {
            File::Sheet => "sheet",
            File::Script => "script",
        })
    }
}

impl fmt::Display for Fault {
    fn fmt(&self, f: &mut fmt::Formatter) -> fmt::Result {
        write!(f, "fault {} {} {} {}", self.wrong as u8, self.file, self.line, self.column)
    }
}
