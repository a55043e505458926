//! The lines of a file and the values in them.

use super::fault::{Fault, File, Wrong};

pub struct Lines<'a> {
    file: File,
    rest: &'a [u8],
    /// Of the line that comes next.
    number: usize,
}

/// The values of one line.
pub struct Row<'a, const N: usize> {
    pub values: [&'a [u8]; N],
    file: File,
    line: usize,
}

impl<'a> Lines<'a> {
    /// The lines behind the first, which must be the names.
    pub fn behind_names(file: File, bytes: &'a [u8], names: &str) -> Result<Lines<'a>, Fault> {
        let mut lines = Lines { file, rest: bytes, number: 1 };
        if lines.next() != Some(names.as_bytes()) {
            return Err(Fault { wrong: Wrong::Names, file, line: 1, column: 0 });
        }
        Ok(lines)
    }

    pub fn at_end(&self) -> bool {
        self.rest.is_empty()
    }

    /// The fault of the line that comes next: that it is missing, or has no end, or is too many.
    pub fn miscounted(&self) -> Fault {
        Fault { wrong: Wrong::Count, file: self.file, line: self.number, column: 0 }
    }

    /// The next line as so many values with one space between each two.
    pub fn row<const N: usize>(&mut self) -> Result<Row<'a, N>, Fault> {
        let fault = self.miscounted();
        let text = self.next().ok_or(fault)?;
        let values: Vec<&[u8]> = text.split(|&byte| byte == b' ').collect();
        let values = values.try_into().map_err(|_| fault)?;
        Ok(Row { values, file: fault.file, line: fault.line })
    }

    /// The next line without its end, if it has one.
    fn next(&mut self) -> Option<&'a [u8]> {
        let end = self.rest.iter().position(|&byte| byte == b'\n')?;
        let line = &self.rest[..end];
        self.rest = &self.rest[end + 1..];
        self.number += 1;
        Some(line)
    }
}

impl<const N: usize> Row<'_, N> {
    /// A fault of the value with this index, or of the whole line.
    pub fn fault(&self, wrong: Wrong, index: Option<usize>) -> Fault {
        let column = index.map_or(0, |index| index + 1);
        Fault { wrong, file: self.file, line: self.line, column }
    }
}
