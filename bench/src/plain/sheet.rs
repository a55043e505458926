//! The sheet: one parameter set for each of the two boxes.

use std::ops::RangeInclusive;

use super::fault::{Fault, File, Wrong};
use super::lines::{Lines, Row};
use super::role::Role;

pub const NAMES: &str =
    "role own1 own2 far1 far2 version period window mmin mmax ask wait setup data ec";
pub const COLUMNS: usize = 15;

const DIFFERING_BITS: RangeInclusive<u32> = 6..=26;

#[derive(Clone, Copy, Debug, PartialEq, Eq)]
pub struct Identifier {
    pub first: u32,
    pub second: u32,
}

/// One line of the sheet. Times are in ticks.
#[derive(Clone, Copy, Debug, PartialEq, Eq)]
pub struct Parameters {
    pub own: Identifier,
    pub far: Identifier,
    pub version: u8,
    pub period: u16,
    pub window: u64,
    pub mmin: i64,
    pub mmax: i64,
    pub ask: u64,
    pub wait: u64,
    pub setup: u64,
    pub data: usize,
    pub ec: u32,
}

#[derive(Clone, Copy, Debug, PartialEq, Eq)]
pub struct Sheet {
    pub initiator: Parameters,
    pub responder: Parameters,
}

impl Identifier {
    pub fn number(self) -> u64 {
        u64::from(self.first) << 32 | u64::from(self.second)
    }

    pub fn differs_enough(self, other: Identifier) -> bool {
        let halves = [self.first ^ other.first, self.second ^ other.second];
        halves.iter().all(|half| DIFFERING_BITS.contains(&half.count_ones()))
    }
}

impl Sheet {
    pub fn read(bytes: &[u8]) -> Result<Sheet, Fault> {
        let mut lines = Lines::behind_names(File::Sheet, bytes, NAMES)?;
        let initiator = parameters(&lines.row()?, Role::Initiator)?;
        let responder = parameters(&lines.row()?, Role::Responder)?;
        if !lines.at_end() {
            return Err(lines.miscounted());
        }
        Ok(Sheet { initiator, responder })
    }

    pub fn write(&self) -> String {
        let lines = [(1, &self.initiator), (0, &self.responder)].map(|(role, p)| {
            format!(
                "{role} {:08X} {:08X} {:08X} {:08X} {} {} {} {} {} {} {} {} {} {}\n",
                p.own.first,
                p.own.second,
                p.far.first,
                p.far.second,
                p.version,
                p.period,
                p.window,
                p.mmin,
                p.mmax,
                p.ask,
                p.wait,
                p.setup,
                p.data,
                p.ec
            )
        });
        format!("{NAMES}\n{}{}", lines[0], lines[1])
    }
}

fn parameters(row: &Row<COLUMNS>, role: Role) -> Result<Parameters, Fault> {
    let mut columns = Columns { row, index: 0 };
    let role = u64::from(role == Role::Initiator);
    columns.natural(role..=role)?;
    let parameters = Parameters {
        own: columns.identifier()?,
        far: columns.identifier()?,
        version: columns.natural(0..=255)? as u8,
        period: columns.natural(1..=60_000)? as u16,
        window: columns.natural(1..=1000)?,
        mmin: columns.integer(-1000..=-1)?,
        mmax: columns.natural(0..=1000)? as i64,
        ask: columns.natural(1..=10_000)?,
        wait: columns.natural(1..=1000)?,
        setup: columns.natural(1..=10_000)?,
        data: columns.natural(3..=1023)? as usize,
        ec: columns.natural(0..=u64::from(u32::MAX))? as u32,
    };
    if !parameters.own.differs_enough(parameters.far) {
        return Err(row.fault(Wrong::DifferingBits, None));
    }
    Ok(parameters)
}

/// Reads a row from left to right.
struct Columns<'a> {
    row: &'a Row<'a, COLUMNS>,
    index: usize,
}

impl Columns<'_> {
    fn identifier(&mut self) -> Result<Identifier, Fault> {
        Ok(Identifier { first: self.value(hexadecimal)?, second: self.value(hexadecimal)? })
    }

    fn natural(&mut self, range: RangeInclusive<u64>) -> Result<u64, Fault> {
        self.value(|text| within(range, natural(text)?))
    }

    fn integer(&mut self, range: RangeInclusive<i64>) -> Result<i64, Fault> {
        self.value(|text| within(range, integer(text)?))
    }

    fn value<T>(&mut self, read: impl FnOnce(&[u8]) -> Result<T, Wrong>) -> Result<T, Fault> {
        let index = self.index;
        self.index += 1;
        read(self.row.values[index]).map_err(|wrong| self.row.fault(wrong, Some(index)))
    }
}

fn within<T: PartialOrd>(range: RangeInclusive<T>, value: T) -> Result<T, Wrong> {
    if range.contains(&value) {
        Ok(value)
    } else {
        Err(Wrong::Range)
    }
}

fn hexadecimal(text: &[u8]) -> Result<u32, Wrong> {
    if text.len() != 8 {
        return Err(Wrong::Form);
    }
    text.iter().try_fold(0, |number, &digit| Ok(number << 4 | capital_digit(digit)?))
}

fn capital_digit(digit: u8) -> Result<u32, Wrong> {
    match digit {
        b'0'..=b'9' => Ok(u32::from(digit - b'0')),
        b'A'..=b'F' => Ok(u32::from(digit - b'A') + 10),
        _ => Err(Wrong::Form),
    }
}

/// A number too long to count is as good as the largest: both are out of every range.
fn natural(text: &[u8]) -> Result<u64, Wrong> {
    let leading_zero = text.len() > 1 && text[0] == b'0';
    if text.is_empty() || leading_zero || !text.iter().all(u8::is_ascii_digit) {
        return Err(Wrong::Form);
    }
    let joined =
        |number: u64, digit: &u8| number.saturating_mul(10).saturating_add(u64::from(digit - b'0'));
    Ok(text.iter().fold(0, joined))
}

fn integer(text: &[u8]) -> Result<i64, Wrong> {
    let (negative, digits) = match text {
        [b'-', digits @ ..] => (true, digits),
        digits => (false, digits),
    };
    let size = i64::try_from(natural(digits)?).unwrap_or(i64::MAX);
    Ok(if negative { -size } else { size })
}

#[cfg(test)]
mod tests {
    use super::*;

    const INITIATOR: &str = "1 0000003F 0000003F 00000000 00000000 1 100 3 -2 3 5 2 9 64 0";
    const RESPONDER: &str = "0 00000000 00000000 0000003F 0000003F 1 100 3 -2 3 5 2 9 64 0";

    fn answer(text: &str) -> String {
        match Sheet::read(text.as_bytes()) {
            Ok(sheet) => {
                assert_eq!(sheet.write(), text);
                "good".into()
            }
            Err(fault) => fault.to_string(),
        }
    }

    fn changed(from: &str, to: &str) -> String {
        answer(&format!("{NAMES}\n{}\n{RESPONDER}\n", INITIATOR.replacen(from, to, 1)))
    }

    #[test]
    fn faults_of_values() {
        assert_eq!(changed("", ""), "good");
        assert_eq!(changed("0000003F", "0000003f"), "fault 3 sheet 2 2");
        assert_eq!(changed("100", "60001"), "fault 4 sheet 2 7");
        assert_eq!(changed("100", "99999999999999999999999"), "fault 4 sheet 2 7");
        assert_eq!(changed("0000003F", "0000001F"), "fault 5 sheet 2 0");
        assert_eq!(changed("-2", "-0"), "fault 4 sheet 2 9");
        assert_eq!(changed("-2", "3"), "fault 4 sheet 2 9");
        assert_eq!(changed("-2", "-01"), "fault 3 sheet 2 9");
        assert_eq!(changed("-2", "+1"), "fault 3 sheet 2 9");
        assert_eq!(changed("-2", "-"), "fault 3 sheet 2 9");
        assert_eq!(changed("100", "-1"), "fault 3 sheet 2 7");
    }

    #[test]
    fn faults_of_lines() {
        assert_eq!(answer(""), "fault 1 sheet 1 0");
        assert_eq!(answer(NAMES), "fault 1 sheet 1 0");
        assert_eq!(answer(&format!("{NAMES}\n")), "fault 2 sheet 2 0");
        assert_eq!(answer(&format!("{NAMES}\n{INITIATOR}\n{RESPONDER}")), "fault 2 sheet 3 0");
        assert_eq!(answer(&format!("{NAMES}\n{INITIATOR}\n{RESPONDER}\n\n")), "fault 2 sheet 4 0");
        assert_eq!(changed(" ", "  "), "fault 2 sheet 2 0");
    }
}
