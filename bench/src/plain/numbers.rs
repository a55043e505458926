//! SN and EC: two kinds of number, so that neither stands where the other belongs.

/// The sequence number of a data frame.
#[derive(Clone, Copy, Debug, PartialEq, Eq, PartialOrd, Ord)]
pub struct Sn(pub u32);

/// The execution cycle of an end.
#[derive(Clone, Copy, Debug, PartialEq, Eq)]
pub struct Ec(pub u32);

impl Sn {
    /// The number of every ECStart.
    pub const START: Sn = Sn(0);

    pub fn next(self) -> Option<Sn> {
        self.0.checked_add(1).map(Sn)
    }
}

impl Ec {
    pub fn next(self) -> Option<Ec> {
        self.0.checked_add(1).map(Ec)
    }
}
